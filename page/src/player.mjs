// `Player`: a play that goes on, and the record of what was done. Each entry of the record is what was posted at once, with what
// came of it. Going back plays the record up to there again, so that what is shown is always the state of the play.

/** How many steps are made before others are heard, and how many in all before one is asked. */
const STEPS_AT_ONCE = 5000, MOST_STEPS = 20000;
/** How many pictures and lines are kept. */
const MOST_PICTURES = 80, MOST_LINES = 4000;
export const DAY = 60000;

const millisecondsOf = script => [...script.matchAll(/^tick (\d+)$/gm)].reduce((sum, found) => sum + Number(found[1]), 0);

export class Player {
    constructor(engine) {
        this.engine = engine;
        this.service = null;
        this.kept = null;
        this.entries = [];
        this.at = -1;
        this.told = { onShown: () => {}, onLines: () => {}, onRestart: () => {} };
        this.counts = null;
        this.cells = null;
        this.queue = Promise.resolve();
    }

    /** One thing after another, whatever is asked meanwhile. */
    inTurn(call) {
        const done = this.queue.then(call);
        this.queue = done.catch(() => {});
        return done;
    }

    /** The script of what was done up to where the play stands. */
    script() { return this.entries.slice(0, this.at + 1).map(entry => entry.script).join(""); }
    moment(at = this.at) { return this.entries.slice(0, at + 1).reduce((sum, entry) => sum + entry.milliseconds, 0); }

    /** Begins with a service. What was done is done again, if it is to be kept. */
    begin(service, keeps = false) {
        return this.inTurn(async () => {
            const before = keeps ? this.kept ?? this.entries : [];
            const number = await this.open(service);
            this.kept = number ? before : null;
            if (!number && before.length) for (const entry of before) await this.add(entry.script, entry.label);
            else if (!number) await this.settle("start", "");
            this.told.onShown();
            return number;
        });
    }

    /** Plays a script from the start, in the place of what was done. Answers the number of a part that is not done, or 0. */
    playScript(service, script) {
        return this.inTurn(async () => {
            let number = await this.open(service);
            for (const part of partsOf(script)) number ||= await this.add(part);
            this.told.onShown();
            return number;
        });
    }

    /** A play at its start, with an empty record. */
    async open(service) {
        this.service = service;
        this.entries = [];
        this.at = -1;
        this.told.onRestart();
        const began = await this.engine.call("open", service, DAY);
        if (began.number) { this.counts = null; this.cells = null; } else this.tell(this.take(began));
        return began.number;
    }

    take(standing) {
        this.counts = standing.counts;
        this.cells = standing.cells;
        return standing.lines;
    }

    tell(lines) { if (lines) this.told.onLines(lines); }

    /** Does a part of a script, and records it. */
    async add(script, label = labelOf(script)) {
        const standing = await this.engine.call("obey", script);
        if (standing.number) return standing.number;
        this.record(script, label, this.take(standing));
        return 0;
    }

    /** Records what was done. A tick in which nothing comes about joins the one before, and is not told. */
    record(script, label, lines) {
        const last = this.entries[this.at];
        if (last && isQuiet(last, script, lines, this.cells)) {
            last.milliseconds += millisecondsOf(script);
            last.script = `tick ${last.milliseconds}\nrun\n`;
            last.label = labelOf(last.script);
            return;
        }
        this.tell(lines);
        this.entries.length = this.at + 1;
        this.entries.push({ script, label, cells: this.cells, milliseconds: millisecondsOf(script) });
        this.at++;
        const old = this.entries[this.at - MOST_PICTURES];
        if (old) old.cells = null;
    }

    /** Makes steps until nothing is left to do; where that does not come about, the play stands still there. */
    async settle(label, posts) {
        let script = posts + "run\n", lines = "", standing, made = 0;
        standing = await this.engine.call("obey", `${posts}step ${STEPS_AT_ONCE}\n`);
        if (standing.number) return standing.number;
        for (;;) {
            lines += this.take(standing);
            made += STEPS_AT_ONCE;
            if (standing.counts.rest !== "more" || made >= MOST_STEPS) break;
            standing = await this.engine.call("obey", `step ${STEPS_AT_ONCE}\n`);
        }
        if (made > STEPS_AT_ONCE) script = posts + `step ${STEPS_AT_ONCE}\n`.repeat(made / STEPS_AT_ONCE);
        this.record(script, label, lines);
        return 0;
    }

    post(line, label = line) {
        return this.inTurn(async () => {
            if (!this.counts) return 1;
            const number = await this.settle(label, `${line}\n`);
            this.told.onShown();
            return number;
        });
    }

    /** Makes one step, or goes on where there is more to do. */
    step() { return this.inTurn(async () => { if (this.counts) await this.add("step 1\n", "one step"); this.told.onShown(); }); }
    run() { return this.inTurn(async () => { if (this.counts) await this.settle("run", ""); this.told.onShown(); }); }

    /** Goes to where the play stood behind an entry. */
    seek(at) {
        return this.inTurn(async () => {
            if (!this.service || at === this.at || at < 0 || at >= this.entries.length) return;
            const entries = this.entries;
            this.told.onRestart();
            const began = await this.engine.call("open", this.service, DAY);
            if (began.number) return;
            this.tell(this.take(began));
            const script = entries.slice(0, at + 1).map(entry => entry.script).join("");
            this.tell(this.take(await this.engine.call("obey", script)));
            this.at = at;
            this.told.onShown();
        });
    }
}

/** A tick behind a tick with which nothing came about but that time went by. */
function isQuiet(last, script, lines, cells) {
    const isTick = /^tick \d+\nrun\n$/;
    return isTick.test(script) && isTick.test(last.script) && millisecondsOf(script) + last.milliseconds <= 60000 &&
        lines.split("\n").length <= 4 && sameCells(last.cells, cells);
}

function sameCells(one, other) {
    if (!one || !other) return false;
    for (let at = 0; at < one.length; at++) if (one[at] !== other[at]) return false;
    return true;
}

function labelOf(script) {
    const posts = script.split("\n").filter(line => line && !/^(run|show|step|#)/.test(line));
    return posts.join(", ") || script.split("\n")[0] || "start";
}

/** The parts of a script: each ends behind a picture, or behind a run that no picture follows. */
function partsOf(script) {
    const parts = [];
    let part = "";
    const lines = script.split("\n").filter(line => line && line[0] !== "#");
    lines.forEach((line, at) => {
        part += line + "\n";
        const ends = line === "show" || (/^(run|step)/.test(line) && lines[at + 1] !== "show");
        if (ends) { parts.push(part); part = ""; }
    });
    if (part) parts.push(part);
    return parts;
}

/** The last lines of a text that grows. */
export function lastLines(lines) {
    return lines.length > MOST_LINES ? lines.slice(lines.length - MOST_LINES) : lines;
}
