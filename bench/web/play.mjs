// node --experimental-wasm-memory64 play.mjs MODULE FOLDER SCRIPT [LATE]: prints what `redplay play` prints; with --check in the
// place of a script what `redplay check` prints.
import fs from "node:fs";
import { gather } from "./folder.mjs";
import { COLUMNS, KEYS, load } from "./redplay.mjs";

const [module, folder, script, late] = process.argv.slice(2);
const out = [];
const say = text => out.push(text);

const colour = number => number.toString(16).padStart(6, "0");

/** The text of a run of cells with the same colours: black spaces on black are not printed, nor spaces at the end. */
function runText(cells, first, behind) {
    const [fore, back] = [cells[3 * first + 1], cells[3 * first + 2]];
    let text = "";
    for (let at = first; at < behind; at++) text += String.fromCodePoint(cells[3 * at]);
    text = text.replace(/ +$/, "").replace(/[\\"]/g, "\\$&");
    return text || fore || back ? ` ${first}-${behind - 1} ${colour(fore)}/${colour(back)} "${text}"` : "";
}

function rowLine(row, cells) {
    let line = `row ${String(row).padStart(2, "0")}:`, first = 0;
    for (let at = 1; at <= COLUMNS; at++) {
        const same = at < COLUMNS && [1, 2].every(part => cells[3 * at + part] === cells[3 * first + part]);
        if (same) continue;
        line += runText(cells, first, at);
        first = at;
    }
    return line;
}

function advance(session, most) {
    const before = session.counts();
    session.advance(most);
    const after = session.counts();
    for (let at = before.faults; at < after.faults; at++) say(session.fault(at).trimEnd());
    say(`did ${after.taken - before.taken} ${session.rest()}`);
}

/** A name, and the bytes behind it; without any those of the folder's file. */
function brought(files, words) {
    const [name, digits] = words.split(" ");
    return [name, digits ? Buffer.from(digits, "hex") : files.find(file => file[0] === name)[1]];
}

const posts = {
    key: (session, rest) => session.key(KEYS[rest]),
    tick: (session, rest) => session.tick(Number(rest)),
    stream: (session, rest) => session.stream(Number(rest)),
    engine: (session, rest) => session.event(Number(rest)),
    file: (session, rest, files) => session.file(...brought(files, rest)),
    scene: (session, rest, files) => session.scene(...brought(files, rest)),
};

function play(session, files, lines) {
    let frames = 0;
    for (const line of lines) {
        const [, word, rest] = line.match(/^(\S+) ?(.*)$/);
        if (word === "run") advance(session, 1000000);
        else if (word === "step") advance(session, Number(rest));
        else if (word === "show") {
            say(`frame ${++frames}`);
            for (const row of session.changed()) say(rowLine(row, session.row(row)));
        } else {
            const why = posts[word](session, rest, files);
            if (why) say(`refused ${why}`);
        }
    }
    say(`total ${session.counts().taken}`);
}

const library = await load(fs.readFileSync(module));
const service = { files: gather(folder), late: late ? fs.readFileSync(late) : "" };
const session = script === "--check" ? 0 : library.start(service);
if (typeof session === "number") say(library.check(service).text.trimEnd());
else {
    play(session, service.files, fs.readFileSync(script, "utf8").split("\n").filter(line => line && line[0] !== "#"));
    session.free();
}
process.stdout.write(out.join("\n") + "\n");
