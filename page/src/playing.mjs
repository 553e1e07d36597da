// The play: its picture, the record as a strip, the remote control, the clock, and what lies at a cell.
import { $, engine, player, screen, service, state } from "./app.mjs";
import { goToLine, goToObject, judge } from "./files.mjs";
import { lastLines } from "./player.mjs";
import { black, paintCells } from "./screen.mjs";
import { showView } from "./telling.mjs";
import { element, lineWithPlace } from "./views.mjs";

const KEYS = ["up", "down", "left", "right", "select", "cancel", "red", "green", "yellow", "blue", "text", ..."1234567890"];
/** How often the clock ticks, in milliseconds. */
const BEAT = 40;
const LONGEST_TICK = 60000;

// ---- The play ----

player.told.onRestart = () => { state.lines = []; $("trace").replaceChildren(); };
player.told.onLines = text => {
    const fresh = text.trimEnd().split("\n");
    state.lines = lastLines([...state.lines, ...fresh]);
    const log = $("trace");
    log.append(...lastLines(fresh).map(line => lineWithPlace(line, goToLine)));
    while (log.childElementCount > state.lines.length) log.firstChild.remove();
    log.scrollTop = log.scrollHeight;
};
player.told.onShown = () => {
    screen.show(player.cells ?? black());
    showState();
    showStrip();
    if (document.activeElement !== $("script-text")) $("script-text").value = player.script();
    $("back").disabled = player.at <= 0;
    $("forth").disabled = player.at >= player.entries.length - 1;
    screen.onCell(screen.cell);
    showView();
};

const secondsOf = milliseconds => `${(milliseconds / 1000).toFixed(milliseconds % 1000 ? 2 : 0)} s`;

function showState() {
    const counts = player.counts;
    for (const button of document.querySelectorAll("#remote button, #transport button, #arrive")) button.dataset.dead = !counts;
    if (!counts) { $("state").textContent = "Nothing is played: the files make no service."; return; }
    const rest = { idle: "nothing is left to do", more: "there is more to do (Run goes on)", ended: "the application has quit" }[counts.rest];
    const faults = counts.faults ? `, ${counts.faults} fault${counts.faults > 1 ? "s" : ""}` : "";
    $("state").textContent = `${secondsOf(player.moment())}, ${counts.taken} steps${faults}; ${rest}`;
}

function showStrip() {
    const strip = $("strip");
    const entries = player.entries.map((entry, at) => ({ entry, at })).filter(({ entry }) => entry.cells);
    const kept = new Map([...strip.children].map(option => [option.dataset.key, option]));
    strip.replaceChildren(...entries.map(({ entry, at }) => {
        entry.key ??= String(++showStrip.last);
        const option = kept.get(entry.key) ?? frameOption(entry);
        option.id = `frame-${at}`;
        option.dataset.at = at;
        option.lastChild.textContent = `${secondsOf(player.moment(at))} ${entry.label}`;
        option.setAttribute("aria-label", `Picture ${at + 1} at ${secondsOf(player.moment(at))}, ${entry.label}`);
        option.setAttribute("aria-selected", at === player.at);
        return option;
    }));
    strip.setAttribute("aria-activedescendant", `frame-${player.at}`);
    const chosen = strip.querySelector("[aria-selected=true]");
    if (chosen) bringIntoSight(strip, chosen);
}
showStrip.last = 0;

/** Scrolls the strip alone: the page stays where it is read. */
function bringIntoSight(strip, option) {
    const all = strip.getBoundingClientRect(), own = option.getBoundingClientRect();
    if (own.left < all.left) strip.scrollLeft -= all.left - own.left;
    else if (own.right > all.right) strip.scrollLeft += own.right - all.right;
}

function frameOption(entry) {
    const canvas = element("canvas", { width: 240, height: 180 }), option = element("div", {}, canvas, element("span"));
    option.setAttribute("role", "option");
    option.dataset.key = entry.key;
    paintCells(canvas, entry.cells);
    return option;
}

$("strip").addEventListener("click", event => {
    const option = event.target.closest("[role=option]");
    if (option) player.seek(Number(option.dataset.at));
});
$("strip").addEventListener("keydown", event => {
    const to = { ArrowLeft: player.at - 1, ArrowRight: player.at + 1, Home: 0, End: player.entries.length - 1 }[event.key];
    if (to === undefined) return;
    event.preventDefault();
    event.stopPropagation();
    player.seek(to);
});

export const press = key => player.post(`key ${key}`);
for (const key of KEYS) {
    const button = element("button", { type: "button", id: `key-${key}`, className: key, textContent: { up: "▲", down: "▼", left: "◀", right: "▶" }[key] ?? key });
    button.setAttribute("aria-label", /\d/.test(key) ? `digit ${key}` : key);
    button.addEventListener("click", () => press(key));
    $("remote").append(button);
}

// ---- The clock ----

export function stopClock() {
    clearInterval(state.clock);
    state.clock = null;
    $("clock").setAttribute("aria-pressed", "false");
}

function startClock() {
    let before = performance.now(), ticking = false;
    $("clock").setAttribute("aria-pressed", "true");
    state.clock = setInterval(async () => {
        if (ticking || !player.counts || player.counts.rest === "ended") return;
        const passed = Math.floor(performance.now() - before);
        if (passed < 1) return;
        before += passed;
        ticking = true;
        await player.post(`tick ${Math.min(passed, LONGEST_TICK)}`);
        ticking = false;
    }, BEAT);
}

$("clock").addEventListener("click", () => state.clock ? stopClock() : startClock());
$("second").addEventListener("click", () => player.post("tick 1000"));
$("step").addEventListener("click", () => player.step());
$("run").addEventListener("click", () => player.run());
$("restart").addEventListener("click", () => { stopClock(); player.begin(service()); });
$("back").addEventListener("click", () => { stopClock(); player.seek(player.at - 1); });
$("forth").addEventListener("click", () => player.seek(player.at + 1));
$("arrive").addEventListener("click", () => {
    const name = $("arrives").value;
    if (name) player.post(`${state.late.split(/\s+/).includes(name) ? "scene" : "file"} ${name}`);
});
$("late").addEventListener("change", () => { state.late = $("late").value; judge(true); });
$("all").addEventListener("change", () => judge(true));

// ---- What lies at a cell ----

export const present = line => /^(.+) (\d+) (\w+)(, not seen)?$/.exec(line);

screen.onCell = async cell => {
    if (!cell || !player.counts) { $("under").textContent = "\u00a0"; return; }
    const text = await engine.call("at", ...cell);
    if (String(cell) !== String(screen.cell)) return;
    const lies = text.trimEnd().split("\n").filter(Boolean).join("; ") || "nothing";
    $("under").textContent = `row ${cell[0]}, column ${cell[1]}: ${lies}`;
};
screen.onChosen = async (row, column) => {
    if (!player.counts) return;
    const found = present((await engine.call("at", row, column)).split("\n")[0] ?? "");
    if (found) goToObject(found[1], Number(found[2]));
};
