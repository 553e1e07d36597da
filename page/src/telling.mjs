// What is told beside the picture: objects, the report against the one that is wanted, coverage, and scripts.
import { $, engine, player, service, state } from "./app.mjs";
import { differencesOf } from "./differences.mjs";
import { goToObject } from "./files.mjs";
import { isClass } from "./notation.mjs";
import { present, stopClock } from "./playing.mjs";
import { element, placeButton, selectTab, walkTabs } from "./views.mjs";

// ---- Views ----

export async function showView() {
    if (state.view === "objects") await showObjects();
    if (state.view === "report") await showReport();
    if (state.view === "cover") await showCover();
}

async function showObjects() {
    if (!player.counts) return $("objects").replaceChildren();
    const { state: told, objects } = await engine.call("look");
    const open = new Set([...$("objects").querySelectorAll("details[open]")].map(part => part.dataset.key));
    const parts = objectParts(objects).map(({ head, lines }) => {
        const part = element("details", { open: open.has(head) }, element("summary", { textContent: `${head}${statusOf(lines)}` }));
        const found = present(head);
        part.dataset.key = head;
        if (found) part.append(placeButton("where it is written", () => goToObject(found[1], Number(found[2]))));
        part.append(element("pre", { textContent: lines.join("\n") }));
        return part;
    });
    $("objects").replaceChildren(element("pre", { textContent: told.trimEnd() }), ...parts);
}

const statusOf = lines => {
    const words = lines.filter(line => /^(running|highlighted|selected|holds .*|text .*)$/.test(line));
    return words.length ? `: ${words.join(", ")}` : "";
};

function objectParts(text) {
    const parts = [];
    for (const line of text.trimEnd().split("\n")) {
        const found = present(line);
        if (found && isClass(found[3])) parts.push({ head: line, lines: [] });
        else parts.at(-1)?.lines.push(line);
    }
    return parts;
}

async function showReport() {
    if (!player.service) return;
    const lenient = state.verdict?.number !== 0;
    const { text } = await engine.call("report", service(), player.script(), 60000, lenient);
    const actual = text.trimEnd().split("\n"), wanted = $("wanted").value.trimEnd();
    if (!wanted) {
        $("report-note").textContent = "The report of what was done. Put the report that is wanted above, to see what differs.";
        return $("differences").replaceChildren(actual.join("\n"));
    }
    const told = differencesOf(wanted.split("\n"), actual), marks = { same: "  ", wanted: "− ", actual: "+ " };
    const differing = told.filter(([sort]) => sort !== "same").length;
    $("report-note").textContent = differing ? `${differing} lines differ: − is wanted, + is actual.` : "As wanted.";
    $("differences").replaceChildren(...told.map(([sort, line]) => element("div", { className: sort, textContent: marks[sort] + line })));
}

async function showCover() {
    if (!player.service) return;
    const { text } = await engine.call("cover", service(), player.script(), 60000);
    $("cover").firstElementChild.textContent = text;
}

walkTabs($("views"), tab => {
    selectTab($("views"), tab);
    state.view = tab.getAttribute("aria-controls");
    showView();
});
$("wanted").addEventListener("input", () => showReport());

// ---- Scripts ----

export async function playFromStart(script) {
    stopClock();
    const number = await player.playScript(service(), script);
    $("script-note").textContent = number ? "A line of the script says no command." : "Played.";
}

$("play-script").addEventListener("click", () => playFromStart($("script-text").value));
$("example-script").addEventListener("click", () => playFromStart(state.script));
$("find").addEventListener("click", async () => {
    $("script-note").textContent = "Looking for a script that leads to a fault ..";
    const { number, text } = await engine.call("find", service(), 6, 10000, 60000);
    if (number === 0) { await playFromStart(text); $("script-note").textContent = "This script leads to a fault."; }
    else $("script-note").textContent = number === 1 ? "None was found; that proves nothing." : text.trimEnd();
});
