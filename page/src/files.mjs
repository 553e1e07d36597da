// Files as tabs, where one goes in them, and what follows from a change: the service is judged and played again.
import { $, editor, engine, note, player, screen, service, state, textIn } from "./app.mjs";
import { findingsOf, spanOf } from "./findings.mjs";
import { showFindings } from "./mending.mjs";
import { indexOfPlace, objectPlace } from "./notation.mjs";
import { stopClock } from "./playing.mjs";
import { black } from "./screen.mjs";
import { textOf } from "./services.mjs";
import { showView } from "./telling.mjs";
import { element, walkTabs } from "./views.mjs";

// ---- Files ----

export function showTabs() {
    const tabs = state.files.map((file, at) => {
        const count = state.findings.filter(found => found.place.name === file.name && isGrave(found)).length;
        const tab = element("button", { type: "button", id: `tab-${at}`, textContent: file.name });
        tab.setAttribute("role", "tab");
        tab.setAttribute("aria-controls", "editor");
        tab.setAttribute("aria-selected", at === state.shown);
        tab.tabIndex = at === state.shown ? 0 : -1;
        tab.dataset.at = at;
        if (count) tab.append(" ", element("span", { className: "count", textContent: `${count}`, title: `${count} found` }));
        return tab;
    });
    $("tabs").replaceChildren(...tabs);
    $("editor").setAttribute("aria-labelledby", `tab-${state.shown}`);
}

const isGrave = found => found.grade !== "note";

export function showFile(at) {
    state.shown = at;
    const file = state.files[at];
    if (!file) editor.show("", false);
    else if (file.text === null) editor.show(file.spelled ?? `(${file.bytes.length} octets, which are no group)`, false);
    else editor.show(file.text);
    $("convert").disabled = !file || (file.text === null && !file.spelled);
    $("convert").textContent = file?.text === null ? "Write as text" : "Write as octets";
    showTabs();
    showMarks();
}

export function showMarks() {
    const file = state.files[state.shown];
    if (!file || file.text === null) return;
    const own = state.findings.filter(found => found.place.name === file.name);
    editor.mark(own.map(found => ({ ...found.place, grade: found.grade, title: `${found.what}. ${found.mend ?? ""}` })));
}

/** Shows a place of a file. */
export function goTo(name, first, behind = first) {
    const at = state.files.findIndex(file => file.name === name);
    if (at < 0 || state.files[at].text === null) return note(`${name} is not a text of this service`);
    if (at !== state.shown) showFile(at);
    editor.go(first, behind);
}

export const goToLine = (name, line, column) => {
    const text = textIn(name);
    if (text !== null) goTo(name, indexOfPlace(text, line, column), indexOfPlace(text, line, column + 1));
};

export function goToObject(group, number) {
    const text = textIn(group);
    const first = text === null ? -1 : objectPlace(text, number);
    if (first >= 0) goTo(group, first, first + text.slice(first).search(/\n|$/));
}

// ---- A service is opened ----

/** A file of the binary notation is shown as text where it reads as a group; what is played is the file as it is. */
async function fileOf([name, bytes]) {
    const text = textOf(bytes);
    if (text !== null) return { name, bytes, text, spelled: null };
    const made = await engine.call("convert", name, bytes, false);
    return { name, bytes, text, spelled: made.number === 0 ? textOf(made.bytes) : null };
}

/** Writes the file in the other notation. */
export async function convertFile() {
    const file = state.files[state.shown], binary = file.text !== null;
    const made = await engine.call("convert", file.name, file.bytes, binary);
    if (made.number) return note(`It cannot be written so: ${textOf(made.bytes).trim()}`);
    [file.bytes, file.text, file.spelled] = binary ? [made.bytes, null, file.text] : [made.bytes, textOf(made.bytes), null];
    showFile(state.shown);
    await judge(true);
}

export async function openService(name, given) {
    stopClock();
    state.name = name;
    state.files = await Promise.all(given.files.map(fileOf));
    state.late = (given.late ?? "").split("\n").filter(Boolean).join(" ");
    state.start = given.start ?? "a";
    state.script = given.script ?? "";
    state.findings = [];
    $("late").value = state.late;
    $("wanted").value = given.report ?? "";
    $("example-script").disabled = !state.script;
    const arrives = state.files.map(file => new Option(file.name, file.name));
    $("arrives").replaceChildren(...arrives);
    const first = state.late.split(" ")[0];
    if (first) $("arrives").value = first;
    screen.cells = null;
    screen.show(black());
    showFile(0);
    await judge(false);
}

/** Judges the service as it is now, and plays it again. */
export async function judge(keeps) {
    const given = service(), folder = "service";
    try {
        const [verdict, found] = await Promise.all([
            engine.call("check", given), engine.call("findings", given, folder, $("all").checked)]);
        if (given.files.some(([name, bytes], at) => state.files[at]?.bytes !== bytes || state.files[at]?.name !== name)) return;
        state.verdict = verdict;
        state.findings = findingsOf(found.text).map(finding => ({ ...finding, place: spanOf(finding.at, folder, textIn) }));
        showVerdict();
        showFindings();
        showTabs();
        showMarks();
        await player.begin(given, keeps);
        await showView();
    } catch (error) {
        note(`The engine failed: ${error.message}`);
    }
}

function showVerdict() {
    const [first, ...rest] = state.verdict.text.trimEnd().split("\n");
    const good = state.verdict.number === 0;
    $("verdict").textContent = good ? "accepted" : first;
    $("verdict").className = good ? "good" : "bad";
    $("bounds").hidden = !rest.length;
    $("bounds").querySelector("summary").textContent = good ? "Bounds: the most steps of the start and of each input" : "More of the refusal";
    $("bounds").querySelector("pre").textContent = rest.join("\n");
    document.title = `${state.name}: ${good ? "accepted" : first} – redplay`;
}

walkTabs($("tabs"), tab => showFile(Number(tab.dataset.at)));
