// The list of what is found, and what a mend puts in.
import { $, editor, state, textIn } from "./app.mjs";
import { goTo, judge } from "./files.mjs";
import { exactMends, spanOf } from "./findings.mjs";
import { bytesOfText } from "./services.mjs";
import { element, placeButton } from "./views.mjs";

/** How long the page waits behind an edit. */
const PAUSE = 120;

// ---- Findings ----

export function showFindings() {
    $("findings-head").textContent = state.findings.length ? `Findings (${state.findings.length})` : "Findings: none";
    $("findings").replaceChildren(...state.findings.map(findingItem));
}

function findingItem(found) {
    const { line, column } = found.at.span.start, item = element("li", { className: found.grade });
    item.append(element("p", { className: "rule" }, `${found.grade} ${found.rule}, `,
        placeButton(`${found.place.name}:${line}:${column}`, () => goTo(found.place.name, found.place.first, found.place.behind))));
    item.append(element("p", { textContent: found.what }));
    if (found.mend) item.append(element("p", { textContent: `Mend: ${found.mend}` }));
    for (const other of found.related) item.append(relatedLine(other));
    const mends = mendButtons(found);
    if (mends.length) item.append(element("p", {}, ...mends));
    return item;
}

function relatedLine(other) {
    const place = spanOf(other.at, "service", textIn), { line, column } = other.at.span.start;
    return element("p", {}, `${other.what} at `,
        placeButton(`${place.name}:${line}:${column}`, () => goTo(place.name, place.first, place.behind)));
}

function mendButtons(found) {
    const text = textIn(found.place.name);
    if (text === null) return [];
    const marked = text.slice(found.place.first, found.place.behind);
    return exactMends(found, marked).slice(0, 4).map(word => {
        const button = element("button", { type: "button", className: "mend", textContent: `Put in ${word}` });
        button.setAttribute("aria-label", `Put in ${word} in the place of ${marked}`);
        button.addEventListener("click", () => mend(found, word));
        return button;
    });
}

function mend(found, word) {
    goTo(found.place.name, found.place.first, found.place.behind);
    editor.replace(found.place.first, found.place.behind, word);
}

let pause = 0;
editor.onChange = text => {
    const file = state.files[state.shown];
    file.text = text;
    file.bytes = bytesOfText(text);
    clearTimeout(pause);
    pause = setTimeout(() => judge(true), PAUSE);
};

/** The finding behind the caret, or the first. */
export function nextFinding() {
    const own = state.findings.filter(found => found.place.name === state.files[state.shown]?.name);
    const next = own.find(found => found.place.first > editor.area.selectionStart) ?? own[0] ?? state.findings[0];
    if (next) goTo(next.place.name, next.place.first, next.place.behind);
}

export function mendHere() {
    const at = editor.area.selectionStart;
    const here = state.findings.find(found => found.place.name === state.files[state.shown]?.name &&
        found.place.first <= at && at <= found.place.behind);
    const words = here ? exactMends(here, editor.text.slice(here.place.first, here.place.behind)) : [];
    if (words.length) mend(here, words[0]);
}
