// `Editor`: a text with line numbers, colours and underlined findings: a text area over a painted copy of its text.
import { tokensOf } from "./notation.mjs";

/** The most characters that are coloured; a longer text stays plain. */
const MOST_COLOURED = 150000;

export class Editor {
    constructor(root) {
        this.area = root.querySelector("textarea");
        this.paint = root.querySelector(".paint");
        this.gutter = root.querySelector(".gutter");
        this.marks = [];
        this.onChange = () => {};
        this.area.addEventListener("input", () => { this.marks = []; this.draw(); this.onChange(this.area.value); });
        this.area.addEventListener("scroll", () => this.follow());
    }

    get text() { return this.area.value; }

    /** Shows another text, without a change being told. */
    show(text, editable = true) {
        this.area.value = text;
        this.area.readOnly = !editable;
        this.marks = [];
        this.draw();
        this.area.scrollTop = 0;
        this.follow();
    }

    /** Underlines spans, each as { first, behind, grade, title }. */
    mark(spans) {
        this.marks = spans;
        this.draw();
    }

    /** Puts a text in the place of a span, so that it can be taken back. */
    replace(first, behind, text) {
        this.area.focus();
        this.area.setSelectionRange(first, behind);
        if (!document.execCommand("insertText", false, text)) {
            this.area.setRangeText(text, first, behind, "end");
            this.area.dispatchEvent(new Event("input"));
        }
    }

    /** Selects a span and brings it into sight. */
    go(first, behind = first) {
        this.area.focus();
        this.area.setSelectionRange(first, behind);
        const line = this.text.slice(0, first).split("\n").length;
        const height = parseFloat(getComputedStyle(this.area).lineHeight) || 18;
        this.area.scrollTop = Math.max(0, (line - 4) * height);
        this.follow();
    }

    follow() {
        this.paint.scrollTop = this.area.scrollTop;
        this.paint.scrollLeft = this.area.scrollLeft;
        this.gutter.scrollTop = this.area.scrollTop;
    }

    draw() {
        const text = this.text, lines = text.split("\n");
        const faulty = new Set(this.marks.map(mark => text.slice(0, mark.first).split("\n").length));
        this.gutter.replaceChildren(...lines.map((_, at) => {
            const number = document.createElement("div");
            number.textContent = at + 1;
            if (faulty.has(at + 1)) number.className = "faulty";
            return number;
        }));
        const tokens = text.length > MOST_COLOURED ? [] : tokensOf(text);
        this.paint.replaceChildren(...piecesOf(text, tokens, this.marks), "\n");
        this.follow();
    }
}

/** The pieces of a text that differ in colour or underline, as nodes. */
function piecesOf(text, tokens, marks) {
    const ends = new Set([0, text.length]);
    for (const [first, behind] of tokens) { ends.add(first); ends.add(behind); }
    for (const mark of marks) { ends.add(mark.first); ends.add(Math.min(Math.max(mark.behind, mark.first + 1), text.length)); }
    const places = [...ends].sort((a, b) => a - b);
    const pieces = [];
    let token = 0;
    for (let at = 0; at + 1 < places.length; at++) {
        const [first, behind] = [places[at], places[at + 1]];
        while (token < tokens.length && tokens[token][1] <= first) token++;
        const sort = token < tokens.length && tokens[token][0] <= first ? tokens[token][2] : "";
        const mark = marks.find(mark => mark.first <= first && first < Math.max(mark.behind, mark.first + 1));
        pieces.push(pieceOf(text.slice(first, behind), sort, mark));
    }
    return pieces;
}

function pieceOf(text, sort, mark) {
    if (!sort && !mark) return text;
    const piece = document.createElement("span");
    piece.textContent = text;
    if (sort) piece.classList.add(`sort-${sort}`);
    if (mark) { piece.classList.add("marked", `grade-${mark.grade}`); piece.title = mark.title; }
    return piece;
}
