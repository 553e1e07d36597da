// `Screen`: a picture of 60 by 36 cells on a canvas, and the cell under the pointer.
import { COLUMNS, ROWS } from "./cells.mjs";

const WIDTH = 12, HEIGHT = 16;
const styleOf = colour => "#" + colour.toString(16).padStart(6, "0");

/** Paints cells into a canvas, those alone that differ from the cells before. */
export function paintCells(canvas, cells, before = null) {
    const context = canvas.getContext("2d");
    const [width, height] = [canvas.width / COLUMNS, canvas.height / ROWS];
    context.font = `${Math.round(height * 0.94)}px ui-monospace, monospace`;
    context.textBaseline = "alphabetic";
    for (let at = 0; at < ROWS * COLUMNS; at++) {
        const [scalar, fore, back] = cells.subarray(3 * at, 3 * at + 3);
        if (before && scalar === before[3 * at] && fore === before[3 * at + 1] && back === before[3 * at + 2]) continue;
        paintCell(context, at % COLUMNS * width, Math.floor(at / COLUMNS) * height, width, height, scalar, fore, back);
    }
}

function paintCell(context, x, y, width, height, scalar, fore, back) {
    context.fillStyle = styleOf(back);
    context.fillRect(x, y, width, height);
    if (scalar === 32) return;
    context.fillStyle = styleOf(fore);
    context.fillText(String.fromCodePoint(scalar), x, y + height * 0.81, width);
}

/** The texts of a picture, row by row, for who does not see it. */
export function wordsOf(cells) {
    const rows = [];
    for (let row = 0; row < ROWS; row++) {
        let text = "";
        for (let column = 0; column < COLUMNS; column++) text += String.fromCodePoint(cells[3 * (row * COLUMNS + column)]);
        if (text.trim()) rows.push(text.trim().replace(/\s+/g, " "));
    }
    return rows.join(". ");
}

export const black = () => Uint32Array.from({ length: 3 * ROWS * COLUMNS }, (_, at) => at % 3 === 0 ? 32 : 0);

export class Screen {
    constructor(canvas, pointer) {
        this.canvas = canvas;
        this.pointer = pointer;
        this.cells = null;
        this.cell = null;
        this.onCell = () => {};
        this.onChosen = () => {};
        canvas.width = WIDTH * COLUMNS;
        canvas.height = HEIGHT * ROWS;
        canvas.addEventListener("pointermove", event => this.point(this.cellUnder(event)));
        canvas.addEventListener("pointerleave", () => this.point(null));
        canvas.addEventListener("click", event => this.onChosen(...this.cellUnder(event)));
        canvas.addEventListener("keydown", event => this.walk(event));
    }

    cellUnder(event) {
        const box = this.canvas.getBoundingClientRect();
        const row = Math.floor((event.clientY - box.top) / box.height * ROWS);
        const column = Math.floor((event.clientX - box.left) / box.width * COLUMNS);
        return [Math.min(Math.max(row, 0), ROWS - 1), Math.min(Math.max(column, 0), COLUMNS - 1)];
    }

    /** Shift and an arrow move the cell that is looked at, Shift and Enter choose it. */
    walk(event) {
        if (!event.shiftKey) return;
        const [row, column] = this.cell ?? [0, 0];
        const steps = { ArrowUp: [-1, 0], ArrowDown: [1, 0], ArrowLeft: [0, -1], ArrowRight: [0, 1] };
        if (event.key === "Enter") this.onChosen(row, column);
        else if (steps[event.key]) {
            const [down, right] = steps[event.key];
            this.point([Math.min(Math.max(row + down, 0), ROWS - 1), Math.min(Math.max(column + right, 0), COLUMNS - 1)]);
        } else return;
        event.preventDefault();
        event.stopPropagation();
    }

    point(cell) {
        if (String(cell) === String(this.cell)) return;
        this.cell = cell;
        this.pointer.hidden = !cell;
        if (cell) {
            this.pointer.style.left = `${cell[1] / COLUMNS * 100}%`;
            this.pointer.style.top = `${cell[0] / ROWS * 100}%`;
        }
        this.onCell(cell);
    }

    show(cells) {
        paintCells(this.canvas, cells, this.cells);
        this.cells = cells;
        this.canvas.setAttribute("aria-label", `The picture. ${wordsOf(cells) || "No text is shown."}`);
    }
}
