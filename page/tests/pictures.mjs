// Rows of pictures, as a report prints them.

const colour = number => number.toString(16).padStart(6, "0");

function runText(cells, row, first, behind) {
    const at = column => 3 * (row * 60 + column), [fore, back] = [cells[at(first) + 1], cells[at(first) + 2]];
    let text = "";
    for (let column = first; column < behind; column++) text += String.fromCodePoint(cells[at(column)]);
    text = text.replace(/ +$/, "").replace(/[\\"]/g, "\\$&");
    return text || fore || back ? ` ${first}-${behind - 1} ${colour(fore)}/${colour(back)} "${text}"` : "";
}

function rowLine(cells, row) {
    const at = column => 3 * (row * 60 + column);
    let line = `row ${String(row).padStart(2, "0")}:`, first = 0;
    for (let column = 1; column <= 60; column++) {
        if (column < 60 && [1, 2].every(part => cells[at(column) + part] === cells[at(first) + part])) continue;
        line += runText(cells, row, first, column);
        first = column;
    }
    return line;
}

/** The lines of the pictures of entries that end with `show`, each against the one before. */
export function frameLines(entries) {
    const lines = [];
    let before = null, number = 0;
    for (const { script, cells } of entries) {
        if (!script.endsWith("show\n")) continue;
        lines.push(`frame ${++number}`);
        for (let row = 0; row < 36; row++) {
            const line = rowLine(cells, row), old = before ? rowLine(before, row) : `row ${String(row).padStart(2, "0")}:`;
            if (line !== old || rowDiffers(cells, before, row)) lines.push(line);
        }
        before = cells;
    }
    return lines;
}

function rowDiffers(cells, before, row) {
    for (let at = 3 * 60 * row; at < 3 * 60 * (row + 1); at++) {
        if (cells[at] !== (before ? before[at] : at % 3 === 0 ? 32 : 0)) return true;
    }
    return false;
}

export const reportFrames = report => report.split("\n").filter(line => /^(frame|row) /.test(line));
