// Findings as the module tells them, an object of JSON a line: where they stand in the page's files, and how they are mended.
import { indexOfByte } from "./notation.mjs";

/** The findings of a text of lines. */
export const findingsOf = text => text.split("\n").filter(Boolean).map(line => JSON.parse(line));

/** The file of a finding and its span there, as { name, first, behind }. */
export function spanOf(site, folder, textOf) {
    const name = site.file.startsWith(`${folder}/`) ? site.file.slice(folder.length + 1) : site.file;
    const text = textOf(name);
    if (text === null) return { name, first: 0, behind: 0 };
    const first = indexOfByte(text, site.span.start.byte), behind = indexOfByte(text, site.span.end.byte);
    return { name, first, behind: Math.max(first, behind) };
}

/** What may be put in the place of the text that a finding marks, where its mend says so exactly: a word, or a number. */
export function exactMends(finding, marked) {
    const mend = finding.mend ?? "";
    const numbers = /the nearest numbers? (?:is|are) ([\d, and]+)/.exec(mend);
    if (numbers && /^\d+$/.test(marked)) return numbers[1].match(/\d+/g) ?? [];
    const exact = /^write `([^`]+)`(?:; these begin alike: (.*))?$/.exec(mend);
    if (!exact) return [];
    const others = [...(exact[2] ?? "").matchAll(/`([^`]+)`/g)].map(found => found[1]);
    return [exact[1], ...others].map(word => fitted(word, marked)).filter(word => word !== marked);
}

/** A word in the form of what it replaces: a keyword keeps its colon. */
function fitted(word, marked) {
    if (marked.startsWith(":") && !word.startsWith(":")) return `:${word}`;
    if (!marked.startsWith(":") && word.startsWith(":")) return word.slice(1);
    return word;
}
