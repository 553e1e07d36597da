// What is tried: the page, the folder of the repository, and what holds, which is counted.
import path from "node:path";
import { fileURLToPath, pathToFileURL } from "node:url";

export const [file, shots] = process.argv.slice(2);
export const url = pathToFileURL(path.resolve(file)).href;
export const root = path.resolve(path.dirname(fileURLToPath(import.meta.url)), "../..");
export const counts = { passed: 0, failed: 0 };

export function hold(words, holds, told = "") {
    if (holds) counts.passed++;
    else { counts.failed++; console.log(`FAILED ${words}${told ? `: ${told}` : ""}`); }
}

export function same(words, actual, wanted) {
    if (actual === wanted) return hold(words, true);
    const [a, b] = [actual.split("\n"), wanted.split("\n")], at = a.findIndex((line, at) => line !== b[at]);
    hold(words, false, `line ${at + 1}: ${JSON.stringify(a[at])} in place of ${JSON.stringify(b[at])}`);
}

export const ready = page => page.until("document.documentElement.dataset.ready === 'yes'");
const settled = page => page.eval("redplayPage.player.inTurn(async () => { await new Promise(r => setTimeout(r, 0)); })");
/** What is asked of the page is answered, and nothing waits. */
export async function quiet(page) {
    await page.until("redplayPage.engine.waiting.size === 0");
    await settled(page);
    await page.until("redplayPage.engine.waiting.size === 0");
}
