// node page/tests/run.mjs FILE.html [SHOTS]: tries the page in a browser, and holds what it shows to what the programs print.
// With a folder SHOTS pictures of it are written there.
import fs from "node:fs";
import path from "node:path";
import { tryAccess, tryNarrow, tryWithout } from "./access.mjs";
import { browse } from "./browser.mjs";
import { tryExamples } from "./examples.mjs";
import { counts, hold, quiet, ready, shots, url } from "./holding.mjs";
import { tryBreakOff, tryClock, tryKeys, tryLate, tryLooks, tryLoop } from "./playing.mjs";
import { tryFolder, tryLink } from "./sharing.mjs";
import { tryWriting } from "./writing.mjs";

/** Random keys for so many minutes, of which the first quarter makes room for what is kept: MINUTES, or one. */
async function tryMemory(page) {
    const minutes = Number(process.env.MINUTES ?? 1);
    const press = minutes => page.eval(`(async () => {
        const keys = ["up", "down", "left", "right", "select", "cancel", "red", "green", "yellow", "blue", "text", "0", "5", "9"];
        const end = Date.now() + ${60000 * minutes}, names = ["vote", "quiz", "menu", "guide"];
        let seed = 7, count = 0;
        for (; Date.now() < end; count++) {
            if (count % 100 === 0) await redplayPage.openExample(names[(count / 100) % names.length]);
            seed = (seed * 1103515245 + 12345) % 2147483648;
            await redplayPage.player.post("key " + keys[(seed >> 8) % keys.length]);
        }
        return [await redplayPage.engine.call("pages"), count];
    })()`);
    const [warm] = await press(minutes / 4), heapBefore = await heap(page);
    const [after, count] = await press(minutes * 3 / 4), heapAfter = await heap(page);
    hold("random keys were pressed", count > 100 * minutes, String(count));
    hold("random keys leave the module's memory as it was", after === warm, `${warm} pages, then ${after}`);
    hold("and that of the page", heapAfter < heapBefore + 4e6, `${heapBefore} bytes, then ${heapAfter}`);
    console.log(`memory: ${count} keys, ${after} pages of 64 KB; the page ${Math.round(heapBefore / 1000)} KB, then ${Math.round(heapAfter / 1000)} KB`);
}

async function heap(page) {
    await page.send("HeapProfiler.collectGarbage");
    return (await page.send("Runtime.getHeapUsage")).result.usedSize;
}

async function takeShots(page) {
    await page.size(1280, 1080);
    await page.eval("redplayPage.openExample('vote')");
    await quiet(page);
    for (const key of ["right", "right", "down", "down", "up", "up", "select"]) { await page.eval(`redplayPage.player.post("key ${key}")`); await quiet(page); }
    await page.eval("document.querySelector('#tabs [data-at=\"1\"]').click()");
    await page.eval("scrollTo(0, 0)");
    await page.shot(path.join(shots, "wide.png"));
    await page.eval("document.documentElement.dataset.theme = 'dark'");
    await page.eval("redplayPage.openExample('broken')");
    await quiet(page);
    await page.eval("document.querySelector('#findings .place').click(); scrollTo(0, 0)");
    await page.shot(path.join(shots, "dark.png"));
    await page.eval("delete document.documentElement.dataset.theme");
}

const began = Date.now();
const page = await browse(url);
hold("the page begins", await ready(page), await page.eval("document.getElementById('note').textContent"));
await quiet(page);
const tries = { tryExamples, tryWriting, tryKeys, tryClock, tryLate, tryLooks, tryLoop, tryBreakOff, tryLink, tryFolder, tryAccess, tryMemory };
const isAsked = name => !process.env.ONLY || process.env.ONLY.split(",").includes(name);
const attempt = async (tries, page) => {
    for (const [name, call] of Object.entries(tries)) {
        if (!isAsked(name)) continue;
        try { await call(page); } catch (error) { hold(name, false, error.stack); }
    }
};
await attempt(tries, page);
if (shots) { fs.mkdirSync(shots, { recursive: true }); await takeShots(page); }
hold("nothing went wrong in the page", page.errors.length === 0, page.errors.join("; "));
await page.close();
await attempt({ tryNarrow, tryWithout });
console.log(`${counts.passed} of ${counts.passed + counts.failed} hold, in ${Math.round((Date.now() - began) / 1000)} seconds`);
process.exit(counts.failed ? 1 : 0);
