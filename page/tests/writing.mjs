// Writing: mistakes and mends, the other notation, and what was done before an edit.
import fs from "node:fs";
import path from "node:path";
import { hold, quiet, root, same } from "./holding.mjs";

export async function tryWriting(page) {
    await page.eval("redplayPage.openExample('vote')");
    await quiet(page);
    const select = word => page.eval(`(area => { area.focus(); const at = area.value.indexOf("${word}"); area.setSelectionRange(at, at + ${word.length}); })(document.getElementById("text"))`);
    await select("OnStartUp");
    await page.type("OnStarUp");
    hold("a typed mistake is underlined", await page.until("document.querySelector('#editor .marked') !== null", 5000));
    hold("the verdict tells it", await page.until("document.getElementById('verdict').className === 'bad'", 5000));
    hold("a finding names its place", await page.eval("document.querySelector('#findings .place').textContent.startsWith('a:')"));
    hold("what it underlines is what was typed", await page.eval("document.querySelector('#editor .marked').textContent.includes('OnStarUp')"),
        await page.eval("document.querySelector('#editor .marked')?.textContent"));
    hold("a mend is offered", await page.eval("document.querySelector('#findings .mend') !== null"), await page.eval("document.getElementById('findings').textContent"));
    if (await page.eval("document.querySelector('#findings .mend') !== null")) await page.click("#findings .mend");
    hold("a click mends it", await page.until("document.getElementById('verdict').textContent === 'accepted'", 5000));
    hold("the mended text is the old one", await page.eval("document.getElementById('text').value.includes(':OnStartUp')"));
    await select("OnStartUp");
    await page.type("OnStarUp");
    await page.until("document.querySelector('#findings .mend') !== null", 5000);
    await page.eval("document.getElementById('text').setSelectionRange(0, 0)");
    await page.key("F8");
    await page.key(".", { modifiers: 2 });
    hold("keys mend it, too", await page.until("document.getElementById('verdict').textContent === 'accepted'", 5000));
    await tryNumber(page);
    await tryNotations(page);
    await tryKept(page);
}

async function tryNumber(page) {
    await page.eval("redplayPage.openExample('broken')");
    await quiet(page);
    hold("broken: a mend of a number is offered", await page.eval("[...document.querySelectorAll('#findings .mend')].some(b => /Put in \\d+/.test(b.textContent))"),
        await page.eval("document.getElementById('findings').textContent"));
}

/** A file is written in the other notation, and back. */
async function tryNotations(page) {
    await page.eval("redplayPage.openExample('menu')");
    await quiet(page);
    await page.click("#tabs [data-at='1']");
    await page.click("#convert");
    await quiet(page);
    hold("a file is written as octets", await page.eval("redplayPage.state.files[1].text === null && redplayPage.state.files[1].bytes[0] > 127"));
    hold("and is accepted as before", await page.until("document.getElementById('verdict').textContent === 'accepted'", 5000));
    const octets = await page.eval("[...redplayPage.state.files[1].bytes].join()");
    same("its octets are those of the binary notation", octets, [...fs.readFileSync(path.join(root, "examples/menu/der/s"))].join());
    await page.click("#convert");
    await quiet(page);
    hold("and as text again", await page.eval("redplayPage.state.files[1].text.includes(':Scene')"));
    hold("which is accepted, too", await page.until("document.getElementById('verdict').textContent === 'accepted'", 5000));
}

/** What was done is done again behind an edit, also behind one that cannot be read. */
async function tryKept(page) {
    await page.eval("redplayPage.openExample('first')");
    await quiet(page);
    await page.click("#key-red");
    await quiet(page);
    const before = await page.eval("redplayPage.player.script()");
    await page.eval("(tab => tab.click())([...document.querySelectorAll('#tabs [role=tab]')].find(tab => tab.textContent.startsWith('s')))");
    await page.eval("(area => { area.focus(); const at = area.value.indexOf('(\"~/s\" 0)'); area.setSelectionRange(at, at); })(document.getElementById('text'))");
    await page.type("(");
    await page.until("document.getElementById('verdict').className === 'bad'", 5000);
    hold("what cannot be read is told", await page.eval("document.getElementById('verdict').textContent.startsWith('file s')"),
        await page.eval("document.getElementById('verdict').textContent"));
    await page.eval("(area => { const at = area.value.indexOf('((\"~/s\"'); area.setSelectionRange(at, at + 1); })(document.getElementById('text'))");
    await page.eval("document.execCommand('delete')");
    await page.until("document.getElementById('verdict').className === 'good'", 5000);
    await quiet(page);
    same("what was done is done again", await page.eval("redplayPage.player.script()"), before);
}
