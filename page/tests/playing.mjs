// Playing: keys, the clock, what arrives, what lies at a cell, reports, and a service that never settles.
import { hold, quiet, same } from "./holding.mjs";

export async function tryKeys(page) {
    await page.eval("redplayPage.openExample('vote')");
    await quiet(page);
    await page.eval("document.getElementById('screen').focus()");
    const named = { up: "ArrowUp", down: "ArrowDown", left: "ArrowLeft", right: "ArrowRight", select: "Enter" };
    const script = await page.eval("redplayPage.state.examples.vote.script");
    const keys = [...script.matchAll(/^key (\S+)$/gm)].map(found => found[1]);
    for (const key of keys) await page.key(named[key] ?? key, { text: /^\d$/.test(key) ? key : undefined });
    await quiet(page);
    const pressed = await page.eval("redplayPage.player.script()");
    same("vote: keys of the keyboard are recorded", [...pressed.matchAll(/^key (\S+)$/gm)].map(found => found[1]).join(" "), keys.join(" "));
    const shown = await page.eval("document.getElementById('screen').getAttribute('aria-label')");
    hold("vote: the viewer is thanked", shown.includes("Thank you for your vote"), shown);
    await tryTime(page, keys.length);
}

async function tryTime(page, count) {
    const end = await page.eval("[...redplayPage.screen.cells].join()");
    for (let at = 0; at < 3; at++) { await page.click("#back"); await quiet(page); }
    hold("back goes back", await page.eval(`redplayPage.player.at === redplayPage.player.entries.length - 4 && redplayPage.player.entries.length === ${count} + 1`));
    const kept = await page.eval("[...redplayPage.player.entries[redplayPage.player.at].cells].join()");
    same("back shows the picture of then", await page.eval("[...redplayPage.screen.cells].join()"), kept);
    await page.eval("document.getElementById('screen').focus()");
    for (let at = 0; at < 3; at++) { await page.key("]"); await quiet(page); }
    same("forth shows the last picture", await page.eval("[...redplayPage.screen.cells].join()"), end);
    await page.eval("document.querySelector('#strip [role=option]').click()");
    await quiet(page);
    hold("a picture of the strip is gone to", await page.eval("redplayPage.player.at === 0"));
    await page.eval("document.getElementById('strip').focus()");
    await page.key("End");
    await quiet(page);
    same("End goes to the last picture", await page.eval("[...redplayPage.screen.cells].join()"), end);
}

export async function tryClock(page) {
    await page.eval("redplayPage.openExample('clock')");
    await quiet(page);
    await page.click("#clock");
    await new Promise(resolve => setTimeout(resolve, 2500));
    await page.click("#clock");
    await quiet(page);
    const moment = await page.eval("redplayPage.player.moment()");
    hold("the clock goes", moment > 1500 && moment < 6000, String(moment));
    const standing = await page.eval("redplayPage.player.moment()");
    await new Promise(resolve => setTimeout(resolve, 300));
    hold("the clock stands", await page.eval("redplayPage.player.moment()") === standing);
    const ticks = await page.eval("redplayPage.player.entries.length");
    hold("ticks in which nothing comes about are one", ticks < 30, String(ticks));
    await page.click("#second");
    await quiet(page);
    hold("a second passes", await page.eval("redplayPage.player.moment()") === standing + 1000);
}

export async function tryLate(page) {
    await page.eval("redplayPage.openExample('late')");
    await quiet(page);
    const late = await page.eval("document.getElementById('late').value");
    hold("late scenes are named", late.length > 0);
    await page.click("#arrive");
    await quiet(page);
    hold("a late scene arrives", await page.eval("/^scene /m.test(redplayPage.player.script())"));
}

export async function tryLooks(page) {
    await page.eval("redplayPage.openExample('first')");
    await quiet(page);
    const [x, y] = await page.place("#screen");
    const box = await page.eval("(b => [b.x, b.y, b.width, b.height])(document.getElementById('screen').getBoundingClientRect())");
    await page.mouse(box[0] + box[2] * 1.5 / 60, box[1] + box[3] * 1.5 / 36, false);
    hold("what lies under the pointer is told", await page.until("document.getElementById('under').textContent.includes('s 10 Rectangle')", 5000),
        await page.eval("document.getElementById('under').textContent"));
    await page.mouse(box[0] + box[2] * 1.5 / 60, box[1] + box[3] * 1.5 / 36);
    hold("a click leads to where it is written", await page.until("(area => area.value.slice(area.selectionStart).startsWith('{:Rectangle 10'))(document.getElementById('text'))", 5000));
    await page.mouse(x, y, false);
    await page.click("#view-objects");
    hold("objects are told", await page.until("document.getElementById('objects').textContent.includes('s 10 Rectangle')", 5000));
    hold("the state is told", await page.eval("document.getElementById('objects').textContent.includes('scene s')"));
    await page.click("#view-trace");
    await page.eval("[...document.querySelectorAll('#trace .place')].at(-1).click()");
    hold("a place of the trace leads into the text", await page.eval("document.activeElement.id === 'text'"));
    await tryReport(page);
}

async function tryReport(page) {
    await page.eval("redplayPage.openExample('clock')");
    await quiet(page);
    await page.eval("redplayPage.playFromStart(redplayPage.state.script)");
    await quiet(page);
    await page.click("#view-report");
    hold("the report is as wanted", await page.until("document.getElementById('report-note').textContent === 'As wanted.'", 5000));
    await page.eval("(area => { area.value = area.value.replace('frame 2', 'frame 3'); area.dispatchEvent(new Event('input')); })(document.getElementById('wanted'))");
    hold("what differs is told", await page.until("document.getElementById('report-note').textContent.startsWith('2 lines differ')", 5000),
        await page.eval("document.getElementById('report-note').textContent"));
    await page.click("#view-cover");
    hold("the coverage is told", await page.until("/covered \\d+ of \\d+/.test(document.getElementById('cover').textContent)", 5000));
    await page.eval("redplayPage.openExample('broken')");
    await quiet(page);
    await page.click("#view-script");
    await page.click("#find");
    hold("a script that leads to a fault is found", await page.until("document.getElementById('script-note').textContent === 'This script leads to a fault.'", 20000),
        await page.eval("document.getElementById('script-note').textContent"));
    hold("it has met the fault", await page.eval("redplayPage.player.counts.faults > 0"));
    await page.click("#view-trace");
}

const LOOP = "{:Scene (\"~/s\" 0) :Items ( {:BooleanVar 1 :OrigValue true} {:Link 2 :EventSource 1 :EventType TestEvent :LinkEffect ( :TestVariable (1 1 :GBoolean true) ) } {:Link 3 :EventSource 0 :EventType UserInput :EventData 100 :LinkEffect ( :TestVariable (1 1 :GBoolean true) ) } {:Rectangle 10 :OrigBoxSize 24 32 :OrigRefFillColour '=FF=00=00=00'} ) }";

export async function tryLoop(page) {
    await page.eval(`redplayPage.openService("loop", { files: [["a", "{:Application (\\"~/a\\" 0) :OnStartUp ( :TransitionTo ((\\"~/s\\" 0)) ) }"], ["s", ${JSON.stringify(LOOP)}]].map(([name, text]) => [name, new TextEncoder().encode(text)]) })`);
    await quiet(page);
    hold("a loop is refused", await page.eval("document.getElementById('verdict').textContent.startsWith('refused ')"), await page.eval("document.getElementById('verdict').textContent"));
    await page.click("#key-red");
    hold("a loop stands still after so many steps", await page.until("document.getElementById('state').textContent.includes('more to do')", 20000),
        await page.eval("document.getElementById('state').textContent"));
    const began = Date.now();
    await page.click("#view-objects");
    hold("the page is alive", await page.until("document.getElementById('objects').textContent.includes('s 10 Rectangle')", 5000));
    hold("and answers at once", Date.now() - began < 3000, `${Date.now() - began} ms`);
    await page.click("#view-trace");
    await page.eval("redplayPage.openExample('first')");
    await quiet(page);
    hold("another service is opened behind it", await page.eval("document.getElementById('verdict').textContent === 'accepted'"));
}

export async function tryBreakOff(page) {
    await page.eval("void redplayPage.engine.call('find', redplayPage.player.service, 6, 10000, 60000).catch(() => {})");
    await page.eval("document.getElementById('break-off').click()");
    await page.until("redplayPage.engine.waiting.size === 0", 20000);
    await quiet(page);
    await page.click("#key-red");
    await quiet(page);
    hold("what is broken off leaves a play", await page.eval("redplayPage.player.counts !== null && /key red/.test(redplayPage.player.script())"));
}
