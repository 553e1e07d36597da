// Who does not see the page, or not at that size, or has a browser without addresses of 64 bits.
import path from "node:path";
import { browse } from "./browser.mjs";
import { hold, quiet, ready, same, shots, url } from "./holding.mjs";

const UNNAMED = `[...document.querySelectorAll("button, select, input, textarea, canvas, [role=tabpanel], [role=listbox], [role=option]")]
    .filter(part => part.offsetParent !== null && !part.closest("[aria-hidden=true], [role=option] *"))
    .filter(part => !(part.getAttribute("aria-label") || part.textContent.trim() || part.labels?.length || part.getAttribute("aria-labelledby")))
    .map(part => part.outerHTML.slice(0, 80)).join("; ")`;

export async function tryAccess(page) {
    await page.eval("redplayPage.openExample('silent')");
    await quiet(page);
    same("everything has a name", await page.eval(UNNAMED), "");
    await page.eval("document.querySelector('#views [aria-selected=true]').focus()");
    await page.key("ArrowRight");
    hold("arrows go through tabs", await page.eval("document.activeElement.id === 'view-objects' && !document.getElementById('objects').hidden"));
    await page.key("End");
    hold("End goes to the last tab", await page.eval("document.activeElement.id === 'view-cover'"));
    await page.key("Home");
    hold("Home goes to the first tab", await page.eval("document.activeElement.id === 'view-trace'"));
    const order = await page.eval("[...document.querySelectorAll('button, select, input, textarea, [tabindex]')].every(part => part.tabIndex <= 0)");
    hold("the order is that of the page", order);
    hold("the title says what is shown", await page.eval("document.title.startsWith('silent: accepted')"), await page.eval("document.title"));
    await page.eval("document.getElementById('screen').focus()");
    await page.key("ArrowRight", { modifiers: 8 });
    hold("a cell is looked at by keys", await page.until("document.getElementById('under').textContent.startsWith('row 0, column 1')", 5000));
}

export async function tryNarrow() {
    for (const scheme of ["light", "dark"]) {
        const page = await browse(`${url}#example=vote`, { width: 360, height: 740, features: [{ name: "prefers-color-scheme", value: scheme }] });
        await ready(page);
        await quiet(page);
        hold(`360 pixels, ${scheme}: nothing is wider`, await page.eval("document.documentElement.scrollWidth <= 360"), await page.eval("String(document.documentElement.scrollWidth)"));
        await page.eval("redplayPage.player.post('key down')");
        await quiet(page);
        hold(`360 pixels, ${scheme}: a key leaves the page where it is read`, await page.eval("scrollY === 0"), await page.eval("String(scrollY)"));
        const paper = await page.eval("getComputedStyle(document.body).backgroundColor");
        hold(`${scheme}: the paper is`, scheme === "light" ? /^rgb\(2\d\d/.test(paper) : /^rgb\([1-4]?\d,/.test(paper), paper);
        hold(`${scheme}: buttons can be hit`, await page.eval("[...document.querySelectorAll('#remote button')].every(part => part.getBoundingClientRect().height >= 24)"));
        if (shots) await page.shot(path.join(shots, `narrow-${scheme}.png`));
        await page.close();
    }
}

export async function tryWithout() {
    const page = await browse(url, { script: "WebAssembly.validate = () => false;" });
    hold("a browser without addresses of 64 bits is told so", await page.until("document.getElementById('note').textContent.includes('64 bits')", 10000));
    await page.close();
}
