// A browser by its debugging protocol: an unchanged Chromium, without anything beside node.
import { spawn } from "node:child_process";
import fs from "node:fs";
import os from "node:os";
import path from "node:path";

const PROGRAMS = [process.env.CHROMIUM, "/usr/lib/chromium/chromium", "/usr/bin/chromium", "/usr/bin/google-chrome"];
const pause = milliseconds => new Promise(resolve => setTimeout(resolve, milliseconds));

async function portOf(folder) {
    const file = path.join(folder, "DevToolsActivePort");
    for (let at = 0; at < 300 && !fs.existsSync(file); at++) await pause(100);
    return fs.readFileSync(file, "utf8").split("\n")[0];
}

/** Opens a browser with one page. `script` runs before the page's own. */
export async function browse(url, { width = 1500, height = 1000, script = "", features = [] } = {}) {
    const folder = fs.mkdtempSync(path.join(os.tmpdir(), "redplay-page-"));
    const program = PROGRAMS.find(name => name && fs.existsSync(name));
    const child = spawn(program, ["--headless=new", "--no-sandbox", "--disable-gpu", "--js-flags=--expose-gc",
        "--remote-debugging-port=0", `--user-data-dir=${folder}`, `--window-size=${width},${height}`, "about:blank"], { stdio: "ignore" });
    const port = await portOf(folder);
    const target = (await (await fetch(`http://127.0.0.1:${port}/json`)).json()).find(one => one.type === "page");
    const socket = new WebSocket(target.webSocketDebuggerUrl);
    await new Promise(resolve => { socket.onopen = resolve; });
    const page = new Page(socket, child, folder);
    await page.send("Runtime.enable");
    await page.send("Page.enable");
    await page.size(width, height);
    if (features.length) await page.send("Emulation.setEmulatedMedia", { features });
    if (script) await page.send("Page.addScriptToEvaluateOnNewDocument", { source: script });
    await page.send("Page.navigate", { url });
    return page;
}

class Page {
    constructor(socket, child, folder) {
        Object.assign(this, { socket, child, folder, last: 0, waiting: new Map(), errors: [] });
        socket.onmessage = event => this.hear(JSON.parse(event.data));
    }

    hear(said) {
        if (said.id) return this.waiting.get(said.id)(said);
        const details = said.params?.exceptionDetails;
        if (said.method === "Runtime.exceptionThrown") this.errors.push(details.exception?.description ?? details.text);
        if (said.method === "Runtime.consoleAPICalled" && said.params.type === "error") {
            this.errors.push(said.params.args.map(word => word.value ?? word.description).join(" "));
        }
    }

    send(method, params = {}) {
        return new Promise(resolve => {
            this.waiting.set(++this.last, resolve);
            this.socket.send(JSON.stringify({ id: this.last, method, params }));
        });
    }

    async eval(expression) {
        const said = await this.send("Runtime.evaluate", { expression, awaitPromise: true, returnByValue: true });
        if (said.error) throw new Error(said.error.message);
        const { exceptionDetails, result } = said.result;
        if (exceptionDetails) throw new Error(exceptionDetails.exception?.description ?? exceptionDetails.text);
        return result.value;
    }

    async until(expression, milliseconds = 60000) {
        for (const end = Date.now() + milliseconds; Date.now() < end; await pause(40)) {
            try { if (await this.eval(expression)) return true; } catch { /* the page is not there yet */ }
        }
        return false;
    }

    size(width, height, mobile = false) {
        return this.send("Emulation.setDeviceMetricsOverride", { width, height, deviceScaleFactor: 1, mobile });
    }

    async key(key, { code = key, modifiers = 0, text } = {}) {
        const virtual = { Enter: 13, Escape: 27, ArrowLeft: 37, ArrowUp: 38, ArrowRight: 39, ArrowDown: 40, Home: 36, End: 35, F8: 119, Tab: 9, ".": 190, "[": 219, "]": 221 };
        const common = { key, code, modifiers, windowsVirtualKeyCode: virtual[key] ?? key.toUpperCase().charCodeAt(0) };
        await this.send("Input.dispatchKeyEvent", { type: text ? "keyDown" : "rawKeyDown", text, ...common });
        await this.send("Input.dispatchKeyEvent", { type: "keyUp", ...common });
    }

    async place(selector) {
        await this.eval(`document.querySelector(${JSON.stringify(selector)}).scrollIntoView({ block: "center" })`);
        return this.eval(`(box => [box.x + box.width / 2, box.y + box.height / 2])(document.querySelector(${JSON.stringify(selector)}).getBoundingClientRect())`);
    }

    async mouse(x, y, press = true) {
        await this.send("Input.dispatchMouseEvent", { type: "mouseMoved", x, y });
        if (!press) return;
        for (const type of ["mousePressed", "mouseReleased"]) await this.send("Input.dispatchMouseEvent", { type, x, y, button: "left", clickCount: 1 });
    }

    async click(selector) { await this.mouse(...await this.place(selector)); }
    type(text) { return this.send("Input.insertText", { text }); }

    async shot(file, full = false) {
        const said = await this.send("Page.captureScreenshot", { format: "png", captureBeyondViewport: full });
        fs.writeFileSync(file, Buffer.from(said.result.data, "base64"));
    }

    /** Ends the browser, which need not answer. */
    async close() {
        const ended = new Promise(resolve => { this.child.once("exit", resolve); setTimeout(resolve, 5000); });
        this.send("Browser.close");
        await ended;
        this.socket.close();
        fs.rmSync(this.folder, { recursive: true, force: true });
    }
}
