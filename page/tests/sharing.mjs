// Links and folders.
import fs from "node:fs";
import os from "node:os";
import path from "node:path";
import { browse } from "./browser.mjs";
import { hold, quiet, ready, root, same } from "./holding.mjs";

export async function tryLink(page) {
    await page.eval("redplayPage.openExample('quiz')");
    await quiet(page);
    await page.click("#key-down");
    await quiet(page);
    await page.click("#link");
    await page.until("location.hash.length > 10");
    const [link, script, cells] = await page.eval("[location.href, redplayPage.player.script(), [...redplayPage.screen.cells].join()]");
    const other = await browse(link);
    await ready(other);
    await quiet(other);
    same("a link opens the service", await other.eval("redplayPage.state.files.map(file => file.name).join()"), await page.eval("redplayPage.state.files.map(file => file.name).join()"));
    same("a link plays what was done", await other.eval("redplayPage.player.script()"), script);
    same("a link shows the picture", await other.eval("[...redplayPage.screen.cells].join()"), cells);
    hold("a link is no request", other.errors.length === 0, other.errors.join("; "));
    await other.close();
}

/** A folder that is dropped is opened, and saved again. */
export async function tryFolder(page) {
    const folder = fs.mkdtempSync(path.join(os.tmpdir(), "redplay-drop-")), example = path.join(folder, "mine");
    fs.cpSync(path.join(root, "examples", "late"), example, { recursive: true });
    const data = { items: [], files: [example], dragOperationsMask: 1 };
    for (const type of ["dragEnter", "dragOver", "drop"]) await page.send("Input.dispatchDragEvent", { type, x: 300, y: 300, data });
    hold("a folder that is dropped is opened", await page.until("redplayPage.state.name === 'your folder'", 5000));
    await quiet(page);
    same("its files are those of the folder", await page.eval("redplayPage.state.files.map(file => file.name).join()"), fs.readdirSync(path.join(example, "service")).sort().join());
    hold("and its late scenes", await page.eval("document.getElementById('late').value") === fs.readFileSync(path.join(example, "late"), "utf8").trim().split("\n").join(" "));
    await page.send("Browser.setDownloadBehavior", { behavior: "allow", downloadPath: folder });
    await page.eval("delete globalThis.showDirectoryPicker; void Object.defineProperty(globalThis, 'showDirectoryPicker', { value: undefined, configurable: true })");
    await page.click("#save");
    const zip = path.join(folder, "your folder.zip");
    for (let at = 0; at < 100 && !fs.existsSync(zip); at++) await new Promise(resolve => setTimeout(resolve, 50));
    hold("it is saved as an archive", fs.existsSync(zip) && holdsFiles(fs.readFileSync(zip), path.join(example, "service")));
    fs.rmSync(folder, { recursive: true, force: true });
}

/** Whether an archive without compression holds each file of a folder, whole. */
const holdsFiles = (zip, folder) => fs.readdirSync(folder).every(name =>
    zip.includes(Buffer.from(name)) && zip.includes(fs.readFileSync(path.join(folder, name))));
