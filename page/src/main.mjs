// The page: services that are opened, saved and shared, colours, the keyboard, and how it all begins.
import { $, editor, engine, note, player, screen, service, state, unpackedScript } from "./app.mjs";
import { hasLongAddresses } from "./engine.mjs";
import { convertFile, goTo, openService } from "./files.mjs";
import { mendHere, nextFinding } from "./mending.mjs";
import { press, stopClock } from "./playing.mjs";
import { download, filesChosen, filesDropped, fromBase64, linkOf, save, serviceOfLink, textOf } from "./services.mjs";
import { playFromStart } from "./telling.mjs";

const KEYBOARD = {
    ArrowUp: "up", ArrowDown: "down", ArrowLeft: "left", ArrowRight: "right", Enter: "select", Escape: "cancel",
    r: "red", g: "green", y: "yellow", b: "blue", t: "text",
};
/** How long a call may take before it can be broken off. */
const PATIENCE = 1500;

// ---- Opening, saving, sharing ----

const attempt = call => async (...words) => {
    try { await call(...words); } catch (error) { if (error.name !== "AbortError") note(String(error.message ?? error)); }
};
$("open").addEventListener("click", () => $("folder").click());
$("folder").addEventListener("change", attempt(async event => openService("your folder", await filesChosen(event.target.files))));
$("convert").addEventListener("click", attempt(convertFile));
$("save").addEventListener("click", attempt(async () => note(await save(service(), state.name.replaceAll("/", "-")))));
$("link").addEventListener("click", attempt(async () => {
    state.ownHash = await linkOf({ ...service(), script: player.script() });
    location.hash = state.ownHash;
    await navigator.clipboard?.writeText(location.href).catch(() => {});
    note("The link has the files in it; it stands in the address line, and is copied where the browser allows it.");
}));
addEventListener("hashchange", attempt(async () => { if (location.hash.slice(1) !== state.ownHash) await openHash(); }));
addEventListener("dragover", event => { event.preventDefault(); document.body.classList.add("dropping"); });
addEventListener("dragleave", () => document.body.classList.remove("dropping"));
addEventListener("drop", attempt(async event => {
    event.preventDefault();
    document.body.classList.remove("dropping");
    await openService("your folder", await filesDropped(event.dataTransfer));
}));
$("examples").addEventListener("change", attempt(async () => openExample($("examples").value)));

async function openExample(name) {
    const { files, ...rest } = state.examples[name];
    $("examples").value = name;
    await openService(name, { ...rest, files: files.map(([path, text]) => [path, fromBase64(text)]) });
}

// ---- Colours, the keyboard ----

$("theme").addEventListener("click", () => {
    const next = { undefined: "dark", dark: "light", light: undefined }[document.documentElement.dataset.theme];
    if (next) document.documentElement.dataset.theme = next; else delete document.documentElement.dataset.theme;
    $("theme").textContent = `Colours: ${next ?? "system"}`;
    $("theme").setAttribute("aria-label", `Colours: ${next ?? "as the system"}`);
});
$("help").addEventListener("click", () => {
    const open = $("keys-help").hidden;
    $("keys-help").hidden = !open;
    $("help").setAttribute("aria-expanded", open);
});

/** Whether the element takes the key for itself. */
const takes = (target, key) => target.matches("textarea, input:not([type=checkbox]), select") ||
    (/^(Enter| )$/.test(key) && target.matches("button, summary, input, [role=tab]"));

document.addEventListener("keydown", event => {
    if (event.target === editor.area) return editorKey(event);
    if (event.ctrlKey || event.altKey || event.metaKey || takes(event.target, event.key)) return;
    const key = KEYBOARD[event.key] ?? (/^\d$/.test(event.key) ? event.key : null);
    const others = { p: "clock", ".": "step", "[": "back", "]": "forth" };
    if (key) press(key);
    else if (others[event.key]) $(others[event.key]).click();
    else return;
    event.preventDefault();
});

function editorKey(event) {
    if (event.key === "F8") nextFinding();
    else if (event.ctrlKey && event.key === ".") mendHere();
    else return;
    event.preventDefault();
}

let patience = 0;
engine.onBusy = busy => {
    clearTimeout(patience);
    if (busy) patience = setTimeout(() => { $("busy").hidden = false; }, PATIENCE);
    else $("busy").hidden = true;
};
$("break-off").addEventListener("click", attempt(async () => {
    stopClock();
    await engine.breakOff();
    player.queue = Promise.resolve();
    await player.begin(service());
}));

// ---- The beginning ----

async function begin() {
    if (!hasLongAddresses()) {
        note("This browser's WebAssembly has no addresses of 64 bits, which the engine wants: Chromium has them from 133 on, Firefox from 134 on.");
        document.title = "redplay: wants addresses of 64 bits";
        return;
    }
    await engine.begin();
    state.examples = JSON.parse(textOf(await unpackedScript("example-files")));
    $("examples").replaceChildren(...Object.keys(state.examples).map(name => new Option(name, name)));
    await openHash();
    document.documentElement.dataset.ready = "yes";
}

/** Opens what stands behind the `#` of the address: a service, or the name of an example. */
async function openHash() {
    const words = new URLSearchParams(location.hash.slice(1));
    if (words.has("s")) {
        const given = await serviceOfLink(words.get("s"));
        await openService("the link's service", given);
        if (given.script) await playFromStart(given.script);
    } else {
        await openExample(state.examples[words.get("example")] ? words.get("example") : Object.keys(state.examples)[0]);
    }
}

globalThis.redplayPage = { state, engine, player, screen, editor, openExample, openService, playFromStart, goTo, download };
begin().catch(error => note(`The page could not begin: ${error.message}`));
