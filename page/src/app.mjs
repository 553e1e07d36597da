// What the parts of the page share: the engine, the play, what is shown, and the files as they are now.
import { Engine } from "./engine.mjs";
import { Player } from "./player.mjs";
import { Screen } from "./screen.mjs";
import { Editor } from "./editor.mjs";
import { fromBase64, unpacked } from "./services.mjs";

export const $ = id => document.getElementById(id);

export const unpackedScript = async id => unpacked(fromBase64($(id).textContent.trim()));
export const state = {
    name: "", files: [], shown: 0, late: "", start: "a", script: "", findings: [], verdict: null, lines: [], clock: null,
    examples: {}, view: "trace", ownHash: "",
};
export const engine = new Engine($("worker-script").textContent, () => unpackedScript("module"));
export const player = new Player(engine);
export const screen = new Screen($("screen"), $("pointer"));
export const editor = new Editor($("editor"));

export const note = words => { $("note").textContent = words; };
export const service = () => ({
    files: state.files.map(file => [file.name, file.bytes]), start: state.start,
    late: state.late.split(/\s+/).filter(Boolean).map(name => name + "\n").join(""),
});
export const textIn = name => state.files.find(file => file.name === name)?.text ?? null;
