// node page/bundle.mjs MODULE OUT: one file that is opened from the disk: the module and the examples, compressed, with the
// scripts and the style of page/src.
import fs from "node:fs";
import path from "node:path";
import zlib from "node:zlib";
import { fileURLToPath } from "node:url";
import { gather } from "../bench/web/folder.mjs";

const here = path.dirname(fileURLToPath(import.meta.url)), root = path.dirname(here);
const read = name => fs.readFileSync(path.join(here, "src", name), "utf8");
const packed = bytes => zlib.gzipSync(bytes, { level: 9 }).toString("base64");

/** The text of a module and of those that it imports, each once, without the words that tie them. */
function joined(name, done = new Set()) {
    if (done.has(name)) return "";
    done.add(name);
    const text = read(name);
    const below = [...text.matchAll(/^import [^;]*? from "\.\/([\w.]+)";$/gm)].map(found => joined(found[1], done)).join("");
    return below + text.replace(/^import [^;]*? from "\.\/[\w.]+";$\n?/gm, "").replace(/^export /gm, "");
}

const optional = file => fs.existsSync(file) ? fs.readFileSync(file, "utf8") : undefined;

/** The examples: of each its files, and what stands beside them. */
function examples() {
    const folder = path.join(root, "examples"), found = {};
    const names = ["first", "vote", "menu", "quiz", "clock", "guide", "page", "late", "silent", "broken",
        ...fs.readdirSync(path.join(folder, "recipes")).sort().map(name => `recipes/${name}`)];
    for (const name of names) {
        const at = path.join(folder, name);
        if (!fs.existsSync(path.join(at, "service"))) continue;
        found[name] = {
            files: gather(path.join(at, "service")).sort((a, b) => a[0] < b[0] ? -1 : 1).map(([file, bytes]) => [file, bytes.toString("base64")]),
            late: optional(path.join(at, "late")), script: optional(path.join(at, "script")), report: optional(path.join(at, "report")),
        };
    }
    return found;
}

const [module, out] = process.argv.slice(2);
const page = read("index.html")
    .replace("/* STYLE */", () => read("style.css"))
    .replace("/* WORKER */", () => joined("worker.mjs").replaceAll("</script", "<\\/script"))
    .replace("MODULE", () => packed(fs.readFileSync(module)))
    .replace("EXAMPLES", () => packed(JSON.stringify(examples())))
    .replace("/* SCRIPT */", () => joined("main.mjs").replaceAll("</script", "<\\/script"));
fs.writeFileSync(out, page);
console.log(`page: ${out} (${page.length} bytes, ${zlib.gzipSync(page, { level: 9 }).length} compressed)`);
