// What the programs print: `redplay`, `redlook` and `redtry` as they stand on the path, or as REDPLAY, REDLOOK and REDTRY name them.
import { spawnSync } from "node:child_process";
import fs from "node:fs";
import os from "node:os";
import path from "node:path";

const program = name => process.env[name.toUpperCase()] ?? name;

function printed(name, words) {
    const ran = spawnSync(program(name), words, { encoding: "buffer", maxBuffer: 1 << 28 });
    if (ran.error) throw new Error(`${program(name)}: ${ran.error.message}`);
    return { text: ran.stdout.toString("utf8"), status: ran.status };
}

/** Lays a service out in a folder, and answers the words that the programs take of it. */
export function laidOut(example) {
    const folder = fs.mkdtempSync(path.join(os.tmpdir(), "redplay-service-")), service = path.join(folder, "service");
    for (const [name, bytes] of example.files) {
        const file = path.join(service, name);
        fs.mkdirSync(path.dirname(file), { recursive: true });
        fs.writeFileSync(file, bytes);
    }
    const late = path.join(folder, "late"), script = path.join(folder, "script");
    if (example.late) fs.writeFileSync(late, example.late);
    fs.writeFileSync(script, example.script ?? "run\n");
    const rest = example.late ? ["--late", late] : [];
    return {
        folder: service,
        check: () => printed("redplay", ["check", service, ...rest]),
        play: lenient => printed("redplay", ["play", service, "--script", script, ...rest, ...lenient ? ["--lenient"] : []]),
        findings: all => printed("redlook", ["check", service, "--format", "json", ...rest, ...all ? ["--all"] : []]),
        trace: objects => printed("redtry", ["trace", service, "--script", script, ...rest, ...objects ? ["--format", "json"] : []]),
        cover: () => printed("redtry", ["cover", service, script, ...rest]),
        remove: () => fs.rmSync(folder, { recursive: true, force: true }),
    };
}
