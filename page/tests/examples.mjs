// Each example: what the page tells of it is what the programs print.
import { quiet, same } from "./holding.mjs";
import { frameLines, reportFrames } from "./pictures.mjs";
import { laidOut } from "./programs.mjs";

export async function tryExamples(page) {
    const names = await page.eval("Object.keys(redplayPage.state.examples)");
    for (const name of names) await tryExample(page, name);
    return names.length;
}

async function tryExample(page, name) {
    await page.eval(`redplayPage.openExample(${JSON.stringify(name)})`);
    await quiet(page);
    const given = await page.eval(`redplayPage.state.examples[${JSON.stringify(name)}]`);
    const wanted = laidOut({ ...given, files: given.files.map(([file, text]) => [file, Buffer.from(text, "base64")]) });
    try { await holdExample(page, name, given, wanted); } finally { wanted.remove(); }
}

async function holdExample(page, name, given, wanted) {
    const verdict = wanted.check(), shown = await page.eval("redplayPage.state.verdict.text");
    same(`${name}: verdict`, shown, verdict.text);
    const seen = await page.eval("document.getElementById('verdict').textContent");
    same(`${name}: verdict on the page`, seen, verdict.status ? verdict.text.split("\n")[0] : "accepted");
    for (const all of [false, true]) {
        const told = await page.eval(`redplayPage.engine.call("findings", redplayPage.player.service, ${JSON.stringify(wanted.folder)}, ${all})`);
        same(`${name}: findings${all ? ", all" : ""}`, told.text, wanted.findings(all).text);
    }
    const items = await page.eval("document.querySelectorAll('#findings li').length");
    same(`${name}: findings on the page`, String(items), String(wanted.findings(false).text.split("\n").length - 1));
    if (verdict.status === 2) return;
    await holdScript(page, name, given.script ?? "run\n", wanted, verdict.status !== 0);
}

async function holdScript(page, name, script, wanted, lenient) {
    await page.eval(`redplayPage.playFromStart(${JSON.stringify(script)})`);
    await quiet(page);
    const report = wanted.play(lenient).text;
    const told = await page.eval(`redplayPage.engine.call("report", redplayPage.player.service, ${JSON.stringify(script)}, 60000, ${lenient})`);
    same(`${name}: report`, told.text, report);
    const entries = await page.eval("redplayPage.player.entries.map(entry => ({ script: entry.script, cells: entry.cells && [...entry.cells] }))");
    if (entries.every(entry => entry.cells)) same(`${name}: pictures`, frameLines(entries).join("\n"), reportFrames(report).join("\n"));
    const trace = wanted.trace(false).text;
    const lines = await page.eval("redplayPage.state.lines.join('\\n')");
    same(`${name}: trace on the page`, lines, trace.replace(/total \d+\n$/, "").trimEnd());
    for (const objects of [false, true]) {
        const asked = await page.eval(`redplayPage.engine.call("trace", redplayPage.player.service, ${JSON.stringify(script)}, 60000, ${objects})`);
        same(`${name}: trace${objects ? " as objects" : ""}`, asked.text, wanted.trace(objects).text);
    }
    const cover = await page.eval(`redplayPage.engine.call("cover", redplayPage.player.service, ${JSON.stringify(script)}, 60000)`);
    same(`${name}: coverage`, cover.text, wanted.cover().text);
}
