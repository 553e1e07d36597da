// Services: opened from a folder, taken from a link, and saved. Nothing leaves the browser: a link has the compressed files
// behind its `#`, which is not sent anywhere.

const encoder = new TextEncoder(), decoder = new TextDecoder("utf-8", { fatal: true });

/** The text of a file, or null where it is none. */
export function textOf(bytes) {
    try {
        const text = decoder.decode(bytes);
        return text.includes("\u0000") ? null : text;
    } catch {
        return null;
    }
}

export const bytesOfText = text => encoder.encode(text);

const toBase64 = bytes => {
    let text = "";
    for (let at = 0; at < bytes.length; at += 32768) text += String.fromCharCode(...bytes.subarray(at, at + 32768));
    return btoa(text).replaceAll("+", "-").replaceAll("/", "_").replaceAll("=", "");
};
export const fromBase64 = text =>
    Uint8Array.from(atob(text.replaceAll("-", "+").replaceAll("_", "/")), character => character.charCodeAt(0));

async function through(bytes, stream) {
    return new Uint8Array(await new Response(new Blob([bytes]).stream().pipeThrough(stream)).arrayBuffer());
}
export const unpacked = bytes => through(bytes, new DecompressionStream("gzip"));

/** A service as what stands behind the `#` of a link. */
export async function linkOf(service) {
    const files = service.files.map(([name, bytes]) => [name, toBase64(bytes)]);
    const text = JSON.stringify({ ...service, files });
    return "s=" + toBase64(await through(encoder.encode(text), new CompressionStream("gzip")));
}

export async function serviceOfLink(word) {
    const read = JSON.parse(textOf(await unpacked(fromBase64(word))));
    return { ...read, files: read.files.map(([name, text]) => [name, fromBase64(text)]) };
}

// ---- Folders ----

async function filesOfEntry(entry, below) {
    const path = below ? `${below}/${entry.name}` : entry.name;
    if (entry.isFile) {
        const file = await new Promise((resolve, reject) => entry.file(resolve, reject));
        return [[path, new Uint8Array(await file.arrayBuffer())]];
    }
    const reader = entry.createReader(), all = [];
    for (;;) {
        const some = await new Promise((resolve, reject) => reader.readEntries(resolve, reject));
        if (!some.length) return all;
        for (const one of some) all.push(...await filesOfEntry(one, path));
    }
}

async function filesOfHandle(handle, below) {
    const path = below ? `${below}/${handle.name}` : handle.name;
    if (handle.kind === "file") return [[path, new Uint8Array(await (await handle.getFile()).arrayBuffer())]];
    const all = [];
    for await (const one of handle.values()) all.push(...await filesOfHandle(one, path));
    return all;
}

/**
 * The files that were dropped: of one folder those in it, else all. A page that is opened from the disk may read folders by
 * handles alone, where the browser has them; what was dropped is asked for at once, since it is gone behind the event.
 */
export async function filesDropped(transfer) {
    const items = [...transfer.items].filter(item => item.kind === "file");
    const asked = items.map(item => item.getAsFileSystemHandle ? item.getAsFileSystemHandle() : item.webkitGetAsEntry());
    const dropped = (await Promise.all(asked)).filter(Boolean);
    const found = (await Promise.all(dropped.map(one => one.createReader || one.file ? filesOfEntry(one, "") : filesOfHandle(one, "")))).flat();
    const isFolder = dropped.length === 1 && (dropped[0].isDirectory || dropped[0].kind === "directory");
    return serviceOfFiles(isFolder ? withoutFirst(found) : found);
}

export async function filesChosen(list) {
    const found = await Promise.all([...list].map(async file =>
        [file.webkitRelativePath || file.name, new Uint8Array(await file.arrayBuffer())]));
    return serviceOfFiles(found.every(([path]) => path.includes("/")) ? withoutFirst(found) : found);
}

const withoutFirst = files => files.map(([path, bytes]) => [path.split("/").slice(1).join("/"), bytes]);

/** A service of a folder. A folder of an example has the service in a folder of its own, and files beside it. */
export function serviceOfFiles(found) {
    const files = found.filter(([path]) => !path.split("/").some(part => part.startsWith("."))).sort((a, b) => a[0] < b[0] ? -1 : 1);
    const inside = files.filter(([path]) => path.startsWith("service/"));
    if (!inside.length) return { files };
    const beside = name => { const file = files.find(([path]) => path === name); return file ? textOf(file[1]) ?? "" : undefined; };
    return { files: withoutFirst(inside), script: beside("script"), late: beside("late"), report: beside("report") };
}

/** Saves the files as a folder: into one that is chosen, where the browser lets one choose; else as an archive (ZIP). */
export async function save(service, name) {
    if (globalThis.showDirectoryPicker) {
        const folder = await globalThis.showDirectoryPicker({ mode: "readwrite" });
        for (const [path, bytes] of service.files) await writeInto(folder, path.split("/"), bytes);
        return `saved ${service.files.length} files into the folder ${folder.name}`;
    }
    download(zipOf(service.files), `${name}.zip`);
    return `saved ${name}.zip`;
}

async function writeInto(folder, parts, bytes) {
    for (const part of parts.slice(0, -1)) folder = await folder.getDirectoryHandle(part, { create: true });
    const file = await (await folder.getFileHandle(parts.at(-1), { create: true })).createWritable();
    await file.write(bytes);
    await file.close();
}

export function download(bytes, name, type = "application/octet-stream") {
    const link = document.createElement("a");
    link.href = URL.createObjectURL(new Blob([bytes], { type }));
    link.download = name;
    link.click();
    setTimeout(() => URL.revokeObjectURL(link.href), 10000);
}

// ---- An archive without compression ----

const CHECKS = Uint32Array.from({ length: 256 }, (_, byte) => {
    for (let at = 0; at < 8; at++) byte = byte & 1 ? byte >>> 1 ^ 0xedb88320 : byte >>> 1;
    return byte;
});
const checkOf = bytes => ~bytes.reduce((sum, byte) => sum >>> 8 ^ CHECKS[(sum ^ byte) & 255], ~0) >>> 0;

/** Numbers of two bytes and of four, as [number, size], the low byte first. */
const packed = (...numbers) => Uint8Array.from(numbers.flatMap(([number, size]) =>
    Array.from({ length: size }, (_, at) => number / 256 ** at & 255)));

export function zipOf(files) {
    const parts = [], heads = [];
    let offset = 0, headSize = 0;
    for (const [path, bytes] of files) {
        const name = encoder.encode(path), common = [[2048, 2], [0, 2], [0, 2], [33, 2], [checkOf(bytes), 4], [bytes.length, 4],
            [bytes.length, 4], [name.length, 2], [0, 2]];
        const local = packed([0x04034b50, 4], [20, 2], ...common);
        const head = packed([0x02014b50, 4], [20, 2], [20, 2], ...common, [0, 2], [0, 2], [0, 2], [0, 4], [offset, 4]);
        parts.push(local, name, bytes);
        heads.push(head, name);
        offset += local.length + name.length + bytes.length;
        headSize += head.length + name.length;
    }
    const end = packed([0x06054b50, 4], [0, 2], [0, 2], [files.length, 2], [files.length, 2], [headSize, 4], [offset, 4], [0, 2]);
    const all = [...parts, ...heads, end], zip = new Uint8Array(all.reduce((sum, part) => sum + part.length, 0));
    all.reduce((at, part) => { zip.set(part, at); return at + part.length; }, 0);
    return zip;
}
