// The calls of crates/redplay_page over its module. Addresses and lengths are BigInt there: the module has addresses of 64 bits.

import { CELLS } from "./cells.mjs";

const FIRST_ROOM = 65536;
const encoder = new TextEncoder(), decoder = new TextDecoder();
const bytesOf = text => typeof text === "string" ? encoder.encode(text) : text;

/** Makes the library of a module's bytes. */
export async function loadLibrary(bytes) {
    const { instance } = await WebAssembly.instantiate(bytes, {});
    return new Library(instance.exports);
}

/** Memory of the module. A view of it is made anew each time, since the memory may have grown. */
class Memory {
    constructor(calls) { this.calls = calls; }

    /** Lends rooms to a call, and takes them back behind it. */
    lend(call) {
        const rooms = [];
        const room = count => {
            const at = this.calls.redplay_room(BigInt(count));
            if (!at) throw new Error("no memory for what is handed in");
            rooms.push(at);
            return at;
        };
        const give = words => {
            const bytes = bytesOf(words), at = room(bytes.length);
            this.bytes(at, bytes.length).set(bytes);
            return [at, BigInt(bytes.length)];
        };
        try { return call(give, room); } finally { rooms.forEach(at => this.calls.redplay_leave(at)); }
    }

    longs(at, count) { return new BigUint64Array(this.calls.memory.buffer, Number(at), count); }
    words(at, count) { return new Uint32Array(this.calls.memory.buffer, Number(at), count); }
    bytes(at, count) { return new Uint8Array(this.calls.memory.buffer, Number(at), count); }
}

/** A service is { files: [[name, bytes]], start, late }, of which `late` names scenes, a path a line. */
export class Library {
    constructor(calls) {
        this.calls = calls;
        this.memory = new Memory(calls);
        this.handle = calls.redplay_room(8n);
        this.memory.longs(this.handle, 1)[0] = 0n;
    }

    /** The pages of 64 KB that the module has. */
    pages() { return this.calls.memory.buffer.byteLength / 65536; }

    /** Asks for a text. Where the room was too small, it asks once more. */
    text(call) {
        for (let size = FIRST_ROOM; ;) {
            const told = this.memory.lend((give, room) => {
                const text = room(size), length = room(8);
                this.memory.longs(length, 1)[0] = 0n;
                const number = call(give, room, text, BigInt(size), length);
                const count = Number(this.memory.longs(length, 1)[0]);
                return { number, count, bytes: this.memory.bytes(text, Math.min(count, size)).slice() };
            });
            if (told.count <= size) return told;
            size = told.count;
        }
    }

    /** Asks for a text on a service; `between` gives what stands between the service and the room. */
    ask(name, service, between = () => []) {
        const told = this.text((give, room, ...rest) =>
            this.calls[name](...this.lent(service, give, room), ...between(give), ...rest));
        return { number: told.number, text: decoder.decode(told.bytes) };
    }

    files({ files }, give, room) {
        const rows = files.flatMap(([name, bytes]) => [...give(name), ...give(bytes)]);
        const table = room(8 * Math.max(rows.length, 1));
        this.memory.longs(table, rows.length).set(rows);
        return [table, BigInt(files.length)];
    }

    lent(service, give, room) {
        return [...this.files(service, give, room), ...give(service.start ?? "a"), ...give(service.late ?? "")];
    }

    check(service) { return this.ask("redpage_check", service); }

    findings(service, folder, all = false) {
        const told = this.text((give, room, ...rest) => this.calls.redpage_findings(
            ...this.files(service, give, room), ...give(folder), ...give(service.start ?? "a"), ...give(service.late ?? ""),
            all ? 1 : 0, ...rest));
        return { number: told.number, text: decoder.decode(told.bytes) };
    }

    report(service, script, day, lenient) {
        return this.ask("redpage_report", service, give => [...give(script), day, lenient ? 1 : 0]);
    }

    trace(service, script, day, objects = false) {
        return this.ask("redpage_trace", service, give => [...give(script), day, objects ? 1 : 0]);
    }

    cover(service, script, day) { return this.ask("redpage_cover", service, give => [...give(script), day]); }
    find(service, inputs, steps, day) { return this.ask("redpage_find", service, () => [inputs, steps, day]); }

    convert(name, bytes, binary) {
        const told = this.text((give, room, ...rest) =>
            this.calls.redpage_convert(...give(name), ...give(bytes), binary ? 1 : 0, ...rest));
        return { number: told.number, bytes: told.bytes };
    }

    // ---- A play that goes on ----

    /** Begins a play, in the place of the one before. */
    open(service, day, objects = false) {
        this.close();
        return this.memory.lend((give, room) =>
            this.calls.redpage_start(this.handle, ...this.lent(service, give, room), day, objects ? 1 : 0));
    }

    close() { return this.calls.redpage_free(this.handle); }
    obey(script) { return this.memory.lend(give => this.calls.redpage_obey(this.handle, ...give(script))); }

    /** The lines since the last call. */
    lines() {
        const told = this.text((_give, _room, ...rest) => this.calls.redpage_lines(this.handle, ...rest));
        this.calls.redpage_fetched(this.handle);
        return decoder.decode(told.bytes);
    }

    counts() {
        return this.memory.lend((_give, room) => {
            const at = room(24);
            this.calls.redpage_counts(this.handle, at);
            const [taken, faults, rest] = this.memory.longs(at, 3);
            return { taken: Number(taken), faults: Number(faults), rest: ["more", "idle", "ended"][Number(rest)] };
        });
    }

    /** All cells: character, its colour and the colour behind it, three numbers a cell. */
    cells() {
        return this.memory.lend((_give, room) => {
            const at = room(12 * CELLS);
            const why = this.calls.redpage_cells(this.handle, 0n, at, BigInt(CELLS));
            return why ? null : this.memory.words(at, 3 * CELLS).slice();
        });
    }

    look(call) { return decoder.decode(this.text(call).bytes); }
    state() { return this.look((_give, _room, ...rest) => this.calls.redpage_state(this.handle, ...rest)); }
    objects() { return this.look((_give, _room, ...rest) => this.calls.redpage_objects(this.handle, ...rest)); }

    object(group, number) {
        return this.look((give, _room, ...rest) => this.calls.redpage_object(this.handle, ...give(group), number, ...rest));
    }

    at(row, column) {
        return this.look((_give, _room, ...rest) =>
            this.calls.redpage_at(this.handle, BigInt(row), BigInt(column), ...rest));
    }
}
