// `Engine`: the worker as the page sees it. Each call answers a promise. What takes too long can be broken off: then the worker
// is ended, and another is begun.

export class Engine {
    /** Of the text of the worker's script, and of what gives the module's bytes. */
    constructor(script, moduleBytes) {
        this.url = URL.createObjectURL(new Blob([script], { type: "text/javascript" }));
        this.moduleBytes = moduleBytes;
        this.waiting = new Map();
        this.last = 0;
        this.onBusy = () => {};
    }

    async begin() {
        this.worker = new Worker(this.url);
        this.worker.onmessage = ({ data }) => this.hear(data);
        this.worker.onerror = event => this.failAll(event.message ?? "the worker failed");
        return this.call("load", await this.moduleBytes());
    }

    hear({ id, made, error }) {
        const asked = this.waiting.get(id);
        if (!asked) return;
        this.waiting.delete(id);
        this.onBusy(this.waiting.size > 0);
        if (error === undefined) asked.resolve(made);
        else asked.reject(new Error(error));
    }

    failAll(why) {
        const all = [...this.waiting.values()];
        this.waiting.clear();
        this.onBusy(false);
        all.forEach(asked => asked.reject(new Error(why)));
    }

    call(name, ...words) {
        const id = ++this.last;
        return new Promise((resolve, reject) => {
            this.waiting.set(id, { resolve, reject });
            this.onBusy(true);
            this.worker.postMessage({ id, name, words });
        });
    }

    /** Ends what runs, and begins anew. */
    async breakOff() {
        this.worker.terminate();
        this.failAll("broken off");
        return this.begin();
    }
}

/** Whether the browser has addresses of 64 bits: a module of one memory that has them. */
export function hasLongAddresses() {
    return WebAssembly.validate(new Uint8Array([0, 97, 115, 109, 1, 0, 0, 0, 5, 3, 1, 4, 1]));
}
