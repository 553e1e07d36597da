// The worker: it has the module, and does what the page asks for, one thing after another. A play makes so many steps at a
// time, so that a service that never settles leaves time for what is asked next.
import { loadLibrary } from "./library.mjs";

let library = null;

/** How a play stands: what was told since the last time, how many steps were taken, and the picture. */
function standing(number) {
    if (number) return { number };
    return { number: 0, lines: library.lines(), counts: library.counts(), cells: library.cells() };
}

const answers = {
    load: async bytes => { library = await loadLibrary(bytes); return library.calls.redpage_version(); },
    pages: () => library.pages(),
    check: service => library.check(service),
    findings: (service, folder, all) => library.findings(service, folder, all),
    report: (...words) => library.report(...words),
    trace: (...words) => library.trace(...words),
    cover: (...words) => library.cover(...words),
    find: (...words) => library.find(...words),
    convert: (...words) => library.convert(...words),
    open: (service, day) => standing(library.open(service, day)),
    obey: script => standing(library.obey(script)),
    look: () => ({ state: library.state(), objects: library.objects() }),
    object: (group, number) => library.object(group, number),
    at: (row, column) => library.at(row, column),
};

self.onmessage = async ({ data: { id, name, words } }) => {
    try {
        self.postMessage({ id, made: await answers[name](...words) });
    } catch (error) {
        self.postMessage({ id, error: String(error?.message ?? error) });
    }
};
