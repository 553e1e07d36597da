// Two reports, line against line: the shortest way from the wanted one to the actual one (Myers).

/** The most differences that are looked for; beyond them the rest is told as differing. */
const MOST = 400;

/** The lines of both, each as [sort, line], where the sort is "same", "wanted" or "actual". */
export function differencesOf(wanted, actual) {
    let first = 0;
    while (first < wanted.length && first < actual.length && wanted[first] === actual[first]) first++;
    let behind = 0;
    while (behind < wanted.length - first && behind < actual.length - first &&
        wanted.at(-1 - behind) === actual.at(-1 - behind)) behind++;
    const middle = shortest(wanted.slice(first, wanted.length - behind), actual.slice(first, actual.length - behind));
    return [...wanted.slice(0, first).map(line => ["same", line]), ...middle,
        ...wanted.slice(wanted.length - behind).map(line => ["same", line])];
}

function shortest(a, b) {
    const trace = [], reach = new Map([[1, 0]]);
    for (let most = 0; most <= Math.min(a.length + b.length, MOST); most++) {
        trace.push(new Map(reach));
        for (let k = -most; k <= most; k += 2) {
            let x = k === -most || (k !== most && (reach.get(k - 1) ?? -1) < (reach.get(k + 1) ?? -1))
                ? reach.get(k + 1) ?? 0 : reach.get(k - 1) + 1;
            let y = x - k;
            while (x < a.length && y < b.length && a[x] === b[y]) { x++; y++; }
            reach.set(k, x);
            if (x >= a.length && y >= b.length) return wayBack(trace, a, b, most);
        }
    }
    return [...a.map(line => ["wanted", line]), ...b.map(line => ["actual", line])];
}

function wayBack(trace, a, b, most) {
    const told = [];
    let [x, y] = [a.length, b.length];
    for (let d = most; d >= 0; d--) {
        const reach = trace[d], k = x - y;
        const down = k === -d || (k !== d && (reach.get(k - 1) ?? -1) < (reach.get(k + 1) ?? -1));
        const before = down ? k + 1 : k - 1, fromX = d === 0 ? 0 : reach.get(before) ?? 0, fromY = d === 0 ? 0 : fromX - before;
        while (x > fromX && y > fromY && x > 0 && y > 0 && a[x - 1] === b[y - 1]) { told.push(["same", a[x - 1]]); x--; y--; }
        if (d === 0) break;
        if (down) { told.push(["actual", b[y - 1]]); y--; } else { told.push(["wanted", a[x - 1]]); x--; }
    }
    return told.reverse();
}
