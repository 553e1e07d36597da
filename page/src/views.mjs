// Lists of tabs and of options, by the keyboard as the accessibility guides want it; and lines with places.

/** Tabs that arrows, Home and End go through. `choose` is told the tab. */
export function walkTabs(list, choose) {
    list.addEventListener("click", event => {
        const tab = event.target.closest("[role=tab]");
        if (tab) choose(tab);
    });
    list.addEventListener("keydown", event => {
        const tabs = [...list.querySelectorAll("[role=tab]")], at = tabs.indexOf(event.target.closest("[role=tab]"));
        const to = { ArrowRight: at + 1, ArrowLeft: at - 1, Home: 0, End: tabs.length - 1 }[event.key];
        if (at < 0 || to === undefined) return;
        event.preventDefault();
        event.stopPropagation();
        const tab = tabs[(to + tabs.length) % tabs.length];
        choose(tab);
        list.querySelector("[aria-selected=true]")?.focus();
    });
}

/** One tab is selected, and its panel is seen. */
export function selectTab(list, tab) {
    for (const other of list.querySelectorAll("[role=tab]")) {
        const on = other === tab, panel = document.getElementById(other.getAttribute("aria-controls"));
        other.setAttribute("aria-selected", on);
        other.tabIndex = on ? 0 : -1;
        if (panel && list.id === "views") panel.hidden = !on;
    }
}

export function element(name, properties = {}, ...inside) {
    const made = Object.assign(document.createElement(name), properties);
    made.append(...inside);
    return made;
}

/** A button that leads to a place. */
export function placeButton(words, go) {
    const button = element("button", { type: "button", className: "place", textContent: words });
    button.addEventListener("click", go);
    return button;
}

/** A line in which `file:line:column` is a button. */
export function lineWithPlace(line, go) {
    const found = / at ([^ ]+):(\d+):(\d+)/.exec(line);
    const sort = /^fault|; fault/.test(line) ? "fault" : /^(post|did|show|total|file)\b/.test(line) ? "command" : "";
    if (!found) return element("div", { className: sort, textContent: line });
    const [, name, row, column] = found, first = found.index + 4, behind = found.index + found[0].length;
    return element("div", { className: sort }, line.slice(0, first),
        placeButton(line.slice(first, behind), () => go(name, Number(row), Number(column))), line.slice(behind));
}
