"""What the script of a case leaves undone of its service, and why. `redtry cover` tells what; it is kept in suite/undone, a file a family:

    case lists/wraps
    listens s 700 to 704, s 706
    key s 301

An effect is called by its group and its object: `s 301` is that of link 301 of the group s.
"""
import os
import re

TOP = os.path.join(os.path.dirname(os.path.dirname(os.path.abspath(__file__))), "undone")
WHY = {
    "listens": "it writes into the log what it hears, and hears nothing: that nothing is told is part of the rule",
    "key": "the key for which it waits is not pressed in its scene, or goes to another object",
    "event": "the event for which it waits does not come while it listens: that is part of the rule, or another case has the same service, and feeds it",
    "slot": "no action calls this slot: the others are what is asked, or another case calls it",
    "group": "nothing leads there: that it is not entered is part of the rule, or another case goes there",
    "behind": "what stands behind a transition is thrown away",
    "stuck": "what is stuck does nothing",
}
LINE = re.compile(r"(never|part) (.+?) (\d+) (OnStartUp|OnCloseDown|LinkEffect|slot \d+ of member \d+), \d+ of \d+")


def item_of(text, number):
    """The text of a link; nothing where there is none."""
    found = re.search(r"\{:Link 0*%s\b" % number, text)
    depth, at = 0, found.start() if found else len(text)
    for end in range(at, len(text)):
        depth += {"{": 1, "}": -1}.get(text[end], 0)
        if depth == 0:
            return text[at:end + 1]
    return ""


def writes_only(item):
    """Whether all that a link does is to write into the log."""
    actions = set(re.findall(r":([A-Z]\w+) \(", item.partition(":LinkEffect")[2])) - {"IndirectRef"}
    return bool(actions) and actions <= {"Append", "SetData"}


def kind_of(line, texts, away):
    """Why an effect is not done: a word of WHY. `away` are the groups that are not entered."""
    found = LINE.match(line)
    if not found or found.group(2) in away:
        return "group"
    how, group, number, effect = found.groups()
    if effect.startswith("slot"):
        return "slot"
    item = item_of(texts[group], number) if effect == "LinkEffect" else texts[group].partition(":" + effect)[2].partition("\n")[0]
    if how == "part":
        return "behind" if re.search(r":(TransitionTo|Launch|Quit) ", item) else "stuck"
    if writes_only(item):
        return "listens"
    return "key" if ":EventType UserInput" in item else "event" if effect == "LinkEffect" else "stuck"


def effect_of(line):
    """How an effect is called: `s 301`, `s 0 OnStartUp`, `s 20 slot 1 of member 2`, `scene t`."""
    found = LINE.match(line)
    if not found:
        return line.partition(" ")[2]
    _, group, number, effect = found.groups()
    return "%s %s" % (group, number) + ("" if effect == "LinkEffect" else " " + effect)


def spans(effects):
    """The same effects, with links whose numbers follow one another as one: `s 700 to 704`."""
    made, last = [], None
    for effect in effects:
        group, _, number = effect.rpartition(" ")
        now = (group, int(number)) if number.isdigit() and not group.endswith("member") else None
        if now and last and now == (last[0], last[1] + 1):
            made[-1] = "%s to %d" % (made[-1].partition(" to ")[0], now[1])
        else:
            made.append(effect)
        last = now
    return made


def single(effects):
    """The same effects, each by itself."""
    for effect in effects:
        first, _, last = effect.partition(" to ")
        group, _, number = first.rpartition(" ")
        yield from ["%s %d" % (group, at) for at in range(int(number), int(last) + 1)] if last else [effect]


def left_out(told):
    """The lines of `redtry cover` of what is not done, or not whole."""
    return [line for line in told.splitlines() if line.startswith(("never ", "part "))]


def effects_of(told):
    return [effect_of(line) for line in left_out(told)]


def sorted_out(told, texts):
    """What `redtry cover` tells of effects and groups that are not done, by the word for the reason."""
    found, lines = {}, left_out(told)
    away = {line.split(" ", 2)[2] for line in lines if not LINE.match(line)}
    for line in lines:
        found.setdefault(kind_of(line, texts, away), []).append(effect_of(line))
    return {word: spans(effects) for word, effects in found.items()}


def path_of(family):
    return os.path.join(TOP, family + ".txt")


def write_family(family, undone):
    """Keeps what is undone of the cases of a family that leave something undone: pairs of an id and effects by reason."""
    told = ["case %s\n" % name + "".join("%s %s\n" % (word, ", ".join(effects)) for word, effects in found.items()) for name, found in undone if found]
    if told:
        os.makedirs(TOP, exist_ok=True)
        with open(path_of(family), "w", encoding="utf-8", newline="\n") as file:
            file.write("".join(told))
    elif os.path.exists(path_of(family)):
        os.remove(path_of(family))


def read_family(family):
    """What is undone in each case of a family, by its name."""
    found, now = {}, None
    if os.path.exists(path_of(family)):
        with open(path_of(family), encoding="utf-8", newline="\n") as file:
            for line in file.read().splitlines():
                word, _, rest = line.partition(" ")
                if word == "case":
                    now = found[rest] = {}
                else:
                    now[word] = rest.split(", ")
    return found
