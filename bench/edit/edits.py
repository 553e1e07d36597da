"""Random edits of the examples: `python3 bench/edit/edits.py [COUNT [SEED]]`, 2,000 edits where nothing is said.

Each edit is told to redlsp once as the range that changes, and once as the whole text, and what is found of the service has to be the
same after each. Then objects get other numbers: the edits of a new number are applied, the number is given back, and the texts and
the findings have to be those from before; and texts with other blanks in front of their lines are laid out, where nothing but these
may change, and nothing when it is done again. Ends with 1 where something differs.
"""
import pathlib
import random
import sys
import tempfile
import shutil
import time

from talk import HERE, Editor

TOP = pathlib.Path(HERE).parents[1]
PIECES = ["{", "}", "(", ")", " ", "\n", "\r\n", "\r", "'", '"', ":Run", ":Link 7", "1", "12", "~/a", "=FF", "x", "// \U0001d11e\n", "\u00e9", "true", ""]
AT_ONCE = 40


def units(text):
    """Returns how many units of 16 bits a text has."""
    return len(text.encode("utf-16-le")) // 2


def place(text, offset):
    """Returns the place of a character as the protocol counts it: lines end with \\n, \\r\\n or \\r."""
    before = text[:offset]
    line, start = 0, 0
    for index, letter in enumerate(before):
        if letter == "\n" or letter == "\r" and text[index + 1 : index + 2] != "\n":
            line, start = line + 1, index + 1
    return line, units(before[start:])


def is_inside_an_end(text, offset):
    return text[offset - 1 : offset + 1] == "\r\n"


def random_change(rng, text):
    """Returns a range of characters, and what stands there then."""
    while True:
        start = rng.randint(0, len(text))
        end = min(len(text), start + rng.choice([0, 0, 1, 2, 5, 20]))
        if not is_inside_an_end(text, start) and not is_inside_an_end(text, end):
            return start, end, rng.choice(PIECES)


def published(notices):
    return [n["params"] for n in notices if n["method"] == "textDocument/publishDiagnostics"]


def compare(rng, folder, name, text, count):
    """Makes some edits, and returns how many notices there were, or None where they differ."""
    parts, whole = Editor(folder), Editor(folder)
    parts.open(name, text)
    whole.open(name, text)
    for _ in range(count):
        changes = []
        for _ in range(rng.choice([1, 1, 2, 3])):
            start, end, new = random_change(rng, text)
            changes.append((place(text, start), place(text, end), new))
            text = text[:start] + new + text[end:]
        parts.change(name, *changes)
        whole.change(name, text)
    first, second = published(parts.play()[1]), published(whole.play()[1])
    if first != second:
        print(f"{folder}/{name}: the findings differ; the last text is {text!r}")
        return None
    return len(first)


def applied(text, edits):
    """Returns a text of lines with line feeds, with edits of it."""
    lines = text.split("\n")
    for edit in sorted(edits, key=lambda e: (e["range"]["start"]["line"], e["range"]["start"]["character"]), reverse=True):
        start, end = edit["range"]["start"], edit["range"]["end"]
        line = lines[start["line"]]
        assert start["line"] == end["line"]
        lines[start["line"]] = line[: start["character"]] + edit["newText"] + line[end["character"] :]
    return "\n".join(lines)


def renumbered(folder, name, at, number):
    """Returns the texts of all files of a service after an object got this number."""
    editor = Editor(folder)
    asked = editor.about("rename", name, at, newName=str(number))
    answer = editor.play()[0][asked]
    texts = {f.name: f.read_bytes().decode() for f in pathlib.Path(folder).iterdir()}
    if "changes" not in answer:
        return None
    for uri, edits in answer["changes"].items():
        key = uri.rsplit("/", 1)[1]
        texts[key] = applied(texts[key], edits)
    return texts


def findings(folder, name):
    editor = Editor(folder)
    editor.open(name, (pathlib.Path(folder) / name).read_bytes().decode())
    return [(p["uri"], [(d["severity"], d["code"]) for d in p["diagnostics"]]) for p in published(editor.play()[1])]


def is_given_back(rng, folder, name):
    """Returns whether an object that gets a number and its own again is what it was, and nothing else is found between."""
    before = {f.name: f.read_bytes().decode() for f in pathlib.Path(folder).iterdir()}
    editor = Editor(folder)
    asked = editor.about("documentSymbol", name)
    objects = [s for s in editor.play()[0][asked] if not s["name"].endswith(" 0")]
    if not objects:
        return True
    chosen = rng.choice(objects)
    start = chosen["selectionRange"]["start"]
    at, number = (start["line"], start["character"]), chosen["name"].rsplit(" ", 1)[1]
    found = findings(folder, name)
    with tempfile.TemporaryDirectory() as other:
        changed = renumbered(folder, name, at, 900_000_001)
        for key, text in changed.items():
            (pathlib.Path(other) / key).write_bytes(text.encode())
        between = findings(other, name)
        back = renumbered(other, name, at, number)
    same = [one for _, one in found] == [one for _, one in between]
    if back != before or not same or changed == before:
        print(f"{folder}/{name}: {chosen['name']} was not given back, or something else is found: {found} {between}")
        return False
    return True


def is_laid_out(rng, folder, name):
    """Returns whether a text with other blanks in front of its lines is laid out once and for all, with nothing else changed."""
    text = (pathlib.Path(folder) / name).read_bytes().decode()
    lines = [rng.choice(["", "  ", "\t"]) + line.strip(" \t") + rng.choice(["", " "]) for line in text.split("\n")]
    editor = Editor(folder)
    editor.open(name, "\n".join(lines))
    asked = editor.about("formatting", name, options={})
    once = applied("\n".join(lines), editor.play()[0][asked])
    editor = Editor(folder)
    editor.open(name, once)
    asked = editor.about("formatting", name, options={})
    again = editor.play()[0][asked]
    kept = [line.lstrip(" \t") for line in once.split("\n")] == [line.lstrip(" \t") for line in lines]
    if again or not kept:
        print(f"{folder}/{name}: it is not laid out, or more than blanks in front was changed: {again}")
        return False
    return True


def main(count=2000, seed=1):
    rng = random.Random(int(seed))
    folders = sorted(f for f in TOP.glob("examples/**/service") if (f / "a").exists())
    done = told = wrong = 0
    began = time.monotonic()
    while done < int(count):
        source = rng.choice(folders)
        with tempfile.TemporaryDirectory() as temporary:
            folder = f"{temporary}/service"
            shutil.copytree(source, folder)
            texts = [f.name for f in source.iterdir() if f.is_file() and b"{:" in f.read_bytes()]
            name = rng.choice(sorted(texts))
            notices = compare(rng, folder, name, (source / name).read_bytes().decode(), AT_ONCE)
            wrong += notices is None
            told += notices or 0
            wrong += not is_given_back(rng, folder, name)
            wrong += not is_laid_out(rng, folder, name)
        done += AT_ONCE
    print(f"{done} edits, {told} notices, {wrong} wrong, {time.monotonic() - began:.0f} s")
    return 1 if wrong else 0


if __name__ == "__main__":
    sys.exit(main(*sys.argv[1:]))
