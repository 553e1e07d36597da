"""Counts what each crate's checks cost while a gate runs: processor minutes, and gigabytes at the height.

    python3 bench/kept/minutes.py FILE GATE     looks at the system's processes every four seconds, until it is stopped
    python3 bench/kept/minutes.py FILE --table  prints what FILE has, the dearest crate first

Start it before `rt ci`, with a file that is not there yet. Only checks that `rt ci` runs in the checkout GATE, or in the copy
that some kits make of it, are counted; of a crate that was checked several times the last check counts, its tests and what two compilers make of a program added. A check counts with the processes that it has waited for.
It reads /proc alone, so it may stand beside any run.
"""
import json
import os
import sys
import time

TICKS = os.sysconf("SC_CLK_TCK")
PAGE = os.sysconf("SC_PAGE_SIZE")


def check_in(process, gate):
    """Returns the key of a check and what it has used so far, or None where the process is no check of a gate."""
    folder = f"/proc/{process}"
    with open(f"{folder}/cmdline", "rb") as line:
        words = line.read().split(b"\0")
    if b"--crate-name" not in words or not words[0].endswith(b"/rattle"):
        return None
    works_in = os.readlink(f"{folder}/cwd")
    if not works_in.startswith(f"{gate}/") and "rt-copy" not in works_in:
        return None
    with open(f"{folder}/stat") as stat:
        fields = stat.read().rsplit(")", 1)[1].split()
    with open(f"{folder}/statm") as statm:
        resident = int(statm.read().split()[1])
    name = words[words.index(b"--crate-name") + 1].decode()
    kind = "tests" if b"--test" in words else "proof"
    if b"--crate-checked" in words:
        kind = "by-" + words[words.index(b"--backend") + 1].decode()
    ticks = sum(int(field) for field in fields[11:15])
    return f"{name} {kind} {fields[19]} {process}", ticks / TICKS / 60, resident * PAGE / 1e9


def look(seen, gate):
    """Notes of each check that runs now what it has used so far."""
    for process in filter(str.isdigit, os.listdir("/proc")):
        try:
            found = check_in(process, gate)
        except OSError:
            continue  # it has ended meanwhile
        if found:
            key, minutes, gigabytes = found
            before = seen.get(key, (0, 0))
            seen[key] = (max(before[0], minutes), max(before[1], gigabytes))


def keep(path, seen):
    with open(f"{path}.new", "w") as out:
        json.dump(seen, out)
    os.replace(f"{path}.new", path)


def rows_of(seen):
    """Returns the minutes and the gigabytes of each crate, by the last check of its proofs, the last of its tests, and the last
    time that each compiler built it."""
    last = {}
    for key, (minutes, gigabytes) in seen.items():
        name, kind, began, _ = key.split()
        if int(began) >= last.get((name, kind), (0,))[0]:
            last[name, kind] = (int(began), minutes, gigabytes)
    crates = {}
    for (name, _), (_, minutes, gigabytes) in last.items():
        before = crates.get(name, (0, 0))
        crates[name] = (before[0] + minutes, max(before[1], gigabytes))
    return sorted(crates.items(), key=lambda row: -row[1][0])


def main():
    path, *words = sys.argv[1:] or sys.exit(__doc__)
    seen = {}
    if os.path.exists(path):
        with open(path) as kept:
            seen = json.load(kept)
    if words == ["--table"]:
        for name, (minutes, gigabytes) in rows_of(seen):
            print(f"{name:22} {minutes:6.1f} {gigabytes:6.1f}")
        return
    if len(words) != 1:
        sys.exit(__doc__)
    gate = os.path.realpath(words[0])
    while True:
        look(seen, gate)
        keep(path, seen)
        time.sleep(4)


if __name__ == "__main__":
    main()
