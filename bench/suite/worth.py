"""What the suite is worth: of how many wrong engines it tells one from a right one, by a tool that plays a list by each of them.

The list has a line for each play, for each service that is checked (`-` for its script) and for each group that is converted (`der` or
`text`). It has no place for a table of tags: cases with one are left out.
"""
import os
import subprocess
import time

from conversions import distinct
from generator.families import NAMES


def listed(case):
    """The line of a case that is played or checked."""
    script = "-" if case.facts.get("verdict") else os.path.join(case.folder, "script")
    late = os.path.join(case.folder, "late")
    return "\t".join([case.id, os.path.join(case.folder, "text"), script] + ([late] if os.path.exists(late) else []))


def has_most(case):
    """Whether the case's groups are converted here: those of families that have most of the notation, and those at the limits of a file."""
    return case.id.partition("/")[0] in ("notation", "indirect", "stuck") or "-larger-in-" in case.id


def converted(cases):
    """The lines of groups, each from its notation to the other."""
    for case, text, der in distinct(filter(has_most, cases)):
        for path, way in ((text, "der"), (der, "text")):
            yield "\t".join(["%s/%s" % (case.id, os.path.relpath(path, case.folder)), path, way])


def tell(tool, name, lines, top, more=()):
    """Prints what the tool says of a list, and how long that took."""
    path = os.path.join(top, "list")
    with open(path, "w", encoding="utf-8") as file:
        file.write("".join(line + "\n" for line in lines))
    began = time.time()
    told = subprocess.run([tool, path, *more], capture_output=True, text=True).stdout.splitlines()
    for line in told:
        print("%-12s %4d lines: %s" % (name, len(lines), line))
    print("%-12s %.1f minutes" % (name, (time.time() - began) / 60), flush=True)


def look_at_worth(tool, cases, smoke, top, each):
    """The shares of the smoke set, of what receivers show, of all in one list, and, where that is asked for, of each family."""
    cases = [case for case in cases if not case.facts.get("tags")]
    tell(tool, "smoke", [listed(case) for case in cases if case.id in smoke], top)
    tell(tool, "receivers", [listed(case) for case in cases if case.facts["level"] != "tools"], top)
    tell(tool, "full", [listed(case) for case in cases] + list(converted(cases)), top, ["--survivors"])
    for family in (name.rpartition(".")[2] for name in NAMES if each):
        lines = [listed(case) for case in cases if case.id.startswith(family + "/")]
        if lines:
            tell(tool, family, lines, top)
