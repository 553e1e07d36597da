#!/usr/bin/env python3
"""Lists the public calls that ask something of their callers (`requires`), crate by crate, as docs/PROMISES.md has them under
"Conditions of callers". Run it at the top of the repository: it tells whether the list is current and ends with 1 if it is not;
with --write it puts the list there. A call is public if its module is, or if the root file of its crate hands out its name or its type."""

import glob
import os
import re
import sys

DOCUMENT, HEADING = "docs/PROMISES.md", "## Conditions of callers"
TESTS = re.compile(r"mh_tests|mh_cases|mh_case_files")


def public_names(root):
    """Returns the public modules, and the names that the root file hands out."""
    modules, names, waiting = {""}, set(), [("", f"{root}/src/lib.rt")]
    while waiting:
        module, path = waiting.pop()
        text = open(path, encoding="utf-8").read()
        for name in re.findall(r"^pub mod (\w+);", text, re.M):
            inner = f"{module}::{name}".strip(":")
            modules.add(inner)
            file = f"{root}/src/{inner.replace('::', '/')}.rt"
            if os.path.isfile(file):
                waiting.append((inner, file))
        if not module:
            for used in re.findall(r"^pub use ([^;]+);", text, re.M):
                names.update(re.findall(r"\w+", used.split("::")[-1] if "{" not in used else used[used.index("{") :]))
    return modules, names


def clauses(head):
    """Returns what stands in the braces of each `requires` of the head of a function."""
    found, at = [], 0
    while (start := head.find("requires ", at)) >= 0:
        opened = head.index("{", start)
        depth, at = 0, opened
        while True:
            depth += {"{": 1, "}": -1}.get(head[at], 0)
            at += 1
            if depth == 0:
                break
        found.append(" ".join(head[opened + 1 : at - 1].split()))
    return found


def owners(text):
    """Yields each function of a file: the type or trait in which it stands, its name, whether it is marked public, and its head."""
    owner, of_trait = "", False
    lines = text.split("\n")
    for number, line in enumerate(lines):
        if opened := re.match(r"(?:pub )?(impl|trait)\b(.*)", line):
            kind, rest = opened.groups()
            of_trait = kind == "trait"
            rest = re.sub(r"^<[^>]*>", "", rest.strip())
            owner = re.match(r"(\w+)", rest.split(" for ")[-1].strip()).group(1)
            of_trait = of_trait or " for " in rest
        elif line.startswith("}"):
            owner, of_trait = "", False
        elif called := re.match(r"(?:    )?(pub )?fn (\w+)", line):
            head = []
            for more in lines[number:]:
                if more.strip() == "{":
                    break
                head.append(more)
                if more.rstrip().endswith((";", "{")):
                    break
            yield owner, called.group(2), bool(called.group(1)) or of_trait, "\n".join(head)


def conditions(root):
    """Yields each public call of the crate that has conditions, with them."""
    modules, names = public_names(root)
    for path in sorted(glob.glob(f"{root}/src/**/*.rt", recursive=True)):
        module = path[len(root) + 5 : -3].replace("/", "::")
        module = "" if module == "lib" else module
        for owner, name, is_public, head in owners(open(path, encoding="utf-8").read()):
            seen = (owner or name) in names or module in modules
            if is_public and seen and (asked := clauses(head)):
                yield f"{owner}::{name}" if owner else name, asked


def section():
    lines, count = [], 0
    for root in sorted(glob.glob("crates/*")):
        crate = os.path.basename(root)
        if TESTS.match(crate) or not os.path.isfile(f"{root}/src/lib.rt"):
            continue
        calls = sorted(set((call, tuple(asked)) for call, asked in conditions(root)))
        count += len(calls)
        if calls:
            lines.append(f"- `{crate}`: " + "; ".join(f"`{call}` ({', '.join(f'`{one}`' for one in asked)})" for call, asked in calls) + ".")
    return count, lines


def main():
    text = open(DOCUMENT, encoding="utf-8").read()
    count, lines = section()
    start = text.index(HEADING)
    end = text.index("\n## ", start + 1)
    head = text[start:end].split("\n- `", 1)[0].rstrip("\n")
    head = re.sub(r"\d+ public calls", f"{count} public calls", head)
    wanted = head + "\n\n" + "\n".join(lines) + "\n"
    if "--write" in sys.argv:
        with open(DOCUMENT, "w", encoding="utf-8") as file:
            file.write(text[:start] + wanted + text[end:])
        return 0
    print(f"{count} public calls have conditions; the list is {'current' if text[start:end] == wanted else 'old'}")
    return 0 if text[start:end] == wanted else 1


sys.exit(main())
