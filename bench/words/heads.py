#!/usr/bin/env python3
"""Holds heads of files to what they promise. Where a head says that each function answers, adds or puts what "the definition of the
same name" says, each function of the file that has a clause names in one of them a definition of its own name, as it is or under
another name that the file gives it. Run it at the top of the repository; it prints each function that does not, and ends with 1 if
there is one."""

import glob
import re
import sys

PROMISE = re.compile(r"^//! .*definitions? of the same names?", re.MULTILINE)
FUNCTION = re.compile(r"^( *)(?:pub(?:\([a-z]+\))? )?(?:const )?fn (\w+)", re.MULTILINE)


def head_of(text):
    lines = []
    for line in text.split("\n"):
        if not line.startswith("//!"):
            break
        lines.append(line[3:].strip())
    return " ".join(lines)


def renamed(text):
    """Returns what each name that a file gives to a definition stands for."""
    return {new: old for old, new in re.findall(r"(\w+) as (\w+)", text)}


def clauses_of(text, start):
    """Returns the clauses between the head of the function and its body."""
    depth, place = 0, start
    found = re.search(r"^ *\{$|\{$", text[start:], re.MULTILINE)
    ends = [m.start() for m in re.finditer(r"^ *\{ *$", text[start:], re.MULTILINE)]
    end = start + (ends[0] if ends else 0)
    return text[start:end]


def broken(path):
    with open(path, encoding="utf-8") as file:
        text = file.read()
    if "same name" not in head_of(text):
        return []
    names = renamed(text)
    wrong = []
    for found in FUNCTION.finditer(text):
        name = found.group(2)
        clauses = clauses_of(text, found.end())
        if "ensures" not in clauses:
            continue
        words = set(re.findall(r"\w+", clauses[clauses.index("ensures"):]))
        if name in words or any(names.get(word) == name for word in words):
            continue
        wrong.append((text.count("\n", 0, found.start()) + 1, name))
    return wrong


def main():
    count = 0
    for path in sorted(glob.glob("crates/*/src/**/*.rt", recursive=True)):
        for line, name in broken(path):
            print(f"{path}:{line}: {name} has no definition of its name")
            count += 1
    print(f"{count} functions are not what the head of their file promises")
    sys.exit(1 if count else 0)


if __name__ == "__main__":
    main()
