#!/usr/bin/env python3
"""Holds the words of `redlook why` and of docs/PROFILE.md together: for each number and kind that the program prints, the cause and the
mend in crates/mh_why/src/explanation/advice/tables.rt have to be, word for word, two cells of a row of docs/PROFILE.md. Run it at the top of the repository;
it prints each row that differs, and ends with 1 if there is one."""

import re
import sys

CODE = "crates/mh_why/src/explanation/advice/tables.rt"
DOCUMENT = "docs/PROFILE.md"


def tables():
    """The tables of the code: by name, the rows as word, cause and mend."""
    text = open(CODE, encoding="utf-8").read()
    found = {}
    for name, body in re.findall(r"pub static (\w+): [^=]*= \[\n(.*?)\n\];", text, re.S):
        cells = re.findall(r'b"((?:[^"\\]|\\.)*)"', body)
        found[name] = [tuple(cells[i : i + 3]) for i in range(0, len(cells), 3)]
    return found


def rows():
    """The rows of the document's tables, as cells."""
    lines = open(DOCUMENT, encoding="utf-8").read().splitlines()
    return [[cell.strip() for cell in line.strip("|").split("|")] for line in lines if line.startswith("|")]


def main():
    found = tables()
    written = rows()
    wrong = 0
    for name, table in found.items():
        for word, cause, mend in table:
            first = [row for row in written if re.split(r"[ `]", row[0].strip("`"))[0] == word]
            if not any(row[1] == cause and row[-1] == mend for row in first):
                wrong += 1
                print(f"{name} {word}: no row of {DOCUMENT} has these cells\n  {cause}\n  {mend}")
    count = sum(len(table) for table in found.values())
    print(f"{count - wrong} of {count} rows are the same")
    return 1 if wrong or not count else 0


sys.exit(main())
