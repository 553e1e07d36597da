#!/usr/bin/env python3
"""Finds names in the documents that stand nowhere in the code any more: words with an underscore, between backquotes, that no source,
definition, proof, edit or script has. Run it at the top of the repository; it prints each with its places, and ends with 1 if there is
one. Names of the toolchain and of other tools, and those that stand for any name, are listed below."""

import glob
import os
import re
import sys

FOREIGN = {"find_package", "fish_complete_path", "is_none_or", "liblibc_c", "libos_c", "sanitize_address", "x_one", "x_read", "x_written"}
CODE = ("crates/**/*.rt", "crates/**/*.antt", "crates/*/must-fail/*.edit", "crates.txt", "include/*.h", "bench/**/*.py", "bench/**/*.edit")
DOCUMENTS = ("docs/*.md", "*.md", "examples/*.md")
NAME = r"(?<![\w=~/.'\"-])[a-z][a-z0-9]*(?:_[a-z0-9]+)+(?![\w-])"


def files(patterns):
    for pattern in patterns:
        for path in sorted(glob.glob(pattern, recursive=True)):
            if os.path.isfile(path) and "/out/" not in path:
                yield path


def known():
    found = set(FOREIGN)
    for path in files(CODE):
        with open(path, encoding="utf-8") as file:
            found.update(re.findall(r"\w+", file.read()))
        found.update(re.findall(r"\w+", path))
    return found


def main():
    words, lost = known(), {}
    for path in files(DOCUMENTS):
        with open(path, encoding="utf-8") as file:
            for number, line in enumerate(file, 1):
                for code in [] if line.startswith("    ") else re.findall(r"`([^`]+)`", line):
                    for name in re.findall(NAME, code):
                        if name not in words:
                            lost.setdefault(name, []).append(f"{path}:{number}")
    for name, places in sorted(lost.items()):
        print(f"{name}: {', '.join(places)}")
    print(f"{len(lost)} names stand in the documents alone")
    return 1 if lost else 0


sys.exit(main())
