#!/usr/bin/env python3
"""Holds docs/WRITING.md, examples/recipes and the tests together: each file that the page shows is, line by line, the one of its
folder; and each file, script and report of a recipe stands in the cases of recipes, white space apart. Run it at the top of
the repository; it prints what differs, and ends with 1 if something does."""

import os
import re
import sys

PAGE = "docs/WRITING.md"
RECIPES = "examples/recipes"
TESTS = "crates/mh_tests_cases/data/cases/redplay/recipes.cases"


def text(path):
    with open(path, encoding="utf-8") as file:
        return file.read()


def squeezed(part):
    return "".join(part.split())


def written():
    """The cases, without the signs that join lines."""
    return squeezed(re.sub(r"\\\n", "", text(TESTS)).replace("\\20", " "))


def shown():
    """The files that the page shows: path and text."""
    for path, block in re.findall(r"^`(examples/[^`]*)`:\n\n((?:    .*\n|\n)+)", text(PAGE), re.M):
        yield path, re.sub(r"^    ", "", block, flags=re.M).rstrip("\n") + "\n"


def tested():
    """The parts of each recipe, as the tests write them."""
    for name in sorted(os.listdir(RECIPES)):
        folder = f"{RECIPES}/{name}"
        for file in sorted(os.listdir(f"{folder}/service")):
            yield f"{folder}/service/{file}", f"file {file}\n" + text(f"{folder}/service/{file}")
        yield f"{folder}/script", "script\n" + text(f"{folder}/script")
        yield f"{folder}/report", text(f"{folder}/report")


def main():
    table = written()
    wrong = [path for path, block in shown() if text(path) != block]
    wrong += [path for path, part in tested() if squeezed(part) not in table]
    for path in wrong:
        print(f"{path} differs")
    count = len(list(shown())) + len(list(tested()))
    print(f"{count - len(wrong)} of {count} are the same")
    return 1 if wrong or not count else 0


sys.exit(main())
