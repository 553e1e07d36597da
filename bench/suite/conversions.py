"""Conversions: each group of the suite stands in both notations, so that a converter is tried by all of them."""
import os
import subprocess


def is_group(path):
    with open(path, "rb") as file:
        return file.read(1) in (b"{", b"\xa0", b"\xa1")


def groups_of(case):
    """The paths of a case's groups in both notations: pairs."""
    top = os.path.join(case.folder, "text")
    for folder, _, names in os.walk(top):
        for name in sorted(names):
            path = os.path.relpath(os.path.join(folder, name), top)
            if is_group(os.path.join(top, path)):
                yield tuple(os.path.join(case.folder, form, path) for form in ("text", "der"))


def distinct(cases):
    """The groups of the cases, each once, with its case."""
    seen = set()
    for case in cases:
        for text, der in groups_of(case):
            with open(text, "rb") as file:
                content = file.read()
            if content not in seen:
                seen.add(content)
                yield case, text, der


def read(path):
    with open(path, "rb") as file:
        return file.read()


def look_at_conversions(program, cases):
    """The suite's encoder and `to-der` write the same, and `to-text` and `to-der` lead back."""
    count, wrong = 0, 0
    for case, text, der in distinct(case for case in cases if not case.facts["refused"]):
        if read(text) == read(der):
            continue
        tags = ["--tags", os.path.join(case.folder, "tags")] if case.facts.get("tags") else []
        convert = lambda way, path: subprocess.run([os.path.abspath(program), way, path] + tags, capture_output=True).stdout
        back = os.path.join(case.folder, "back")
        with open(back, "wb") as file:
            file.write(convert("to-text", der))
        count += 1
        if convert("to-der", text) != read(der) or convert("to-der", back) != read(der):
            wrong += 1
            print("conversion: %s: %s" % (case.id, os.path.relpath(text, case.folder)))
    print("conversions: %d groups, %d wrong" % (count, wrong), flush=True)
