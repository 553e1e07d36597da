"""What a program tells of its own command line: its `--help` and that of each of its commands, read into values.

Man pages and completions are made of these alone (dist/pages). A help of another form than the one that is read here stops what
asks for it, so that nothing is ever left out in silence.
"""

import os
import re
import subprocess
from dataclasses import dataclass

# The option, its value and what is said of it: `  -h, --help`, `      --script <FILE>  The script`.
OPTION = re.compile(r"(?:(-\w), )?(--[a-z][a-z-]*)((?: <[^>]+>)*)(?:\.\.\.)?(?: {2,}(.*))?")
ARGUMENT = re.compile(r"([<\[])([^>\]]+)[>\]](\.\.\.)?(?: {2,}(.*))?")
COMMAND = re.compile(r"([a-z][a-z-]*)(?: {2,}(.*))?")


@dataclass(frozen=True)
class Option:
    short: str  # `-h`, or nothing
    long: str  # `--script`
    values: tuple  # the names of what it takes: `FILE`
    text: str


@dataclass(frozen=True)
class Argument:
    name: str  # `DIR`
    needed: bool
    repeated: bool
    text: str


@dataclass(frozen=True)
class Block:
    """What stands behind the options: words, and lines below them that stand further in."""

    head: str
    rows: tuple

    def is_example(self):
        return self.head in ("Example:", "Examples:")

    def is_status(self):
        return self.head.startswith("Exit status")


@dataclass(frozen=True)
class Command:
    words: tuple  # `("redplay", "play")`; a program has one word
    about: str
    usage: str
    arguments: tuple
    options: tuple
    blocks: tuple
    commands: tuple  # those of a program, `help` left out

    def name(self):
        return self.words[-1]

    def repeats_last(self):
        return bool(self.arguments) and self.arguments[-1].repeated


def help_of(program, words):
    """What the program prints of these words and `--help`."""
    asked = [program, *words, "--help"]
    done = subprocess.run(asked, capture_output=True, text=True, encoding="utf-8", timeout=60, check=False)
    if done.returncode:
        raise SystemExit(f"{' '.join(asked)} ends with status {done.returncode}: {done.stderr.strip()}")
    return done.stdout


def paragraphs_of(text):
    """The lines of each paragraph."""
    return [part.split("\n") for part in re.split(r"\n(?:[ \t]*\n)+", text.strip("\n"))]


def entries_of(lines, is_entry):
    """The entries of a list, each as one line: a line that is none goes on with the one above it."""
    entries = []
    for line in lines:
        if is_entry(line):
            entries.append(line.strip())
        elif entries and line.startswith("   "):
            gap = " " if "  " in entries[-1] else "  "
            entries[-1] += gap + line.strip()
        else:
            raise SystemExit(f"a line of a help is not understood: {line!r}")
    return entries


def matched(pattern, entry):
    found = pattern.fullmatch(entry)
    if not found:
        raise SystemExit(f"an entry of a help is not understood: {entry!r}")
    return found


def options_of(lines):
    found = [matched(OPTION, entry) for entry in entries_of(lines, lambda line: line.lstrip().startswith("-"))]
    return tuple(Option(it[1] or "", it[2], tuple(re.findall("<([^>]+)>", it[3])), it[4] or "") for it in found)


def arguments_of(lines):
    found = [matched(ARGUMENT, entry) for entry in entries_of(lines, lambda line: line.lstrip()[:1] in ("<", "["))]
    return tuple(Argument(it[2], it[1] == "<", bool(it[3]), it[4] or "") for it in found)


def commands_of(lines):
    found = [matched(COMMAND, entry) for entry in entries_of(lines, lambda line: re.match("  [a-z]", line))]
    return tuple(it[1] for it in found)


def block_of(lines):
    rows = [at for at, line in enumerate(lines) if line.startswith("  ")]
    first = rows[0] if rows else len(lines)
    return Block(" ".join(lines[:first]), tuple(line[2:] for line in lines[first:]))


def read(program, words=()):
    """The program, or the command of it that the words name, with all that its help tells."""
    about, usage, *rest = paragraphs_of(help_of(program, words))
    listed = {"Commands:": (), "Arguments:": (), "Options:": ()}
    blocks = []
    for head, *lines in rest:
        if head in listed:
            listed[head] = lines
        else:
            blocks.append(block_of([head, *lines]))
    named = [it for it in commands_of(listed["Commands:"]) if it != "help"]
    return Command(
        words=(os.path.basename(program), *words),
        about=" ".join(about),
        usage=" ".join(usage).removeprefix("Usage: "),
        arguments=arguments_of(listed["Arguments:"]),
        options=options_of(listed["Options:"]),
        blocks=tuple(blocks),
        commands=tuple(read(program, (*words, it)) for it in named),
    )
