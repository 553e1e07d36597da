#!/usr/bin/env python3
"""Plays scripts in small steps, and compares what they come to with what `run` comes to.

    python3 steps.py PROGRAM [SERVICE SCRIPT]..

A service is a folder, and its script is played as it stands and then with each `run` in it made by `step 1`, `step 2` and so
on up to `step 5`, as often as it takes. The reports have to be the same, where the steps that follow one another are added
up. Without services the examples are played.
"""
import os
import pathlib
import subprocess
import sys
import tempfile

ROOT = pathlib.Path(__file__).resolve().parents[2]
# A play with a longer `run` is passed over: its script would have a line a step.
LONGEST = 20_000
SIZES = [1, 2, 3, 4, 5]


def report_of(program, service, script):
    with tempfile.NamedTemporaryFile("w", suffix=".script") as file:
        file.write(script)
        file.flush()
        words = [program, "play", service, "--script", file.name, "--lenient"]
        done = subprocess.run(words, capture_output=True, text=True, check=False)
    return done.returncode, done.stdout.splitlines()


def is_steps(line):
    return line.startswith("did ")


def in_steps(script, report, size):
    """Returns the script with each `run` made by steps, and one more than it takes, so that it is told that it is over."""
    counts = [int(line.split()[1]) for line in report if is_steps(line)]
    lines = []
    for line in script.splitlines():
        word = line.split("#")[0].strip()
        if word == "run":
            count = counts.pop(0)
            lines += [f"step {size}"] * (count // size + 1)
        else:
            if word.startswith("step "):
                counts.pop(0)
            lines.append(line)
    return "\n".join(lines) + "\n"


def folded(report):
    """Returns the report with steps that follow one another as one line: how many they are, and what stands last there."""
    lines = []
    for line in report:
        if is_steps(line) and lines and isinstance(lines[-1], tuple):
            count, _ = lines[-1]
            lines[-1] = (count + int(line.split()[1]), line.split()[2:])
        elif is_steps(line):
            lines.append((int(line.split()[1]), line.split()[2:]))
        else:
            lines.append(line)
    return lines


def differs(program, service, script):
    """Returns the sizes of steps that come to another report."""
    status, report = report_of(program, service, script)
    counts = [int(line.split()[1]) for line in report if is_steps(line)]
    if not counts or max(counts) > LONGEST:
        return []
    wrong = []
    for size in SIZES:
        again, small = report_of(program, service, in_steps(script, report, size))
        if (again, folded(small)) != (status, folded(report)):
            wrong.append(size)
    return wrong


def examples():
    for folder in sorted((ROOT / "examples").iterdir()):
        if (folder / "service").is_dir() and (folder / "script").is_file():
            yield str(folder / "service"), str(folder / "script")


def main():
    if len(sys.argv) < 2 or sys.argv[1] in ("-h", "--help"):
        print(__doc__)
        return 2
    program, words = os.path.abspath(sys.argv[1]), sys.argv[2:]
    plays = list(zip(words[::2], words[1::2])) or list(examples())
    wrong = 0
    for service, script in plays:
        sizes = differs(program, service, pathlib.Path(script).read_text())
        if sizes:
            wrong += 1
            print(f"{service}: another report by steps of {sizes}")
    print(f"{len(plays)} plays, {wrong} wrong")
    return 1 if wrong else 0


if __name__ == "__main__":
    sys.exit(main())
