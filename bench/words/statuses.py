#!/usr/bin/env python3
"""Holds what `redlook why` does with files and folders to what docs/LOOKING.md says, where no test can: the exit status, and words
of what is written. Run it with the program that is meant, `bench/words/statuses.py crates/redlook/out/redlook`; it prints each case that
differs, and ends with 1 if there is one."""

import os
import subprocess
import sys
import tempfile

GOOD = '{:Application ("~/a" 0) }'
ABSENT = '{:Application ("~/a" 0) :OnStartUp ( :TransitionTo (("~/s" 0)) ) }'
CUT = '{:Application ("~/a" 0)'


def doubling(links):
    """An application whose start puts 2 to the power of so many effects to work."""
    items = ["{:BooleanVar %d :OrigValue true }" % n for n in range(1, links + 2)]
    test = ":TestVariable (%d 1 :GBoolean true) "
    for n in range(1, links + 1):
        items.append("{:Link %d :EventSource %d :EventType TestEvent :LinkEffect ( %s) }" % (100 + n, n, 2 * (test % (n + 1))))
    items.append("{:Link 99 :EventSource 0 :EventType IsRunning :LinkEffect ( %s) }" % (test % 1))
    return '{:Application ("~/a" 0) :Items ( %s ) }' % " ".join(items)


# what it shows, the files of the folder, the words behind `why` (DIR is the folder), the status, and words that are written and that are not
CASES = [
    ("an accepted service", {"a": GOOD}, ["DIR"], 0, ["accepted\n", "start 2\n"], ["It costs most"]),
    ("an accepted service with its costs", {"a": GOOD}, ["DIR", "--costs"], 0, ["It costs most"], []),
    ("a refused service", {"a": ABSENT}, ["DIR"], 1, ["refused V1 a 0 1 TransitionTo\n", "Mend: add that file"], []),
    ("a bound that is too large, without --costs", {"a": doubling(22)}, ["DIR"], 1, ["refused V8 start\n", "The dearest effect"], []),
    ("a group that cannot be read", {"a": CUT}, ["DIR"], 2, ["file a 21 23\n", "the text ends"], []),
    ("a folder that is not there", {}, ["DIR/none"], 2, ["redlook: cannot read "], ["Cause"]),
    ("a folder that is a file", {"a": GOOD}, ["DIR/a"], 2, ["redlook: cannot read "], ["Cause"]),
    ("a file that leads nowhere", {"a": GOOD, "s": None}, ["DIR"], 2, ["read s\n", "Mend: check the path"], ["accepted"]),
    ("an output without a line that is known", {"a": GOOD, "out": "hello\n"}, ["DIR/out", "DIR"], 2, ["no line of "], ["Cause"]),
    ("an output of its own", {"a": ABSENT, "out": "fault kind Add s 6\n"}, ["DIR/out", "DIR"], 0, ["The action Add was stuck"], []),
    ("a script that is not there", {"a": GOOD}, ["DIR", "--script", "DIR/none"], 2, ["redlook: cannot read "], []),
]


def run(program, files, words):
    """The status, and what is written to both outputs."""
    with tempfile.TemporaryDirectory() as folder:
        for name, text in files.items():
            path = os.path.join(folder, name)
            if text is None:
                os.symlink("nowhere", path)
            else:
                with open(path, "w", encoding="utf-8") as file:
                    file.write(text)
        words = [word.replace("DIR", folder) for word in words]
        done = subprocess.run([program, "why", *words], capture_output=True, timeout=60)
        return done.returncode, (done.stdout + done.stderr).decode("utf-8", "replace")


def main():
    if len(sys.argv) != 2:
        print("usage: bench/words/statuses.py PROGRAM")
        return 2
    wrong = 0
    for title, files, words, status, there, absent in CASES:
        found, text = run(sys.argv[1], files, words)
        if found != status or any(part not in text for part in there) or any(part in text for part in absent):
            wrong += 1
            print(f"{title}: status {found}, {status} is wanted\n{text}")
    print(f"{len(CASES) - wrong} of {len(CASES)} cases are as they should be")
    return 1 if wrong else 0


sys.exit(main())
