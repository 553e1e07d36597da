"""A case is played by an adapter: a program that takes service, script and late file, and prints what is shown."""
import json
import os
import subprocess

from .frames import difference, parsed

LIMIT = 600         # seconds that an adapter may take for one case


class CaseFolder:
    """A case as it lies in its folder."""

    def __init__(self, folder):
        self.folder = folder
        with open(os.path.join(folder, "case.json"), encoding="utf-8") as file:
            self.facts = json.load(file)
        with open(os.path.join(folder, "wanted"), encoding="utf-8", newline="\n") as file:
            self.wanted = parsed(file.read())
        self.id = self.facts["id"]


def played(adapter, folder, form):
    """What the adapter prints of the case."""
    words = list(adapter) + [os.path.join(folder, form), os.path.join(folder, "script")]
    if os.path.exists(os.path.join(folder, "late")):
        words.append(os.path.join(folder, "late"))
    try:
        ran = subprocess.run(words, capture_output=True, timeout=LIMIT, env=dict(os.environ, SUITE_CASE=os.path.abspath(folder)))
    except subprocess.TimeoutExpired:
        return parsed("no end within %d seconds" % LIMIT)
    report = parsed(ran.stdout.decode("utf-8", "replace"))
    if ran.returncode:
        report.said.append("the adapter ended with status %d: %s" % (ran.returncode, ran.stderr.decode("utf-8", "replace").strip()[-300:]))
    return report


class Outcome:
    """What came of a case: `why` is None where it is as wanted, else a line; frame, row and column where it differs first."""

    def __init__(self, case, actual, why=None, frame=None, row=None, column=None):
        self.case, self.actual, self.why, self.frame, self.row, self.column = case, actual, why, frame, row, column


def judged(case, actual):
    """The first thing that is not as wanted."""
    wanted = case.wanted
    if case.facts["refused"] or case.facts.get("verdict"):
        return judged_refusal(case, actual)
    for number in range(max(len(wanted.frames), len(actual.frames))):
        if number >= len(actual.frames):
            why = "; ".join(actual.said) or "nothing else was printed"
            return Outcome(case, actual, "frame %d of %d was not shown: %s" % (number + 1, len(wanted.frames), why))
        if number >= len(wanted.frames):
            return Outcome(case, actual, "%d frames are wanted, and %d were shown" % (len(wanted.frames), len(actual.frames)))
        found = difference(wanted.frames[number], actual.frames[number], actual)
        if found:
            return Outcome(case, actual, "frame %d, row %d, column %d" % ((number + 1,) + found), number, *found)
    return Outcome(case, actual)


def judged_refusal(case, actual):
    """Nothing is shown of what is refused; a tool that prints a verdict prints this one."""
    for number, frame in enumerate(actual.frames):
        if frame:
            return Outcome(case, actual, "frame %d shows something, and nothing is to be shown" % (number + 1), number, min(frame), 0)
    if actual.said and actual.said != case.wanted.said and not actual.as_seen:
        pair = next(pair for pair in zip(case.wanted.said + [""] * len(actual.said), actual.said + [""] * len(case.wanted.said)) if pair[0] != pair[1])
        return Outcome(case, actual, "`%s` is wanted, and `%s` was printed" % pair)
    return Outcome(case, actual)
