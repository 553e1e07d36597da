"""Frames as lines: what a report says is shown, whole, and the first place at which two frames differ.

A row is a list of runs, `FIRST-LAST FORE/BACK "TEXT"`; cells that no run has are black spaces before black. A space has no colour.
"""
import re

COLUMNS, ROWS = 60, 36
RUN = re.compile(r'(\d+)-(\d+) ([0-9a-f]{6})/([0-9a-f]{6}) "((?:[^"\\]|\\.)*)"')
BLANK = (" ", "000000", "000000")


def cells_of(row):
    """The cells of a row: each a character, its colour, and the colour behind it."""
    cells = [BLANK] * COLUMNS
    for first, last, fore, back, text in RUN.findall(row):
        text = re.sub(r"\\(.)", r"\1", text)
        for at in range(int(first), int(last) + 1):
            character = text[at - int(first)] if at - int(first) < len(text) else " "
            cells[at] = (character, "000000" if character == " " else fore, back)
    return cells


def seen(cell):
    """The cell as a screen shows it: a character in the colour of its background is none."""
    character, fore, back = cell
    return (" ", "000000", back) if character == " " or fore == back else cell


class Report:
    """What an adapter printed: its frames, whole, each by its rows; what else was said; how it wants to be compared."""

    def __init__(self, lines):
        self.frames, self.said, self.as_seen, self.alike = [], [], False, {}
        rows = {}
        for line in lines:
            word = line.split(" ", 1)[0]
            if word == "frame":
                rows = {} if line.endswith(" whole") else dict(rows)
                self.frames.append(rows)
            elif word == "row":
                number, _, runs = line[4:].partition(":")
                rows[int(number)] = runs.strip()
            elif word == "seen":
                self.as_seen = True
            elif word == "alike":
                same = [chr(int(scalar, 16)) for scalar in line.split()[1:]]
                self.alike.update({character: same[0] for character in same})
            elif line:
                self.said.append(line)
        self.frames = [{number: runs for number, runs in frame.items() if runs} for frame in self.frames]


def parsed(text):
    return Report(text.split("\n"))


def whole(frame):
    """The lines of a frame."""
    return ["row %02d: %s" % (number, frame[number]) for number in sorted(frame)]


def difference(wanted, actual, report=None):
    """The first row in which two frames differ, with the first column; None where they are the same."""
    for row in range(ROWS):
        if wanted.get(row, "") == actual.get(row, ""):
            continue
        ours, theirs = cells_of(wanted.get(row, "")), cells_of(actual.get(row, ""))
        for column in range(COLUMNS):
            if not is_same(ours[column], theirs[column], report):
                return row, column
    return None


def is_same(ours, theirs, report):
    if ours == theirs:
        return True
    if report is None or not report.as_seen:
        return False
    as_class = lambda cell: (report.alike.get(cell[0], cell[0]),) + cell[1:]
    return seen(as_class(ours)) == seen(as_class(theirs))
