"""The wanted frames of all cases, as they are kept: a file a family, plain text, each frame whole.

    case lists/scroll-5-in-3
    frame 1
    row 02: 2-3 000000/ff0000 ""
    frame 2 as 1

`as 1` says that the frame is the same as that one. A case of part two has the lines of its verdict, each behind `said`.
"""
import os

TOP = os.path.join(os.path.dirname(os.path.dirname(os.path.abspath(__file__))), "wanted")


class Wanted:
    """What is wanted of a case: frames, each a list of lines; lines that a tool says."""

    def __init__(self, frames=(), said=()):
        self.frames, self.said = [list(frame) for frame in frames], list(said)

    def lines(self):
        """As they are kept."""
        told, known = ["said " + line for line in self.said], {}
        for number, frame in enumerate(self.frames, 1):
            first = known.setdefault("\n".join(frame), number)
            told += ["frame %d" % number] + frame if first == number else ["frame %d as %d" % (number, first)]
        return told

    def report(self):
        """As an adapter prints them, each frame whole."""
        told = list(self.said)
        for number, frame in enumerate(self.frames, 1):
            told += ["frame %d whole" % number] + frame
        return "".join(line + "\n" for line in told)


def path_of(family):
    return os.path.join(TOP, family + ".txt")


def read_family(family):
    """The wanted of each case of a family, by its name."""
    found, now = {}, None
    if not os.path.exists(path_of(family)):
        return found
    with open(path_of(family), encoding="utf-8", newline="\n") as file:
        lines = file.read().split("\n")
    for line in lines:
        word = line.partition(" ")
        if word[0] == "case":
            now = found[line[5:]] = Wanted()
        elif word[0] == "said":
            now.said.append(line[5:])
        elif word[0] == "frame":
            parts = line.split(" ")
            now.frames.append(list(now.frames[int(parts[3]) - 1]) if len(parts) > 2 else [])
        elif line:
            now.frames[-1].append(line)
    return found


def write_family(family, wanted):
    """Writes the wanted of all cases of a family, in the order given: pairs of an id and a Wanted."""
    os.makedirs(TOP, exist_ok=True)
    with open(path_of(family), "w", encoding="utf-8", newline="\n") as file:
        for name, one in wanted:
            file.write("".join(line + "\n" for line in ["case " + name] + one.lines()))
