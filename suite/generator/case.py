"""A case: a service, what is fed to it, and when the screen is captured.

What is fed is a line of words, each an input behind which the engine comes to rest and the screen is captured:

    red              a key
    tick:500         so many milliseconds pass
    tick:60000*9     nine such ticks, one after another
    stream:7         an event of the streams with this tag
    engine:3         an event of the engine with this number
    file:NAME=TEXT   the carousel brings a content file
    scene:NAME       it brings the file of a late scene

A comma behind a word means that nothing is captured there. A plus in front means that the input is posted and the engine makes no
step, which a program can do and a receiver cannot.
"""
from .words import KEYS

SETTLE = 400        # milliseconds from an input to a capture, where the case has no clock of its own
LEVELS = ["keys", "clock", "streams", "files", "program", "tools"]


class Step:
    """One word of what is fed."""

    def __init__(self, word):
        self.captured = not word.endswith(",") and not word.startswith("+")
        self.posted_only = word.startswith("+")
        self.word = word.strip("+").rstrip(",") if "=" not in word else word.lstrip("+")
        self.kind, _, self.rest = self.word.partition(":")

    def level(self):
        if self.posted_only or self.kind in ("step", "run"):
            return "program"
        return {"tick": "clock", "stream": "streams", "engine": "streams", "file": "files", "scene": "files"}.get(self.kind, "keys")

    def line(self):
        """The line of the script."""
        if self.kind in KEYS:
            return "key " + self.kind
        if self.kind == "file":
            name, _, content = self.rest.partition("=")
            return "file %s %s" % (name, content.encode("latin-1").hex())
        if self.kind == "scene":
            name, _, octets = self.rest.partition("=")
            return "scene " + name + (" " + octets if octets else "")
        return ("%s %s" % (self.kind, self.rest.partition("*")[0])).strip()

    def times(self):
        """How often the input is given; an engine comes to rest behind each 200."""
        return int(self.rest.partition("*")[2] or 1) if self.kind == "tick" else 1


class Case:
    """`family` and the documents of the rule are given by the family that has the case."""

    family = None

    def __init__(self, name, rule, feed, service, files, late, lenient=False, **facts):
        self.name, self.rule, self.facts = name, rule, facts
        self.steps = [Step(word) for word in feed.split()]
        self.service, self.files, self.late, self.lenient = service, files, late, lenient

    @property
    def id(self):
        return "%s/%s" % (self.family.name, self.name)

    def needs(self):
        """What the house has to feed, besides a service."""
        found = {step.level() for step in self.steps}
        if self.files or self.late:
            found.add("files")
        if {"exact", "program", "tags"} & set(self.facts):
            found.add("program")
        if self.facts.get("refused") or "verdict" in self.facts or self.family.name == "refused":
            found.add("tools")
        return [level for level in LEVELS if level in found and level != "keys"]

    def level(self):
        return (["keys"] + self.needs())[-1]

    def is_played(self):
        """Whether there is something to show: no verdict, and nothing that is refused."""
        return not self.facts.get("refused") and "verdict" not in self.facts

    def texts(self):
        """The groups as text, also where the case has them in the binary notation and says what they are written from."""
        return {path: octets.decode("latin-1") for path, octets in self.facts.get("written", self.service).items()}

    def one_form(self):
        """Whether the case is about its files as they are written, so that both forms have the same."""
        return self.family.name in ("notation", "refused") or "tags" in self.facts and self.facts.get("refused")

    def script(self):
        if "verdict" in self.facts:
            return "-\n"
        if "line" in self.facts:
            return "run\nshow\n%s\nrun\nshow\n" % self.facts["line"]
        lines = ["run", "show"]
        for step in self.steps:
            rests = [] if step.posted_only or step.kind in ("step", "run") else ["run"]
            for turn in range(1, step.times() + 1):
                lines += [step.line()] + (rests if turn % 200 == 0 or turn == step.times() else [])
            if step.captured:
                lines.append("show")
        return "".join(line + "\n" for line in lines)

    def events(self):
        """What the house does, each with its moment in milliseconds since the service began."""
        if "verdict" in self.facts:
            return []
        moment, frame, told = (0 if "clock" in self.needs() else SETTLE), 1, []
        told.append({"at": moment, "capture": 1})
        for step in self.steps:
            if step.kind == "tick":
                moment += int(step.rest.partition("*")[0]) * step.times()
            else:
                told.append({"at": moment, "do": step.line()})
                moment += 0 if "clock" in self.needs() else SETTLE
            if step.captured:
                frame += 1
                told.append({"at": moment, "capture": frame})
        return told
