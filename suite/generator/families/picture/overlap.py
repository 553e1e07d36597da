"""Overlaps: many visibles over one another, changed by many keys. What is painted again has to be what is seen.

The boxes, colours and changes are drawn by lot, from a number that is the case's own, so that they are the same each time.
"""
import random

from ...family import Family
from ...page import Page
from ...words import BLUE, CLEAR, CYAN, GREEN, GREY, MAGENTA, ORANGE, RED, WHITE, YELLOW, Raw, act

FAMILY = Family("overlap", "Many visibles over one another, changed again and again", "The picture; The display stack", "Attributes 13 to 24; actions 26 to 42",
                "ISO/IEC 13522-5, Visible class: presentation and the display stack")
TONES = [RED, GREEN, BLUE, YELLOW, WHITE, CYAN, MAGENTA, GREY, ORANGE, CLEAR]
WORDS = ["", "a", "some words", "words in two\rlines of text", "x y z", "wrapping words that go on and on and on", "   spaces   "]
EVERY_KEY = ["red", "green", "yellow", "blue", "1", "2", "3", "4", "5", "6", "7", "8"]


class Lot:
    """What is drawn by lot."""

    def __init__(self, number, wide=60, high=30):
        self.random, self.wide, self.high = random.Random(number), wide, high

    def of(self, choices):
        return self.random.choice(choices)

    def corner(self):
        """Half of all on the screen, the others anywhere about it."""
        if self.of([True, False]):
            return self.random.randint(0, 12 * self.wide), self.random.randint(0, 16 * self.high)
        return self.random.randint(-240, 700), self.random.randint(-200, 560)

    def size(self):
        return self.random.choice([0, 11, 12, 24, 36, 60, 96, 150, 260, 720]), self.random.choice([0, 15, 16, 32, 48, 64, 100, 180, 576])

    def box(self):
        return self.corner() + self.size()

    def visible(self, scene, number):
        """One visible of some class."""
        x, y, w, h = self.box()
        kind = self.of(["Rectangle", "Rectangle", "Text", "Text", "DynamicLineArt", "EntryField", "PushButton"])
        look = {
            "BackgroundColour": self.of(TONES), "TextColour": self.of(TONES), "HJustification": Raw(self.of(["start", "end", "centre"])),
            "TextWrapping": self.of([True, False]),
        }
        if kind == "Rectangle":
            scene.rectangle(number, x, y, w, h, self.of(TONES), line=self.of(TONES), width=self.of([0, 1, 2]))
        elif kind == "DynamicLineArt":
            scene.art(number, x, y, w, h, OrigRefFillColour=self.of(TONES), OrigRefLineColour=self.of(TONES), OrigLineWidth=self.of([0, 1]))
        elif kind == "PushButton":
            scene.button(number, x, y, w, h, self.of(WORDS), **look)
        else:
            (scene.words if kind == "Text" else scene.field)(number, x, y, w, h, self.of(WORDS), **look)
        return kind

    def change(self, number, kind, count):
        """One change of a visible."""
        other = 10 + self.random.randrange(count)
        point = lambda: self.random.randint(-60, 300)
        choices = [
            act("SetPosition", number, *self.corner()), act("SetBoxSize", number, *self.size()), act("BringToFront", number),
            act("SendToBack", number), act("PutBefore", number, other), act("PutBehind", number, other), act("Stop", number), act("Run", number),
            act("Unload", number), act("Preload", number),
        ]
        if kind in ("Rectangle", "DynamicLineArt"):
            choices += [act("SetFillColour", number, self.of(TONES)), act("SetLineColour", number, self.of(TONES)), act("SetLineWidth", number, self.of([0, 1]))]
        if kind == "DynamicLineArt":
            choices += [act("DrawLine", number, point(), point(), point(), point()) for _ in range(4)] + [act("Clear", number)]
            left, top = point(), point()
            choices += [act("DrawRectangle", number, left, top, left + 12 * self.random.randint(0, 12), top + 16 * self.random.randint(0, 9)) for _ in range(4)]
        if kind in ("Text", "EntryField"):
            choices += [act("SetData", number, self.of(WORDS)) for _ in range(3)]
        if kind == "PushButton":
            choices += [act("SetLabel", number, self.of(WORDS)) for _ in range(3)]
        if kind in ("Text", "EntryField", "PushButton"):
            choices.append(act("SetTextColour", number, self.of(TONES)))
        return self.of(choices)


def drawn(number):
    lot, page = Lot(number), Page(log=False)
    count = 8 + number % 5
    kinds = [lot.visible(page.scene, 10 + place) for place in range(count)]
    for key in EVERY_KEY:
        said = []
        for _ in range(1 + number % 3):
            place = lot.random.randrange(count)
            said.append(lot.change(10 + place, kinds[place], count))
        page.on(key, *said)
    feed = " ".join(EVERY_KEY[:8] + [lot.of(EVERY_KEY) for _ in range(4)])
    return page.case("drawn-by-lot-%d" % number, "Many visibles over one another: each change shows the picture of what is there", feed)


def cases():
    for number in range(1, 19):
        yield drawn(number)
