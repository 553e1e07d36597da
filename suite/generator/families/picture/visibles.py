"""Visibles: where boxes stand, which cells they cover, and in which order they are painted."""
from ...family import Family
from ...page import Page
from ...words import BLUE, CLEAR, GREEN, RED, WHITE, YELLOW, act, held

FAMILY = Family("visibles", "Boxes, cells and the display stack", "The picture; The display stack; Actions 26 to 33", "Actions 26 to 33; attributes 13 and 14",
                "ISO/IEC 13522-5, Visible class: OriginalBoxSize, Position, BringToFront to PutBehind; Application class: DisplayStack")

CORNERS = [(0, 0), (1, 1), (11, 15), (-1, -1), (-13, -17), (708, 560), (719, 575), (720, 576), (-24, 100)]
SIZES = [(0, 0), (1, 1), (11, 15), (13, 17), (25, 33), (720, 16), (12, 576), (0, 16), (12, 0), (2147483647, 2147483647)]


def covered():
    """A box at each corner in each size; a rectangle and a text of the same box."""
    for x, y in CORNERS:
        page = Page(log=False)
        page.scene.rectangle(10, x, y, 24, 32, RED)
        page.scene.words(11, x, y, 120, 16, "abcdefghijkl")
        page.on("red", act("SetBoxSize", 10, 1, 1))
        page.on("green", act("SetBoxSize", 10, 25, 33))
        page.on("yellow", act("SetBoxSize", 10, 12, 16))
        page.on("blue", act("SetBoxSize", 10, 11, 15))
        page.on("1", act("SetBoxSize", 11, 13, 16))
        page.on("2", act("SetBoxSize", 11, 37, 1))
        page.ask(10)
        yield page.case("at-%d-%d" % (x, y), "A box covers the cells whose upper left unit lies in it: a box at (%d, %d)" % (x, y), "red text green yellow blue 1 2")


def sized():
    for w, h in SIZES:
        page = Page(log=False)
        page.scene.rectangle(10, 24, 32, w, h, RED, line=GREEN)
        page.scene.rectangle(11, 48, 48, 24, 32, YELLOW)
        page.on("red", act("SetPosition", 10, 25, 33))
        page.on("green", act("SetPosition", 10, 13, 17))
        page.on("yellow", act("SetPosition", 10, 12, 16))
        page.on("blue", act("BringToFront", 10))
        page.on("1", act("SetBoxSize", 11, w, h))
        page.on("2", act("SetBoxSize", 11, -1, h))
        page.on("3", act("SetBoxSize", 11, w, -1))
        page.ask(10, 11)
        yield page.case("size-%d-%d" % (w, h), "A box of %d by %d units: its edge cells, its fill" % (w, h), "blue red green yellow 1 text 2 text 3 text")


def far_away():
    page = Page(log=False)
    page.scene.rectangle(10, 24, 32, 48, 48, RED, line=WHITE)
    for key, x, y in (("red", 2147483647, 0), ("green", -2147483648, 0), ("yellow", 24, -2147483648), ("blue", 24, 2147483647), ("1", -20, 560), ("2", 700, -20)):
        page.on(key, act("SetPosition", 10, x, y))
    page.on("3", act("SetBoxSize", 10, 2147483647, 2147483647))
    page.ask(10)
    yield page.case("far-away", "A box may stand anywhere in 32 bits; what lies off the screen is not seen", "red text green text yellow blue text 1 2 3 text green text red")


def over_each_side():
    """Boxes of which a part lies off the screen: an edge that is off the screen is not seen at the screen's side."""
    for kind in ("Rectangle", "DynamicLineArt", "Text"):
        page = Page(log=False)
        if kind == "Rectangle":
            page.scene.rectangle(10, 240, 192, 144, 112, RED, line=WHITE)
        elif kind == "Text":
            page.scene.words(10, 240, 192, 144, 112, "one two three four five six seven eight nine ten eleven twelve", TextWrapping=True, BackgroundColour=BLUE)
        else:
            page.scene.art(10, 240, 192, 144, 112, OrigRefFillColour=BLUE, OrigRefLineColour=WHITE)
            page.on("0", act("SetFillColour", 10, RED), act("DrawRectangle", 10, 12, 16, 132, 96), act("DrawLine", 10, 0, 0, 144, 112))
        for key, x, y in (("1", -60, 192), ("2", 240, -48), ("3", 640, 192), ("4", 240, 520), ("5", -60, -48), ("6", 640, 520), ("7", -132, 192), ("8", 240, -96)):
            page.on(key, act("SetPosition", 10, x, y))
        page.on("9", act("SetPosition", 10, -12, -16), act("SetBoxSize", 10, 744, 608))
        yield page.case("over-each-side-" + kind.lower(), "Of a box that lies over a side of the screen that part is seen that lies on it: a " + kind, ("0 " if kind == "DynamicLineArt" else "") + "1 2 3 4 5 6 7 8 9")


def moved():
    page = Page(log=False)
    page.scene.rectangle(10, 24, 32, 36, 48, RED)
    page.scene.words(11, 120, 32, 96, 16, "text")
    page.scene.field(12, 240, 32, 96, 16, "field")
    page.scene.button(13, 360, 32, 96, 16, "button")
    page.scene.art(14, 480, 32, 48, 48, OrigRefFillColour=BLUE)
    page.scene.variable(20, 60)
    page.scene.variable(21, 100)
    numbers = (10, 11, 12, 13, 14)
    page.on("red", *[act("SetPosition", number, 24 * number - 200, 120) for number in numbers])
    page.on("green", *[act("SetBoxSize", number, 24, 16) for number in numbers])
    page.on("yellow", act("SetPosition", 10, held(20), held(21)), act("SetBoxSize", 11, held(21), held(20)))
    page.on("blue", *[act("GetPosition", number, 20, 21) for number in numbers[:1]], act("SetPosition", 14, held(21), held(20)))
    page.on("1", act("GetBoxSize", 13, 20, 21), act("SetBoxSize", 14, held(21), held(20)))
    page.ask(*numbers)
    yield page.case("moved", "SetPosition, SetBoxSize, GetPosition and GetBoxSize of each class of visibles", "text red text green text yellow blue 1 text")


def four_boxes(page, **fields):
    for place, fill in enumerate((RED, GREEN, BLUE, YELLOW)):
        page.scene.rectangle(10 + place, 48 + 36 * place, 48 + 16 * place, 96, 80, fill, **fields)


ORDERS = {"front-and-back": [act("BringToFront", 10), act("SendToBack", 13), act("BringToFront", 10), act("SendToBack", 10)],
          "before": [act("PutBefore", 10, 12), act("PutBefore", 13, 11), act("PutBefore", 11, 11), act("PutBefore", 12, 10)],
          "behind": [act("PutBehind", 13, 11), act("PutBehind", 10, 12), act("PutBehind", 11, 11), act("PutBehind", 12, 13)],
          "neighbours": [act("PutBefore", 10, 11), act("PutBehind", 10, 11), act("PutBefore", 13, 12), act("PutBehind", 13, 12)],
          "to-the-ends": [act("PutBefore", 10, 13), act("PutBehind", 13, 11), act("PutBehind", 10, 13), act("PutBefore", 11, 10)]}


def ordered():
    for name, actions in ORDERS.items():
        page = Page(log=False)
        four_boxes(page)
        for key, action in zip(("red", "green", "yellow", "blue"), actions):
            page.on(key, action)
        yield page.case("stack-" + name, "The display stack: " + ", ".join(action.split(" ")[0] for action in actions), "red green yellow blue red blue green")


def not_on_the_stack():
    """The four actions with a visible that is not available, or available and not running."""
    ways = {"around": "red yellow green", "before": "red blue green", "behind": "red 1 green", "front": "red 2 green", "back": "red 3 green"}
    for prior, what in (("Unload", "not available"), ("Stop", "available and not running")):
        for name, feed in ways.items():
            if prior == "Stop" and name in ("before", "back"):
                continue
            page = Page(log=False)
            four_boxes(page)
            page.on("red", act(prior, 11))
            page.on("green", act("Run", 11))
            page.on("yellow", act("BringToFront", 11), act("PutBefore", 10, 11), act("SendToBack", 11), act("PutBehind", 13, 11))
            for key, action in (("blue", act("PutBefore", 11, 13)), ("1", act("PutBehind", 11, 10)), ("2", act("BringToFront", 11)), ("3", act("SendToBack", 11))):
                page.on(key, action)
            yield page.case("%s-%s" % (prior.lower(), name), "The actions that order the stack, with a visible that is " + what, feed)


def on_top():
    page = Page(log=False)
    four_boxes(page)
    page.on("red", act("Stop", 10), act("Run", 10))
    page.on("green", act("Unload", 11), act("Preload", 11))
    page.on("yellow", act("Run", 11))
    page.on("blue", act("Stop", 13))
    page.on("1", act("Run", 13))
    yield page.case("on-top", "What becomes available goes on top; one that stops keeps its place", "red green yellow blue 1")


def hides():
    """The character of a cell is that of the topmost that paints it at all; its background may come from below."""
    page = Page(log=False)
    page.scene.words(10, 24, 32, 240, 16, "below below below", BackgroundColour=BLUE)
    page.scene.words(11, 60, 32, 120, 16, "x x", TextColour=YELLOW)
    page.scene.rectangle(12, 120, 32, 60, 16, RED)
    page.scene.rectangle(13, 24, 32, 60, 16, CLEAR)
    page.on("red", act("BringToFront", 10))
    page.on("green", act("BringToFront", 11))
    page.on("yellow", act("SendToBack", 12))
    page.on("blue", act("BringToFront", 13), act("BringToFront", 12))
    yield page.case("characters-and-boxes", "A box hides the characters below it; a text without background stands before the colour below; a transparent box hides nothing", "red green yellow blue")


def cases():
    for family in (covered, sized, far_away, over_each_side, moved, ordered, not_on_the_stack, on_top, hides):
        yield from family()
