"""Shapes: rectangles with their lines, colours and transparency, and drawings on a DynamicLineArt."""
from ...family import Family
from ...page import Page
from ...words import BLACK, BLUE, CLEAR, GREEN, GREY, ORANGE, RED, WHITE, YELLOW, act, colour, held

FAMILY = Family("shapes", "Rectangles, colours and drawings", "The picture; Actions 34 to 39", "Actions 34 to 39; attributes 15 to 17",
                "ISO/IEC 13522-5, LineArt, Rectangle and DynamicLineArt classes")


def lines():
    for width in (None, 0, 1, 2, 100):
        page = Page(log=False)
        for place, (w, h) in enumerate(((36, 48), (24, 48), (36, 32), (12, 16), (60, 80), (12, 80), (120, 16))):
            fields = {} if width is None else {"OrigLineWidth": width}
            page.scene.add("Rectangle", 10 + place, OrigBoxSize=(w, h), OrigPosition=(24 + 84 * place, 32), OrigRefLineColour=GREEN, OrigRefFillColour=RED, **fields)
        page.scene.variable(30, 1)
        page.on("red", *[act("SetLineWidth", 10 + place, 1) for place in range(7)])
        page.on("green", *[act("SetLineWidth", 10 + place, 0) for place in range(7)])
        page.on("yellow", *[act("SetLineWidth", 10 + place, -1) for place in range(7)], act("SetLineWidth", 10, held(30)))
        yield page.case("line-%s" % ("unwritten" if width is None else width), "The edge cells of a Rectangle have its line colour where its line is wider than 0", "red green yellow")


def unwritten():
    page = Page(log=False)
    page.scene.rectangle(9, 12, 16, 600, 160, GREY)
    page.scene.add("Rectangle", 10, OrigBoxSize=(48, 64))
    page.scene.add("Rectangle", 11, OrigBoxSize=(48, 64), OrigPosition=(96, 32), OrigRefFillColour=RED)
    page.scene.add("DynamicLineArt", 12, OrigBoxSize=(48, 64), OrigPosition=(192, 32))
    page.scene.add("Text", 13, OrigBoxSize=(96, 32), OrigPosition=(288, 32), OrigContent="text")
    page.scene.add("PushButton", 14, OrigBoxSize=(96, 32), OrigPosition=(408, 32))
    page.scene.add("EntryField", 15, OrigBoxSize=(96, 32), OrigPosition=(408, 80), OrigContent="7")
    page.scene.add("Rectangle", 16, OrigBoxSize=(48, 64), OrigPosition=(288, 80), OrigRefLineColour=YELLOW)
    page.on("red", act("SendToBack", 9))
    page.on("green", act("DrawRectangle", 12, 0, 0, 48, 64), act("DrawLine", 12, 0, 16, 24, 16))
    page.on("yellow", act("SetLabel", 14, "label"), act("SetPosition", 10, 504, 32))
    page.ask(10, 12, 14, 15)
    yield page.case("defaults", "What is not written has the value of the table: black lines one wide, no fill, white letters, no background, at the corner", "red green yellow text")


def colours():
    page = Page(log=False)
    page.scene.rectangle(9, 12, 16, 600, 160, GREY)
    for place, transparency in enumerate((0, 1, 127, 128, 254, 255)):
        tone = colour(255, 0, 0, transparency)
        page.scene.rectangle(10 + place, 24 + 96 * place, 32, 72, 64, tone, line=colour(0, 255, 0, 255 - transparency))
        page.scene.words(20 + place, 24 + 96 * place, 112, 72, 16, "words", TextColour=tone, BackgroundColour=colour(0, 0, 255, 255 - transparency))
    page.on("red", act("SendToBack", 9))
    yield page.case("transparency", "Transparency 255 paints nothing, every other one paints opaquely", "red")


def recoloured():
    page = Page(log=False)
    page.scene.rectangle(10, 24, 32, 60, 64, RED, line=GREEN)
    page.scene.art(11, 120, 32, 60, 64, OrigRefFillColour=RED)
    page.scene.words(12, 216, 32, 96, 16, "text")
    page.scene.field(13, 216, 64, 96, 16, "12")
    page.scene.button(14, 216, 96, 96, 16, "push")
    page.scene.variable(20, ORANGE)
    page.scene.variable(21, b"\x00\x00")
    page.scene.variable(22, CLEAR)
    page.on("red", act("SetFillColour", 10, BLUE), act("SetFillColour", 11, BLUE), *[act("SetTextColour", number, RED) for number in (12, 13, 14)])
    page.on("green", act("SetLineColour", 10, held(20)), act("SetLineColour", 11, held(20)), *[act("SetTextColour", number, held(20)) for number in (12, 13, 14)])
    page.on("yellow", *[act(action, 10, given) for action in ("SetFillColour", "SetLineColour") for given in (b"", b"\x01", held(21), b"12345")],
            *[act("SetTextColour", number, given) for number in (12, 13, 14) for given in (b"", b"abc", held(21), b"12345")])
    page.on("blue", act("SetFillColour", 10, held(22)), act("SetTextColour", 12, held(22)), act("SetTextColour", 14, held(22)))
    page.on("1", act("SetLineColour", 10, CLEAR), act("SetFillColour", 10, YELLOW))
    page.on("2", act("DrawLine", 11, 0, 0, 60, 64))
    yield page.case("recoloured", "SetFillColour, SetLineColour, SetTextColour: four octets are a colour, anything else changes nothing", "red green yellow blue 1 2")


STROKES = {"level-and-upright": [(0, 0, 300, 0), (0, 40, 300, 40), (5, 60, 5, 200), (300, 200, 300, 60), (150, 100, 150, 100)],
           "slanting": [(0, 0, 300, 200), (0, 200, 300, 0), (300, 16, 0, 150), (60, 190, 200, 30)],
           "steep": [(10, 0, 40, 200), (80, 200, 60, 0), (120, 0, 200, 220), (250, 200, 300, 10)],
           "flat": [(0, 0, 300, 20), (300, 60, 0, 90), (0, 200, 290, 150), (24, 100, 250, 140)],
           "half-steps": [(0, 0, 24, 16), (0, 48, 48, 64), (0, 80, 24, 208), (60, 80, 72, 144), (100, 0, 148, 16), (120, 200, 180, 216)],
           "beyond": [(-60, -60, 400, 300), (-1, 16, 24, 16), (310, 100, 400, 100), (-10000, 0, 10000, 200), (100, -10000, 100, 10000)],
           "up-left": [(300, 220, 12, 40), (290, 100, 270, 0), (200, 64, 80, 48), (150, 150, 138, 6), (36, 208, 0, 192)]}
TONES = [RED, GREEN, BLUE, YELLOW, WHITE, ORANGE]


def strokes():
    for name, ends in STROKES.items():
        page = Page(log=False)
        page.scene.art(10, 24, 32, 312, 224, OrigRefFillColour=GREY)
        for key, part in (("red", ends[:2]), ("green", ends[2:])):
            said = []
            for place, points in enumerate(part):
                said += [act("SetLineColour", 10, TONES[place + (0 if key == "red" else 2)]), act("DrawLine", 10, *points)]
            page.on(key, *said)
        page.on("yellow", act("SetPosition", 10, 31, 41))
        page.on("blue", act("SetBoxSize", 10, 150, 100))
        page.on("1", act("SetPosition", 10, -30, -20))
        yield page.case("lines-" + name, "A drawn line goes from the cell of its one end to that of the other, in equal steps, each to the nearest cell", "red green yellow blue 1")


def drawn_rectangles():
    boxes = {"plain": [(0, 0, 60, 64), (24, 16, 48, 48), (100, 20, 100, 90), (120, 20, 200, 20), (150, 50, 151, 51)],
             "edges": [(12, 16, 48, 64), (13, 17, 90, 90), (100, 0, 112, 200), (140, 100, 300, 116), (156, 144, 157, 145)],
             "beyond": [(-30, -30, 40, 40), (200, 100, 900, 400), (-10000, 180, 10000, 200), (-20, 60, 20, 100)],
             "wrong": [(60, 0, 50, 30), (0, 60, 30, 50), (0, 0, 10001, 10), (-10001, 0, 10, 10), (0, -10001, 10, 10), (0, 0, 10, 10001)]}
    for name, corners in boxes.items():
        page = Page(log=False)
        page.scene.art(10, 24, 32, 312, 224, OrigRefFillColour=GREY, OrigLineWidth=1)
        for key, width in (("red", 0), ("green", 1)):
            said = [act("SetLineWidth", 10, width), act("SetLineColour", 10, WHITE)]
            for place, points in enumerate(corners):
                said += [act("SetFillColour", 10, TONES[place % 6]), act("DrawRectangle", 10, *points)]
            page.on(key, *said)
        page.on("yellow", act("Clear", 10))
        page.on("blue", act("SetPosition", 10, 30, 40))
        page.on("1", *[act("DrawLine", 10, *points) for points in corners])
        page.on("2", act("SetLineColour", 10, GREEN), *[act("DrawRectangle", 10, *points) for points in corners])
        yield page.case("rectangles-" + name, "A drawn rectangle is painted as a Rectangle of its place and size, with the width and the colours of its moment", "red green blue yellow 1 2 yellow")


def drawings_kept():
    page = Page(log=False)
    page.scene.art(10, 24, 32, 240, 160, OrigRefFillColour=GREY)
    page.scene.rectangle(11, 60, 64, 48, 48, RED)
    page.scene.variable(20, 36)
    page.on("red", act("SetFillColour", 10, GREEN), act("SetLineColour", 10, YELLOW), act("DrawRectangle", 10, 0, 0, 120, 64), act("SetLineColour", 10, WHITE), act("DrawLine", 10, 0, 0, 120, 64))
    page.on("green", act("Unload", 10))
    page.on("yellow", act("Run", 10))
    page.on("blue", act("SendToBack", 10))
    page.on("1", act("SetFillColour", 10, CLEAR), act("SetLineColour", 10, CLEAR), act("DrawRectangle", 10, 24, 16, 96, 96), act("DrawLine", 10, 0, 16, 240, 16))
    page.on("2", act("DrawRectangle", 10, held(20), held(20), 120, 100), act("DrawLine", 10, 0, 0, held(20), held(20)))
    page.on("3", act("Clear", 10), act("DrawLine", 10, 0, 0, 100, 100))
    page.ask(10)
    yield page.case("kept", "Drawings keep the colours of their moment, stay when the art is unloaded, and go with Clear", "blue red green yellow 1 2 3 text")


def as_many_as_there_may_be():
    for count in (255, 256, 257):
        page = Page(log=False)
        page.scene.art(10, 24, 32, 240, 160, OrigLineWidth=0)
        page.scene.words(11, 24, 240, 240, 16, "drawing")
        page.on("red", *[act("SetFillColour", 10, TONES[1])] + [act("DrawRectangle", 10, 0, 0, 24, 32)] * (count - 1) + [act("SetFillColour", 10, RED), act("DrawRectangle", 10, 24, 32, 72, 80)])
        page.on("green", act("SetLineColour", 10, YELLOW), act("DrawLine", 10, 0, 0, 200, 150))
        page.on("yellow", act("Clear", 10), act("DrawLine", 10, 0, 150, 200, 0))
        yield page.case("drawings-%d" % count, "Beside 256 drawings nothing more is drawn", "red green yellow green")


def that_paint_nothing():
    """Drawings without a colour, and rectangles of no width, count among the 256 too; what changes nothing does not."""
    wasted = {
        "no-width": act("DrawRectangle", 10, 24, 0, 24, 96), "no-height": act("DrawRectangle", 10, 0, 32, 96, 32),
        "no-colour": act("DrawLine", 10, 0, 0, 24, 32), "outside": act("DrawLine", 10, 5000, 0, 6000, 0),
        "beyond": act("DrawLine", 10, 0, 0, 10001, 0), "backwards": act("DrawRectangle", 10, 24, 32, 23, 64),
        "upwards": act("DrawRectangle", 10, 24, 32, 64, 31),
    }
    for name, action in wasted.items():
        page = Page(log=False)
        page.scene.art(10, 24, 32, 240, 160, OrigLineWidth=0, OrigRefFillColour=GREY)
        page.on("red", act("SetLineColour", 10, CLEAR), act("SetFillColour", 10, CLEAR), *[action] * 256)
        page.on("green", act("SetLineColour", 10, YELLOW), act("DrawLine", 10, 0, 0, 200, 150))
        page.on("yellow", act("Clear", 10))
        yield page.case("drawings-wasted-" + name, "A drawing that paints nothing counts among the 256; an action that changes nothing does not", "red green yellow green")


def far_ends():
    page = Page(log=False)
    page.scene.art(10, 24, 32, 240, 160, OrigRefFillColour=GREY, OrigLineWidth=0)
    for key, far in (("red", 10000), ("green", 10001)):
        page.on(key, act("SetLineColour", 10, RED), act("DrawLine", 10, far, 16, 0, 16), act("DrawLine", 10, 0, 32, far, 32), act("SetLineColour", 10, GREEN),
                act("DrawLine", 10, 24, far, 24, 0), act("DrawLine", 10, 48, 0, 48, far))
    for key, far in (("yellow", -10000), ("blue", -10001)):
        page.on(key, act("SetLineColour", 10, YELLOW), act("DrawLine", 10, far, 64, 200, 64), act("DrawLine", 10, 200, 80, far, 80), act("SetLineColour", 10, WHITE),
                act("DrawLine", 10, 96, far, 96, 150), act("DrawLine", 10, 120, 150, 120, far))
    page.on("1", act("Clear", 10))
    yield page.case("ends-at-most", "Points of drawings lie from -10,000 to 10,000; one beyond changes nothing", "green blue red 1 yellow 1 blue green")


def cases():
    for family in (lines, unwritten, colours, recoloured, strokes, drawn_rectangles, drawings_kept, as_many_as_there_may_be, that_paint_nothing, far_ends):
        yield from family()
