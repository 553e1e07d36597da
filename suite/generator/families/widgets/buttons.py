"""Push buttons: their label, their selection, and the keys that they take."""
from ...family import Family
from ...page import Page
from ...words import BLUE, RED, act, held

FAMILY = Family("buttons", "Push buttons: label, selection, interaction", "Interaction and keys; Actions 43 to 53", "Actions 43 to 53; attribute 24",
                "ISO/IEC 13522-5, Interactible, Button and PushButton classes")


def a_button(label="push", **fields):
    page = Page()
    page.scene.button(10, 24, 32, 120, 16, label, BackgroundColour=BLUE, **fields)
    page.watch(10)
    page.log(0, "UserInput", "key")
    return page


def selected():
    for begins in ("active", "inactive"):
        page = a_button(InitiallyActive=begins == "active")
        page.on("red", act("Select", 10))
        page.on("green", act("Deselect", 10))
        page.on("yellow", act("Run", 10))
        page.on("blue", act("Unload", 10))
        page.ask(10)
        yield page.case("select-%s" % begins, "Select and Deselect tell a change, at once and once", "red red text green green text red blue text red yellow green text")


def pressed():
    ways = {"select": "red select text select cancel text", "cancel": "red cancel text select", "others": "red 1 left up green cancel text",
            "again": "red select cancel green red select cancel text", "ended": "red select yellow text select", "twice": "red red select red text cancel"}
    for name, feed in ways.items():
        page = a_button()
        page.on("red", act("SetInteractionStatus", 10, True))
        page.on("green", act("Deselect", 10))
        page.on("yellow", act("SetInteractionStatus", 10, False))
        page.ask(10)
        yield page.case("pressed-" + name, "While a button interacts Select selects it, which is told once, and Cancel ends the interaction; other keys do nothing", feed)


def inside():
    actions = {"stop": act("Stop", 10), "unload": act("Unload", 10), "deselect": act("Deselect", 10), "end": act("SetInteractionStatus", 10, False),
               "field": act("SetInteractionStatus", 11, True), "label": act("SetLabel", 10, "new")}
    for name, action in actions.items():
        page = a_button()
        page.scene.field(11, 24, 64, 120, 16, "5", BackgroundColour=RED)
        page.watch(11)
        page.scene.link(10, "IsSelected", page.noted("<") + [action] + page.noted(">"))
        page.on("red", act("SetInteractionStatus", 10, True))
        page.on("green", act("Run", 10), act("Deselect", 10))
        page.ask(10, 11)
        yield page.case("inside-" + name, "A button that is selected by a key, and %s then" % action.split(" ")[0], "red select text 7 select cancel text green red cancel text")


def labels():
    for label in (None, "", "abc", b"a\x00\xff\x1bcb", "a label that is longer than its box"):
        page = a_button(label)
        page.scene.variable(30, "held")
        page.scene.variable(31, "")
        page.on("red", act("SetLabel", 10, "other"))
        page.on("green", act("SetLabel", 10, ""))
        page.on("yellow", act("SetLabel", 10, held(30)))
        page.on("blue", act("GetLabel", 10, 31), act("Append", 31, "+"), act("SetLabel", 10, held(31)))
        page.ask(10)
        name = {None: "none", "": "empty", "abc": "plain"}.get(label, "octets" if isinstance(label, bytes) else "long")
        yield page.case("label-" + name, "SetLabel and GetLabel: the label is painted as a text is", "text red text green text yellow text blue text")


def looks():
    from ...words import Raw
    page = Page(log=False)
    for place, look in enumerate(("start", "end", "centre")):
        for wraps in (False, True):
            page.scene.button(10 + 2 * place + wraps, 24 + 180 * place, 32 + 80 * wraps, 84, 48, "one two three", HJustification=Raw(look), TextWrapping=wraps, BackgroundColour=BLUE, TextColour=RED)
    page.on("red", *[act("SetTextColour", 10 + place, b"\xff\xff\x00\x00") for place in range(6)])
    page.on("green", *[act("SetLabel", 10 + place, "x\ry") for place in range(6)])
    yield page.case("looks", "The colours, the justification and the wrapping of a label", "red green")


def long_labels():
    page = Page(log=False)
    page.scene.button(10, 24, 32, 120, 16, "old", BackgroundColour=BLUE)
    page.scene.variable(30, "x" * 65535)
    page.scene.variable(31, "y" * 65536)
    page.scene.variable(32, "")
    page.scene.words(11, 24, 64, 120, 16, "old", BackgroundColour=BLUE)
    page.on("red", act("SetLabel", 10, held(31)), act("SetData", 11, held(31)))
    page.on("green", act("SetLabel", 10, held(30)), act("SetData", 11, held(30)))
    page.on("yellow", act("SetLabel", 10, "new"), act("SetData", 11, "new"))
    page.on("blue", act("SetLabel", 10, "z" * 65536), act("SetData", 11, "z" * 65536))
    page.on("1", act("SetLabel", 10, "w" * 65535), act("SetData", 11, "w" * 65535))
    page.scene.button(12, 24, 96, 120, 16, "v" * 65536)
    page.scene.words(13, 24, 128, 120, 16, "u" * 65536)
    page.scene.button(14, 24, 160, 120, 16, "t" * 65535)
    page.scene.words(15, 24, 192, 120, 16, "s" * 65535)
    page.on("4", act("GetLabel", 14, 32), act("SetLabel", 10, held(32)))
    page.on("5", act("GetTextData", 15, 32), act("SetLabel", 10, held(32)))
    page.on("2", act("GetLabel", 12, 32), act("Append", 32, "1"), act("SetLabel", 10, held(32)))
    page.on("3", act("GetTextData", 13, 32), act("Append", 32, "2"), act("SetLabel", 10, held(32)))
    yield page.case("label-at-most", "A label and a text are replaced by at most 65,535 octets", "red green yellow red yellow blue 1 2 3 4 5 2 3")


def cases():
    for family in (selected, pressed, inside, labels, looks, long_labels):
        yield from family()
