"""Running and available: what Run, Stop, Preload and Unload do to each class, from each state."""
from ...family import Family
from ...page import Page
from ...words import GREEN, RED, WHITE, act

FAMILY = Family("states", "Available and running, of each class", "Items: what the work list holds; Actions 0 to 5", "Actions 0 to 5, 14 and 15",
                "ISO/IEC 13522-5, Presentable and Visible classes: Preparation, Activation, Deactivation, Destruction")


def object_of(page, kind, number=10, **fields):
    """One object of the class, that is easily seen."""
    scene = page.scene
    if kind == "Rectangle":
        return scene.rectangle(number, 48, 32, 48, 48, RED, **fields)
    if kind == "DynamicLineArt":
        return scene.art(number, 48, 32, 48, 48, OrigRefFillColour=GREEN, **fields)
    if kind == "Text":
        return scene.words(number, 48, 32, 120, 16, "words", **fields)
    if kind == "EntryField":
        return scene.field(number, 48, 32, 120, 16, "12", BackgroundColour=RED, **fields)
    if kind == "PushButton":
        return scene.button(number, 48, 32, 120, 16, "push", BackgroundColour=RED, **fields)
    if kind == "Stream":
        return scene.add("Stream", number, **fields)
    page.scene.rectangle(11, 48, 32, 24, 32, RED, InitiallyActive=False)
    page.scene.rectangle(12, 96, 32, 24, 32, GREEN, InitiallyActive=False)
    if kind == "ListGroup":
        return scene.list_group(number, [11, 12], [(48, 64), (120, 64)], **fields)
    return scene.token_group(number, [11, 12], [(2, 1)], **fields)


CLASSES = ["Rectangle", "DynamicLineArt", "Text", "EntryField", "PushButton", "Stream", "ListGroup", "TokenGroup"]
ALIKE = ["Rectangle", "DynamicLineArt", "Stream", "PushButton", "EntryField"]    # where fewer ways through the states do
ACTIONS = {"red": "Run", "green": "Stop", "yellow": "Preload", "blue": "Unload"}
WAYS = {"red-first": "red red text green green text red text", "yellow-first": "yellow yellow text red text green text yellow",
        "blue-between": "green blue text yellow blue blue text red blue text red text"}


def each_class():
    for kind in CLASSES:
        for way, feed in WAYS.items():
            if way == "red-first" and kind in ALIKE or way == "yellow-first" and kind in ALIKE[:3]:
                continue
            page = Page()
            object_of(page, kind, InitiallyActive=False)
            for key, action in ACTIONS.items():
                page.on(key, act(action, 10))
            page.watch(10, *([11, 12] if kind.endswith("Group") else []))
            page.ask(10, *([11, 12] if kind.endswith("Group") else []))
            name = "-".join(ACTIONS[word] for word in feed.split() if word in ACTIONS).lower()
            yield page.case("%s-%s" % (kind.lower(), name), "%s of a %s: which events it tells, in which order, and what it is then" %
                            (", ".join(ACTIONS.values()), kind), feed)


def initially():
    for written in (None, True, False):
        page = Page()
        for place, kind in enumerate(CLASSES[:6]):
            object_of(page, kind, 20 + place, **({} if written is None else {"InitiallyActive": written}))
        numbers = range(20, 26)
        page.watch(*numbers)
        page.ask(*numbers)
        page.on("red", *[act("Run", number) for number in numbers])
        page.on("green", *[act("Stop", number) for number in numbers])
        yield page.case("initially-%s" % {
            None: "unwritten", True: "active", False: "not-active",
        }[written], "What runs when its scene is entered, in Items order", "text green text red")
    for kind in CLASSES[6:]:
        page = Page()
        object_of(page, kind)
        page.watch(10, 11, 12)
        page.ask(10)
        page.on("red", act("Run", 10))
        page.on("green", act("Stop", 10))
        yield page.case(kind.lower() + "-initially", "A %s runs when its scene is entered" % kind, "text green text red")


def again_between():
    """A link on IsStopped that runs the object again, between the Halt and the Drop of Unload."""
    for kind in ("Rectangle", "Text", "Stream", "TokenGroup", "ListGroup", "EntryField"):
        page = Page()
        object_of(page, kind)
        page.watch(10)
        page.scene.link(10, "IsStopped", [act("Run", 10)])
        page.on("red", act("Unload", 10))
        page.on("green", act("Run", 10))
        page.on("yellow", act("Preload", 10))
        page.ask(10)
        yield page.case(kind.lower() + "-run-while-unloaded", "What runs and is not available is not painted; Run does nothing then, Preload makes it available",
                        "text red text green text yellow text")


def kept_after_drop():
    page = Page()
    page.scene.words(10, 24, 32, 120, 16, "old")
    page.scene.rectangle(11, 24, 64, 24, 32, RED)
    page.on("red", act("SetPosition", 10, 240, 32), act("SetTextColour", 10, GREEN), act("SetData", 10, "new"), act("SetBoxSize", 11, 96, 16))
    page.on("green", act("Unload", 10), act("Unload", 11))
    page.on("yellow", act("Run", 10), act("Run", 11))
    page.watch(10, 11)
    page.ask(10, 11)
    yield page.case("kept-after-unload", "What was changed stays when an object is unloaded; the text that was loaded goes", "red text green text yellow text")


def links():
    page = Page()
    page.scene.words(10, 24, 32, 240, 16, "0")
    page.scene.link(0, "UserInput", [act("SetData", 10, "heard")], 100, number=20, InitiallyActive=False)
    page.on("green", act("Activate", 20), act("Activate", 20))
    page.on("yellow", act("Deactivate", 20), act("Deactivate", 20))
    page.on("blue", act("SetData", 10, "clear"))
    page.watch(20)
    page.ask(20)
    yield page.case("link-activated", "A link that is not active hears nothing; Activate and Deactivate run and halt it, once",
                    "red text green text red blue yellow text red green red")


def cases():
    yield from each_class()
    yield from initially()
    yield from again_between()
    yield from kept_after_drop()
    yield from links()
