"""Links: which event a link matches, in which order links work, and which event is dealt with when."""
from ...family import Family
from ...page import Page
from ...tables import EVENTS, LATER
from ...words import RED, Raw, act, held, ref, typed

FAMILY = Family("links", "Links and events: matching, data, order", "Items: what the work list holds (Emit); Taking, steps, posts, runs", "Events",
                "ISO/IEC 13522-5, Link class: link condition and link effect; event processing")


def sent():
    """SendEvent of each type: a link of that type hears it, at once or when the work is done; its neighbours do not."""
    names = list(EVENTS)
    for place, event in enumerate(names):
        page = Page()
        page.scene.rectangle(10, 24, 32, 24, 32, RED)
        for other in (names[place - 1], event, names[(place + 1) % len(names)]):
            page.log(10, other, "%d" % EVENTS[other])
            page.log(10, other, "%d+" % EVENTS[other], True)
            page.log(10, other, "%d=7" % EVENTS[other], 7)
        page.on("red", *page.noted("<"), act("SendEvent", 0, 10, Raw(event)), *page.noted(">"))
        page.on("green", *page.noted("<"), act("SendEvent", 0, 10, Raw(event), True), *page.noted(">"))
        page.on("yellow", *page.noted("<"), act("SendEvent", 0, 10, Raw(event), 7), *page.noted(">"))
        page.on("blue", act("SendEvent", 0, 10, Raw(event), 1), act("SendEvent", 0, 10, Raw(event), False))
        yield page.case("sent-" + event.lower(), "SendEvent of %s is heard %s" % (event, "when the work is done" if event in LATER else "at once, before the actions behind it"),
                        "red green yellow blue")


def data_kinds():
    page = Page()
    page.scene.rectangle(10, 24, 32, 24, 32, RED)
    for word, given in (("none", None), ("T", True), ("F", False), ("0", 0), ("1", 1), ("-1", -1)):
        page.log(10, "TestEvent", word, given)
    for key, given in (("red", True), ("green", False), ("yellow", 1), ("blue", 0)):
        page.on(key, act("SendEvent", 0, 10, Raw("TestEvent"), given))
    page.on("1", act("SendEvent", 0, 10, Raw("TestEvent"), -1))
    page.on("2", act("SendEvent", 0, 10, Raw("TestEvent")))
    page.scene.variable(30, 1)
    page.scene.variable(31, True)
    page.on("3", act("SendEvent", 0, 10, Raw("TestEvent"), held(30)), act("SendEvent", 0, 10, Raw("TestEvent"), held(31)))
    yield page.case("data", "A link with data hears the same data of the same kind alone: true is not 1, and no data is neither", "red green yellow blue 1 2 3")


def sources():
    page = Page()
    for number in (10, 11):
        page.scene.rectangle(number, 24 * number - 216, 32, 24, 32, RED)
    page.scene.refers(30, 11)
    page.log(10, "TestEvent", "10")
    page.log(11, "TestEvent", "11")
    page.log(0, "TestEvent", "scene")
    page.log(ref("a", 0), "TestEvent", "app")
    page.log(ref("a", 40), "TestEvent", "app40")
    page.app.variable(40, 0)
    page.on("red", act("SendEvent", 0, 10, Raw("TestEvent")), act("SendEvent", ref("a", 0), 11, Raw("TestEvent")))
    page.on("green", act("SendEvent", 0, 0, Raw("TestEvent")), act("SendEvent", 0, ref("a", 0), Raw("TestEvent")))
    page.on("yellow", act("SendEvent", 0, held(30), Raw("TestEvent")), act("SendEvent", 0, ref("a", 40), Raw("TestEvent"), 3))
    yield page.case("sources", "A link hears its own source alone: an object, the scene, the application, an object of the application", "red green yellow")


def order_in_groups():
    """The application's links come first, each group in Items order; a link from an application to a scene's object."""
    page = Page(stays=True)
    for number, word in ((601, "app1"), (602, "app2")):
        page.app.link(ref("s", 0), "UserInput", [act("Append", ref("s", 900), word + "."), act("SetData", ref("s", 901), held(ref("s", 900)))],
                      100, number=number, Shared=True)
    page.on("red", *page.noted("s1"))
    page.on("red", *page.noted("s2"))
    page.scene.link(0, "UserInput", page.noted("any"))
    page.on("red", *page.noted("s3"))
    yield page.case("order", "Links of the application work before those of the scene, each group's in Items order", "red green red")


def settled():
    """Which links match is settled when the event is dealt with."""
    page = Page()
    page.scene.link(0, "UserInput", page.noted("1") + [act("Deactivate", 51), act("Activate", 52), act("Deactivate", 50)], 100, number=50)
    page.scene.link(0, "UserInput", page.noted("2"), 100, number=51)
    page.scene.link(0, "UserInput", page.noted("3"), 100, number=52, InitiallyActive=False)
    page.on("green", act("Activate", 50), act("Activate", 51), act("Deactivate", 52))
    yield page.case("settled", "Which links match is settled when the event is dealt with: one that is stopped by an earlier one still works", "red red green red")


def depth():
    """An event at once is dealt with before the actions behind the one that told it; one that waits, behind all work."""
    page = Page()
    page.scene.variable(30, 0)
    page.scene.button(10, 24, 32, 96, 16, "b")
    page.scene.link(30, "TestEvent", page.noted("t") + [act("SetHighlightStatus", 10, True)] + page.noted("u"), True)
    page.scene.link(10, "HighlightOn", page.noted("h") + [act("SendEvent", 0, 10, Raw("EngineEvent"), 1)] + page.noted("i"))
    page.scene.link(10, "EngineEvent", page.noted("e") + [act("SendEvent", 0, 10, Raw("StreamEvent"), 1)] + page.noted("f"), 1)
    page.scene.link(10, "StreamEvent", page.noted("m"), 1)
    page.scene.link(10, "AsyncStopped", page.noted("a"))
    page.on("red", *page.noted("<"), act("TestVariable", 30, 1, typed(0)), *page.noted("-"), act("SendEvent", 0, 10, Raw("AsyncStopped")), *page.noted(">"))
    yield page.case("depth", "What is told at once is dealt with to its end before what stands behind it; what waits comes in the order in which it was put", "red red")


def cases():
    yield from sent()
    yield from data_kinds()
    yield from sources()
    yield from order_in_groups()
    yield from settled()
    yield from depth()
