"""Streams and the engine: events that come from outside other than keys."""
from ...family import Family
from ...page import Page
from ...words import act, held, ref

FAMILY = Family("streams", "Events of streams and of the engine", "Taking, steps, posts, runs", "Events",
                "ISO/IEC 13522-5, Stream class: StreamEvent; Application class: EngineEvent; ETSI ES 202 184: engine events")
TAGS = (0, 1, 7, 2147483647)


def told():
    page = Page(stays=True)
    page.app.add("Stream", 40, Shared=True)
    page.app.add("Stream", 41)
    page.scene.add("Stream", 10)
    page.scene.add("Stream", 11, InitiallyActive=False)
    page.scene.add("Stream", 12)
    for tag in TAGS:
        for source, word in ((10, "x"), (11, "y"), (12, "z"), (ref("a", 40), "A"), (ref("a", 41), "B")):
            page.log(source, "StreamEvent", "%s%d" % (word, tag if tag < 99 else 99), tag)
    page.log(10, "StreamEvent", "x?")
    page.log(0, "StreamEvent", "scene")
    page.on("red", act("Stop", 10))
    page.on("green", act("Run", 11))
    page.on("yellow", act("Preload", 10))
    page.on("blue", act("Run", 10))
    page.on("1", act("Run", ref("a", 41)))
    page.on("2", act("Unload", 12))
    page.ask(10, 11, 12)
    yield page.case("told", "An event of the streams is told once for each Stream that runs, the application's first, with its tag",
                    "stream:7 stream:0 red stream:1 green stream:2147483647 yellow stream:7 blue stream:7 1 stream:1 2 stream:0 text")


def negative():
    page = Page()
    page.scene.add("Stream", 10)
    page.log(10, "StreamEvent", "?")
    page.log(10, "StreamEvent", "T", True)
    page.log(10, "StreamEvent", "1", 1)
    page.log(10, "StreamEvent", "-1", -1)
    yield page.case("data", "The tag is a number: a link that waits for true does not hear 1", "stream:1 stream:0 stream:2")


def engine_events():
    page = Page()
    for number in (0, 1, 2, 9, 2147483647):
        page.log(ref("a", 0), "EngineEvent", "a%d" % (number if number < 99 else 99), number)
        page.log(0, "EngineEvent", "s%d" % (number if number < 99 else 99), number)
    page.log(ref("a", 0), "EngineEvent", "?")
    yield page.case("engine", "An event of the engine is EngineEvent of the application with its number", "engine:0 engine:1 engine:2 engine:9 engine:2147483647 engine:3")
    page = Page(stays=True, log=False)
    page.app.variable(900, "")
    page.app.words(901, 24, 384, 600, 64, "", TextWrapping=True, Shared=True)
    noted = lambda word: [act("Append", ref("a", 900), word), act("SetData", ref("a", 901), held(ref("a", 900)))]
    page.app.link(0, "EngineEvent", noted("app."), 1, Shared=True)
    page.app.link(0, "EngineEvent", noted("gone."), 1)
    page.scene.link(ref("a", 0), "EngineEvent", noted("scene."), 1)
    yield page.case("engine-order", "Links of the application hear it first; those that are not shared stopped with the transition", "engine:1 engine:2 engine:1")


def in_order():
    """Stream events wait in the queue; an event of the engine and a key are dealt with as they are taken."""
    page = Page()
    page.scene.add("Stream", 10)
    page.scene.add("Stream", 11)
    page.scene.link(10, "StreamEvent", page.noted("a1") + [act("Stop", 11)], 1)
    page.scene.link(11, "StreamEvent", page.noted("b1"), 1)
    page.scene.link(11, "StreamEvent", page.noted("b2"), 2)
    page.scene.link(10, "StreamEvent", page.noted("a2") + [act("Run", 11)], 2)
    yield page.case("entries", "What was told waits for its turn: a Stream that is stopped meanwhile was told all the same", "stream:1 stream:1 stream:2 stream:2")


def cases():
    for family in (told, negative, engine_events, in_order):
        yield from family()
