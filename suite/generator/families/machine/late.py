"""Late scenes: a transition to a scene whose file has not come."""
from ...family import Family
from ...page import Page
from ...words import BLUE, GREEN, RED, YELLOW, Raw, act, ref
from .scenes import Travel

FAMILY = Family("late", "Scenes whose files come late", "Actions (TransitionTo); Taking, steps, posts, runs", "Scenes that come late",
                "ISO/IEC 13522-5, Application class: TransitionTo a scene whose object is not available; ETSI ES 202 184: file system, retrieval of scenes")


def a_page():
    page = Page()
    page.scene.rectangle(10, 24, 32, 24, 32, RED)
    page.on("red", *page.noted("to-t"), act("TransitionTo", ref("t", 0)), *page.noted("goes-on"))
    page.on("green", *page.noted("to-u"), act("TransitionTo", ref("u", 0)), *page.noted("goes-on"))
    page.on("yellow", act("TransitionTo", 0))
    page.on("blue", act("TransitionTo", ref("v", 0)))
    page.on("1", act("Quit", ref("a", 0)))
    page.log(10, "IsStopped", "halts")
    page.scene.fields["OnCloseDown"] = []
    for place, (name, fill) in enumerate((("t", GREEN), ("u", BLUE), ("v", YELLOW))):
        group = page.group(name)
        group.rectangle(10, 120 + 48 * place, 96, 24, 32, fill)
        group.words(11, 24, 160, 120, 16, "scene " + name)
        group.link(0, "UserInput", [act("TransitionTo", ref("s", 0))], 102)
        group.link(0, "UserInput", [act("TransitionTo", ref("t", 0))], 100)
        group.link(0, "UserInput", [act("TransitionTo", ref("u", 0))], 101)
    page.late = ["t", "u"]
    return page


WAYS = {
    "waits": "red 2 scene:t yellow red", "last-of-two": "red green scene:t scene:u red", "last-again": "red green red scene:u scene:t",
    "thrown-over": "red blue scene:t yellow red", "other-comes": "red scene:u green scene:t", "before": "scene:t red scene:u green",
    "twice": "scene:t scene:t red", "unknown": "scene:v scene:s red scene:t", "to-itself": "red yellow scene:t red",
    "two-in-turn": "red scene:t green scene:u red", "quits": "red 1 scene:t",
}


def cases():
    for name, feed in WAYS.items():
        yield a_page().case(name, "A transition to a late scene waits for its file, in the place of one that waited before; the work goes on", feed)
    page = a_page()
    group = page.case("", "", "red").service["t"]
    same = group.replace(b" :Items", b"\n// another way to write it\n:Items   ").hex()
    other = group.replace(b"scene t", b"scene x").hex()
    yield page.case("written-otherwise", "The file of a late scene is the service's group, in whatever way it is written", "red scene:t=%s" % same)
    yield page.case("another-group", "Another group than the service's is refused: the transition still waits", "red scene:t=%s scene:t" % other)
    page = Page(stays=True)
    page.app.rectangle(40, 24, 96, 24, 32, RED, Shared=True)
    page.app.link(0, "EngineEvent", [act("TransitionTo", ref("t", 0))], 1, Shared=True)
    page.app.link(0, "EngineEvent", [act("Launch", ref("b", 0))], 2, Shared=True)
    page.group("t").rectangle(10, 120, 96, 24, 32, GREEN)
    page.group("b", "Application").rectangle(10, 240, 96, 24, 32, BLUE)
    page.late = ["t"]
    yield page.case("launched-over", "Another application: no transition waits any more", "engine:1 engine:2 scene:t")
    page = Page()
    page.late = ["s"]
    page.app.fields["OnStartUp"] = [act("TransitionTo", ref("s", 0))]
    page.app.words(40, 24, 96, 240, 16, "no scene yet")
    page.scene.words(10, 24, 32, 120, 16, "scene")
    yield page.case("the-first", "The first scene may be late, too: the application runs until it comes", "red scene:s")
    travel = Travel()
    travel.s.fields["OnCloseDown"], travel.t.fields["OnStartUp"] = travel.noted("close"), travel.noted("start")
    travel.s.link(0, "UserInput", [act("SendEvent", 0, 0, Raw("StreamEvent"), 1), act("TransitionTo", ref("t", 0))] + travel.noted("on"), 101)
    travel.log(travel.s, 0, "StreamEvent", "event", 1)
    travel.page.late = ["t"]
    yield travel.case("what-waits", "While a transition waits, events that wait are dealt with and keys are heard", "green green scene:t red green")
