"""Timers: when they fire, in which order, and how they are set anew and cancelled."""
from ...family import Family
from ...page import Page
from ...words import RED, act, held, ref

FAMILY = Family("timers", "Timers and the clock", "Actions (SetTimer); Taking, steps, posts, runs", "Action 7; Limits",
                "ISO/IEC 13522-5, Group class: SetTimer, TimerFired, absolute and relative time")


def a_clock(numbers=range(0, 10), **fields):
    page = Page(**fields)
    page.scene.link(0, "TimerFired", page.noted("?"), 99)
    for number in numbers:
        page.log(0, "TimerFired", "s%d" % number, number)
        page.log(ref("a", 0), "TimerFired", "a%d" % number, number)
    return page


def relative():
    page = a_clock()
    page.on("red", act("SetTimer", 0, 1, 1000), act("SetTimer", 0, 2, 2000), act("SetTimer", 0, 3, 3000))
    page.on("green", act("SetTimer", 0, 1, 1000))
    page.on("yellow", act("SetTimer", 0, 2))
    page.on("blue", act("SetTimer", 0, 3, -1))
    yield page.case("once", "A timer fires once, the milliseconds behind the moment in which it was set", "tick:500 red tick:500 tick:1000 tick:1000 tick:1000 tick:5000")
    page = a_clock()
    page.on("red", act("SetTimer", 0, 1, 1000), act("SetTimer", 0, 2, 2000), act("SetTimer", 0, 3, 3000))
    page.on("green", act("SetTimer", 0, 1, 2000))
    page.on("yellow", act("SetTimer", 0, 2))
    page.on("blue", act("SetTimer", 0, 3, -1))
    yield page.case("anew-and-cancelled", "An older timer with the number goes; without a value, or with a negative one, it is only cancelled", "red tick:500 green yellow tick:1000 blue tick:1500 tick:2000")
    page = a_clock()
    page.on("red", act("SetTimer", 0, 1, 0), act("SetTimer", 0, 0, 1000))
    yield page.case("nought", "A timer of 0 milliseconds fires with the next tick; its number may be 0", "red tick:400 tick:1000")


def to_the_moment():
    page = a_clock()
    page.on("red", act("SetTimer", 0, 1, 1000), act("SetTimer", 0, 2, 1001), act("SetTimer", 0, 3, 999))
    yield page.case("to-the-millisecond", "A timer fires with the tick that reaches its moment", "red tick:999 tick:1 tick:1", exact=True)


def absolute():
    page = a_clock()
    page.on("red", act("SetTimer", 0, 1, 3000, True), act("SetTimer", 0, 2, 3000, False))
    page.on("green", act("SetTimer", 0, 3, 500, True), act("SetTimer", 0, 1, 500, True))
    page.on("yellow", act("SetTimer", 0, 4, 6000, True))
    page.scene.variable(30, 5)
    page.scene.variable(31, True)
    page.scene.variable(32, 7000)
    page.on("blue", act("SetTimer", 0, 5, held(32), held(31)))
    yield page.case("absolute", "With true the time counts from the moment in which the group was entered; a moment that is past only cancels", "tick:1500 red tick:1000 tick:1000 tick:1500 yellow blue tick:1500 tick:1000 tick:5000")
    page = a_clock()
    page.on("red", act("SetTimer", 0, 1, 3000, True))
    page.on("green", act("SetTimer", 0, 1, 500, True))
    page.on("yellow", act("SetTimer", 0, 1, 1000, True))
    yield page.case("absolute-past", "A moment that is past cancels the timer", "tick:1000 red green tick:3000 red tick:1000")
    page = a_clock()
    page.on("red", act("SetTimer", 0, 1, 1000, True))
    page.on("green", act("SetTimer", 0, 2, 999, True))
    yield page.case("absolute-now", "A moment that is now is not past", "tick:1000 red green tick:1", exact=True)


def of_each_group():
    """The scene's clock begins with the scene, the application's with the application; each has its own timers."""
    page = a_clock()
    page.group("t")
    other = page.groups[0]
    other.link(0, "UserInput", [act("TransitionTo", ref("s", 0))], 101)
    page.on("red", act("SetTimer", 0, 1, 2000, True), act("SetTimer", ref("a", 0), 1, 8000, True), act("SetTimer", ref("a", 0), 2, 2000))
    page.on("green", act("TransitionTo", ref("t", 0)))
    page.on("yellow", act("SetTimer", ref("a", 0), 1))
    yield page.case("of-each-group", "Timers of a scene end with it, those of the application go on; each group's clock begins when it is entered",
                    "tick:1000 red tick:500 green tick:1000 green tick:1000 red tick:1500 tick:1000 tick:1000 tick:2000")


def over_scenes():
    """Timers that are set and not due when their scene goes: the next scene has none of them, also where it is the same one."""
    for way in ("other", "itself", "launched"):
        page = a_clock(stays=True)
        page.app.variable(900, "")
        page.app.words(901, 24, 240, 600, 32, "", TextWrapping=True, Shared=True)
        told = lambda word: [act("Append", ref("a", 900), word + "."), act("SetData", ref("a", 901), held(ref("a", 900)))]
        other = page.group("t")
        for group in (page.scene, other):
            group.link(0, "TimerFired", told("own"))
            group.link(ref("a", 0), "TimerFired", told("app"))
            group.link(ref("s", 0), "TimerFired", told("s"))
            group.link(0, "IsRunning", told(group.path))
        other.link(0, "UserInput", [act("SetTimer", 0, 1, 1500), act("SetTimer", 0, 5, 500)], 101)
        other.link(0, "UserInput", [act("TransitionTo", ref("s", 0))], 100)
        page.on("green", act("SetTimer", 0, 1, 1000), act("SetTimer", 0, 2, 2000), act("SetTimer", ref("a", 0), 1, 1500), act("SetTimer", ref("a", 0), 2, 3400))
        page.on("red", act("TransitionTo", ref("t", 0)) if way == "other" else act("TransitionTo", 0) if way == "itself" else act("Launch", ref("a", 0)))
        yield page.case("over-scenes-" + way, "The timers of what is left go with it, those of the application stay over a transition", "green tick:500 red tick:1250 green tick:1250 red tick:700 green tick:650 red tick:3400")


def order():
    page = a_clock()
    page.on("red", act("SetTimer", 0, 3, 1000), act("SetTimer", 0, 1, 1000), act("SetTimer", ref("a", 0), 2, 1000), act("SetTimer", 0, 2, 900), act("SetTimer", ref("a", 0), 1, 1000),
            act("SetTimer", ref("a", 0), 4, 1100), act("SetTimer", 0, -1, 1000))
    page.log(0, "TimerFired", "s-1", -1)
    yield page.case("order", "Timers that are due in one tick fire by their moments, of one moment the application's first, then by number", "red tick:3000 tick:400")


def set_while_firing():
    page = a_clock()
    page.scene.link(0, "TimerFired", [act("SetTimer", 0, 1, 900), act("SetTimer", 0, 2, 0)], 1)
    page.scene.link(0, "TimerFired", [act("SetTimer", 0, 3)], 2)
    page.on("red", act("SetTimer", 0, 1, 1000), act("SetTimer", 0, 3, 4000))
    page.on("green", act("SetTimer", 0, 3, 1000), act("SetTimer", 0, 2, 1000))
    yield page.case("set-while-firing", "What is set by a timer that fires waits for a later tick; one that has fired cannot be cancelled", "red tick:3000 tick:400 tick:900 green tick:1500 tick:500", exact=True)


def far():
    page = a_clock()
    page.on("red", act("SetTimer", 0, 1, 60000), act("SetTimer", 0, 2, 2147483647), act("SetTimer", 0, 3, 120000))
    page.on("green", act("SetTimer", 0, 4, 2147483647, True))
    yield page.case("far", "A timer of a minute, and one that is far away", "red tick:59500 tick:1000 green tick:58500 tick:1500")


def held_values():
    page = a_clock()
    page.scene.variable(30, 4)
    page.scene.variable(31, 1500)
    page.scene.variable(32, -5)
    page.on("red", act("SetTimer", 0, 4, held(31)))
    page.on("green", act("SetTimer", 0, 4, held(32)))
    page.on("yellow", act("Subtract", 31, 1000))
    yield page.case("held", "The value of SetTimer may be held by a variable, whose value counts when the timer is set", "red yellow tick:1000 tick:1000 red tick:1000 red green tick:1000")
    page = a_clock()
    page.scene.variable(30, 4)
    page.on("red", act("SetTimer", 0, held(30), 1000))
    page.on("green", act("Add", 30, 1))
    yield page.case("held-number", "A receiver that plays what the verifier refuses (V7): the number of a timer is held by a variable", "red green red tick:2000", lenient=True)


def cases():
    for family in (relative, to_the_moment, absolute, of_each_group, over_scenes, order, set_while_firing, far, held_values):
        yield from family()
