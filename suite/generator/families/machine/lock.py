"""The lock of the screen."""
from ...family import Family
from ...page import Page
from ...words import BLUE, GREEN, RED, act, ref

FAMILY = Family("lock", "LockScreen and UnlockScreen", "The lock; The picture", "Actions 10 and 11",
                "ISO/IEC 13522-5, Application class: LockScreen, UnlockScreen, LockCount")


def a_page():
    page = Page(log=False)
    page.scene.rectangle(10, 24, 32, 48, 48, RED)
    page.scene.words(11, 120, 32, 120, 16, "zero")
    page.scene.art(12, 300, 32, 48, 48, OrigRefFillColour=GREEN)
    page.on("red", act("LockScreen", ref("a", 0)))
    page.on("green", act("UnlockScreen", ref("a", 0)))
    page.on("yellow", act("SetPosition", 10, 24, 96), act("SetData", 11, "one"))
    page.on("blue", act("SetPosition", 10, 24, 160), act("SetData", 11, "two"), act("DrawLine", 12, 0, 0, 48, 48))
    page.on("1", act("LockScreen", ref("a", 0)), act("SetPosition", 10, 240, 160), act("UnlockScreen", ref("a", 0)))
    page.on("2", act("SetPosition", 10, 240, 200), act("LockScreen", ref("a", 0)), act("SetData", 11, "locked"))
    page.group("t").rectangle(10, 480, 96, 48, 48, BLUE)
    page.groups[0].link(0, "UserInput", [act("TransitionTo", ref("s", 0))], 8)
    page.groups[0].link(0, "UserInput", [act("UnlockScreen", ref("a", 0))], 101)
    page.groups[0].link(0, "UserInput", [act("LockScreen", ref("a", 0))], 100)
    page.on("3", act("TransitionTo", ref("t", 0)))
    return page


WAYS = {
    "once": "yellow red blue yellow green blue", "twice": "red yellow red blue green yellow green",
    "unlocked": "green green yellow red blue green yellow", "within": "1 yellow 1 red 1 green", "moment": "2 yellow blue green yellow",
    "again": "red yellow green red blue green red yellow green", "over-scenes": "red 3 green 3 yellow",
    "over-scenes-and-back": "red 3 3 yellow green blue", "twice-over-scenes": "red 3 red 3 green yellow green",
}


def cases():
    for name, feed in WAYS.items():
        yield a_page().case(name, "The first LockScreen keeps the picture; until as many UnlockScreens came it is shown, whatever changes, also over scenes", feed)
    page = Page(log=False, stays=True)
    page.app.rectangle(40, 24, 32, 48, 48, RED, Shared=True)
    page.app.link(40, "IsRunning", [act("LockScreen", 0)], Shared=True)
    page.app.items.reverse()
    page.scene.rectangle(10, 120, 32, 48, 48, GREEN)
    page.on("green", act("UnlockScreen", ref("a", 0)))
    yield page.case("from-the-start", "A screen that is locked before anything else is shown keeps what was there", "red green")
    page = Page(log=False)
    page.scene.rectangle(10, 24, 32, 48, 48, RED)
    page.on("red", act("LockScreen", ref("a", 0)), act("SetPosition", 10, 120, 32), act("Launch", ref("b", 0)))
    other = page.group("b", "Application")
    other.rectangle(10, 240, 32, 48, 48, BLUE)
    other.link(0, "IsRunning", [act("TransitionTo", ref("t", 0))])
    page.group("t").link(0, "UserInput", [act("UnlockScreen", ref("b", 0))], 101)
    page.groups[1].rectangle(11, 240, 112, 48, 48, GREEN)
    yield page.case("over-applications", "The lock stays when another application is launched", "red green")
