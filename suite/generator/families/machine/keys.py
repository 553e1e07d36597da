"""Keys: their numbers, and which of them a scene's register lets through."""
from ...family import Family
from ...page import Page
from ...words import KEYS, act, held, ref

FAMILY = Family("keys", "Keys and registers", "Interaction and keys; Taking, steps, posts, runs", "Keys and registers",
                "ISO/IEC 13522-5, Scene class: InputEventRegister; ETSI ES 202 184: user input, registers and key codes")


def shown_keys(page):
    for key, number in KEYS.items():
        page.log(0, "UserInput", key, number)
    return " ".join(KEYS)


def registers():
    for register in (None, 3, 4, 5, 0, 2, 6, -3):
        page = Page(**({} if register is None else {"InputEventReg": register}))
        feed = shown_keys(page)
        page.log(0, "UserInput", "*")
        yield page.case("register-%s" % ("none" if register is None else register), "InputEventReg %s: which keys are told to the scene" % register, feed)


def changed():
    page = Page(InputEventReg=3)
    feed = shown_keys(page)
    page.scene.variable(30, 5)
    page.on("red", act("SetInputRegister", 0, 4))
    page.on("green", act("SetInputRegister", 0, held(30)))
    page.on("yellow", act("SetInputRegister", 0, 3))
    page.on("blue", act("SetInputRegister", 0, 99))
    yield page.case("changed", "SetInputRegister: the register is that of the moment in which the key is taken",
                    "1 up red 1 up select green 1 up cancel yellow 1 select text blue 1 up")


def of_the_scene():
    page = Page(InputEventReg=3)
    page.group("t", InputEventReg=4)
    other = page.groups[0]
    other.words(10, 24, 32, 240, 16, "t")
    for key in ("1", "select", "red"):
        other.link(0, "UserInput", [act("SetData", 10, "t " + key)], KEYS[key])
    other.link(0, "UserInput", [act("TransitionTo", ref("s", 0))], KEYS["green"])
    other.link(0, "UserInput", [act("SetInputRegister", 0, 3)], KEYS["yellow"])
    page.on("green", act("TransitionTo", ref("t", 0)))
    page.log(0, "UserInput", "1", 6)
    page.log(0, "UserInput", "red", 100)
    yield page.case("each-scene", "Each scene has its own register, which is the written one again when it is entered",
                    "1 red green 1 select red yellow 1 select red green 1 green 1")


def without_scene():
    page = Page(log=False)
    page.app.fields["OnStartUp"] = []
    page.app.words(10, 24, 32, 240, 16, "no scene")
    page.app.link(ref("s", 0), "UserInput", [act("SetData", 10, "scene")])
    page.app.link(0, "UserInput", [act("SetData", 10, "application")])
    yield page.case("without-scene", "Without a scene a key does nothing", "red 1 select")


def cases():
    yield from registers()
    yield from changed()
    yield from of_the_scene()
    yield from without_scene()
