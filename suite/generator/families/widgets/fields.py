"""Entry fields: what keys do to their text, and how an interaction begins and ends."""
import random

from ...family import Family
from ...page import Page
from ...words import BLUE, Raw, act, held, ref

FAMILY = Family("fields", "Entry fields: typing, entry point, interaction", "Interaction and keys; Actions 40 to 49", "Actions 40 to 49; attribute 23",
                "ISO/IEC 13522-5, Interactible and EntryField classes; ETSI ES 202 184: interactibles and user input")


def a_field(content="12", **fields):
    """A page with field 10, watched and asked: green begins the interaction, yellow ends it."""
    page = Page()
    page.scene.field(10, 24, 32, 240, 16, content, BackgroundColour=BLUE, **fields)
    page.scene.link(0, "IsRunning", [act("SetInteractionStatus", 10, True)])
    page.watch(10)
    page.log(0, "UserInput", "key")
    return page


TYPED = {"at-the-end": "1 2 3", "left": "left 7 8 left left left 9 5", "past-the-ends": "left left left left 1 right right right right right 2",
         "between": "left 3 right 4 left left 5", "other-keys": "up down red green yellow blue text 6"}


def typing():
    for full in (None, 3, 1):
        for name, feed in TYPED.items():
            if full == 1 and name not in ("at-the-end", "left"):
                continue
            page = a_field(**({} if full is None else {"MaxLength": full}))
            yield page.case("typed-%s-of-%s" % (name, full or "any"), "Digits go in at the entry point while there are fewer octets than MaxLength; Left and Right move it within the text", feed + " select text")


def longest():
    """Without MaxLength a field has at most 255 octets."""
    for length in (253, 255):
        page = Page()
        page.scene.field(10, 24, 32, 600, 96, "5" * length, BackgroundColour=BLUE, TextWrapping=True)
        page.scene.link(0, "IsRunning", [act("SetInteractionStatus", 10, True)])
        page.watch(10)
        page.ask(10)
        yield page.case("longest-%d" % length, "Without MaxLength a field takes digits up to 255 octets", "1 2 3 left 7 cancel text")


def by_lot():
    """Keys and changes drawn by lot, while the field interacts."""
    for number in range(1, 5):
        lot = random.Random(number)
        page = a_field("123"[:lot.randint(0, 3)], MaxLength=lot.choice([3, 4, 6, 255]))
        page.scene.link(0, "IsRunning", [act("SetOverwriteMode", 10, lot.choice([True, False]))])
        page.on("red", act("SetInteractionStatus", 10, True))
        page.on("green", act("SetEntryPoint", 10, lot.randint(0, 4)), act("SetInteractionStatus", 10, True))
        page.on("yellow", act("SetData", 10, "98"), act("SetInteractionStatus", 10, True))
        page.ask(10)
        keys = [lot.choice(["1", "2", "left", "left", "right", "7", "8", "left", "9"]) for _ in range(12)]
        yield page.case("by-lot-%d" % number, "Keys of a field, one after another", " ".join(keys[:7]) + " select text green " + " ".join(keys[7:]) + " cancel text yellow 5 select text red 6 select text")


def overwriting():
    for full in (None, 3):
        for name in ("at-the-end", "left", "between"):
            page = a_field("123", **({} if full is None else {"MaxLength": full}))
            page.scene.link(0, "IsRunning", [act("SetOverwriteMode", 10, True)])
            yield page.case("overwriting-%s-of-%s" % (name, full or "any"), "In overwrite mode a digit replaces the octet behind the entry point; at the end it is put in", TYPED[name] + " select")


def mode_changes():
    page = Page()
    page.scene.field(10, 24, 32, 240, 16, "12345", MaxLength=6, BackgroundColour=BLUE)
    page.scene.variable(30, True)
    page.on("red", act("SetOverwriteMode", 10, held(30)), act("SetInteractionStatus", 10, True))
    page.on("green", act("SetOverwriteMode", 10, False), act("SetInteractionStatus", 10, True))
    page.on("yellow", act("SetEntryPoint", 10, 1))
    page.watch(10)
    page.ask(10)
    yield page.case("overwrite-mode", "SetOverwriteMode holds until it is set again", "yellow red 7 8 select text yellow green 9 0 select text")


def entry_points():
    for point in (-1, 0, 1, 5, 6):
        page = Page()
        page.scene.field(10, 24, 32, 240, 16, "12345", BackgroundColour=BLUE)
        page.scene.variable(30, point)
        page.on("red", act("SetEntryPoint", 10, point))
        page.on("green", act("SetInteractionStatus", 10, True))
        page.on("yellow", act("SetEntryPoint", 10, 2))
        page.on("blue", act("SetEntryPoint", 10, held(30)))
        page.watch(10)
        page.ask(10)
        yield page.case("entry-point-%s" % str(point).replace("-", "m"), "SetEntryPoint takes a place from 0 to the length of the text", "text red text green 9 select text yellow text blue text green left 8 cancel text")


def contents():
    for content in (None, "", "123456", b"a\x1bcb"):
        for full in (None, 3) if content in (None, "123456") else (None,):
            page = a_field(content, **({} if full is None else {"MaxLength": full}))
            page.on("red", act("SetData", 10, "9876"))
            page.on("green", act("SetInteractionStatus", 10, True))
            page.ask(10)
            name = {None: "none", "": "empty"}.get(content, content if isinstance(content, str) else "escape").replace(" ", "-")
            yield page.case("content-%s-of-%s" % (name, full or "any"), "Content is kept whatever its length; the entry point goes to its end", "1 left 2 select text red text green 3 select text")


def ends():
    page = a_field("12")
    page.on("green", act("SetInteractionStatus", 10, True))
    page.on("yellow", act("SetInteractionStatus", 10, False))
    page.on("red", act("SetData", 10, "77"))
    page.ask(10)
    for name, feed in (("select", "1 2 select text 3"), ("cancel", "1 left 2 cancel text 3"), ("cancel-again", "1 select green 2 cancel text green cancel text"),
                       ("twice", "select yellow green text"), ("left-and-cancel", "left left cancel text green 5 select text")):
        page = a_field("12")
        page.on("green", act("SetInteractionStatus", 10, True), act("SetInteractionStatus", 10, True))
        page.on("yellow", act("SetInteractionStatus", 10, False), act("SetInteractionStatus", 10, False))
        page.ask(10)
        yield page.case("ends-by-" + name, "Select ends the interaction; Cancel does so too, and the text is what it was when it began", feed)


def ended_inside():
    """Actions during an interaction, put by a stream event, a timer or another link."""
    actions = {"stop": act("Stop", 10), "unload": act("Unload", 10), "set-data": act("SetData", 10, "44"), "status-false": act("SetInteractionStatus", 10, False),
               "status-true": act("SetInteractionStatus", 10, True), "other": act("SetInteractionStatus", 11, True), "entry-point": act("SetEntryPoint", 10, 0),
               "highlight": act("SetHighlightStatus", 10, True)}
    for name, action in actions.items():
        page = Page()
        page.scene.field(10, 24, 32, 240, 16, "12", BackgroundColour=BLUE, MaxLength=4)
        page.scene.button(11, 24, 64, 120, 16, "push", BackgroundColour=BLUE)
        page.scene.link(0, "IsRunning", [act("SetInteractionStatus", 10, True)])
        page.scene.link(10, "EntryFieldFull", [action])
        page.on("green", act("Run", 10), act("SetInteractionStatus", 10, True))
        page.on("yellow", act("SetInteractionStatus", 11, False), act("SetInteractionStatus", 10, False))
        page.watch(10, 11)
        page.log(0, "UserInput", "key")
        page.ask(10, 11)
        yield page.case("inside-" + name, "An interaction, and %s of the field while it lasts" % action.split(" ")[0], "1 2 3 cancel text select yellow text green 5 cancel text")


def refused():
    page = Page()
    page.scene.field(10, 24, 32, 240, 16, "12", BackgroundColour=BLUE, InitiallyActive=False)
    page.scene.variable(30, True)
    page.scene.variable(31, False)
    page.on("red", act("SetInteractionStatus", 10, True))
    page.on("green", act("Preload", 10))
    page.on("yellow", act("Run", 10))
    page.on("blue", act("SetInteractionStatus", 10, held(30)))
    page.watch(10)
    page.log(0, "UserInput", "key")
    page.ask(10)
    page.scene.link(10, "EntryFieldFull", [act("SetInteractionStatus", 10, held(31))])
    yield page.case("not-running", "What does not run does not interact", "red text 1 green red text yellow red 1 2 select text blue 3 cancel text")


def highlighted():
    for kind in ("EntryField", "PushButton"):
        page = Page()
        page.scene.add(kind, 10, OrigBoxSize=(240, 16), OrigPosition=(24, 32), BackgroundColour=BLUE, InitiallyActive=False)
        page.scene.variable(30, True)
        page.scene.variable(31, False)
        page.on("red", act("SetHighlightStatus", 10, True))
        page.on("green", act("SetHighlightStatus", 10, False))
        page.on("yellow", act("SetHighlightStatus", 10, held(30)), act("SetHighlightStatus", 10, held(31)))
        page.on("blue", act("Run", 10))
        page.on("1", act("Unload", 10))
        page.watch(10)
        page.ask(10)
        yield page.case("highlight-%s" % kind.lower(), "SetHighlightStatus of a %s: a change is told at once, also of one that does not run" % kind, "text red red text green green yellow blue red text 1 text green text")


def asked_while_typing():
    """The entry point and the text while an interaction lasts: the keys are the field's, so an event of the engine asks."""
    for mode in (False, True):
        page = Page()
        page.scene.field(10, 24, 32, 240, 16, "1234", MaxLength=5, BackgroundColour=BLUE)
        page.scene.variable(30, 0)
        page.scene.variable(31, "")
        page.scene.words(32, 24, 64, 120, 16, "")
        page.scene.variable(33, "")
        page.scene.link(ref("a", 0), "EngineEvent", [act("GetEntryPoint", 10, 30), act("SetVariable", 31, Raw(":GInteger :IndirectRef 30")), act("GetTextData", 10, 33),
                                                     act("Append", 33, "/"), act("Append", 33, held(31)), act("SetData", 32, held(33))])
        page.scene.link(0, "IsRunning", [act("SetOverwriteMode", 10, mode), act("SetInteractionStatus", 10, True)])
        page.on("blue", act("SetInteractionStatus", 10, True))
        keys = "start left left left 7 right right right right 8 9 cancel blue 1 select"
        yield page.case("point-while-typing" + ("-over" if mode else ""), "The entry point behind each key of an interaction",
                        " ".join("engine:1" if key == "start" else key + ", engine:1" for key in keys.split()))


def cases():
    for family in (typing, longest, by_lot, overwriting, mode_changes, entry_points, contents, ends, ended_inside, refused, highlighted, asked_while_typing):
        yield from family()
