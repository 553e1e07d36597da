"""Lists: what a list shows in which cells, what it tells of that, and what follows from each action."""
import random

from ...family import Family
from ...page import Page
from ...words import BLUE, GREEN, RED, WHITE, YELLOW, Raw, act, held

FAMILY = Family("lists", "Lists: what is shown, where, and what is told", "Lists", "Actions 58 to 69",
                "ISO/IEC 13522-5, ListGroup class: internal behaviours and actions")
COLOURS = [RED, GREEN, BLUE, YELLOW, WHITE, bytes((0, 255, 255, 0)), bytes((255, 0, 255, 0))]


def a_list(items, cells, shown=3, **fields):
    """A page with list 20 of so many items (11 and on, a box of two cells each) and so many cells, all watched and asked."""
    page = Page()
    members = range(11, 11 + items)
    spare = range(11 + items, 14 + items)
    for place, member in enumerate(list(members) + list(spare)):
        page.scene.rectangle(member, 0, 240, 24, 32, COLOURS[place % 7], InitiallyActive=False)
    page.scene.list_group(20, members, [(24 + 48 * cell, 32 + 16 * cell) for cell in range(cells)], **fields)
    page.watch(*members, only=("IsRunning", "IsStopped"))
    page.watch(20, data=range(0, 7))
    page.ask(20, members=list(members) + list(spare), cells=cells + 1, items=items + 1)
    return page


def scrolling():
    for wraps in (False, True):
        for items, cells in ((5, 3), (2, 3), (4, 1)):
            page = a_list(items, cells, WrapAround=wraps)
            page.on("red", act("ScrollItems", 20, 1))
            page.on("green", act("ScrollItems", 20, -1))
            page.on("yellow", act("ScrollItems", 20, 2))
            page.on("blue", act("ScrollItems", 20, -7))
            yield page.case("scroll-%d-in-%d%s" % (items, cells, "-wrapping" if wraps else ""),
                            "ScrollItems moves the first item where there is an item to be the first"
                            + (", counting round" if wraps else ""),
                            "text red yellow text red red green text blue text green yellow")


def first_items():
    for wraps in (False, True):
        page = a_list(4, 2, WrapAround=wraps)
        for key, first in (("red", 3), ("green", 4), ("yellow", 0), ("blue", 5), ("1", 1), ("2", -1)):
            page.on(key, act("SetFirstItem", 20, first))
        yield page.case("set-first" + ("-wrapping" if wraps else ""), "SetFirstItem takes a number from 1 to that of the items",
                        "red text red green yellow blue text 2 1 text")


def inserted():
    for wraps in (False, True):
        for items, cells in ((3, 3),) if wraps else ((3, 3), (0, 2), (4, 2)):
            page = a_list(items, cells, WrapAround=wraps)
            new = 11 + items
            page.on("red", act("AddItem", 20, 1, new))
            page.on("green", act("AddItem", 20, items + 1, new + 1))
            page.on("yellow", act("AddItem", 20, 2, new + 2))
            page.on("blue", act("AddItem", 20, 0, new), act("AddItem", 20, 99, new), act("AddItem", 20, items + 4, new), act("AddItem", 20, -1, new))
            page.on("1", act("AddItem", 20, items + 2, new + 2))
            page.on("2", act("SetFirstItem", 20, 2))
            page.on("3", act("SetFirstItem", 20, 3))
            name = "add-to-%d-in-%d%s" % (items, cells, "-wrapping" if wraps else "")
            rule = "AddItem puts an item in at a place from 1 to one more than there are; an item that is there is not put in again"
            yield page.case(name, rule, "blue text red red text green text yellow text")
            page = a_list(items, cells, WrapAround=wraps)
            page.on("red", act("AddItem", 20, 1, new))
            page.on("green", act("AddItem", 20, 2, new + 1))
            page.on("yellow", act("AddItem", 20, 3, new + 2))
            page.on("blue", act("SetFirstItem", 20, 2))
            page.on("1", act("AddItem", 20, items + 1, new))
            page.on("2", act("AddItem", 20, items + 2, new))
            page.on("3", act("AddItem", 20, 1, held(30)))
            page.scene.refers(30, new + 2)
            yield page.case(name + "-later", rule + "; the first item stays the first that is shown", "2 1 blue text red text green text yellow text 3 text")


def deleted():
    for wraps in (False, True):
        for first in (2,) if wraps else (1, 2, 4):
            page = a_list(4, 2, WrapAround=wraps)
            page.on("red", act("SetFirstItem", 20, first))
            for key, member in (("1", 11), ("2", 12), ("3", 13), ("4", 14), ("5", 15)):
                page.on(key, act("DelItem", 20, member))
            page.on("green", act("AddItem", 20, 1, 11))
            page.on("yellow", act("SelectItem", 20, 2))
            page.on("blue", act("SelectItem", 20, 3))
            name = "delete-at-%d%s" % (first, "-wrapping" if wraps else "")
            rule = "DelItem takes an item out; the first item stays the first that is shown where it is still there"
            yield page.case(name, rule, "red 1 text 5 4 text 2 text 3 text green text")
            yield page.case(name + "-itself", rule, "red %d text %d text 1 text" % (first, min(first + 1, 3)))
            yield page.case(name + "-selected", "Selection goes with its item, not with its place; DelItem tells nothing of it", "yellow red text 1 text 2 text green blue text")


def selecting():
    for many in (False, True):
        for runs in (True, False):
            page = a_list(4, 2, MultipleSelection=many, InitiallyActive=runs)
            for key, item in (("1", 1), ("2", 2), ("4", 4)):
                page.on(key, act("SelectItem", 20, item))
            page.on("5", act("DeselectItem", 20, 2))
            page.on("6", act("ToggleItem", 20, 3))
            page.on("7", act("ToggleItem", 20, 1))
            page.on("8", act("SelectItem", 20, 0), act("SelectItem", 20, 5), act("DeselectItem", 20, 0), act("DeselectItem", 20, 5), act("ToggleItem", 20, 0), act("ToggleItem", 20, 5), act("SelectItem", 20, -1))
            page.on("9", act("DeselectItem", 20, 4))
            page.on("red", act("Stop", 20))
            page.on("green", act("Run", 20))
            page.on("yellow", act("ScrollItems", 20, 2))
            name = "select%s%s" % ("-many" if many else "", "" if runs else "-not-running")
            rule = "SelectItem, DeselectItem and ToggleItem tell a change; without MultipleSelection the one that was selected is deselected first"
            yield page.case(name, rule, "1 1 text 2 text 5 5 text 6 text 6 7 text 8 text 4 9 text 7 7 6 text")
            yield page.case(name + "-stopped", "Selection lasts while a list stops, runs and scrolls", "1 4 red text green text yellow text 6 text")


def running():
    for items, cells in ((0, 2), (1, 2), (3, 2), (3, 0)):
        for wraps in (False, True) if items == 3 else (False,):
            page = a_list(items, cells, WrapAround=wraps, InitiallyActive=False)
            page.on("red", act("Run", 20))
            page.on("green", act("Stop", 20))
            page.on("yellow", act("SetFirstItem", 20, 2))
            page.on("blue", act("Unload", 20))
            yield page.case("run-%d-in-%d%s" % (items, cells, "-wrapping" if wraps else ""), "What a list tells when it runs, and what it does not tell when it stops", "text red text green text yellow text red text blue text red")


def asked():
    page = Page()
    for place in range(3):
        page.scene.rectangle(11 + place, 0, 240, 24, 32, COLOURS[place], InitiallyActive=False)
    page.scene.list_group(20, [11, 12, 13], [(24, 32), (72, 32)])
    page.scene.variable(30, 0)
    page.scene.variable(31, True)
    page.scene.refers(32, 20)
    page.scene.variable(33, "old")
    page.scene.words(34, 240, 32, 120, 16, "-")
    said = []
    for place in (-1, 0, 1, 3, 4):
        said += [act("SetVariable", 32, Raw(":GObjectRef 20")), act("GetListItem", 20, place, 32), act("TestVariable", 32, 1, Raw(":GObjectRef 20"))]
        said += [act("SetVariable", 32, Raw(":GObjectRef 20")), act("GetCellItem", 20, place, 32), act("TestVariable", 32, 1, Raw(":GObjectRef 20"))]
        said += [act("SetVariable", 31, Raw(":GBoolean true")), act("GetItemStatus", 20, place, 31), act("TestVariable", 31, 1, Raw(":GBoolean true"))]
    page.on("red", *said)
    page.on("green", act("Stop", 20))
    page.on("yellow", act("Run", 20))
    page.on("blue", act("SetFirstItem", 20, 3))
    page.watch(31, 32)
    yield page.case("asked", "A number without an item leaves the variable as it is; a list that does not run has nothing in its cells", "red blue red green red yellow red")


def of_all_classes():
    page = Page()
    page.scene.words(11, 0, 200, 60, 16, "words", InitiallyActive=False)
    page.scene.art(12, 0, 200, 24, 32, OrigRefFillColour=GREEN, InitiallyActive=False)
    page.scene.field(13, 0, 200, 60, 16, "7", InitiallyActive=False)
    page.scene.button(14, 0, 200, 60, 16, "push", InitiallyActive=False)
    page.scene.rectangle(15, 0, 200, 24, 32, RED)
    page.scene.list_group(20, [11, 12, 13, 14, 15, 12], [(24, 32), (120, 32), (216, 48), (312, 64)])
    page.watch(20)
    page.watch(11, 12, 13, 14, 15, only=("IsRunning", "IsStopped", "IsAvailable"))
    page.on("red", act("ScrollItems", 20, 1))
    page.on("green", act("Stop", 12))
    page.on("yellow", act("SetPosition", 12, 400, 100))
    page.on("blue", act("ScrollItems", 20, -1))
    page.ask(20, members=range(11, 16), cells=4, items=6)
    yield page.case("classes", "Items of each class of visibles; one that is written twice counts once; each change places what is shown anew", "text green yellow red text blue text red")


def twice():
    """An object in two lists, and a list in the effects of whose events the list changes."""
    page = Page()
    for place in range(4):
        page.scene.rectangle(11 + place, 0, 240, 24, 32, COLOURS[place], InitiallyActive=False)
    page.scene.list_group(20, [11, 12, 13], [(24, 32), (72, 32)])
    page.scene.list_group(21, [12, 13, 14], [(240, 32), (288, 32)])
    page.watch(20, 21)
    page.watch(11, 12, 13, 14, only=("IsRunning", "IsStopped"))
    page.on("red", act("ScrollItems", 20, 1))
    page.on("green", act("ScrollItems", 21, 1))
    page.on("yellow", act("ScrollItems", 20, -1))
    page.on("blue", act("Stop", 21))
    yield page.case("two-lists", "An item of two lists stands where the one that changed last put it, and runs as the last one says", "red green yellow blue red")


def by_lot():
    """Many changes of a list, drawn by lot; the number of the case is that of the lot."""
    for number in range(1, 7):
        lot = random.Random(number)
        items, cells = lot.randint(2, 6), lot.randint(1, 4)
        page = a_list(items, cells, WrapAround=lot.choice([True, False]), MultipleSelection=lot.choice([True, False]))
        member, place = lambda: lot.randint(11, 13 + items), lambda: lot.randint(0, items + 2)
        changes = [
            lambda: act("ScrollItems", 20, lot.randint(-4, 4)), lambda: act("SetFirstItem", 20, place()),
            lambda: act("AddItem", 20, place(), member()), lambda: act("DelItem", 20, member()), lambda: act("SelectItem", 20, place()),
            lambda: act("ToggleItem", 20, place()), lambda: act("DeselectItem", 20, place()), lambda: act(lot.choice(["Stop", "Run"]), 20),
            lambda: act("Stop", member()),
        ]
        keys = ["red", "green", "yellow", "blue", "1", "2", "3", "4", "5", "6"]
        for key in keys:
            page.on(key, *[lot.choice(changes)() for _ in range(2)])
        yield page.case("by-lot-%d" % number, "Many changes of a list, one after another", " ".join("%s, text" % key if turn % 2 else key for turn, key in enumerate(keys + [lot.choice(keys) for _ in range(6)])))


def as_large():
    for count in (255, 256):
        page = Page()
        for member in range(11, 12 + count):
            page.scene.add("Rectangle", member, InitiallyActive=False, OrigBoxSize=(24, 32), OrigRefFillColour=RED)
        page.scene.list_group(1000, range(11, 11 + count), [(24, 32)])
        page.scene.variable(1001, 0)
        page.scene.variable(1002, "")
        page.scene.words(1003, 120, 32, 120, 16, "")
        page.on("red", act("AddItem", 1000, 1, 11 + count))
        page.on("green", act("GetListSize", 1000, 1001), act("SetVariable", 1002, Raw(":GInteger :IndirectRef 1001")), act("SetData", 1003, held(1002)))
        page.on("yellow", act("DelItem", 1000, 11))
        yield page.case("items-%d" % count, "A list has at most 256 items", "green red green yellow red green")


def cases():
    for family in (scrolling, first_items, inserted, deleted, selecting, running, asked, of_all_classes, twice, by_lot, as_large):
        yield from family()
