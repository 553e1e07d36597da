"""Token groups: the position of the token, the table by which it moves, and the slots of its members."""
from ...family import Family
from ...page import Page
from ...words import BLUE, GREEN, RED, WHITE, act, held

FAMILY = Family("tokens", "Token groups: moves, slots, members", "Items: what the work list holds; Actions 54 to 57", "Actions 54 to 57; attributes 25 and 26",
                "ISO/IEC 13522-5, TokenManager and TokenGroup classes: MovementTable, Move, MoveTo, CallActionSlot")
CROSS = [(2, 3, 1), (0, 4, -1), (3, 3, 3), (2,), ()]


def a_group(moves, members=3, **fields):
    page = Page()
    for place in range(members):
        page.scene.rectangle(11 + place, 24 + 48 * place, 32, 24, 32, (RED, GREEN, BLUE)[place % 3], InitiallyActive=False)
    slots = lambda place: [page.noted("%d/%d" % (place, slot)) for slot in range(1, place + 1)]
    page.scene.token_group(20, [(11 + place, slots(place)) for place in range(members)], moves, **fields)
    page.watch(20, data=range(-1, 7))
    page.watch(*range(11, 11 + members), only=("IsRunning", "IsStopped"))
    page.ask(20)
    return page


def moved():
    for row in range(0, 7):
        page = a_group(CROSS)
        page.on("red", act("Move", 20, row))
        page.on("green", act("MoveTo", 20, 1))
        page.on("yellow", act("MoveTo", 20, 2))
        page.on("blue", act("MoveTo", 20, 3))
        page.on("1", act("MoveTo", 20, 0))
        yield page.case("move-%d" % row, "Move %d: the entry of that row at the token's position, if it is there and from 0 to the number of members" % row,
                        "red text green red yellow red text blue red text 1 red text")


def moved_to():
    page = a_group(CROSS)
    for key, place in (("0", 0), ("1", 1), ("2", 2), ("3", 3), ("4", 4), ("5", -1)):
        page.on(key, act("MoveTo", 20, place))
    page.on("red", act("Stop", 20))
    page.on("green", act("Run", 20))
    page.on("yellow", act("Unload", 20))
    yield page.case("move-to", "MoveTo a place from 0 to the number of members; the old one changes nothing", "text 1 2 text 2 3 4 5 text 0 0 text 3")
    page = a_group(CROSS)
    for key, place in (("2", 2), ("3", 3)):
        page.on(key, act("MoveTo", 20, place))
    page.on("red", act("Stop", 20))
    page.on("green", act("Run", 20))
    page.on("yellow", act("Unload", 20))
    page.on("blue", act("Move", 20, 1))
    yield page.case("stopped", "The token moves in a group that does not run; Run puts it to 1, and tells so", "2 red text 3 text green text 2 yellow text blue text green text")


def slots():
    for place in range(0, 4):
        page = a_group(CROSS)
        page.scene.variable(30, 2)
        page.on("red", act("MoveTo", 20, place))
        for slot in range(0, 5):
            page.on(str(slot), act("CallActionSlot", 20, slot))
        page.on("green", act("CallActionSlot", 20, held(30)))
        page.on("blue", act("CallActionSlot", 20, -1))
        yield page.case("slots-at-%d" % place, "CallActionSlot does the slot of the member at the token's position, if there is one: position %d" % place, "red 0 1 2 3 4 green blue")


def members():
    page = Page()
    page.scene.rectangle(11, 24, 32, 24, 32, RED)
    page.scene.words(12, 72, 32, 60, 16, "words", InitiallyActive=False)
    page.scene.art(13, 144, 32, 24, 32, OrigRefFillColour=WHITE, InitiallyActive=False)
    page.scene.field(14, 192, 32, 24, 16, "7", InitiallyActive=False)
    page.scene.button(15, 240, 32, 60, 16, "push", InitiallyActive=False)
    page.scene.token_group(20, [11, 12, 13, 14, 15, 12], InitiallyActive=False)
    page.watch(20, 11, 12, 13, 14, 15)
    page.on("red", act("Run", 20))
    page.on("green", act("Stop", 20))
    page.on("yellow", act("Stop", 13))
    page.on("blue", act("Unload", 20))
    page.ask(20, 12, 13)
    yield page.case("members", "Run of a group runs its members in order, Stop stops them; one that runs already stays as it is", "red text yellow green text red blue text")


def empty():
    page = a_group([(1, 0)], members=0)
    page.on("red", act("MoveTo", 20, 0))
    page.on("green", act("MoveTo", 20, 1))
    page.on("yellow", act("Move", 20, 1))
    page.on("blue", act("CallActionSlot", 20, 1))
    yield page.case("empty", "A group without members has its token at 1 when it runs", "text green text red text yellow text blue green text")


def of_lists():
    for moves in ([(2, 3, 0), (1, 1, 2)], []):
        page = Page()
        for place in range(3):
            page.scene.rectangle(11 + place, 0, 200, 24, 32, (RED, GREEN, BLUE)[place], InitiallyActive=False)
        from ...words import Raw
        fields = {"MovementTable": Raw("( %s )" % " ".join("( %s )" % " ".join(map(str, row)) for row in moves))} if moves else {}
        page.scene.list_group(20, [11, 12, 13], [(24, 32), (72, 32), (120, 32)], InitiallyActive=False, **fields)
        page.watch(20, data=range(0, 5))
        page.on("red", act("Run", 20))
        page.on("green", act("Stop", 20))
        page.on("yellow", act("Move", 20, 1))
        page.on("blue", act("Move", 20, 2))
        for place in (0, 2, 3, 4):
            page.on(str(place), act("MoveTo", 20, place))
        page.ask(20, members=[11, 12, 13], cells=3, items=3)
        yield page.case("of-a-list" + ("" if moves else "-without-table"), "A list has a token too, over its cells: Run leaves it where it is, and tells nothing of it", "3 text red text green red text 2 yellow yellow yellow text blue 4 0 text")


def cases():
    for family in (moved, moved_to, slots, members, empty, of_lists):
        yield from family()
