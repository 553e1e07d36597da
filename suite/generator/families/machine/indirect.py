"""Values and targets that variables hold: each parameter of each action once."""
from ...family import Family
from ...page import Page
from ...words import BLUE, GREEN, RED, WHITE, YELLOW, Raw, act, held, ref, typed

FAMILY = Family("indirect", "Targets and values that variables hold", "Values; Actions", "The textual notation: gen; Actions",
                "ISO/IEC 13522-5, generic types: GenericInteger to GenericContentReference; indirect references")


def a_page():
    page = Page()
    for place, given in enumerate((24, 160, 48, 1, True, False, "held", b"\xff\xff\x00\x00", b"\x00\x00\xff\x00", 2, 0)):
        page.scene.variable(30 + place, given)
    return page


def visibles():
    page = a_page()
    page.scene.rectangle(10, 240, 32, 60, 48, RED, line=GREEN)
    page.scene.words(11, 240, 96, 120, 16, "written")
    page.scene.refers(20, 10)
    page.scene.refers(21, 11)
    page.scene.refers(22, 20)
    page.on("red", act("SetPosition", held(20), held(30), held(31)), act("SetBoxSize", held(20), held(32), held(30)))
    page.on("green", act("SetFillColour", held(20), held(37)), act("SetLineColour", held(20), held(38)), act("SetLineWidth", held(20), held(33)))
    page.on("yellow", act("SetData", held(21), held(36)), act("SetTextColour", held(21), held(37)))
    page.on("blue", act("SetVariable", 23, Raw(":GObjectRef :IndirectRef 21")), act("SetPosition", held(23), held(31), held(31)))
    page.on("1", act("PutBefore", 10, held(21)), act("SetLineWidth", 10, held(40)))
    page.scene.refers(23, 10)
    page.ask(10, 11)
    yield page.case("visibles", "Boxes, colours and texts", "red green text yellow blue text 1", )


def drawings():
    page = a_page()
    page.scene.art(10, 24, 32, 240, 240, OrigRefFillColour=WHITE)
    page.scene.refers(20, 10)
    page.on("red", act("SetLineColour", 10, RED), act("DrawLine", held(20), held(30), held(32), held(31), held(40)), act("DrawLine", held(20), held(40), held(33), held(32), held(31)))
    page.on("green", act("SetFillColour", held(20), held(37)), act("DrawRectangle", held(20), held(30), held(32), held(31), held(31)))
    page.on("yellow", act("Clear", held(20)))
    yield page.case("drawings", "The four points of a line and of a rectangle", "red green yellow red")


def fields():
    page = a_page()
    page.scene.field(10, 24, 32, 120, 16, "123", BackgroundColour=BLUE)
    page.scene.button(11, 24, 64, 120, 16, "push", BackgroundColour=BLUE)
    page.scene.refers(20, 10)
    page.scene.refers(21, 11)
    page.watch(10, 11)
    page.ask(10, 11)
    page.on("red", act("SetEntryPoint", held(20), held(33)), act("SetOverwriteMode", held(20), held(34)), act("SetInteractionStatus", held(20), held(34)))
    page.on("green", act("SetLabel", held(21), held(36)), act("SetHighlightStatus", held(21), held(34)), act("Select", held(21)))
    page.on("yellow", act("Deselect", held(21)), act("SetHighlightStatus", held(21), held(35)), act("SetInteractionStatus", 10, held(35)))
    page.on("blue", act("GetLabel", held(21), 36), act("GetEntryPoint", held(20), 33), act("SetData", 10, held(36)))
    yield page.case("fields", "Entry fields and buttons", "red 9 select text green text yellow text blue text")


def groups():
    page = a_page()
    for place, fill in enumerate((RED, GREEN, BLUE, YELLOW)):
        page.scene.rectangle(11 + place, 24 + 48 * place, 32, 24, 32, fill, InitiallyActive=False)
    page.scene.list_group(20, [11, 12], [(24, 96), (72, 96)])
    page.scene.token_group(21, [(13, [page.noted("slot1"), page.noted("slot2")]), 14], [(2, 1)])
    page.scene.refers(22, 20)
    page.scene.refers(23, 21)
    page.scene.refers(24, 13)
    page.scene.refers(25, 11)
    page.watch(20, 21)
    page.ask(20, members=[11, 12, 13], cells=2, items=3)
    page.ask(21)
    page.on("red", act("AddItem", held(22), held(33), held(24)), act("SelectItem", held(22), held(39)), act("ScrollItems", held(22), held(33)))
    page.on("green", act("CallActionSlot", held(23), held(39)), act("Move", held(23), held(33)), act("CallActionSlot", held(23), held(33)))
    page.on("yellow", act("MoveTo", held(23), held(33)), act("SetFirstItem", held(22), held(33)), act("ToggleItem", held(22), held(33)), act("DeselectItem", held(22), held(39)))
    page.on("blue", act("GetListItem", held(22), held(39), 25), act("DelItem", held(22), held(25)), act("GetListSize", held(22), 39), act("GetTokenPosition", held(23), 33), act("GetFirstItem", held(22), 40))
    page.on("1", act("GetCellItem", held(22), held(39), 25), act("GetItemStatus", held(22), held(39), 34), act("Stop", held(25)), act("SetInteractionStatus", 15, held(34)))
    page.scene.field(15, 240, 32, 60, 16, "7", BackgroundColour=BLUE)
    page.watch(15)
    yield page.case("groups", "Lists and token groups", "red text green yellow text blue text 1 cancel text")


def events():
    page = a_page()
    page.scene.rectangle(10, 24, 32, 24, 32, RED)
    page.scene.refers(20, 10)
    page.scene.refers(21, 0)
    page.scene.refers(22, ref("a", 0))
    page.scene.refers(23, ref("t", 0))
    page.scene.link(0, "UserInput", page.noted("digit"), 5 + 7, number=26, InitiallyActive=False)
    page.scene.refers(24, 26)
    page.scene.refers(25, 30)
    for given in (1, 2, True, None):
        page.log(10, "TestEvent", "x%s" % given, given)
    page.log(0, "TimerFired", "s1", 1)
    page.log(ref("a", 0), "TimerFired", "a1", 1)
    page.on("red", act("SendEvent", held(21), held(20), Raw("TestEvent"), held(33)), act("SendEvent", held(22), held(20), Raw("TestEvent"), held(34)), act("SendEvent", 0, held(20), Raw("TestEvent"), held(39)))
    page.on("green", act("SetTimer", held(21), 1, held(32)), act("SetTimer", held(22), 1, held(31), held(35)))
    page.on("yellow", act("Activate", held(24)), act("SetInputRegister", held(21), held(39)))
    page.on("blue", act("LockScreen", held(22)), act("Stop", held(20)), act("UnlockScreen", held(22)), act("Run", held(20)), act("Add", held(25), held(30)), act("SetPosition", 10, held(30), 32))
    page.on("1", act("TransitionTo", held(23)))
    page.group("t").link(0, "UserInput", [act("Launch", held(5))], 100)
    page.groups[0].refers(5, ref("b", 0))
    page.groups[0].words(10, 24, 32, 60, 16, "t")
    other = page.group("b", "Application")
    other.words(10, 24, 64, 60, 16, "b")
    other.refers(5, 0)
    other.link(0, "EngineEvent", [act("Quit", held(5))], 1)
    yield page.case("events", "Events, timers, links, the lock, scenes and applications", "red green tick:500 yellow 7 blue 1 red engine:1 engine:1")


def asked():
    page = a_page()
    page.scene.rectangle(10, 24, 32, 24, 32, RED)
    page.scene.words(11, 72, 32, 60, 16, "text")
    page.scene.refers(20, 10)
    page.scene.refers(21, 11)
    page.scene.refers(22, 36)
    page.scene.refers(23, 34)
    page.watch(34)
    page.on("red", act("GetPosition", held(20), 30, 31), act("GetBoxSize", held(20), 32, 33), act("GetTextData", held(21), 36), act("GetRunningStatus", held(20), 34), act("TestVariable", held(23), 1, typed(True)))
    page.on("green", act("Unload", held(20)), act("GetAvailabilityStatus", held(20), 34), act("TestVariable", held(23), 1, typed(True)), act("Append", held(22), held(36)))
    page.ask(30, 31, 32, 33, 36)
    yield page.case("asked", "Whom a Get action asks may be held by a variable", "text red text green text")


def cases():
    for family in (visibles, drawings, fields, groups, events, asked):
        yield from family()
