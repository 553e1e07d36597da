"""Actions that cannot be done, as a receiver meets them that plays a service which the verifier refuses: they are skipped."""
from ...family import Family
from ...page import Page
from ...words import BLUE, GREEN, RED, Raw, act, held, ref, typed

FAMILY = Family("stuck", "Actions that cannot be done are skipped", "Actions: Stuck", "What `play` prints: fault; V1 to V5, V7, V9",
                "ISO/IEC 13522-5, provisions for error conditions: an action whose target or parameter is not available is ignored")


def a_page(**fields):
    page = Page(**fields)
    scene = page.scene
    scene.rectangle(10, 24, 32, 24, 32, RED)
    scene.words(11, 72, 32, 60, 16, "text")
    scene.art(12, 144, 32, 24, 32, OrigRefFillColour=GREEN)
    scene.field(13, 192, 32, 24, 16, "7")
    scene.button(14, 240, 32, 60, 16, "push")
    scene.add("Stream", 15)
    scene.rectangle(18, 0, 240, 24, 32, BLUE, InitiallyActive=False)
    scene.list_group(16, [18], [(312, 32)])
    scene.token_group(17, [19, 19], [(2, 1)])
    scene.rectangle(19, 360, 32, 24, 32, BLUE, InitiallyActive=False)
    scene.variable(20, True)
    scene.variable(21, 5)
    scene.variable(22, "ab")
    scene.refers(23, 10)
    scene.add("ContentRefVar", 24, OrigValue=Raw(':ContentRef ("x")'))
    scene.add("ResidentPrg", 25, Name="GSL")
    scene.link(0, "UserInput", page.noted("link"), 104 - 90, number=26)
    page.watch(10, 11, 12, 13, 14, 15, 16, 17, 26)
    page.watch(20, 21, 22, 23)
    page.log(0, "IsRunning", "scene-runs")
    page.log(0, "TestEvent", "sent")
    page.log(ref("a", 0), "TestEvent", "app-sent")
    return page


ACTIONS = {
    "running": ["Run", "Stop", "Preload", "Unload"],
    "links": ["Activate", "Deactivate"],
    "highlight": [("SetHighlightStatus", True)],
    "interaction": [("SetInteractionStatus", True), ("SetInteractionStatus", False)],
    "art": [("SetFillColour", bytes(4)), ("SetLineColour", bytes(4)), ("SetLineWidth", 1)],
    "drawing": ["Clear", ("DrawLine", 0, 0, 24, 24), ("DrawRectangle", 0, 0, 24, 24)],
    "boxes": [("SetPosition", 24, 96), ("SetBoxSize", 12, 16)],
    "asked-boxes": [("GetPosition", 21, 21), ("GetBoxSize", 21, 21)],
    "stack": ["BringToFront", "SendToBack"],
    "neighbours": [("PutBefore", 12), ("PutBehind", 10)],
    "text": [("SetData", "new"), ("SetTextColour", RED)],
    "asked-text": [("GetTextData", 22), ("GetLabel", 22)],
    "labels": [("SetLabel", "new"), "Select", "Deselect"],
    "asked": [("GetAvailabilityStatus", 20), ("GetRunningStatus", 20), ("GetHighlightStatus", 20), ("GetInteractionStatus", 20)],
    "fields": [("SetEntryPoint", 0), ("GetEntryPoint", 21), ("SetOverwriteMode", True)],
    "tokens": [("Move", 1), ("MoveTo", 2), ("CallActionSlot", 1)],
    "asked-groups": [("GetTokenPosition", 21), ("GetFirstItem", 21), ("GetListSize", 21)],
    "lists": [("AddItem", 1, 10), ("DelItem", 18), ("ScrollItems", 1), ("SetFirstItem", 1)],
    "selection": [("SelectItem", 1), ("DeselectItem", 1), ("ToggleItem", 1), ("GetItemStatus", 1, 20)],
    "asked-items": [("GetListItem", 1, 23), ("GetCellItem", 1, 23)],
    "sums": [("Add", 1), ("Subtract", 2), ("Multiply", 3), ("Divide", 2), ("Modulo", 3)],
    "octets": [("Append", "x")],
    "groups": [("SetTimer", 1, 500), ("SetInputRegister", 3), ("SendEvent", 10, Raw("TestEvent"))],
    "lock": ["LockScreen", "UnlockScreen"],
}


def of_classes():
    """Each action with an object of each class as its target, one key a class; where it has no rule nothing happens."""
    targets = [10, 11, 12, 13, 14, 15, 16, 17, 20, 21, 22, 23, 24, 25, 26, 0, 99]
    for name, actions in ACTIONS.items():
        page = a_page()
        written = [action if isinstance(action, tuple) else (action,) for action in actions]
        keys = ["red", "green", "yellow", "blue"]
        for key, part in zip(keys, (targets[:5], targets[5:9], targets[9:14], targets[14:])):
            said = []
            for target in part:
                said += [act(action[0], target, *action[1:]) for action in written] + page.noted(str(target))
            page.on(key, *said)
        page.ask(10, 11, 12, 13, 14, 20, 21, 22)
        yield page.case("class-" + name, "%s: to an object of a class for which there is no rule nothing happens (V2)" % ", ".join(action[0] for action in written),
                        "red green yellow text blue text", lenient=True)


def absent():
    """What is named is not there: targets, parameters, variables that are gone through or receive an answer."""
    ways = {
        "target": [
            act("SetPosition", 99, 1, 1), act("Run", ref("t", 10)), act("SetVariable", ref("t", 20), typed(1)), act("SetTimer", ref("t", 0), 1, 500),
            act("Activate", 98), act("LockScreen", ref("b", 0)),
        ],
        "parameter": [
            act("PutBefore", 10, 99), act("PutBehind", 12, ref("t", 10)), act("AddItem", 16, 1, 99), act("DelItem", 16, 99),
            act("SendEvent", 0, 99, Raw("TestEvent")), act("SendEvent", 0, ref("t", 0), Raw("TestEvent")),
        ],
        "variable": [
            act("SetPosition", 10, held(99), 32), act("SetPosition", 10, 32, held(99)), act("Add", 21, held(99)), act("SetData", 11, held(99)),
            act("SetVariable", 21, Raw(":GInteger :IndirectRef 99")), act("TestVariable", 21, 1, Raw(":GInteger :IndirectRef 99")),
        ],
        "receiver": [
            act("GetPosition", 10, 99, 21), act("GetPosition", 10, 21, 99), act("GetTextData", 11, 99), act("GetRunningStatus", 10, 99),
            act("GetListItem", 16, 1, 99), act("Call", 25, 99, Raw("( :GOctetString 'abc' :GInteger :IndirectRef 21 )")),
        ],
        "through": [
            act("SetPosition", held(99), 1, 1), act("Run", held(30)), act("SetPosition", held(30), 60, 60), act("SetData", held(30), "x"),
            act("PutBefore", 10, held(30)), act("AddItem", 16, 1, held(30)),
        ],
    }
    for name, actions in ways.items():
        page = a_page()
        page.scene.refers(30, 99)
        page.group("t").rectangle(10, 0, 0, 24, 32, RED)
        page.groups[0].variable(20, 0)
        page.group("b", "Application")
        for key, part in zip(("red", "green", "yellow"), (actions[:2], actions[2:4], actions[4:])):
            page.on(key, *[one for place, action in enumerate(part) for one in [action] + page.noted(str(place))])
        page.ask(10, 11, 21, 22)
        yield page.case("absent-" + name, "What is not there is not done to, asked of or asked by (V1, V4): " + name, "red green yellow text", lenient=True)


KINDS = {
    "direct": [
        act("SetVariable", 20, typed(1)), act("SetVariable", 21, typed(True)), act("SetVariable", 22, typed(True)),
        act("SetVariable", 23, typed(5)), act("SetVariable", 20, typed("x")), act("SetVariable", 24, typed("x")),
    ],
    "tested": [
        act("TestVariable", 20, 1, typed(1)), act("TestVariable", 21, 1, typed("5")), act("TestVariable", 22, 1, typed(5)),
        act("TestVariable", 23, 1, typed(10)), act("TestVariable", 20, 3, typed(True)), act("TestVariable", 22, 5, typed("a")),
    ],
    "operators": [
        act("TestVariable", 21, 0, typed(5)), act("TestVariable", 21, 7, typed(5)), act("TestVariable", 21, -1, typed(5)),
        act("TestVariable", 20, 0, typed(True)), act("TestVariable", 23, 3, Raw(":GObjectRef 10")), act("TestVariable", 22, 6, typed("ab")),
    ],
    "operators-held": [
        act("TestVariable", 21, held(41), typed(5)), act("TestVariable", 21, held(42), typed(5)), act("TestVariable", 20, held(43), typed(True)),
        act("TestVariable", 21, held(43), typed(6)), act("TestVariable", 21, held(44), typed(5)), act("TestVariable", 22, held(40), typed("ab")),
    ],
    "indirect": [
        act("SetPosition", 10, held(22), 32), act("SetPosition", 10, 32, held(20)), act("Add", 21, held(22)), act("Append", 22, held(21)),
        act("SetTextColour", 11, held(21)), act("SetInteractionStatus", 13, held(21)),
    ],
    "typed": [
        act("SetVariable", 21, Raw(":GInteger :IndirectRef 22")), act("SetVariable", 22, Raw(":GOctetString :IndirectRef 21")),
        act("SetVariable", 20, Raw(":GBoolean :IndirectRef 21")), act("TestVariable", 21, 1, Raw(":GInteger :IndirectRef 22")),
        act("SetVariable", 23, Raw(":GObjectRef :IndirectRef 24")), act("SetVariable", 22, Raw(":GInteger :IndirectRef 22")),
    ],
    "receivers": [
        act("GetPosition", 10, 20, 21), act("GetPosition", 10, 21, 22), act("GetTextData", 11, 21), act("GetRunningStatus", 10, 21),
        act("GetListSize", 16, 22), act("GetListItem", 16, 1, 21),
    ],
    "targets": [
        act("SetPosition", held(21), 60, 60), act("Run", held(22)), act("SetData", held(20), "x"), act("SetPosition", held(10), 60, 60),
        act("Stop", held(0)), act("SetPosition", held(24), 60, 60),
    ],
    "objects": [
        act("PutBefore", 10, held(21)), act("PutBehind", 10, 20), act("PutBefore", 10, 15), act("AddItem", 16, 1, held(22)),
        act("SendEvent", 0, held(21), Raw("TestEvent")), act("DelItem", 16, held(10)),
    ],
    "data": [
        act("SendEvent", 0, 0, Raw("TestEvent"), held(22)), act("SendEvent", 0, 0, Raw("TestEvent"), held(23)), act("SetData", 11, held(21)),
        act("SetData", 11, held(20)), act("SetTimer", 0, 1, held(22)), act("SetTimer", 0, 1, 500, held(21)),
    ],
    "groups": [
        act("TransitionTo", ref("a", 0)), act("Launch", 0), act("Quit", 0), act("LockScreen", 0), act("TransitionTo", 10),
        act("SetInputRegister", ref("a", 0), 3),
    ],
}


def kinds():
    """Values and variables of another kind than is needed."""
    for name, actions in KINDS.items():
        page = a_page()
        for place, operator in enumerate((1, 0, 7, 3, -1)):
            page.scene.variable(40 + place, operator)
        for key, part in zip(("red", "green", "yellow"), (actions[:2], actions[2:4], actions[4:])):
            page.on(key, *[one for place, action in enumerate(part) for one in [action] + page.noted(str(place))])
        page.on("blue", act("TestVariable", 23, 1, Raw(":GObjectRef 10")), act("TestVariable", 20, 1, typed(True)))
        page.ask(10, 11, 13, 21, 22)
        yield page.case("kind-" + name, "A value or a variable of another kind than is needed (V3, V5): " + name, "red green yellow text blue", lenient=True)


def truths():
    """A truth value that is held by a variable of numbers: nothing is done, and nothing is undone."""
    page = a_page()
    page.log(0, "TimerFired", "fired")
    page.on("red", act("SetHighlightStatus", 14, True), act("SetHighlightStatus", 14, held(21)), act("SetOverwriteMode", 13, True), act("SetOverwriteMode", 13, held(21)), act("SetEntryPoint", 13, 0),
            act("SetTimer", 0, 1, 1000, held(21)), act("SetTimer", 0, 2, 2000), act("SetTimer", 0, 2, 3000, held(21)), act("SetInteractionStatus", 13, True), act("SetInteractionStatus", 13, held(21)))
    page.ask(13, 14)
    yield page.case("kind-truth", "A truth value that a variable of another kind holds (V3): the highlight, the mode, the interaction and the timers stay as they are", "red tick:1500 9 tick:1000 select text", lenient=True)


def members():
    """Members of groups of objects that are absent or no visibles."""
    for kind in ("TokenGroup", "ListGroup"):
        page = Page()
        page.scene.rectangle(11, 24, 32, 24, 32, RED, InitiallyActive=False)
        page.scene.variable(12, 1)
        page.scene.rectangle(13, 72, 32, 24, 32, GREEN, InitiallyActive=False)
        page.scene.add("Stream", 14, InitiallyActive=False)
        chosen = [99, 11, 12, 13, 14]
        page.scene.token_group(20, chosen) if kind == "TokenGroup" else page.scene.list_group(20, chosen, [(24 + 48 * cell, 64) for cell in range(5)], InitiallyActive=True)
        page.watch(20, 11, 13, 14)
        page.on("red", act("Stop", 20))
        page.on("green", act("Run", 20))
        page.on("yellow", act("Run", 14), act("Stop", 20))
        if kind == "ListGroup":
            page.on("blue", act("ScrollItems", 20, 2))
            page.on("1", act("AddItem", 20, 1, 14), act("DelItem", 20, 13))
            page.on("2", act("ScrollItems", 20, -2))
        yield page.case("members-" + kind.lower(), "What is done to a member that is absent or no visible is skipped (V1, V2, V4, V5)", "red green yellow green" + (" blue 1 2" if kind == "ListGroup" else ""), lenient=True)


def through_variables():
    """Targets that variables hold: each key sets the variable to another object."""
    page = a_page()
    for key, target in (("1", 10), ("2", 11), ("3", 12), ("4", 99), ("5", 21), ("6", 0), ("7", 15)):
        page.on(key, act("SetVariable", 23, Raw(":GObjectRef %d" % target)))
    page.on("red", act("SetPosition", held(23), 240, 160), *page.noted("moved"), act("SetTextColour", held(23), RED), act("SetFillColour", held(23), BLUE), act("Run", held(23)), act("Unload", held(23)), act("SetVariable", held(23), typed(77)), *page.noted("done"))
    page.ask(21)
    yield page.case("targets-held", "What a variable refers to counts at the moment of the action", "red 2 red 3 red 4 red 5 red text 6 red 7 red", lenient=True)


def cases():
    for family in (of_classes, absent, kinds, truths, members, through_variables):
        yield from family()
