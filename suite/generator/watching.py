"""What an object of a class can tell, and what it can be asked."""
from .words import VISIBLES, Raw, act, held, typed

# event, its letter in the log, and what data it has
RUNNING = [("IsAvailable", "a", "none"), ("IsDeleted", "d", "none"), ("IsRunning", "r", "none"), ("IsStopped", "s", "none")]
TEXT = [("ContentAvailable", "c", "none")]
TOKEN = [("TokenMovedFrom", "f", "number"), ("TokenMovedTo", "t", "number")]
LIST = [("FirstItemPresented", "F", "truth"), ("LastItemPresented", "L", "truth"), ("HeadItems", "H", "number"),
        ("TailItems", "T", "number"), ("ItemSelected", "S", "number"), ("ItemDeselected", "D", "number")]
INTERACTION = [("InteractionCompleted", "i", "none"), ("HighlightOn", "h", "none"), ("HighlightOff", "l", "none")]
EVENTS = {"Link": [], "Text": TEXT, "TokenGroup": TOKEN, "ListGroup": TOKEN + LIST,
          "EntryField": TEXT + INTERACTION + [("EntryFieldFull", "e", "none")],
          "PushButton": INTERACTION + [("IsSelected", "x", "none"), ("IsDeselected", "y", "none")],
          "Stream": [("StreamEvent", "m", "number")], "ResidentPrg": [("AsyncStopped", "p", "none")],
          "BooleanVar": [("TestEvent", "v", "truth")]}
for variable in ("IntegerVar", "OStringVar", "ObjectRefVar", "ContentRefVar"):
    EVENTS[variable] = EVENTS["BooleanVar"]


def is_variable(kind):
    return kind.endswith("Var")


def events_of(kind):
    """The events that come about of an object of the class."""
    own = EVENTS.get(kind, [])
    return own if is_variable(kind) or kind == "ResidentPrg" else RUNNING + own


def number(action, *parts):
    """Asks for a number, and writes it behind the answers so far."""
    return [act(action, *parts, 904)] + shown_number(904)


def shown_number(variable):
    return [act("SetVariable", 906, Raw(":GInteger :IndirectRef %d" % variable)), act("Append", 902, held(906)),
            act("Append", 902, ".")]


def truth(action, *parts):
    return [act(action, *parts, 905), act("TestVariable", 905, 1, typed(True))]


def octets(action, *parts):
    return [act(action, *parts, 906), act("Append", 902, "["), act("Append", 902, held(906)), act("Append", 902, "].")]


def pair(action, target):
    return [act(action, target, 904, 909)] + shown_number(904) + shown_number(909)


def reference(candidates, action, *parts):
    """Asks for an object, and writes the number of the candidate that it is."""
    said = [act("SetVariable", 907, Raw(":GObjectRef 0")), act(action, *parts, 907)]
    for candidate in [0] + list(candidates):
        said += [act("SetVariable", 908, typed("%d" % candidate if candidate else "-")),
                 act("TestVariable", 907, 1, Raw(":GObjectRef %d" % candidate))]
    return said


def of_list(target, members, cells, items):
    said = number("GetTokenPosition", target) + number("GetFirstItem", target) + number("GetListSize", target)
    for place in range(1, items + 1):
        said += truth("GetItemStatus", target, place) + reference(members, "GetListItem", target, place)
    for cell in range(1, cells + 1):
        said += reference(members, "GetCellItem", target, cell)
    return said


def asked(target, kind, members=(), cells=0, items=0):
    """The actions that ask an object all that its class answers."""
    said = [act("Append", 902, "%d:" % target)]
    if is_variable(kind):
        return said + of_variable(target, kind)
    said += truth("GetAvailabilityStatus", target) + truth("GetRunningStatus", target)
    if kind in VISIBLES:
        said += pair("GetPosition", target) + pair("GetBoxSize", target)
    if kind in ("Text", "EntryField"):
        said += octets("GetTextData", target)
    if kind in ("EntryField", "PushButton"):
        said += truth("GetInteractionStatus", target) + truth("GetHighlightStatus", target)
    if kind == "EntryField":
        said += number("GetEntryPoint", target)
    if kind == "PushButton":
        said += octets("GetLabel", target)
    if kind == "TokenGroup":
        said += number("GetTokenPosition", target)
    if kind == "ListGroup":
        said += of_list(target, members, cells, items)
    return said


def of_variable(target, kind):
    if kind == "IntegerVar":
        return shown_number(target)
    if kind == "BooleanVar":
        return [act("SetVariable", 905, Raw(":GBoolean :IndirectRef %d" % target)), act("TestVariable", 905, 1, typed(True))]
    if kind == "OStringVar":
        return [act("Append", 902, "["), act("Append", 902, held(target)), act("Append", 902, "].")]
    return []
