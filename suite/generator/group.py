"""A group: an application or a scene with its items, and the text of its file."""
from .words import KEYS, Raw, effect, ref, value


class Group:
    """Items are added in the order in which the file writes them; links take numbers from 300 on where none is given."""

    def __init__(self, path, kind="Scene", **fields):
        self.path, self.kind, self.fields = path, kind, fields
        self.items, self.classes, self.next_link, self.keyed = [], {}, 300, {}

    def add(self, kind, number, **fields):
        self.classes[number] = kind
        written = "".join(" :%s %s" % (name, value(given)) for name, given in fields.items())
        self.items.append("{:%s %d%s }" % (kind, number, written))
        return number

    def link(self, source, event, actions, data=None, number=None, **fields):
        """A link from an event to actions; data only where it is given. One that waits for a key goes with the cases that press it."""
        own = number is None
        if own:
            number, self.next_link = self.next_link, self.next_link + 1
        heard = {} if data is None else {"EventData": data}
        source = source if isinstance(source, Raw) else Raw(str(source))
        self.add("Link", number, EventSource=source, EventType=Raw(event), **heard, LinkEffect=effect(actions), **fields)
        if own and event == "UserInput" and data in KEYS.values():
            self.keyed[self.items[-1]] = data
        return number

    def rectangle(self, number, x, y, w, h, fill, line=None, width=None, **fields):
        if line is not None:
            fields["OrigRefLineColour"] = line
        return self.add("Rectangle", number, OrigBoxSize=(w, h), OrigPosition=(x, y),
                        OrigLineWidth=width if width is not None else (0 if line is None else 1),
                        OrigRefFillColour=fill, **fields)

    def words(self, number, x, y, w, h, content=None, **fields):
        """A Text."""
        if content is not None:
            fields["OrigContent"] = content
        return self.add("Text", number, OrigBoxSize=(w, h), OrigPosition=(x, y), **fields)

    def field(self, number, x, y, w, h, content=None, **fields):
        if content is not None:
            fields["OrigContent"] = content
        return self.add("EntryField", number, OrigBoxSize=(w, h), OrigPosition=(x, y), **fields)

    def button(self, number, x, y, w, h, label=None, **fields):
        if label is not None:
            fields["OrigLabel"] = label
        return self.add("PushButton", number, OrigBoxSize=(w, h), OrigPosition=(x, y), **fields)

    def art(self, number, x, y, w, h, **fields):
        return self.add("DynamicLineArt", number, OrigBoxSize=(w, h), OrigPosition=(x, y), **fields)

    def list_group(self, number, members, cells, **fields):
        return self.add("ListGroup", number, TokenGroupItems=Raw("( %s )" % " ".join("( %s )" % m for m in members)),
                        Positions=Raw("( %s )" % " ".join("( %d %d )" % cell for cell in cells)), **fields)

    def token_group(self, number, members, moves=(), **fields):
        """Members are references, or pairs of a reference and a list of slots, each a list of actions."""
        def member(given):
            named, slots = given if isinstance(given, tuple) else (given, [])
            return "( %s %s)" % (named, "".join(effect(slot) + " " for slot in slots))
        if moves:
            fields["MovementTable"] = Raw("( %s )" % " ".join("( %s )" % " ".join(map(str, row)) for row in moves))
        return self.add("TokenGroup", number, TokenGroupItems=Raw("( %s )" % " ".join(map(member, members))), **fields)

    def variable(self, number, given):
        """A variable, by what it holds at first: a truth value, a number, octets."""
        kind = {bool: "BooleanVar", int: "IntegerVar"}.get(type(given), "OStringVar")
        return self.add(kind, number, OrigValue=given)

    def refers(self, number, reference):
        return self.add("ObjectRefVar", number, OrigValue=Raw(str(reference)))

    def text(self, keys=KEYS.values()):
        """The text of the file, for a case that presses these keys."""
        written = "".join(" :%s %s\n" % (name, value(given)) for name, given in self.fields.items())
        items = [item for item in self.items if self.keyed.get(item, None) is None or self.keyed[item] in keys]
        items = " :Items (\n%s )\n" % "".join("  %s\n" % item for item in items) if items else ""
        return '{:%s %s\n%s%s}\n' % (self.kind, ref(self.path, 0), written, items)
