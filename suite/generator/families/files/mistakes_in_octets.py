"""One mistake each in the octets of a scene: the name of the case, and how its file is made."""
from ...binary import element, encoded, identifier, integer
from .mistakes_in_text import GOOD

DER = encoded(GOOD)


def group(*fields):
    """A scene of fields as they stand."""
    return element(identifier(1), element(0x30, element(4, b"~/s") + integer(0)) + b"".join(fields))


def field(number, contents):
    return element(identifier(number), contents)


RECTANGLE = element(identifier(8), integer(10) + field(13, integer(24) + integer(32)) + field(17, element(4, b"\xff\0\0\0")))


def items(*parts):
    return field(3, element(0x30, b"".join(parts)))


def link(effect, source=None, kind=None, data=None):
    said = integer(11) + (source if source is not None else field(8, integer(0))) + (kind if kind is not None else field(9, integer(6))) + (data if data is not None else field(10, integer(100)))
    return element(identifier(2), said + field(11, effect))


def moves(*parts):
    """An effect with one SetPosition of these parts."""
    return element(0x30, element(identifier(126), b"".join(parts)))


def active(contents):
    return group(items(element(identifier(8), integer(10) + field(6, contents) + field(13, integer(24) + integer(32)) + field(17, element(4, b"\xff\0\0\0")))))


def holding(kind, contents):
    """A scene with a variable of a class."""
    return group(items(RECTANGLE, element(identifier(kind), integer(11) + field(12, contents))))


def moving(table):
    return group(items(RECTANGLE, element(identifier(12), integer(11) + field(25, table))))


def members_of(member):
    return group(items(RECTANGLE, element(identifier(12), integer(11) + field(26, element(0x30, element(0x30, member))))))


MISTAKES = {
    "truncated": lambda: DER[:-1],
    "empty-scene": lambda: b"\xa1\x00",
    "cut-in-the-middle": lambda: DER[:len(DER) // 2],
    "behind": lambda: DER + b"\0",
    "one-octet": lambda: b"\xa1",
    "long-length": lambda: group(items(RECTANGLE), b"\xa4\x81\x03\x02\x01\x03"),
    "longer-length": lambda: group(b"\xa4\x82\x00\x03\x02\x01\x03"),
    "indefinite": lambda: b"\xa1\x80" + DER[3:] + b"\0\0",
    "length-past-the-end": lambda: b"\xa1\x0b" + group()[2:],
    "length-of-nine": lambda: b"\xa1\x89" + bytes(9),
    "tag-long-form": lambda: group(b"\xbf\x04\x03\x02\x01\x03"),
    "tag-leading-80": lambda: group(b"\xbf\x80\x20\x03\x04\x01x"),
    "tag-cut": lambda: group(b"\xbf"),
    "tag-cut-inside": lambda: group(b"\xbf\x81"),
    "tag-large": lambda: group(b"\xbf\x84\x80\x00\x03\x02\x01\x01"),
    "tag-huge": lambda: group(b"\xbf\xff\xff\xff\xff\x7f\x03\x02\x01\x01"),
    "tag-unknown": lambda: group(field(39, integer(1))),
    "integer-empty": lambda: group(field(4, b"\x02\0")),
    "integer-padded": lambda: group(field(4, b"\x02\x02\0\x03")),
    "integer-padded-negative": lambda: group(field(4, b"\x02\x02\xff\x80")),
    "integer-five-octets": lambda: group(field(4, b"\x02\x05\x01\0\0\0\0")),
    "integer-five-negative": lambda: group(field(4, b"\x02\x05\xfe\0\0\0\0")),
    "integer-33-bits": lambda: group(field(4, b"\x02\x05\0\x80\0\0\0")),
    "boolean-1": lambda: group(items(element(identifier(3), integer(10) + field(12, b"\x01\x01\x01")))),
    "boolean-fe": lambda: group(items(element(identifier(3), integer(10) + field(12, b"\x01\x01\xfe")))),
    "boolean-two-octets": lambda: group(items(element(identifier(3), integer(10) + field(12, b"\x01\x02\xff\xff")))),
    "boolean-empty": lambda: group(items(element(identifier(3), integer(10) + field(12, b"\x01\0")))),
    "boolean-for-integer": lambda: group(field(4, b"\x01\x01\xff")),
    "active-integer": lambda: active(integer(1)),
    "active-octets": lambda: active(element(4, b"\xff")),
    "active-null": lambda: active(b"\x05\0"),
    "active-two": lambda: active(b"\x01\x01\xff" * 2),
    "active-none": lambda: active(b""),
    "active-constructed": lambda: active(b"\x21\x03\x01\x01\xff"),
    "value-boolean-for-integer": lambda: holding(4, b"\x01\x01\xff"),
    "value-octets-for-integer": lambda: holding(4, element(4, b"1")),
    "value-integer-for-octets": lambda: holding(5, integer(1)),
    "value-boolean-for-octets": lambda: holding(5, b"\x01\x01\xff"),
    "value-octets-for-boolean": lambda: holding(3, element(4, b"\xff")),
    "value-octets-for-reference": lambda: holding(6, element(4, b"x")),
    "value-boolean-for-reference": lambda: holding(6, b"\x01\x01\xff"),
    "value-reference-negative": lambda: holding(6, integer(-1)),
    "value-octets-for-content": lambda: holding(7, element(4, b"x")),
    "value-content-for-octets": lambda: holding(5, element(identifier(60, False), b"x")),
    "value-integer-for-content": lambda: holding(7, integer(1)),
    "value-pair-for-integer": lambda: holding(4, element(0x30, element(4, b"s") + integer(1))),
    "value-two": lambda: holding(4, integer(1) + integer(1)),
    "value-null": lambda: holding(4, b"\x05\0"),
    "value-of-a-rectangle": lambda: group(items(element(identifier(8), integer(10) + field(12, integer(1)) + field(13, integer(24) + integer(32))))),
    "event-negative": lambda: group(items(link(element(0x30, b""), kind=field(9, integer(-1))))),
    "event-minus-26": lambda: group(items(link(element(0x30, b""), kind=field(9, integer(-26))))),
    "event-262": lambda: group(items(link(element(0x30, b""), kind=field(9, integer(262))))),
    "event-two": lambda: group(items(link(element(0x30, b""), kind=field(9, integer(6) + integer(6))))),
    "event-boolean": lambda: group(items(link(element(0x30, b""), kind=field(9, b"\x01\x01\xff")))),
    "row-of-octets": lambda: moving(element(0x30, element(0x30, element(4, b"x")))),
    "row-not-a-list": lambda: moving(element(0x30, integer(1))),
    "table-two": lambda: moving(element(0x30, b"") * 2),
    "table-integer": lambda: moving(integer(1)),
    "member-longer": lambda: members_of(integer(10) + element(0x30, b"") + integer(1)),
    "member-empty": lambda: members_of(b""),
    "member-octets": lambda: members_of(element(4, b"x")),
    "members-two": lambda: group(items(element(identifier(12), integer(10) + field(26, element(0x30, b"") * 2)))),
    "scenes-longer": lambda: group(field(38, element(0x30, element(0x30, element(4, b"x") + integer(1) + integer(1))))),
    "scenes-short": lambda: group(field(38, element(0x30, element(0x30, element(4, b"x"))))),
    "scenes-octet": lambda: group(field(38, element(0x30, element(0x30, element(4, b"x\x1f") + integer(1))))),
    "scenes-two": lambda: group(field(38, element(0x30, b"") * 2)),
    "position-short": lambda: group(items(element(identifier(11), integer(10) + field(27, element(0x30, element(0x30, integer(1))))))),
    "positions-two": lambda: group(items(element(identifier(11), integer(10) + field(27, element(0x30, b"") * 2)))),
    "effect-two": lambda: group(items(link(element(0x30, b"") * 2))),
    "effect-integer": lambda: group(items(link(integer(1)))),
    "items-two": lambda: group(field(3, element(0x30, b"") * 2)),
    "items-integer": lambda: group(field(3, integer(1))),
    "octets-two": lambda: group(field(32, element(4, b"x") * 2)),
    "octets-none": lambda: group(field(32, b"")),
    "content-two": lambda: group(items(element(identifier(9), integer(10) + field(13, integer(24) + integer(32)) + field(18, element(4, b"x") * 2)))),
    "content-integer": lambda: group(items(element(identifier(9), integer(10) + field(13, integer(24) + integer(32)) + field(18, integer(1))))),
    "width-negative": lambda: group(items(element(identifier(8), integer(10) + field(13, integer(24) + integer(32)) + field(15, integer(-1))))),
    "box-both-negative": lambda: group(items(element(identifier(8), integer(10) + field(13, integer(-24) + integer(32))))),
    "colour-of-5": lambda: group(items(element(identifier(8), integer(10) + field(13, integer(24) + integer(32)) + field(16, element(4, b"\xff\0\0\0\0"))))),
    "colour-integer": lambda: group(items(element(identifier(8), integer(10) + field(13, integer(24) + integer(32)) + field(16, integer(1))))),
    "integer-for-boolean": lambda: group(items(element(identifier(3), integer(10) + field(12, integer(1))))),
    "octets-for-integer": lambda: group(field(4, element(4, b"3"))),
    "integer-for-octets": lambda: group(field(32, integer(3))),
    "primitive-field": lambda: group(b"\x84\x03\x02\x01\x03"),
    "constructed-octets": lambda: group(field(32, b"\x24\x03\x04\x01x")),
    "primitive-sequence": lambda: group(field(3, b"\x10\0")),
    "set-for-sequence": lambda: group(field(3, b"\x31\0")),
    "double": lambda: group(field(4, integer(3)), field(4, integer(3))),
    "out-of-order": lambda: group(field(5, integer(720) + integer(576)), field(4, integer(3))),
    "items-behind-register": lambda: group(field(4, integer(3)), items(RECTANGLE)),
    "of-another-class": lambda: group(field(13, integer(24) + integer(32))),
    "of-an-item": lambda: group(field(6, b"\x01\x01\xff")),
    "class-unknown": lambda: group(items(element(identifier(17), integer(10)))),
    "application-inside": lambda: group(items(element(identifier(0), integer(10)))),
    "lacking-box": lambda: group(items(element(identifier(8), integer(10)))),
    "lacking-value": lambda: group(items(element(identifier(4), integer(10)))),
    "lacking-effect": lambda: group(items(element(identifier(2), integer(10) + field(8, integer(0)) + field(9, integer(6))))),
    "identity-number": lambda: element(identifier(1), element(0x30, element(4, b"~/s") + integer(1))),
    "identity-missing": lambda: element(identifier(1), items(RECTANGLE)),
    "identity-longer": lambda: element(identifier(1), element(0x30, element(4, b"~/s") + integer(0) + integer(0))),
    "identity-short": lambda: element(identifier(1), element(0x30, element(4, b"~/s"))),
    "item-number-0": lambda: group(items(element(identifier(8), integer(0) + field(13, integer(24) + integer(32))))),
    "item-number-negative": lambda: group(items(element(identifier(8), integer(-1) + field(13, integer(24) + integer(32))))),
    "name-octet": lambda: element(identifier(1), element(0x30, element(4, b"~/\x1f") + integer(0)) + items(RECTANGLE)),
    "name-quote": lambda: element(identifier(1), element(0x30, element(4, b'~/"') + integer(0)) + items(RECTANGLE)),
    "name-high": lambda: element(identifier(1), element(0x30, element(4, b"~/\x7f") + integer(0)) + items(RECTANGLE)),
    "colour-of-3": lambda: group(items(element(identifier(8), integer(10) + field(13, integer(24) + integer(32)) + field(17, element(4, b"\xff\0\0"))))),
    "box-negative": lambda: group(items(element(identifier(8), integer(10) + field(13, integer(24) + integer(-32))))),
    "box-of-three": lambda: group(items(element(identifier(8), integer(10) + field(13, integer(24) + integer(32) + integer(1))))),
    "box-of-one": lambda: group(items(element(identifier(8), integer(10) + field(13, integer(24))))),
    "scene-size": lambda: group(field(5, integer(720) + integer(480))),
    "max-length": lambda: group(items(element(identifier(13), integer(10) + field(13, integer(24) + integer(32)) + field(23, integer(256))))),
    "max-length-0": lambda: group(items(element(identifier(13), integer(10) + field(13, integer(24) + integer(32)) + field(23, integer(0))))),
    "justification": lambda: group(items(element(identifier(9), integer(10) + field(13, integer(24) + integer(32)) + field(21, integer(4))))),
    "justification-0": lambda: group(items(element(identifier(9), integer(10) + field(13, integer(24) + integer(32)) + field(21, integer(0))))),
    "event-7": lambda: group(items(link(element(0x30, b""), kind=field(9, integer(7))))),
    "event-0": lambda: group(items(link(element(0x30, b""), kind=field(9, integer(0))))),
    "event-32": lambda: group(items(link(element(0x30, b""), kind=field(9, integer(32))))),
    "event-14": lambda: group(items(link(element(0x30, b""), kind=field(9, integer(14))))),
    "source-octets": lambda: group(items(link(element(0x30, b""), source=field(8, element(4, b"s"))))),
    "source-negative": lambda: group(items(link(element(0x30, b""), source=field(8, integer(-1))))),
    "source-pair-of-one": lambda: group(items(link(element(0x30, b""), source=field(8, element(0x30, element(4, b"s")))))),
    "source-longer": lambda: group(items(link(element(0x30, b""), source=field(8, integer(0) + integer(0))))),
    "data-octets": lambda: group(items(link(element(0x30, b""), data=field(10, element(4, b"x"))))),
    "data-longer": lambda: group(items(link(element(0x30, b""), data=field(10, integer(1) + integer(1))))),
    "data-none": lambda: group(items(link(element(0x30, b""), data=field(10, b"")))),
    "action-170": lambda: group(items(link(element(0x30, element(identifier(170), integer(10)))))),
    "action-99": lambda: group(items(link(element(0x30, element(identifier(99), integer(10)))))),
    "action-fewer": lambda: group(items(link(moves(integer(10), integer(24))))),
    "action-more": lambda: group(items(link(moves(integer(10), integer(24), integer(16), integer(1))))),
    "action-other-kind": lambda: group(items(link(moves(integer(10), integer(24), element(4, b"x"))))),
    "action-without-target": lambda: group(items(link(moves()))),
    "action-wrapper-66": lambda: group(items(link(moves(integer(10), integer(24), element(identifier(66), integer(5)))))),
    "indirect-empty": lambda: group(items(link(moves(integer(10), integer(24), element(identifier(61), b""))))),
    "indirect-longer": lambda: group(items(link(moves(integer(10), integer(24), element(identifier(61), integer(5) + integer(5)))))),
    "indirect-primitive": lambda: group(items(link(moves(integer(10), integer(24), element(identifier(61, False), integer(5)))))),
    "item-in-effect": lambda: group(items(link(element(0x30, RECTANGLE)))),
    "value-behind-field": lambda: group(field(4, integer(3) + integer(4))),
    "typed-other": lambda: group(items(link(element(0x30, element(identifier(116), integer(10) + element(identifier(62), integer(1))))))),
    "typed-tag-67": lambda: group(items(link(element(0x30, element(identifier(116), integer(10) + element(identifier(67), integer(1))))))),
    "content-constructed": lambda: group(items(element(identifier(9), integer(10) + field(13, integer(24) + integer(32)) + field(18, element(identifier(60), element(4, b"x")))))),
    "content-octet": lambda: group(items(element(identifier(9), integer(10) + field(13, integer(24) + integer(32)) + field(18, element(identifier(60, False), b"x\x1f"))))),
    "slot-of-a-list": lambda: group(items(element(identifier(11), integer(10) + field(26, element(0x30, element(0x30, integer(10) + element(0x30, b"")))) + field(27, element(0x30, b""))))),
    "position-of-three": lambda: group(items(element(identifier(11), integer(10) + field(27, element(0x30, element(0x30, integer(1) + integer(1) + integer(1))))))),
}
