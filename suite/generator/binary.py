"""The binary notation of a group, from its text: an encoder of the suite's own, beside that of `redplay to-der`.

Each value of the notation is one element whatever attribute or action it stands in, so that the text is read by one rule a token.
"""
import re

from .tables import ATTRIBUTES, EVENTS, JUSTIFICATIONS, WRAPPERS
from .tags import Tags

TOKEN = re.compile(rb"""\s+|//[^\n]*|(?P<mark>[{}()])|:(?P<key>[A-Za-z][A-Za-z0-9]*)|(?P<word>[A-Za-z]+)|(?P<int>-?[0-9]+)|"(?P<name>[^"]*)"|'(?P<octets>[^']*)'""")
BOOLEAN, INTEGER, OCTETS, SEQUENCE = 0x01, 0x02, 0x04, 0x30


def identifier(tag, constructed=True):
    """The octets of a context tag."""
    first = 0xA0 if constructed else 0x80
    if tag < 31:
        return bytes([first | tag])
    digits = [tag & 0x7F]
    while tag > 0x7F:
        tag >>= 7
        digits.insert(0, tag & 0x7F | 0x80)
    return bytes([first | 0x1F] + digits)


def element(head, contents):
    head = bytes([head]) if isinstance(head, int) else head
    size = len(contents)
    if size < 128:
        return head + bytes([size]) + contents
    long = size.to_bytes((size.bit_length() + 7) // 8, "big")
    return head + bytes([0x80 | len(long)]) + long + contents


def integer(number):
    size = 1
    while not -(1 << 8 * size - 1) <= number < 1 << 8 * size - 1:
        size += 1
    return element(INTEGER, number.to_bytes(size, "big", signed=True))


def unquoted(written):
    return re.sub(rb"=([0-9A-Fa-f]{2})", lambda found: bytes([int(found.group(1), 16)]), written)


class Reader:
    """Reads tokens and hands out elements."""

    def __init__(self, text, tags):
        self.tags = tags
        found = (match for match in TOKEN.finditer(text) if match.lastgroup)
        self.tokens = [(match.lastgroup, match.group(match.lastgroup)) for match in found]
        self.at = 0

    def next(self):
        self.at += 1
        return self.tokens[self.at - 1]

    def meets(self, mark):
        return self.tokens[self.at] == ("mark", mark)

    def until(self, mark):
        """The elements up to a closing bracket."""
        parts = []
        while not self.meets(mark):
            parts.append(self.value())
        self.at += 1
        return b"".join(parts)

    def value(self):
        sort, written = self.next()
        if sort == "int":
            return integer(int(written))
        if sort == "word":
            return self.word(written.decode())
        if sort in ("name", "octets"):
            return element(OCTETS, written if sort == "name" else unquoted(written))
        if sort == "key":
            return self.keyed(written.decode())
        return self.object() if written == b"{" else element(SEQUENCE, self.until(b")"))

    def word(self, word):
        if word in ("true", "false"):
            return element(BOOLEAN, b"\xff" if word == "true" else b"\0")
        return integer(EVENTS[word] if word in EVENTS else JUSTIFICATIONS[word])

    def keyed(self, key):
        if key == "ContentRef":
            self.next()
            name = self.next()[1]
            self.next()
            return element(identifier(self.tags.values[key], False), name)
        if key in WRAPPERS:
            return element(identifier(self.tags.values[key]), self.value())
        self.next()
        return element(identifier(self.tags.actions[key]), self.until(b")"))

    def object(self):
        """A group or an item, behind its bracket."""
        kind = self.next()[1].decode()
        identity, fields = self.value(), []
        while not self.meets(b"}"):
            name = self.next()[1].decode()
            parts = []
            while not self.meets(b"}") and not (self.tokens[self.at][0] == "key" and self.tokens[self.at][1].decode() in ATTRIBUTES):
                parts.append(self.value())
            fields.append((ATTRIBUTES[name], element(identifier(self.tags.attributes[name]), b"".join(parts))))
        self.at += 1
        return element(identifier(self.tags.classes[kind]), identity + b"".join(field for _, field in sorted(fields)))


def encoded(text, tags=None):
    """The binary notation of a group's text, by the profile's tags or by others."""
    reader = Reader(text, tags or Tags())
    reader.next()
    return reader.object()
