"""The words of the notation as Python values: octets, colours, keys, and what may follow an attribute."""

KEYS = {"up": 1, "down": 2, "left": 3, "right": 4, "select": 15, "cancel": 16,
        "red": 100, "green": 101, "yellow": 102, "blue": 103, "text": 104}
KEYS.update({str(digit): 5 + digit for digit in range(10)})

VISIBLES = ("Rectangle", "DynamicLineArt", "Text", "EntryField", "PushButton")


def quoted(octets):
    """Octets as '..': those from 32 to 126 as they are, but for the quote and the equals sign."""
    octets = octets.encode() if isinstance(octets, str) else bytes(octets)
    plain = lambda octet: 32 <= octet <= 126 and octet not in b"'="
    return "'" + "".join(chr(octet) if plain(octet) else "=%02X" % octet for octet in octets) + "'"


def colour(red, green, blue, transparency=0):
    return bytes((red, green, blue, transparency))


RED, GREEN, BLUE = colour(255, 0, 0), colour(0, 255, 0), colour(0, 0, 255)
YELLOW, WHITE, BLACK = colour(255, 255, 0), colour(255, 255, 255), colour(0, 0, 0)
GREY, ORANGE, CYAN, MAGENTA = colour(128, 128, 128), colour(255, 128, 0), colour(0, 255, 255), colour(255, 0, 255)
CLEAR = colour(0, 0, 0, 255)


class Raw(str):
    """What stands in the notation as it is: a word, a reference, a list."""


def ref(group, number):
    return Raw('("~/%s" %d)' % (group, number))


def held(variable):
    """The value that a variable holds."""
    return Raw(":IndirectRef %s" % variable)


def file_named(path):
    return Raw(':ContentRef ("~/%s")' % path)


def effect(actions):
    return Raw("( " + "".join(":%s " % action for action in actions) + ")")


def value(given):
    """A value behind an attribute: Python's truth values, numbers, octets, pairs and lists of actions."""
    if isinstance(given, Raw):
        return str(given)
    if isinstance(given, bool):
        return "true" if given else "false"
    if isinstance(given, int):
        return str(given)
    if isinstance(given, (bytes, str)):
        return quoted(given)
    if isinstance(given, tuple):
        return " ".join(str(part) for part in given)
    return str(effect(given))


def act(name, *parts):
    """An action with its target and parameters: act("SetPosition", 10, 24, 16)."""
    return "%s (%s)" % (name, " ".join(value(part) for part in parts))


def typed(given):
    """A value with its kind in front."""
    if isinstance(given, bool):
        return Raw(":GBoolean " + value(given))
    if isinstance(given, int):
        return Raw(":GInteger %d" % given)
    return Raw(":GOctetString " + value(given))
