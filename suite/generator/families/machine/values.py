"""Values: what variables hold, how numbers and octets turn into one another, tests and arithmetic."""
from ...family import Family
from ...page import Page
from ...words import Raw, act, file_named, held, typed

FAMILY = Family("values", "Variables: conversions, tests, arithmetic", "Values; Actions 16 to 23", "Actions 16 to 23",
                "ISO/IEC 13522-5, Variable classes: SetVariable, TestVariable, Add to Modulo, Append")
LEAST, MOST = -2147483648, 2147483647


def slug(number):
    return "least" if number == LEAST else "most" if number == MOST else "least-and-1" if number == LEAST + 1 else str(number).replace("-", "m")


SUMS = {"Add": [(1, 1), (MOST, 1), (MOST, 0), (LEAST, -1), (-5, 3), (MOST - 1, 1), (LEAST + 1, -1)],
        "Subtract": [(1, 1), (LEAST, 1), (MOST, -1), (5, 3), (0, LEAST), (-1, LEAST), (LEAST + 1, 1), (MOST - 1, -1)],
        "Multiply": [(7, -3), (65536, 32768), (65536, -32768), (LEAST, -1), (46341, 46341), (MOST, 1), (0, MOST)],
        "Divide": [(7, 2), (-7, 2), (7, -2), (-7, -2), (7, 0), (LEAST, -1), (0, 5), (1, 3), (LEAST, 1)],
        "Modulo": [(7, 3), (-7, 3), (7, -3), (-7, -3), (7, 0), (LEAST, -1), (6, 3), (2, 5)]}


def arithmetic():
    """Each sum is made by one key, on a variable of its own, with the number written and held by a variable."""
    for action, pairs in SUMS.items():
        page = Page(log=False)
        said = []
        for place, (one, other) in enumerate(pairs):
            page.scene.variable(10 + place, one)
            page.scene.variable(30 + place, other)
            said.append(act(action, 10 + place, other))
        page.on("red", *said)
        page.on("green", *[act(action, 10 + place, held(30 + place)) for place in range(len(pairs))])
        page.ask(*range(10, 10 + len(pairs)))
        yield page.case(action.lower(), "%s: the result, towards zero and with the sign of what is divided; past 32 bits or by zero nothing changes" % action,
                        "text red text green text red text")


WRITTEN = {"digits": ["0", "7", "007", "2147483647", "2147483648", "-2147483648", "-2147483649", "99999999999999999999"],
           "signs": ["-0", "-7", "+5", "-", "", "--3", "-+3", "3-"],
           "leading-noughts": ["0" * count + "7" for count in (10, 38, 39, 40, 41, 60)] + ["-" + "0" * 45 + "12", "0" * 38 + "2147483648"],
           "others": [" 5", "5 ", "5.0", "0x10", "a", "1a", "1 2", "/", ":", "9:", "0/"]}


def octets_to_numbers():
    for name, writings in WRITTEN.items():
        page = Page(log=False)
        said, again = [], []
        for place, written in enumerate(writings):
            page.scene.variable(10 + place, 99)
            page.scene.variable(30 + place, written)
            said.append(act("SetVariable", 10 + place, typed(written)))
            again.append(act("SetVariable", 10 + place, Raw(":GOctetString :IndirectRef %d" % (30 + place))))
        page.on("red", *said)
        page.on("green", *again)
        page.on("blue", *[act("SetVariable", 10 + place, typed(99)) for place in range(len(writings))])
        page.ask(*range(10, 10 + len(writings)))
        yield page.case("octets-as-number-" + name, "Octets become the number that they write, an optional minus and digits; 0 for anything else or past 32 bits",
                        "text red text blue green text")


def numbers_to_octets():
    page = Page(log=False)
    numbers = [0, 7, -7, MOST, LEAST, 10, 100, -100]
    said = []
    for place, number in enumerate(numbers):
        page.scene.variable(10 + place, "old")
        page.scene.variable(30 + place, number)
        said.append(act("SetVariable", 10 + place, typed(number)))
    page.on("red", *said)
    page.on("green", *[act("SetVariable", 10 + place, Raw(":GInteger :IndirectRef %d" % (37 - place))) for place in range(8)])
    page.ask(*range(10, 18))
    yield page.case("number-as-octets", "A number becomes its decimal text in a variable of octets", "text red text green text")


def appended():
    page = Page(log=False)
    page.scene.variable(10, "ab")
    page.scene.variable(11, "")
    page.scene.variable(12, "cd")
    page.on("red", act("Append", 10, "x"), act("Append", 11, held(12)), act("Append", 12, held(12)))
    page.on("green", act("Append", 10, ""), act("Append", 11, b"\x00\xff="), act("SetVariable", 12, typed("")))
    page.ask(10, 11, 12)
    yield page.case("append", "Append puts octets behind those that are there", "red text green text red text")


def a_long_text():
    """65,535 octets are kept; one more changes nothing. A resident program counts them."""
    page = Page(log=False)
    page.scene.variable(10, "12345678")
    page.scene.variable(11, "ab")
    page.scene.variable(12, 0)
    page.scene.variable(13, False)
    page.scene.add("ResidentPrg", 14, Name="GSL")
    count = act("Call", 14, 13, Raw("( :GOctetString :IndirectRef 10 :GInteger :IndirectRef 12 )"))
    page.on("red", *[act("Append", 10, held(10)) for _ in range(13)], count)      # 65,536 would be one too many
    page.on("green", *[act("Append", 11, held(10)) for _ in range(2)], act("Append", 10, held(11)), count)
    page.on("yellow", act("SetVariable", 11, typed("1234567")), act("Append", 10, held(11)), count)
    page.scene.variable(15, "1" * 65535)
    page.scene.variable(16, "1" * 65536)
    for key, source in (("1", 15), ("2", 16)):
        page.on(key, act("SetVariable", 10, typed("?")), act("SetVariable", 10, Raw(":GOctetString :IndirectRef %d" % source)), count)
    page.on("3", act("SetVariable", 10, Raw(":GOctetString :IndirectRef 15")), act("Append", 10, ""), count, act("Append", 10, "1"), count)
    page.ask(12)
    yield page.case("octets-at-most", "A variable of octets has at most 65,535: more changes nothing", "red text green text yellow text 1 text 2 text 3 text")


def tested():
    """Each operator, on numbers below, equal and above; on the other kinds, equal and not equal."""
    for operator in range(1, 7):
        page = Page()
        page.scene.variable(10, 5)
        page.scene.variable(11, -5)
        page.scene.variable(12, 5)
        page.scene.variable(13, 6)
        page.watch(10, 11)
        page.on("red", *[act("TestVariable", 10, operator, typed(number)) for number in (4, 5, 6, -6)])
        page.on("green", *[act("TestVariable", 11, operator, typed(number)) for number in (-4, -5, -6, 6)])
        page.on("yellow", *[act("TestVariable", 10, operator, Raw(":GInteger :IndirectRef %d" % number)) for number in (11, 12, 13)])
        yield page.case("test-%d" % operator, "TestVariable with operator %d on numbers" % operator, "red green yellow")


def tested_kinds():
    page = Page()
    page.scene.variable(10, True)
    page.scene.variable(11, "abc")
    page.scene.refers(12, 11)
    page.scene.variable(20, "abc")
    page.scene.add("ContentRefVar", 13, OrigValue=file_named("x"))
    page.scene.refers(21, 12)
    page.watch(10, 11, 12, 13)
    for key, operator in (("red", 1), ("green", 2)):
        page.on(key, act("TestVariable", 10, operator, typed(True)), act("TestVariable", 10, operator, typed(False)),
                *[act("TestVariable", 11, operator, typed(text)) for text in ("abc", "ab", "abd", "")])
    for key, operator in (("yellow", 1), ("blue", 2)):
        page.on(key, act("TestVariable", 12, operator, Raw(":GObjectRef 11")), act("TestVariable", 12, operator, Raw(":GObjectRef :IndirectRef 21")),
                act("TestVariable", 12, operator, Raw(':GObjectRef ("/s" 11)')), act("TestVariable", 13, operator, Raw(':GContentRef :ContentRef ("DSM:/x")')),
                act("TestVariable", 13, operator, Raw(':GContentRef :ContentRef ("y")')), act("TestVariable", 13, operator, Raw(":GContentRef :IndirectRef 13")))
    page.on("1", act("TestVariable", 11, 1, Raw(":GOctetString :IndirectRef 20")))
    yield page.case("test-kinds", "TestVariable of truth values, octets, references and names of files: equal and not equal", "red green yellow blue 1")


def set_to():
    """SetVariable of each kind, written and held."""
    page = Page()
    page.scene.variable(10, True)
    page.scene.variable(11, 1)
    page.scene.variable(12, "x")
    page.scene.refers(13, 10)
    page.scene.variable(20, False)
    page.scene.variable(21, 77)
    page.scene.variable(22, "y")
    page.scene.refers(23, 11)
    page.scene.add("ContentRefVar", 14, OrigValue=file_named("one"))
    page.scene.add("ContentRefVar", 24, OrigValue=file_named("two"))
    page.scene.words(30, 24, 32, 240, 16, "-")
    page.files = {"one": b"first file", "two": b"second file", "three": b"third file"}
    page.on("red", act("SetVariable", 10, typed(False)), act("SetVariable", 11, typed(-9)), act("SetVariable", 12, typed("zz")),
            act("SetVariable", 13, Raw(":GObjectRef 12")), act("SetVariable", 14, Raw(':GContentRef :ContentRef ("three")')))
    page.on("green", act("SetVariable", 10, Raw(":GBoolean :IndirectRef 20")), act("SetVariable", 11, Raw(":GInteger :IndirectRef 21")),
            act("SetVariable", 12, Raw(":GOctetString :IndirectRef 22")), act("SetVariable", 13, Raw(":GObjectRef :IndirectRef 23")),
            act("SetVariable", 14, Raw(":GContentRef :IndirectRef 24")))
    page.on("yellow", act("SetVariable", 10, typed(True)), act("TestVariable", 13, 1, Raw(":GObjectRef 12")), act("TestVariable", 13, 1, Raw(":GObjectRef 11")))
    page.on("blue", act("SetData", 30, held(14)))
    page.watch(13)
    page.ask(10, 11, 12)
    yield page.case("set", "SetVariable of each kind, to what is written and to what another variable holds", "text yellow blue red text yellow blue green text yellow blue")


def cases():
    for family in (arithmetic, octets_to_numbers, numbers_to_octets, appended, a_long_text, tested, tested_kinds, set_to):
        yield from family()
