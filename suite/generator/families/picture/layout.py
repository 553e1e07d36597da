"""Lay-out: how the octets of a text become characters in lines."""
from ...family import Family
from ...page import Page
from ...words import BLUE, RED, Raw, act

FAMILY = Family("layout", "Characters, lines and paragraphs of a text", "The picture: A Text", "Attributes 18 to 22",
                "ISO/IEC 13522-5, Text class; ETSI ES 202 184: text presentation, mark-up, word wrapping")


def shown(name, rule, contents, w=240, h=48, **fields):
    """Contents one below another, as Texts of one size, with their boxes shown."""
    page = Page(log=False)
    for place, content in enumerate(contents):
        across, down = divmod(place, max(1, 24 * 16 // (h + 16)))
        page.scene.words(10 + place, 24 + (w + 24) * across, 16 + (h + 16) * down, w, h, content, BackgroundColour=BLUE, **fields)
    return page.case(name, rule, "")


WRAPPED = [
    "one two three four five six", "abcdefghijklmnopqrstuvwxyzabcdef", "a b c d e f g h i j k l m n o p q", "exactly ten words", " lead and trail ",
    "two  spaces   between  words", "longwordlongword short longwordlongword",
]


def wrapping():
    rule = "With wrapping a paragraph is cut at the last space that has at least one and at most W characters of the line before it, else behind W characters"
    for columns in (1, 2, 3, 5, 7, 10):
        yield shown("wrapped-at-%d" % columns, rule, WRAPPED, 12 * columns, 80, TextWrapping=True)


def cut_off():
    for columns in (1, 10):
        yield shown("cut-at-%d" % columns, "Without wrapping a paragraph is one line, cut off at the last column", WRAPPED[:6], 12 * columns, 16)


def at_the_edge():
    contents = [
        "abcde fghij", "abcde  fghij", "abcdef ghij", "abcd efghij", " abcdefghij", "abcdefghij", "abcde ", "     x", "          ", "abcdefghi j",
        "a" * 10 + " b", "a" * 11,
    ]
    yield shown("spaces-at-the-edge", "The space at which a line is cut is dropped; all others stay", contents[:6], 60, 48, TextWrapping=True)
    yield shown("spaces-at-the-edge-2", "The space at which a line is cut is dropped; all others stay", contents[6:], 60, 48, TextWrapping=True)


def justified():
    words = ["", "a", "ab", "abc", "even", "odd", "abcdefghi", "abcdefghij", "abcdefghijk"]
    for name in ("start", "end", "centre"):
        for wraps in (False, True):
            yield shown("justified-%s%s" % (name, "-wrapped" if wraps else ""), "HJustification %s: where a line begins in its box, the smaller half before it" % name, words, 120, 16, HJustification=Raw(name), TextWrapping=wraps)
        yield shown("justified-%s-lines" % name, "HJustification %s of each line of several paragraphs" % name, [
            "one\rthree five\r\rx", "a bb ccc dddd eeeee", "tail  \r  head",
        ], 96, 96, HJustification=Raw(name), TextWrapping=True)


def paragraphs():
    contents = ["a\rb", "\ra", "a\r", "a\r\rb", "\r\r\rx", "a\nb", "a\r\nb", ""]
    for wraps in (False, True):
        yield shown("paragraphs" + ("-wrapped" if wraps else ""), "0D parts two paragraphs, each of which may be empty", contents, 96, 64, TextWrapping=wraps)


def narrow():
    for w in (0, 1, 12, 13, 24, 25):
        for wraps in (False, True):
            page = Page(log=False)
            page.scene.words(10, 24, 32, w, 160, "ab cd\ref", TextWrapping=wraps, BackgroundColour=BLUE)
            page.scene.words(11, 125, 32, w, 160, "ab cd\ref", TextWrapping=wraps, BackgroundColour=RED)
            page.on("red", act("SetBoxSize", 10, 36, 100), act("SetBoxSize", 11, 35, 33))
            page.on("green", act("SetPosition", 10, 13, 17))
            page.on("yellow", act("SetBoxSize", 10, w, 100))
            if wraps and w not in (0, 1, 24):
                continue
            yield page.case("wide-%d%s" % (w, "-wrapped" if wraps else ""), "The number of columns is that of the cells that the box covers", "red green yellow")


def overflowing():
    for h in (0, 1, 17, 33):
        yield shown("high-%d" % h, "The first line stands in the first row that the box covers; what comes below the last is not seen", ["one\rtwo\rthree\rfour\rfive", "one two three four five six seven"], 96, h, TextWrapping=True)


SCALARS = {
    "two-octets": [b"\xc2\x80\xc2\xa0|", b"\xc2\xa1\xdf\xbf|", b"\xc3\xa9t\xc3\xa9|", b"\xc1\xbf|", b"\xc0\x80|", b"\xc2|", b"\xc2\x41|", b"\xc2\xc0|", b"\xdf"],
    "three-octets": [
        b"\xe0\xa0\x80|", b"\xe0\x9f\xbf|", b"\xe2\x82\xac|", b"\xed\x9f\xbf|", b"\xed\xa0\x80|", b"\xee\x80\x80|", b"\xef\xbf\xbd|", b"\xe2\x82|",
        b"\xe2|", b"\xe2\x82A|", b"\xe2\x28\xa1|", b"\xef\xbf\xbf|",
    ],
    "four-octets": [
        b"\xf0\x90\x80\x80|", b"\xf0\x8f\xbf\xbf|", b"\xf0\x9f\x98\x80|", b"\xf4\x8f\xbf\xbf|", b"\xf4\x90\x80\x80|", b"\xf5\x80\x80\x80|",
        b"\xf0\x9f\x98|", b"\xf0\x9f|", b"\xf0", b"\xf3\xbf\xbf\xbf|",
    ],
    "stray": [b"\x80|", b"\xbf|", b"a\xffb|", b"\xfe\xff|", b"\xf8\x88\x80\x80\x80|", b"\xa0a\x80b|", b"\xe9t\xe9|"],
    "controls": [b"a\x00b\x01c|", b"a\x0ab\x09c|", b"a\x1fb\x20c|", b"a\x7eb\x7fc|", b"a\xc2\x80b\xc2\x9fc\xc2\xa0d|", b"a\x0bb\x0cc\x0ed|", b"\x1a\x1c\x1d\x1e|"],
    "escapes": [
        b"a\x1bC\x04\xff\x00\x00\x00b|", b"a\x1bcb|", b"a\x1b@\x00b|", b"a\x1b\x5e\x01xb|", b"a\x1b\x5f\x01xb|", b"a\x1b\x60b|", b"a\x1b\x7eb|",
        b"a\x1b\x7fb|", b"a\x1b\x3fb|", b"a\x1b",
    ],
    "escapes-cut": [
        b"a\x1bC", b"a\x1bC\x09xyz", b"a\x1bC\x03xy\x0dz|", b"\x1b\x1bc|", b"a\x1b\x0db|", b"\x1bC\x02\xe2\x82\xac|", b"a\x1bB\x03xyzb\x1bbc|",
        b"\xe2\x1bc\x82\xac|",
    ],
    "escapes-long": [b"a\x1bD" + bytes([100]) + b"x" * 100 + b"b|", b"a\x1bD" + bytes([255]) + b"x" * 255 + b"b|", b"a\x1bD" + bytes([255]) + b"x" * 254],
}


def scalars():
    for name, contents in SCALARS.items():
        yield shown("octets-" + name, "Octets are read as UTF-8; one at which no character begins is U+FFFD; escapes and controls take no cell", contents, 120, 16)


def other_classes():
    page = Page(log=False)
    for place, look in enumerate(("start", "end", "centre")):
        page.scene.field(10 + place, 24, 32 + 64 * place, 120, 32, "1 2\r3", HJustification=Raw(look), BackgroundColour=RED)
        page.scene.button(20 + place, 200, 32 + 64 * place, 60, 48, "push here", HJustification=Raw(look), BackgroundColour=BLUE, TextWrapping=True)
    page.scene.button(30, 300, 32, 120, 16, b"a\x1bcb\xffc", TextColour=RED)
    page.on("red", act("SetLabel", 20, "other"), act("SetLabel", 21, ""), act("SetData", 10, "12345"), act("SetBoxSize", 12, 36, 32))
    yield page.case("fields-and-buttons", "An EntryField is painted as a Text, and a PushButton as a Text with its label", "red")


def cases():
    for family in (wrapping, cut_off, at_the_edge, justified, paragraphs, narrow, overflowing, scalars, other_classes):
        yield from family()
