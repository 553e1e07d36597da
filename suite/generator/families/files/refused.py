"""Files that are refused: nothing is played, and nothing is shown. Each has one mistake in a service that is good without it."""
from ...binary import TOKEN, element, encoded, identifier, integer
from ...case import Case
from ...family import Family
from ...page import Page
from ...words import RED, act
from . import mistakes_in_octets, mistakes_in_text
from .mistakes_in_octets import RECTANGLE, field, group, items
from .mistakes_in_text import GOOD, START

FAMILY = Family("refused", "Files that cannot be read, services that make none", "What there is: A service", "What the program prints when it cannot read",
                "ISO/IEC 13522-5, annexes: textual notation and ASN.1; ITU-T X.690, 8 to 11")


def in_text():
    for name, (there, instead) in mistakes_in_text.MISTAKES.items():
        assert GOOD.count(there) >= 1, name
        yield Case("text-" + name, "The textual notation: " + name.replace("-", " "), "red", {"a": START, "s": GOOD.replace(there, instead, 1)}, {}, [], refused=True)
    yield Case("text-nothing-wrong", "The service whose files have one mistake each in the other cases, without any", "red", {"a": START, "s": GOOD}, {}, [])


def in_binary():
    for name, made in mistakes_in_octets.MISTAKES.items():
        yield Case("binary-" + name, "The binary notation: " + name.replace("-", " "), "", {"a": START, "s": made()}, {}, [], refused=True)


def as_large(size):
    """A scene in the binary notation of so many octets, nearly all of them those of one text."""
    made = lambda count: group(items(RECTANGLE, element(identifier(9), integer(11) + field(13, integer(240) + integer(32)) + field(18, element(4, b"x" * count)))))
    return made(size - (len(made(size // 2 + 65536)) - size // 2 - 65536))


def of_services():
    scene = lambda text: {"a": START, "s": text}
    yield Case("service-no-start", "There is no group to start with", "", {"s": GOOD}, {}, [], refused=True)
    yield Case("service-starts-with-a-scene", "The group to start with is a scene", "", {"a": GOOD, "s": GOOD}, {}, [], refused=True)
    yield Case("service-double-number", "Two items of a group have one number", "", scene(GOOD.replace(b":Text 11", b":Text 10")), {}, [], refused=True)
    places = {"transition": b':SetTimer (0 1 500 true)', "source": b":EventSource 0", "value": b":OrigValue 10", "member": b"( (11) )", "slot": b"(:Run (10))", "content": b"'shown'"}
    instead = {"transition": b':TransitionTo (("../x" 0))', "source": b':EventSource ("x//y" 0)', "value": b':OrigValue ("./x" 10)', "member": b'( (("x/.." 11)) )', "slot": b'(:Run (("/" 10)))', "content": b':ContentRef ("~/x/")'}
    for name, there in places.items():
        yield Case("service-bad-name-" + name, "A name that is no path, in a " + name, "", scene(GOOD.replace(there, instead[name])), {}, [], refused=True)


def of_limits():
    scene = lambda text: {"a": START, "s": text}
    for count, bad in ((256, False), (257, True)):
        groups = dict(scene(GOOD), **{"g%d" % number: b'{:Scene ("~/g" 0) }' for number in range(count - 2)})
        yield Case("service-groups-%d" % count, "A service has at most 256 groups", "red", groups, {}, [], refused=bad)
    for count, bad in ((1024, False), (1025, True)):
        many = b"".join(b" {:IntegerVar %d :OrigValue 0 }\n" % number for number in range(100, 100 + count - 9))
        yield Case("service-items-%d" % count, "A group has at most 1,024 items", "red", scene(GOOD.replace(b"\n) }", b"\n" + many + b") }")), {}, [], refused=bad)
    for count, bad in ((4096, False), (4097, True)):
        parts = [1000, 1000, 1000, 1000, count - 4009]
        groups = {"g%d" % at: b'{:Scene ("~/g" 0) :Items (' + b"".join(b"{:IntegerVar %d :OrigValue 0 }" % number for number in range(1, 1 + size)) + b") }" for at, size in enumerate(parts)}
        yield Case("service-all-items-%d" % count, "A service has at most 4,096 items", "red", dict(scene(GOOD), **groups), {}, [], refused=bad)
    for count, bad in ((65535, False), (65536, True)):
        run = b" :Run (1)"
        effects, left = [], count - 4
        while left:
            effects.append(min(left, 4096))
            left -= effects[-1]
        groups = {"g%d" % at: b'{:Scene ("~/g" 0) :OnStartUp (' + run * size + b") :Items ( {:Rectangle 1 :OrigBoxSize 0 0 } ) }" for at, size in enumerate(effects)}
        yield Case("service-actions-%d" % count, "A service has at most 65,535 actions", "red", dict(scene(GOOD), **groups), {}, [], refused=bad)
    for count, bad in ((4096, False), (4097, True)):
        row = b"( (" + b"1 " * count + b") )"
        yield Case("text-row-of-%d" % count, "A written list has at most 4,096 members", "red", scene(GOOD.replace(b"( (1 2) )", row)), {}, [], refused=bad)
        yield Case("binary-row-of-%d" % count, "A written list has at most 4,096 members", "red", scene(encoded(GOOD.replace(b"( (1 2) )", row))), {}, [], refused=bad)
    for count, bad in ((256, False), (257, True)):
        members = b"( " + b"(11) " * count + b")"
        yield Case("text-list-of-%d" % count, "A ListGroup has at most 256 members", "red", scene(GOOD.replace(b"( (11) )", members)), {}, [], refused=bad)
        yield Case("binary-list-of-%d" % count, "A ListGroup has at most 256 members", "red", scene(encoded(GOOD.replace(b"( (11) )", members))), {}, [], refused=bad)
    for size, bad in ((1048576, False), (1048577, True)):
        yield Case("binary-file-of-%d" % size, "A group file has at most 1,048,576 octets", "red", scene(as_large(size)), {}, [], refused=bad)
        yield Case("text-file-of-%d" % size, "A group file has at most 1,048,576 octets", "red", scene(GOOD + b" " * (size - len(GOOD))), {}, [], refused=bad)
    for size, bad in ((65535, False), (65536, True)):
        yield Case("service-content-of-%d" % size, "A content file that a group names has at most 65,535 octets", "red", scene(GOOD.replace(b"'shown'", b':ContentRef ("x")')), {"x": b"y" * size}, [], refused=bad)
    for count, bad in ((1024, False), (1025, True)):
        texts = b"".join(b' {:ContentRefVar %d :OrigValue :ContentRef ("f%d") }\n' % (100 + number, number) for number in range(1000)) + b' {:Text 20 :OrigBoxSize 240 16 :OrigContent :ContentRef ("f1000") }\n'
        more = b'{:Scene ("~/t" 0) :Items (' + b"".join(b' {:ContentRefVar %d :OrigValue :ContentRef ("f%d") }' % (number, number) for number in range(1001, count)) + b") }"
        yield Case("service-contents-%d" % count, "At most 1,024 content files are named", "red", dict(scene(GOOD.replace(b"\n) }", b"\n" + texts + b") }")), t=more), {"f%d" % number: b"content %d" % number for number in range(count)}, [], refused=bad)
    for name, head in (("comment", b"// a comment\n"), ("spaces", b"\r\n\t "), ("comment-alone", b"//\n"), ("comments", b"//x\n//y\n  ")):
        yield Case("text-begins-with-" + name, "White space and comments may stand in front of a group", "red", {"a": head + START, "s": head + GOOD}, {}, [])
    for name, text in (("word", b"x" + GOOD), ("open-comment", b"// " + GOOD.replace(b"\n", b" ")), ("brackets", b"{ }"), ("empty", b"")):
        yield Case("service-no-group-" + name, "A file that does not begin as a group is none", "", scene(text), {}, [], lenient=True)


def in_printed_form(text):
    """A group as a converter prints it: one space between any two tokens."""
    return b" ".join(match.group() for match in TOKEN.finditer(text) if match.lastgroup) + b"\n"


def in_the_other_notation():
    """Groups that are in the other notation as large as a file may be, and one octet larger: both are read, and a converter refuses the larger."""
    numbers = b"( %s)" % (b"( %s) " % (b"1 " * 4000) * 5)
    wide = lambda count: GOOD.replace(b"( (1 2) )", numbers).replace(b"'shown'", b"'%s'" % (b"x" * count))
    high = lambda count: in_printed_form(GOOD.replace(b"'shown'", b"'%s%s'" % (b"=00" * 20000, b"x" * count)))
    for size in (1048576, 1048577):
        text = wide(900000 + size - len(encoded(wide(900000))))
        yield Case("text-larger-in-binary-%d" % size, "A group that has so many octets in the binary notation; it is in the textual one", "red", {"a": START, "s": text}, {}, [])
        text = high(900000 + size - len(high(900000)))
        yield Case("binary-larger-in-text-%d" % size, "A group that has so many octets in its printed form; it is in the binary notation", "red", {"a": START, "s": encoded(text)}, {}, [], written={"a": START, "s": GOOD})


def of_scenes_late():
    page = Page()
    page.scene.rectangle(10, 24, 32, 24, 32, RED)
    page.on("red", act("SetPosition", 10, 240, 32))
    for name, late in (("application", ["a"]), ("none", ["x"]), ("prefix", ["~/s"]), ("empty", [""]), ("twice", ["s", "s"])):
        case = page.case("late-" + name, "The file of late scenes names scenes of the service", "red", refused=name != "twice")
        case.late = late
        yield case


# Lines of a script that are wrong.
LINES = {
    "key-unknown": "key purple", "key-capital": "key Red", "key-number": "key 100", "key-without": "key", "key-two": "key red green", "tick-without": "tick", "tick-word": "tick x",
    "tick-negative": "tick -1", "tick-past-32-bits": "tick 4294967296", "stream-past-31-bits": "stream 2147483648", "engine-past-31-bits": "engine 2147483648", "step-word": "step x",
    "step-past-32-bits": "step 4294967296", "run-more": "run 5", "show-more": "show 1", "file-without-octets": "file x", "file-odd": "file x 414", "file-no-digit": "file x 4g", "file-no-path": "file ../x 41",
    "file-quote": 'file x"y 41', "file-control": "file x\x7fy 41", "file-long-name": "file %s 41" % ("x" * 256), "scene-without": "scene", "scene-unknown": "scene t", "scene-no-digit": "scene s zz",
    "scene-no-group": "scene s 41", "unknown": "press red", "capital": "KEY red", "two-spaces": "key  red", "space-in-front": " key red", "space-behind": "key red ", "tab": "key\tred", "carriage-return": "key red\r",
}


def of_scripts():
    for name, line in LINES.items():
        yield Case("script-" + name, "A line of a script that is wrong: " + name.replace("-", " "), "", {"a": START, "s": GOOD}, {}, [], refused=True, line=line)


def cases():
    for family in (in_text, in_binary, of_services, of_limits, in_the_other_notation, of_scenes_late, of_scripts):
        yield from family()
