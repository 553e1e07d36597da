"""Resident programs: what the six answer, and how they are called."""
from ...family import Family
from ...page import Page
from ...words import Raw, act, held, quoted, typed

FAMILY = Family("programs", "Resident programs", "Programs; Actions (Call, Fork)", "Resident programs; Actions 24 and 25",
                "ISO/IEC 13522-5, ResidentProgram class: Call, Fork, AsyncStopped; ETSI ES 202 184: resident programs")
TEXT, INTEGER = ":GOctetString ", ":GInteger "


def words(*given):
    """Arguments: octets and numbers, written, and variables for answers as (kind, number)."""
    def one(argument):
        if isinstance(argument, tuple):
            return "%s:IndirectRef %d" % argument
        return TEXT + quoted(argument) if isinstance(argument, (str, bytes)) else INTEGER + str(argument)
    return Raw("( %s )" % " ".join(one(argument) for argument in given))


def a_page(program):
    page = Page()
    page.scene.add("ResidentPrg", 10, Name=program)
    page.scene.variable(11, False)
    page.scene.variable(12, "old")
    page.scene.variable(13, -9)
    page.scene.variable(14, -9)
    page.scene.variable(15, "")
    page.scene.variable(16, "")
    page.watch(10)
    return page


def answers(page, *outs):
    """Writes what came out into the log."""
    said = []
    for out in outs:
        if out == 12:
            said += [act("Append", 900, "["), act("Append", 900, held(12)), act("Append", 900, "]")]
        else:
            said += [act("SetVariable", 15, Raw(":GInteger :IndirectRef %d" % out)), act("Append", 900, held(15)), act("Append", 900, ".")]
    return said + [act("SetData", 901, held(900))]


CUTS = {
    "within": [(1, 2), (0, 2), (2, 4), (6, 6), (1, 6)],
    "beyond": [(-5, 2), (3, 99), (0, 0), (-3, -1), (7, 9), (6, 7)],
    "empty": [(3, 2), (5, 1), (7, 6), (1, 0), (2147483647, 2147483647), (-2147483648, 2147483647)],
}
PLACES = {"found": [("abcabc", 1, "a"), ("abcabc", 2, "a"), ("abcabc", 4, "abc"), ("aaaa", 2, "aa"), ("abcabc", 3, "c"), ("aab", 1, "ab"), ("xaxab", 1, "ab")],
          "not-found": [("abc", 1, "d"), ("abc", 4, "c"), ("abc", 3, "bc"), ("ab", 1, "abc"), ("", 1, "a"), ("abcab", 4, "abc"), ("abc", 3, "cd")],
          "starts": [("abc", 0, "a"), ("abc", -9, "b"), ("abc", 99, "a"), ("abc", 3, "c"), ("abc", 2147483647, ""), ("abc", -2147483648, "c")],
          "empty": [("abc", 2, ""), ("abc", 3, ""), ("abc", 4, ""), ("", 1, ""), ("", 0, ""), ("abc", 0, "")]}


def substrings():
    for name, cuts in CUTS.items():
        page = a_page("GSS")
        for key, text in (("red", "abcdef"), ("green", "")):
            said = []
            for begin, end in cuts:
                said += [act("Call", 10, 11, words(text, begin, end, (TEXT, 12)))] + answers(page, 12)
            page.on(key, *said)
        yield page.case("gss-" + name, "GSS: the octets from begin to end, counted from 1", "red green")


def searches():
    for program in ("SSS", "SES"):
        for name, places in PLACES.items():
            page = a_page(program)
            for key, part in (("red", places[:3]), ("green", places[3:])):
                said = []
                for text, start, target in part:
                    outs = [(INTEGER, 13)] if program == "SSS" else [(TEXT, 12), (INTEGER, 13)]
                    said += [act("Call", 10, 11, words(text, start, target, *outs))] + (answers(page, 13) if program == "SSS" else answers(page, 12, 13))
                page.on(key, *said)
            yield page.case("%s-%s" % (program.lower(), name), "SSS: the first place at which the octets stand; SES: what stands before it, and the place behind it", "red green")


def lengths():
    page = a_page("GSL")
    page.scene.variable(17, "1234567890")
    said = []
    for text in ("", "a", "abc", b"\xe2\x82\xac", b"a\x00b"):
        said += [act("Call", 10, 11, words(text, (INTEGER, 13)))] + answers(page, 13)
    page.on("red", *said)
    page.on("green", act("Call", 10, 11, words((TEXT, 17), (INTEGER, 13))), *answers(page, 13))
    yield page.case("gsl", "GSL: how many octets there are", "red green")


def days():
    page = a_page("GDW")
    for key, dates in (("red", (0, 1, 6, 7, 60000)), ("green", (-1, -3, -4, -7, -2147483648, 2147483647))):
        said = []
        for date in dates:
            said += [act("Call", 10, 11, words(date, (INTEGER, 13)))] + answers(page, 13)
        page.on(key, *said)
    yield page.case("gdw", "GDW: the day of the week, 0 for Sunday", "red green")


def clocks():
    page = a_page("GCD")
    page.on("red", act("Call", 10, 11, words((INTEGER, 13), (INTEGER, 14))), *answers(page, 13, 14))
    yield page.case("gcd", "GCD: the date, and the seconds since the day began", "red tick:999 red tick:1 red tick:59500 red", date=60000, exact=True)
    yield page.case("gcd-days", "GCD: the day goes on", "tick:60000*1439, tick:59999 red tick:1 red tick:1000 red tick:60000*1440, red", date=60000, exact=True)


def called():
    """Whether it went well is told; a variable may be passed for both; a fork tells AsyncStopped when the work is done."""
    page = a_page("SES")
    page.watch(11)
    page.on("red", act("Call", 10, 11, words("k=v;x", 3, ";", (TEXT, 12), (INTEGER, 13))), act("TestVariable", 11, 1, typed(True)), *answers(page, 12, 13))
    page.on("green", act("SetVariable", 11, typed(False)), *page.noted("<"), act("Fork", 10, 11, words("k=v;x", 1, "=", (TEXT, 12), (INTEGER, 13))), *page.noted(">"), act("TestVariable", 11, 1, typed(True)), *answers(page, 12, 13))
    page.on("yellow", act("SetVariable", 12, typed("a;b;c")), act("SetVariable", 13, typed(1)), *([act("Call", 10, 11, words((TEXT, 12), (INTEGER, 13), ";", (TEXT, 12), (INTEGER, 13)))] + answers(page, 12, 13)) * 2)
    page.scene.link(10, "AsyncStopped", page.noted("stopped"))
    yield page.case("called", "Values go in as they are at the moment of the call, all before anything comes out; a Fork puts AsyncStopped into the queue", "red green yellow yellow")


def unknown():
    """A receiver that plays what the verifier refuses (V9): such a call does nothing."""
    page = a_page("GSL")
    page.watch(11)
    for key, name in enumerate(("gsl", "GSL ", "GS", "GSLX", "", "XYZ", "GSL"), 1):
        page.scene.add("ResidentPrg", 20 + key, Name=name)
        page.on(str(key), act("SetVariable", 11, typed(True)), act("SetVariable", 13, typed(-9)), act("Call", 20 + key, 11, words("abc", (INTEGER, 13))), act("TestVariable", 11, 1, typed(True)), *answers(page, 13),
                act("Fork", 20 + key, 11, words("abcd", (INTEGER, 13))), *answers(page, 13))
        page.log(20 + key, "AsyncStopped", "stopped")
    yield page.case("unknown", "A call of a program that there is none of does nothing (V9); a name in another case is another name", "1 2 3 4 5 6 7", lenient=True)


def misfit():
    wrong = [
        words("abc"), words("abc", (INTEGER, 13), (INTEGER, 13)), words(5, (INTEGER, 13)), words("abc", (TEXT, 12)), words("abc", 5), Raw("( )"),
        Raw("( :GBoolean true :GInteger :IndirectRef 13 )"), Raw("( :GOctetString :IndirectRef 13 :GInteger :IndirectRef 13 )"),
        Raw("( :GOctetString 'abc' :GInteger :IndirectRef 12 )"),
    ]
    page = a_page("GSL")
    page.watch(11)
    for key, arguments in enumerate(wrong, 1):
        page.on(str(key), act("SetVariable", 11, typed(True)), act("Call", 10, 11, arguments), act("TestVariable", 11, 1, typed(True)), *answers(page, 12, 13), act("Fork", 10, 11, arguments))
    yield page.case("misfit", "A call whose arguments are not those of the program does nothing (V9): fewer, more, of another kind, an answer that is written", "1 2 3 4 5 6", lenient=True)
    yield page.case("misfit-kinds", "A call whose arguments are not those of the program does nothing (V9, V3): values and variables of another kind", "7 8 9", lenient=True)


def cases():
    for family in (substrings, searches, lengths, days, clocks, called, unknown, misfit):
        yield from family()
