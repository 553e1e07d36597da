"""Content: what OrigContent and SetData give, files that are there and files that come."""
from ...family import Family
from ...page import Page
from ...words import BLUE, Raw, act, file_named, held

FAMILY = Family("content", "Content and the files that it names", "Values: Content, A file; Actions (SetData, GetTextData)", "Content files",
                "ISO/IEC 13522-5, Ingredient class: OriginalContent, ContentAvailable; Presentable class: SetData; ETSI ES 202 184: content caching, files of the carousel")


def a_text(kind="Text", content=None, **fields):
    page = Page()
    if content is not None:
        fields["OrigContent"] = content
    page.scene.add(kind, 10, OrigBoxSize=(240, 16), OrigPosition=(24, 32), BackgroundColour=BLUE, **fields)
    page.watch(10)
    page.ask(10)
    return page


def included():
    for kind in ("Text", "EntryField"):
        for content in (None, "", "words") if kind == "Text" else (None, "words"):
            page = a_text(kind, content, InitiallyActive=False)
            page.on("red", act("Preload", 10))
            page.on("green", act("Run", 10))
            page.on("yellow", act("SetData", 10, "other"))
            page.on("blue", act("Unload", 10))
            page.on("1", act("SetData", 10, ""))
            name = {None: "none", "": "empty", "words": "words"}[content]
            yield page.case("%s-%s" % (kind.lower(), name), "Content that is written loads when the object becomes available, and is told; content of no octets is content, none is none",
                            "red text green text yellow text blue text yellow text green text 1 text")


def there():
    for kind in ("Text", "EntryField"):
        page = a_text(kind, file_named("one"))
        page.files = {"one": b"first file", "two": b"22"}
        page.scene.add("ContentRefVar", 30, OrigValue=file_named("two"))
        page.on("red", act("SetData", 10, held(30)))
        page.on("green", act("SetData", 10, file_named("one")))
        page.on("yellow", act("SetData", 10, file_named("none")))
        page.on("blue", act("Unload", 10), act("Run", 10))
        yield page.case("file-there-%s" % kind.lower(), "A file that is there loads as octets do; one that is not leaves the text empty", "text red text green text yellow text blue text green text blue")


def coming():
    for kind in ("Text", "EntryField"):
        page = a_text(kind, file_named("one"))
        page.scene.words(11, 24, 64, 240, 16, file_named("one"))
        page.scene.words(12, 24, 96, 240, 16, file_named("two"))
        page.watch(11, 12)
        page.ask(11, 12)
        page.on("red", act("Unload", 10))
        page.on("green", act("Run", 10))
        page.on("yellow", act("Stop", 11))
        page.on("blue", act("SetData", 12, file_named("one")))
        yield page.case("file-comes-%s" % kind.lower(), "An object waits for its file until it comes; one that loaded an older one keeps it until it loads anew",
                        "text file:two=later file:one=11 text file:one=22 text red green text yellow blue text")
        for name, feed in (("dropped", "red file:one=1 text green text"), ("replaced", "yellow file:one=1 text red green text"), ("stopped", "blue file:one=1 text green text"),
                           ("other-file", "1 file:one=1 text file:two=2 text"), ("while-dropped", "red 1 file:two=2 text 2 text file:one=1 green text"), ("again", "red green file:one=1 text file:one=33 red green text")):
            if kind == "EntryField" and name in ("dropped", "other-file", "stopped", "again"):
                continue
            page = a_text(kind, file_named("one"))
            page.on("red", act("Unload", 10))
            page.on("green", act("Run", 10))
            page.on("yellow", act("SetData", 10, "now"))
            page.on("blue", act("Stop", 10))
            page.on("1", act("SetData", 10, file_named("two")))
            page.on("2", act("Preload", 10))
            yield page.case("waits-%s-%s" % (name, kind.lower()), "Who waits for a file: " + name, feed)


def order_of_waiting():
    from ...words import ref
    page = Page(stays=True)
    page.app.add("Text", 40, OrigBoxSize=(120, 16), OrigPosition=(24, 96), OrigContent=file_named("one"), Shared=True)
    page.scene.words(11, 24, 32, 120, 16, file_named("one"))
    page.scene.words(10, 24, 64, 120, 16, file_named("one"))
    page.log(10, "ContentAvailable", "10c")
    page.log(11, "ContentAvailable", "11c")
    page.log(ref("a", 40), "ContentAvailable", "40c")
    page.scene.link(ref("a", 40), "ContentAvailable", [act("SetData", 10, "x")])
    page.group("t").link(0, "UserInput", [act("TransitionTo", ref("s", 0))], 101)
    page.on("green", act("TransitionTo", ref("t", 0)))
    yield page.case("order", "Those who wait are told in order, the application's first, each group in Items order; the events wait in the queue", "file:one=1 file:one=2 green green file:one=3")
    yield_page = Page(stays=True)
    yield_page.app.add("Text", 40, OrigBoxSize=(120, 16), OrigPosition=(24, 96), OrigContent=file_named("late"), Shared=True)
    yield_page.scene.words(11, 24, 32, 120, 16, file_named("late"))
    yield_page.group("t").link(0, "UserInput", [act("TransitionTo", ref("s", 0))], 101)
    yield_page.on("green", act("TransitionTo", ref("t", 0)))
    yield yield_page.case("over-a-transition", "Objects that go wait for no file any more; those of the application wait on", "green file:late=7 green")


def names():
    page = Page()
    written = ["one", "~/one", "DSM:/one", "/one", "DSM:one", "~//one", "dir/two", "~/dir/two", "ONE"]
    for place, name in enumerate(written):
        page.scene.words(10 + place, 24, 16 * place, 240, 16, Raw(':ContentRef ("%s")' % name))
    page.files = {"one": b"first", "dir/two": b"second"}
    page.on("red", act("SetData", 18, Raw(':ContentRef ("dir/two")')))
    yield page.case("names", "One file by its several names", "red")
    page = Page()
    page.scene.words(10, 24, 32, 240, 16, file_named("dir/new one"))
    yield page.case("name-with-a-space", "A name may have spaces", "file:dir/other=1 red")


def octets():
    page = Page()
    page.scene.words(10, 24, 32, 600, 160, file_named("octets"), TextWrapping=True)
    page.scene.words(11, 24, 224, 240, 16, file_named("scene"))
    page.files = {"octets": b"{ no group \xe9 \xc3\xa9\rnext\x1bcline 'quoted' =41", "scene": b"// {:\n x"}
    page.scene.variable(30, "")
    page.scene.variable(31, 0)
    page.scene.variable(32, False)
    page.scene.add("ResidentPrg", 33, Name="GSL")
    page.on("red", act("GetTextData", 10, 30), act("Call", 33, 32, Raw("( :GOctetString :IndirectRef 30 :GInteger :IndirectRef 31 )")))
    page.ask(31)
    yield page.case("any-octets", "The octets of a file are the text, whatever they are", "red text")


def begins():
    """Files that begin with the tag of an item, or with another element, are no groups."""
    page = Page()
    for place, octet in enumerate((0x30, 0x60, 0x80, 0x9F, 0xA2, 0xA3, 0xB0, 0xBF)):
        page.scene.words(10 + place, 24, 16 * place, 240, 16, file_named("x%02X" % octet))
        page.files["x%02X" % octet] = bytes([octet]) + b" begins"
    yield page.case("begins", "A file is a group only where it begins as an application or a scene does", "")


def as_large():
    for size in (65535, 65536):
        page = a_text("Text", file_named("x"))
        page.on("red", act("SetData", 10, file_named("x")))
        yield page.case("file-of-%d" % size, "A file has at most 65,535 octets", "file:x=" + "a" * size + " red")


def cases():
    for family in (included, there, coming, order_of_waiting, names, octets, begins, as_large):
        yield from family()
