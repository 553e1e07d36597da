"""Tables of tags: the binary notation with the numbers of another head-end."""
from ...binary import encoded
from ...case import Case
from ...family import Family
from ...page import Page
from ...tables import ACTIONS, ATTRIBUTES, CLASSES, WRAPPERS
from ...tags import Tags
from ...words import BLUE, RED, Raw, act, held
from .mistakes_in_text import GOOD, START

FAMILY = Family("tags", "Tables of tags", "What there is: A service", "Other tags", "ISO/IEC 13522-5, annex: ASN.1; ITU-T X.690, 8.1.2: identifier octets")
NAMES = {"class": list(CLASSES), "attr": list(ATTRIBUTES), "action": list(ACTIONS), "value": list(WRAPPERS)}


def table(**tags):
    """A line for each name of each context, in the order of the names."""
    return "".join("%s %s %d\n" % (context, name, tag) for context, given in tags.items() for name, tag in zip(NAMES[context], given))


def wide(first, step):
    """Every name of every context has a tag of its own."""
    return table(**{context: range(first, first + step * len(names), step) for context, names in NAMES.items()})


WHOLE = {
    "least": ("Each context from 0 on", wide(0, 1)),
    "downwards": ("Each context from 69 down, so that later names have the smaller tags", wide(69, -1)),
    "two-octets": ("Each context from 31 on, in one digit of base 128", wide(31, 1)),
    "three-octets": ("Each context from 100 on, where two digits of base 128 begin between", wide(100, 1)),
    "largest": ("Each context up to 65,535, in three digits of base 128", wide(65535 - 69 * 709, 709)),
}
TWINS = {
    "least": "indirect/groups", "downwards": "indirect/events", "two-octets": "indirect/fields", "three-octets": "indirect/drawings", "largest": "indirect/asked",
}

# What a table may say, each with the lines that say it.
TABLES = {
    "none": ("A table without a line: each name keeps the tag of the profile", ""),
    "comments": ("Comments, empty lines, leading zeros; the last line has no line feed", "# ours\n\nclass Scene 00031\n#class Scene 32\n\n\nattr Items 040\n# action TransitionTo 5"),
    "exchanged": ("Two names exchange their tags, in each context",
                  "class Rectangle 9\nclass Text 8\nattr OrigBoxSize 14\nattr OrigPosition 13\naction Run 101\naction Stop 100\nvalue GInteger 64\nvalue GOctetString 63\n"),
    "groups": ("An application has the tag of a scene, and a scene that of an application", "class Scene 0\nclass Application 1\n"),
    "one-tag": ("A tag stands for one thing in each context, and for another in the next", "class Scene 5\nclass OStringVar 1\nattr Items 5\nattr SceneCS 3\naction SetData 5\nvalue IndirectRef 5\n"),
    "tag-0": ("The tag 0 in each context", "class Scene 0\nclass Application 17\nattr Items 0\naction SetPosition 0\nvalue GInteger 0\n"),
    "tag-65535": ("The tag 65535 in each context", "class Scene 65535\nattr Items 65535\naction SetPosition 65535\nvalue GInteger 65535\n"),
}

# What makes no table: 60 with the line, 61 with the context.
WRONG = {
    "no-context": "# ours\nclas Scene 31\n", "context-in-capitals": "Class Scene 31\n", "no-name": "class Lnk 3\n", "name-of-another-context": "class Items 3\n",
    "name-in-capitals": "class SCENE 31\n", "element-for-action": "action GInteger 3\n", "action-for-element": "value Run 3\n", "too-large": "class Scene 65536\n", "far-too-large": "class Scene 4294967327\n",
    "negative": "class Scene -1\n", "hexadecimal": "class Scene 0x1f\n", "no-number": "class Scene \n", "two-words": "class Scene\n", "four-words": "class Scene 31 32\n", "two-spaces": "class  Scene 31\n",
    "space-in-front": " class Scene 31\n", "space-behind": "class Scene 31 \n", "tab": "class\tScene 31\n", "carriage-return": "class Scene 31\r\n", "comment-behind": "class Scene 31 # ours\n",
    "twice": "class Link 31\nclass Scene 31\nclass Link 32\n", "twice-alike": "attr Items 40\n\nattr Items 40\n", "last-line": "class Scene 31\nclass Link", "double-class": "class Link 3\n", "double-attr": "attr Items 1\n",
    "double-action": "action Stop 100\n", "double-value": "value GInteger 60\n", "double-written": "action Stop 5\naction Run 5\n", "double-in-two": "value GInteger 60\nattr Items 1\n", "line-before-double": "class Link 3\nx\n", "double-largest-class": "class Link 16\n", "double-largest-attr": "attr Items 38\n",
    "double-largest-action": "action Run 169\n", "double-largest-value": "value ContentRef 66\n", "double-of-tag-0": "class Link 0\n",
}


def twins():
    """Cases of the family `indirect` by tables that give each name another tag."""
    from .. import all_cases
    found = {case.id: case for case in all_cases(only={"indirect"})}
    for name, (what, lines) in WHOLE.items():
        case = found[TWINS[name]]
        feed = " ".join(step.word + ("" if step.captured else ",") for step in case.steps)
        yield Case("every-name-" + name, "A table that names every class, attribute, action and element. " + what, feed, case.service, case.files, case.late, tags=lines)


def tables():
    for name, (what, lines) in TABLES.items():
        page = Page()
        page.scene.rectangle(10, 24, 32, 48, 32, RED, line=BLUE)
        page.scene.words(11, 24, 96, 120, 16, "written")
        page.scene.variable(30, 72)
        page.scene.variable(31, "")
        page.watch(10, 11)
        page.ask(10, 11)
        page.on("red", act("SetPosition", 10, held(30), 32), act("SetVariable", 31, Raw(":GInteger :IndirectRef 30")), act("SetData", 11, held(31)))
        page.on("green", act("Stop", 10), act("SetVariable", 31, Raw(":GOctetString 'x'")), act("Run", 10), act("SetData", 11, held(31)))
        yield page.case(name, what, "red text green text", tags=lines)
    own = {"a": encoded(START), "s": encoded(GOOD)}
    yield Case("tags-of-the-profile", "A file begins as a group by the table's tags: one with those of the profile is none, and there is no group to start with", "", own, {}, [], tags="class Application 17\nclass Scene 18\n", refused=True)
    yield Case("attribute-of-the-profile", "What a table gives another tag is unknown by the old one", "", own, {}, [], tags="attr OrigBoxSize 40\n", refused=True)
    other = {"a": encoded(START), "s": encoded(GOOD, Tags("class Scene 31\n"))}
    good = {"a": START, "s": GOOD}
    yield Case("one-file-by-another-table", "A file that does not begin as a group by the table is a content file: there is no scene to go to", "", other, {}, [], tags="class Scene 32\n", lenient=True, written=good)


def wrong_tables():
    for name, lines in WRONG.items():
        yield Case("wrong-" + name, "No table of tags: " + name.replace("-", " "), "", {"a": START, "s": GOOD}, {}, [], tags=lines, refused=True)


def cases():
    for family in (twins, tables, wrong_tables):
        yield from family()
