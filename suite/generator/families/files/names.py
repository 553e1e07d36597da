"""Names of groups and files: which paths they lead to."""
from ...case import Case
from ...family import Family
from ...page import Page
from ...words import GREEN, RED, Raw, act, ref

FAMILY = Family("names", "Names of groups and files", "What there is: A service", "Names",
                "ISO/IEC 13522-5, object references and group identifiers; ETSI ES 202 184: name mapping, DSM: and relative names")


def led_by(name, written, path, sound=True):
    """The application goes to a scene by a name as it is written; the scene lies under a path."""
    start = '{:Application ("~/a" 0)\n :OnStartUp ( :TransitionTo (("%s" 0)) )\n}\n' % written
    page = Page(log=False)
    page.scene.words(10, 24, 32, 600, 16, "the scene is here")
    page.on("red", act("SetPosition", 10, 24, 64))
    page._assembled()
    rule = "The name %s in the group a leads to the file %s" % (written, path) if sound else "The name %s is no path: nothing is played" % written
    return Case(name, rule, "red", {"a": start.encode(), path: page.scene.text().encode()}, {}, [], refused=not sound)


def resolved():
    for number, (written, path) in enumerate((("~/s", "s"), ("DSM:/s", "s"), ("/s", "s"), ("s", "s"), ("~s", "s"), ("DSM:s", "s"), ("~/dir/s", "dir/s"), ("dir/s", "dir/s"),
                                              ("DSM:~/s", "~/s"), ("~/~/s", "~/s"), ("~/DSM:/s", "DSM:/s"), ("dsm:/s", "dsm:/s"), ("~/a b", "a b"), ("~/.s", ".s"), ("~/..s", "..s"), ("~/x/...y/z", "x/...y/z"))):
        yield led_by("group-%d" % (number + 1), written, path)
    long = "d" * 253
    yield led_by("group-255", "~/%s/s" % long, long + "/s")


def broken():
    for number, written in enumerate(("../s", "~/../s", "./s", "~/.", "~/..", "", "~", "~/", "DSM:", "DSM:/", "/", "x//s", "~/x//s", "s/", "~/s/", "x/./s", "x/../s", "~/x/..")):
        yield led_by("no-path-%d" % (number + 1), written, "s", False)
    yield led_by("no-path-256", "~/%s/s" % ("d" * 254), "s", False)


def in_folders():
    """A name without a prefix stands in the folder of the group that writes it."""
    groups = {"a": '{:Application ("~/a" 0)\n :OnStartUp ( :TransitionTo (("x/y/s" 0)) )\n}\n',
              "x/y/s": """{:Scene ("~/x/y/s" 0)
 :Items (
  {:Text 10 :OrigBoxSize 240 16 :OrigContent :ContentRef ("words") }
  {:Text 11 :OrigBoxSize 240 16 :OrigPosition 0 16 :OrigContent :ContentRef ("~/words") }
  {:Text 12 :OrigBoxSize 240 16 :OrigPosition 0 32 :OrigContent :ContentRef ("z/words") }
  {:Text 13 :OrigBoxSize 240 16 :OrigPosition 0 48 :OrigContent :ContentRef ("/x/words") }
  {:Link 20 :EventSource 0 :EventType UserInput :EventData 100 :LinkEffect ( :TransitionTo (("t" 0)) ) }
  {:Link 21 :EventSource ("s" 0) :EventType UserInput :EventData 101 :LinkEffect ( :TransitionTo (("/t" 0)) ) }
  {:Link 22 :EventSource ("DSM:/x/y/s" 0) :EventType UserInput :EventData 102 :LinkEffect ( :SetPosition (("~/x/y/s" 10) 240 64) :SetPosition (("s" 11) 240 96) ) }
 ) }\n""", "x/y/t": '{:Scene ("nothing like it" 0)\n :Items ( {:Text 10 :OrigBoxSize 240 16 :OrigContent \'x/y/t\' } )\n}\n',
              "t": '{:Scene ("~/t" 0)\n :Items ( {:Text 10 :OrigBoxSize 240 16 :OrigContent \'t\' } )\n}\n'}
    service = {path: text.encode() for path, text in groups.items()}
    files = {"x/y/words": b"of x/y", "words": b"of the top", "x/y/z/words": b"of x/y/z", "x/words": b"of x"}
    rule = "A name without a prefix stands in the folder of the group that writes it; what a group calls itself is only kept"
    yield Case("folders", rule, "yellow red", service, files, [])
    yield Case("folders-top", rule, "green", service, files, [])


def others():
    """Two groups of one number; a group that nothing leads to; a file that is none of the service's."""
    page = Page()
    page.group("t").rectangle(10, 24, 96, 24, 32, GREEN)
    page.scene.rectangle(10, 24, 32, 24, 32, RED)
    page.group("never").words(10, 0, 0, 24, 16, "never")
    page.files = {"note": b"no group of the service"}
    page.on("red", act("SetPosition", ref("s", 10), 240, 32))
    page.on("green", act("TransitionTo", Raw('("t" 0)')))
    yield page.case("two-groups", "Objects of two groups may have one number", "red green")


def cases():
    for family in (resolved, broken, in_folders, others):
        yield from family()
