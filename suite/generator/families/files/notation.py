"""The notations of files that can be read: what may be written in which way."""
from ...binary import encoded
from ...case import Case
from ...family import Family
from ...page import Page
from ...words import BLUE, GREEN, RED, act

FAMILY = Family("notation", "What the two notations allow", "What there is: A service", "The textual notation; The binary notation",
                "ISO/IEC 13522-5, annexes: textual notation and ASN.1; ITU-T X.690: distinguished encoding rules")
START = b'{:Application ("~/a" 0) :OnStartUp ( :TransitionTo (("~/s" 0)) ) }\n'


def scene(text):
    return {"a": START, "s": text if isinstance(text, bytes) else text.encode()}


SPACED = {
    "no-spaces": """{:Scene("~/s"0):Items({:Text 10 :OrigBoxSize 240 16 :OrigContent'close':HJustification end :TextWrapping false}{:Link 11 :EventSource 0 :EventType UserInput :EventData 100 :LinkEffect(:SetPosition(10 24 32):SetData(10"x"))}{:Link 12 :EventSource("s"0):EventType UserInput :EventData 101 :LinkEffect(:SetData(:IndirectRef 13'y'))}{:ObjectRefVar 13 :OrigValue 10})}""",
    "all-spaces": """\n\t{  :Scene\r\n( "~/s"\t0 )\n:Items (\t{ :Text\n10 :OrigBoxSize\r240\n16 :OrigContent\t'far'}\n { :Link 11 :EventSource 0 :EventType\nUserInput :EventData 100 :LinkEffect ( :SetPosition\n( 10\t24 32\n) ) }\n) }\n\n \t""",
    "comments": """// the first line\n{:Scene // a class\n("~/s" 0)//close\n//\n// :Items ( )\n:Items ({:Text 10 :OrigBoxSize 240 16 // a box\r :OrigPosition 0 0\n :OrigContent 'a // b'} {:Link 11 :EventSource 0 :EventType UserInput :EventData 100 :LinkEffect (//\n:SetPosition (10 24// 99\n 32) ) }) } // the end""",
    "any-order": """{:Scene ("~/s" 0) :Items ({:Text 10 :TextWrapping true :OrigContent 'one two' :BackgroundColour '=00=00=FF=00' :OrigPosition 24 32 :InitiallyActive true :OrigBoxSize 48 48 :TextColour '=ff=00=00=00'} {:Link 11 :LinkEffect (:SetPosition (10 48 64)) :EventData 100 :EventType UserInput :EventSource 0}) :SceneCS 720 576 :InputEventReg 3 :OnStartUp ( :SetPosition (10 24 16) ) }""",
    "octets": """{:Scene ("~/s" 0) :Items ({:Text 10 :OrigBoxSize 360 16 :OrigContent "quoted =41 'x'" } {:Text 11 :OrigBoxSize 360 16 :OrigPosition 0 16 :OrigContent '=41=4a=4A"=3d=27=7e=C3=a9' } {:Text 12 :OrigBoxSize 360 16 :OrigPosition 0 32 :OrigContent ' !#~ {:(x)} // no comment' } {:Text 13 :OrigBoxSize 360 16 :OrigPosition 0 48 :OrigContent "" } {:Text 14 :OrigBoxSize 360 16 :OrigPosition 0 64 :OrigContent '=30=39=61=66=46' } {:Rectangle 15 :OrigBoxSize 24 32 :OrigPosition 0 96 :OrigRefFillColour "=AA=" :OrigLineWidth 0} {:Rectangle 16 :OrigBoxSize 24 32 :OrigPosition 48 96 :OrigRefFillColour 'abc=00' :OrigLineWidth 0} {:OStringVar 17 :OrigValue '=00=1F=20=26=27=28=3C=3D=3E=7E=7F=80=FF'})}""",
    "numbers": """{:Scene ("~/s" 0) :InputEventReg 003 :Items ({:Text 0010 :OrigBoxSize 0240 16 :OrigPosition -0 -00000016 :OrigContent 'numbers'} {:IntegerVar 20 :OrigValue 2147483647} {:IntegerVar 21 :OrigValue -2147483648} {:OStringVar 22 :OrigValue ''} {:OStringVar 23 :OrigValue ''} {:Link 11 :EventSource 00 :EventType UserInput :EventData 0100 :LinkEffect (:SetPosition (10 000000000000000024 32) :SetVariable (22 :GInteger :IndirectRef 20) :SetVariable (23 :GInteger :IndirectRef 21) :Append (22 :IndirectRef 23) :SetData (10 :IndirectRef 22))}) }""",
    "kept": """{:Scene ("any name" 0) :CHook 5 :OrigFont 'font' :FontAttributes 'plain.26' :OrigGCPriority 1 :ObjectInfo '=00' :StdID 'id' :StdVersion 1 :NextScenes ( ("~/t" 5) ("nowhere/../x" -1) ) :Items ({:Text 10 :StdVersion 2 :OrigBoxSize 240 16 :OrigContent 'kept' :OrigFont "x" :NextScenes ( )} {:Link 11 :CHook -1 :EventSource 0 :EventType UserInput :EventData 100 :LinkEffect (:SetPosition (10 24 32)) :ObjectInfo ''}) }""",
    "lists": """{:Scene ("~/s" 0) :Items ({:Rectangle 10 :OrigBoxSize 24 32 :OrigRefFillColour '=FF=00=00=00' :InitiallyActive false} {:TokenGroup 20 :TokenGroupItems ( (10 (:SetPosition (10 24 32)) ( ) (:SetPosition (10 72 32) :SetPosition (10 72 48))) (("~/s" 10)) (("s" 10) ( )) ) :MovementTable ( (2 1 3) ( ) (-1 0 3) ) } {:ListGroup 21 :Positions ( (240 32) (-24 0) ) :TokenGroupItems ( ) :MovementTable ( ) } {:ListGroup 22 :Positions ( ) } {:TokenGroup 23 } {:Link 11 :EventSource 0 :EventType UserInput :EventData 100 :LinkEffect (:CallActionSlot (20 1))} {:Link 12 :EventSource 0 :EventType UserInput :EventData 101 :LinkEffect (:CallActionSlot (20 3) :AddItem (21 1 10))} {:Link 13 :EventSource 0 :EventType UserInput :EventData 102 :LinkEffect ( )}) }""",
    "defaults-written": """{:Scene ("~/s" 0) :OnStartUp ( ) :OnCloseDown ( ) :InputEventReg 4 :SceneCS 720 576 :Items ({:Text 10 :InitiallyActive true :Shared false :OrigBoxSize 240 16 :OrigPosition 0 0 :TextColour '=FF=FF=FF=00' :BackgroundColour '=00=00=00=FF' :HJustification start :TextWrapping false :OrigContent 'defaults'} {:EntryField 12 :OrigBoxSize 24 16 :OrigPosition 0 32 :MaxLength 255 :OrigContent '1'} {:EntryField 13 :OrigBoxSize 24 16 :OrigPosition 0 64 :MaxLength 1 :OrigContent '2'} {:Link 11 :EventSource 0 :EventType UserInput :LinkEffect (:SetPosition (10 24 32))}) }""",
    "data": """{:Scene ("~/s" 0) :Items ({:Text 10 :OrigBoxSize 240 16 :OrigContent '-'} {:BooleanVar 20 :OrigValue true} {:BooleanVar 21 :OrigValue false} {:Link 11 :EventSource 20 :EventType TestEvent :EventData true :LinkEffect (:SetData (10 'true'))} {:Link 12 :EventSource 20 :EventType TestEvent :EventData false :LinkEffect (:SetData (10 'false'))} {:Link 13 :EventSource 0 :EventType UserInput :EventData 100 :LinkEffect (:TestVariable (20 1 :GBoolean true))} {:Link 14 :EventSource 0 :EventType UserInput :EventData 101 :LinkEffect (:TestVariable (20 1 :GBoolean :IndirectRef 21))} {:Link 15 :EventSource 0 :EventType UserInput :EventData 102 :LinkEffect (:SendEvent (0 20 TestEvent true))} {:Link 16 :EventSource 0 :EventType UserInput :EventData 103 :LinkEffect (:SendEvent (0 20 TestEvent :IndirectRef 21))}) }""",
}


def spaced():
    for name, text in SPACED.items():
        yield Case("text-" + name, "What the textual notation allows: " + name.replace("-", " "), "red green yellow blue", scene(text), {}, [])


def sized():
    """Integers of each length, tags from 31 on, lengths of one, two and three octets."""
    numbers = [0, 1, 127, 128, 255, 256, 32767, 32768, 65535, 65536, 8388607, 8388608, 2147483647, -1, -127, -128, -129, -255, -256, -257, -32768, -32769, -8388608, -8388609, -2147483648]
    for half, part in (("first", numbers[:13]), ("second", numbers[13:])):
        page = Page(log=False)
        for place, number in enumerate(part):
            page.scene.variable(20 + place, number)
        page.ask(*range(20, 20 + len(part)))
        yield from both(page, "integers-" + half, "Integers of each length", "text")
    for size in (127, 128, 256, 65000):
        page = Page(log=False)
        page.scene.words(10, 24, 32, 600, 160, ("%05d " % size + "x" * size)[:size], BackgroundColour=BLUE)
        page.scene.button(11, 24, 240, 240, 16, "y" * (size % 300))
        yield from both(page, "length-%d" % size, "Octets of %d, and all that is around them" % size, "")
    page = Page(log=False)
    for number in (1, 30, 31, 127, 128, 16383, 16384, 2147483647):
        page.scene.rectangle(number, 24 * (number % 25), 32, 12, 16, (RED, GREEN, BLUE)[number % 3])
    page.on("red", *[act("SetPosition", number, 24 * (number % 25), 96) for number in (1, 127, 128, 16384, 2147483647)])
    yield from both(page, "numbers-of-objects", "Objects' numbers from 1 to 2147483647", "red")


def both(page, name, rule, feed):
    """One case a notation: the same groups."""
    groups = {group.path: group.text().encode() for group in page._assembled()}
    yield Case("text-" + name, rule, feed, groups, {}, [])
    yield Case("binary-" + name, rule, feed, {path: encoded(text) for path, text in groups.items()}, {}, [], written=groups)


def binary():
    for name, text in SPACED.items():
        yield Case("binary-" + name, "The same groups in the binary notation", "red green yellow blue", {"a": encoded(START), "s": encoded(text.encode())}, {}, [], written=scene(text))


TWINS = ("indirect/visibles", "indirect/drawings", "indirect/fields", "indirect/groups", "indirect/events", "indirect/asked", "values/set", "values/test-kinds", "programs/called", "links/data", "stuck/kind-data")


def twins():
    """Cases of other families, whose groups are binary here."""
    from .. import all_cases
    for case in all_cases(only={name.partition("/")[0] for name in TWINS}):
        if case.id in TWINS:
            service = {path: encoded(text) for path, text in case.service.items()}
            yield Case("binary-" + case.id.replace("/", "-"), case.rule, " ".join(step.word + ("" if step.captured else ",") for step in case.steps), service, case.files, case.late, lenient=case.lenient, written=case.service)


def bounds():
    """The least and the largest value of each attribute that has them."""
    page = Page(log=False, SceneCS=(720, 576), InputEventReg=-2147483648)
    page.scene.rectangle(9, 12, 16, 600, 200, RED)
    page.scene.rectangle(10, 24, 32, 0, 16, GREEN, line=BLUE)
    page.scene.rectangle(11, 60, 32, 24, 0, GREEN, line=BLUE, width=0)
    page.scene.rectangle(12, 96, 32, 0, 0, GREEN, width=2147483647)
    page.scene.rectangle(13, -2147483648, 2147483647, 2147483647, 2147483647, GREEN)
    page.scene.words(14, 24, 64, 0, 16, "none")
    page.scene.art(15, 60, 64, 24, 0, OrigLineWidth=0)
    page.scene.field(16, 24, 96, 120, 16, "1", MaxLength=1)
    page.scene.field(17, 24, 128, 120, 16, "255", MaxLength=255)
    page.scene.button(18, 24, 160, 0, 0, "x")
    page.on("red", *[act("SetBoxSize", number, 24, 16) for number in (10, 11, 12, 14, 15, 18)])
    page.on("green", act("SetInteractionStatus", 16, True))
    page.on("yellow", act("SetInteractionStatus", 17, True))
    page.ask(10, 12, 13, 16)
    yield from both(page, "bounds", "The least and the largest values that attributes may have", "red text green 2 select yellow 6 select")


def mixed():
    page = Page()
    page.scene.rectangle(10, 24, 32, 24, 32, RED)
    page.on("red", act("SetPosition", 10, 240, 32))
    groups = {group.path: group.text().encode() for group in page._assembled()}
    yield Case("mixed", "An application in one notation, its scene in the other", "red", {"a": groups["a"], "s": encoded(groups["s"])}, {}, [], written=groups)
    yield Case("mixed-otherwise", "An application in one notation, its scene in the other", "red", {"a": encoded(groups["a"]), "s": groups["s"]}, {}, [], written=groups)


def cases():
    for family in (spaced, sized, binary, twins, bounds, mixed):
        yield from family()
