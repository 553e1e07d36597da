"""The queue: inputs that wait, their order, and what is refused. A program does this, which can hold back steps."""
from ...family import Family
from ...page import Page
from ...words import RED, Raw, act, file_named, ref

FAMILY = Family("queue", "Inputs that wait, and their limits", "Taking, steps, posts, runs", "Limits; what is refused during play",
                "ISO/IEC 13522-5, event processing: the queue of asynchronous events")


def a_page(**fields):
    page = Page(**fields)
    page.scene.variable(30, 0)
    page.scene.variable(31, "")
    page.scene.words(32, 24, 32, 240, 16, "0")
    page.on("red", act("Add", 30, 1))
    page.on("blue", act("SetVariable", 31, Raw(":GInteger :IndirectRef 30")), act("SetData", 32, Raw(":IndirectRef 31")))
    return page


def order():
    page = a_page()
    page.scene.add("Stream", 10)
    page.on("green", *page.noted("key"), act("SendEvent", 0, 10, Raw("EngineEvent"), 1), *page.noted("/"))
    page.log(10, "EngineEvent", "sent", 1)
    page.log(10, "StreamEvent", "stream", 1)
    page.log(ref("a", 0), "EngineEvent", "engine", 2)
    page.log(0, "TimerFired", "timer")
    page.on("yellow", act("SetTimer", 0, 1, 500))
    yield page.case("order", "Inputs are taken in the order in which they were posted; events join the end", "yellow +green +stream:1 +engine:2 +tick:600 +green run", program=True)
    yield page.case("single-steps", "One step takes one input, or does one action", "+green step:1 step:1 step:1 step:1 step:1 +green step:2 step:3 run", program=True)


def full():
    for count in (256, 257):
        page = a_page()
        yield page.case("full-%d" % count, "256 inputs wait at most; one more is refused", " ".join(["+red"] * count) + " run blue red blue", program=True)
    page = a_page()
    yield page.case("full-again", "What was taken makes room", " ".join(["+red"] * 256) + " +red step:1, +red +red run blue", program=True)
    page = a_page()
    page.scene.add("Stream", 10)
    page.scene.link(10, "StreamEvent", [act("Add", 30, 100)], 1)
    yield page.case("events-not-counted", "Events are not counted among the inputs that wait", " ".join(["+stream:1"] * 128 + ["step:128,"] + ["+red"] * 256 + [
        "+red", "run", "blue",
    ]), program=True)


def ticks():
    page = a_page()
    page.on("green", act("SetTimer", 0, 1, 59999))
    page.on("yellow", act("SetTimer", 0, 2, 60001))
    page.log(0, "TimerFired", "1", 1)
    page.log(0, "TimerFired", "2", 2)
    yield page.case("tick-range", "A tick is of 1 to 60,000 milliseconds", "green yellow tick:0 tick:60001 tick:60000 tick:1", program=True)
    page = a_page()
    page.log(0, "TimerFired", "1", 1)
    page.log(0, "TimerFired", "2", 2)
    page.on("green", act("SetTimer", 0, 1, 107295), act("SetTimer", 0, 3, 107296))
    page.on("yellow", act("SetTimer", 0, 2, 1))
    page.log(0, "TimerFired", "3", 3)
    yield page.case("last-moment", "No tick leads past the last moment, 4,294,967,295 milliseconds; the ticks that wait count", "tick:60000*71581, green +tick:60000 +tick:47296 +tick:47295 +tick:1 run yellow tick:1 tick:60000", program=True)


def over_groups():
    page = a_page()
    page.group("t").link(0, "UserInput", [act("TransitionTo", ref("s", 0))], 100)
    page.groups[0].words(10, 24, 64, 240, 16, "t")
    page.on("green", act("TransitionTo", ref("t", 0)))
    page.log(0, "UserInput", "s-red", 100)
    yield page.case("over-scenes", "Inputs that wait stay over a transition, and are the next scene's", "+green +red +red run +red +green +red +blue run", program=True)
    page = a_page()
    page.on("green", act("Quit", ref("a", 0)))
    page.stays = True
    yield page.case("ended", "An engine that has ended takes nothing any more, and its picture stays", "red +green +red +blue run red blue", program=True)


def files():
    for count in (1024, 1025):
        page = a_page()
        page.scene.words(40, 24, 64, 240, 16, file_named("f0"))
        page.scene.words(41, 24, 96, 240, 16, file_named("last"))
        page.scene.words(42, 24, 128, 240, 16, file_named("f%d" % (count - 2)))
        feed = " ".join("file:f%d=x%d," % (number, number) for number in range(count - 1)) + " file:last=end file:f0=again file:more=1"
        page.on("green", act("SetData", 40, file_named("f0")))
        page.on("yellow", act("SetData", 41, file_named("last")), act("SetData", 42, file_named("more")))
        yield page.case("files-%d" % count, "At most 1,024 files can be there; a name that is there already is none more", feed + " green yellow", program=True)
    for ahead in (1021, 1022):
        page = a_page()
        for place in range(1, 5):
            page.scene.words(40 + place, 24, 64 + 32 * place, 240, 16, file_named("g%d" % place))
        page.scene.words(50, 24, 240, 240, 16, file_named("f5"))
        feed = " ".join("file:f%d=x%d," % (number, number) for number in range(ahead))
        page.on("green", act("SetData", 50, file_named("f5")), act("SetData", 41, file_named("g1")), act("SetData", 42, file_named("g2")))
        yield page.case("files-waiting-%d" % ahead, "Names that wait in the queue are counted, each once; one that is there or waits may come again",
                        feed + " +file:g1=a +file:g2=c +file:g1=b +file:g3=d +file:f5=new +file:g2=e run green file:g3=1 file:g4=2 file:g1=again", program=True)


def late_scenes():
    """The file of a scene that is not late, or that waits already, is refused, and takes no place in the queue."""
    page = a_page()
    page.group("t").words(10, 24, 64, 240, 16, "t")
    page.late = ["t"]
    page.on("green", act("TransitionTo", ref("t", 0)))
    for name, first in (("twice", "+scene:t +scene:t"), ("not-late", "+scene:s +scene:t")):
        yield page.case("scene-" + name, "The file of a late scene is taken once; one that waits already, or that is not late, is refused and takes no place among the 256", first + " " + " ".join(["+red"] * 255) + " run blue green", program=True)


def cases():
    for family in (order, full, ticks, over_groups, files, late_scenes):
        yield from family()
