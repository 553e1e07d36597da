"""Scenes and applications: what stops, what stays, and what begins anew."""
from ...family import Family
from ...page import Page
from ...words import BLUE, GREEN, RED, WHITE, YELLOW, Raw, act, file_named, held, ref, typed

FAMILY = Family("scenes", "Transitions, applications, start-up and close-down", "Items: Enter, Exchange, End; Actions (TransitionTo, Launch, Quit)", "Actions 8, 9 and 12; attributes 1, 2, 6 and 7",
                "ISO/IEC 13522-5, Application class: Launch, Quit; Scene class: TransitionTo; Group class: OnStartUp, OnCloseDown; Ingredient class: Shared, InitiallyActive")


class Travel:
    """An application with a log of its own that stays, and scenes s and t; red and green lead between them."""

    def __init__(self, start=(), **fields):
        self.page = Page(log=False, **fields)
        self.app, self.s, self.t = self.page.app, self.page.scene, self.page.group("t")
        self.app.variable(900, "")
        self.app.words(901, 0, 384, 720, 160, "", TextWrapping=True, Shared=True)
        self.page.stays = True
        self.s.link(0, "UserInput", [act("TransitionTo", ref("t", 0))], 100)
        self.t.link(0, "UserInput", [act("TransitionTo", ref("s", 0))], 100)
        self.s.rectangle(90, 600, 16, 24, 32, RED)
        self.t.rectangle(90, 648, 16, 24, 32, GREEN)

    def noted(self, word):
        return [act("Append", ref("a", 900), word + "."), act("SetData", ref("a", 901), held(ref("a", 900)))]

    def log(self, group, source, event, word, data=None, **fields):
        group.link(source, event, self.noted(word), data, **fields)

    def case(self, name, rule, feed, **facts):
        return self.page.case(name, rule, feed, **facts)


def closing():
    """Everything that is told while scenes change."""
    for shared in (False, True):
        travel = Travel(OnCloseDown=[])
        travel.s.fields["OnCloseDown"] = travel.noted("s-close")
        travel.t.fields["OnStartUp"], travel.t.fields["OnCloseDown"] = travel.noted("t-start"), travel.noted("t-close")
        for group, name in ((travel.app, "a"), (travel.s, "s"), (travel.t, "t")):
            for number in (10, 11, 12):
                group.rectangle(number, 24 * number - 200, 32 if name == "a" else 80, 24, 32, WHITE, **({"Shared": shared} if name == "a" else {}))
        for group, name in ((travel.s, "s"), (travel.t, "t")):
            for number in (10, 11, 12):
                for event in ("IsStopped", "IsRunning", "IsDeleted", "IsAvailable"):
                    letter = {"IsStopped": "s", "IsRunning": "r", "IsDeleted": "d", "IsAvailable": "a"}[event]
                    travel.log(group, number, event, "%s%d%s" % (name, number, letter))
                    travel.log(group, ref("a", number), event, "a%d%s" % (number, letter))
            travel.log(group, 0, "IsRunning", name + "-runs")
        # the links that hear the stopping stand in front of what stops, so that they stop after it
        for group in (travel.s, travel.t):
            links = [item for item in group.items if item.startswith("{:Link")]
            group.items = links + [item for item in group.items if item not in links]
        yield travel.case("told" + ("-shared" if shared else ""), "A transition: close-down, the scene's items halt, the last first, then the application's that are not shared; then the next scene begins", "red red")


def kept():
    travel = Travel()
    travel.app.rectangle(10, 24, 32, 24, 32, RED, Shared=True)
    travel.app.rectangle(11, 72, 32, 24, 32, BLUE)
    travel.app.variable(20, 0)
    travel.s.rectangle(10, 24, 96, 24, 32, YELLOW)
    travel.s.variable(20, 0)
    travel.s.words(30, 120, 96, 60, 16, "0")
    travel.s.link(0, "UserInput", [act("SetPosition", ref("a", 10), 240, 32), act("SetPosition", 10, 240, 96), act("Add", 20, 1), act("Add", ref("a", 20), 1)], 101)
    said = [act("SetVariable", 40, Raw(":GInteger :IndirectRef 20")), act("SetVariable", 41, Raw(":GInteger :IndirectRef " + ref("a", 20))), act("Append", 40, "/"),
            act("Append", 40, held(41)), act("SetData", 30, held(40))]
    travel.s.variable(40, "")
    travel.s.variable(41, "")
    travel.s.link(0, "UserInput", said, 102)
    travel.t.link(0, "UserInput", [act("Run", ref("a", 11))], 101)
    yield travel.case("kept", "What is the application's stays as it is, what is the scene's begins anew; what is not shared stops and stays stopped", "green yellow red red yellow green yellow red green red yellow")


def stack_over():
    travel = Travel()
    travel.app.rectangle(10, 24, 32, 96, 80, RED, Shared=True)
    travel.app.rectangle(11, 60, 64, 96, 80, BLUE, Shared=True)
    travel.s.rectangle(10, 96, 96, 96, 80, YELLOW)
    travel.t.rectangle(10, 12, 48, 96, 80, GREEN)
    travel.s.link(0, "UserInput", [act("SendToBack", 10)], 101)
    travel.s.link(0, "UserInput", [act("BringToFront", ref("a", 10))], 102)
    travel.t.link(0, "UserInput", [act("PutBehind", ref("a", 11), 10)], 101)
    yield travel.case("stack", "The application's visibles keep their order on the stack, a scene's come on top", "green yellow red green red")


def again():
    """A transition to the scene that is there, and the application launched anew."""
    travel = Travel()
    travel.s.fields["OnStartUp"], travel.s.fields["OnCloseDown"] = travel.noted("start"), travel.noted("close")
    travel.s.rectangle(10, 24, 96, 24, 32, YELLOW)
    travel.s.link(0, "UserInput", [act("SetPosition", 10, 240, 96)], 101)
    travel.s.link(0, "UserInput", [act("TransitionTo", 0)] + travel.noted("behind"), 102)
    travel.s.link(0, "UserInput", [act("Launch", ref("a", 0))] + travel.noted("behind"), 103)
    yield travel.case("anew", "TransitionTo of the current scene and Launch of the active application leave and enter it anew", "green yellow green blue green")


def only_one():
    """While one has begun, TransitionTo, Launch and Quit do nothing."""
    for name, action in (("transition", act("TransitionTo", ref("t", 0))), ("launch", act("Launch", ref("b", 0))), ("quit", act("Quit", ref("a", 0)))):
        travel = Travel()
        travel.page.group("b", "Application").words(10, 24, 240, 120, 16, "other")
        travel.s.fields["OnCloseDown"] = travel.noted("close") + [action] + travel.noted("closed")
        travel.s.link(0, "UserInput", [act("TransitionTo", 0), action] + travel.noted("never"), 101)
        travel.s.link(10, "IsStopped", [action] + travel.noted("stopped"))
        travel.s.rectangle(10, 24, 96, 24, 32, YELLOW)
        travel.s.items = [item for item in travel.s.items if "IsStopped" in item] + [item for item in travel.s.items if "IsStopped" not in item]
        yield travel.case("while-leaving-" + name, "While a transition has begun TransitionTo, Launch and Quit do nothing; the work behind the first is thrown away (the verifier sees a circle, V6)", "green green", lenient=True)


def started():
    """What OnStartUp does happens before anything runs; what waits is thrown away by a transition."""
    page = Page(OnStartUp=[
        act("Append", 900, "start."), act("SetData", 901, held(900)), act("SendEvent", 0, 10, Raw("EngineEvent"), 1),
        act("SendEvent", 0, 10, Raw("TestEvent"), 1), act("SetPosition", 10, 240, 32),
    ])
    page.scene.rectangle(10, 24, 32, 24, 32, RED)
    page.log(10, "EngineEvent", "later", 1)
    page.log(10, "TestEvent", "at-once", 1)
    page.log(0, "IsRunning", "runs")
    page.watch(10)
    page.scene.rectangle(11, 72, 32, 24, 32, GREEN, InitiallyActive=False)
    page.scene.link(0, "IsRunning", page.noted("b"), InitiallyActive=False)
    page.watch(11)
    yield page.case("start-up", "OnStartUp, then the items that are active, in order, then IsRunning of the scene; before they run links hear nothing", "")
    page = Page()
    page.app.fields["OnStartUp"] = [act("SendEvent", 0, 0, Raw("EngineEvent"), 1), act("TransitionTo", ref("s", 0)), act("LockScreen", 0)]
    page.app.words(40, 24, 32, 120, 16, "never seen")
    page.app.link(0, "EngineEvent", [act("Run", 40)], 1, Shared=True)
    page.log(ref("a", 0), "EngineEvent", "app", 1)
    yield page.case("leaves-in-start-up", "A transition in OnStartUp throws away all work behind it: the application's items do not run", "red")


def waiting_events():
    """Events of the scene that wait go with it, those of the application stay."""
    travel = Travel()
    travel.app.rectangle(10, 24, 32, 24, 32, RED, Shared=True)
    travel.s.rectangle(10, 24, 96, 24, 32, YELLOW)
    for group in (travel.s, travel.t):
        travel.log(group, ref("a", 10), "EngineEvent", "app")
        travel.log(group, ref("s", 10), "EngineEvent", "scene")
        travel.log(group, ref("a", 0), "EngineEvent", "a0")
        travel.log(group, 0, "StreamEvent", "own")
    sends = [act("SendEvent", 0, source, Raw("EngineEvent"), 1) for source in (10, ref("a", 10), ref("a", 0), 10)] + [act("SendEvent", 0, 0, Raw("StreamEvent"), 1)]
    travel.s.link(0, "UserInput", sends + [act("TransitionTo", ref("t", 0))], 101)
    travel.s.link(0, "UserInput", sends + [act("TransitionTo", 0)], 102)
    travel.s.link(0, "UserInput", sends, 103)
    yield travel.case("waiting", "Events that wait and are the scene's go with it; those of the application stay", "blue green red yellow")


def interaction_over():
    travel = Travel()
    travel.app.field(10, 24, 32, 120, 16, "1", Shared=True, BackgroundColour=BLUE)
    travel.s.field(10, 24, 96, 120, 16, "2", BackgroundColour=BLUE)
    for group in (travel.s, travel.t):
        travel.log(group, 0, "UserInput", "key")
        travel.log(group, ref("a", 10), "InteractionCompleted", "app-i")
        group.link(0, "UserInput", [act("SetInteractionStatus", ref("a", 10), True)], 101)
    travel.s.link(0, "UserInput", [act("SetInteractionStatus", 10, True)], 102)
    travel.log(travel.s, 10, "InteractionCompleted", "i")
    travel.s.link(ref("a", 10), "InteractionCompleted", [act("TransitionTo", ref("t", 0))])
    travel.s.add("Stream", 80)
    travel.s.link(80, "StreamEvent", [act("TransitionTo", ref("t", 0))], 5)
    travel.t.add("Stream", 80)
    travel.t.link(80, "StreamEvent", [act("TransitionTo", ref("s", 0))], 5)
    yield travel.case("interaction", "An interaction of the scene ends with it and nothing tells so; that of a shared field of the application goes on",
                      "yellow 3 stream:5 4 green 5 stream:5 6 select red yellow 7 stream:5 stream:5 8")


def revived():
    """An object that is run again while its group is left: it does not stop any more, and is gone with the group all the same."""
    for what in ("interacts", "runs"):
        travel = Travel()
        travel.s.link(11, "IsStopped", [act("Run", 10)] + ([act("SetInteractionStatus", 10, True)] if what == "interacts" else []))
        travel.s.rectangle(11, 24, 32, 24, 32, RED)
        travel.s.field(10, 24, 96, 120, 16, "1", BackgroundColour=BLUE)
        travel.log(travel.s, 10, "IsStopped", "stopped")
        travel.log(travel.t, 0, "UserInput", "key")
        travel.log(travel.s, 0, "UserInput", "s-key")
        travel.t.field(10, 24, 160, 120, 16, "2", BackgroundColour=BLUE)
        yield travel.case("revived-" + what, "An object that is run again while its scene is left goes with it: it neither interacts nor is seen", "red 1 2 red 3 select red 4 red")


def revived_by_the_application():
    """Objects of the application that are worked again while they are left: Launch begins them anew, TransitionTo keeps them as they are."""
    for way, leave in (("launched", act("Launch", ref("a", 0))), ("kept", act("TransitionTo", ref("t", 0)))):
        travel = Travel()
        app = travel.app
        again = [act("Run", 10), act("SetInteractionStatus", 10, True), act("SetTimer", 0, 1, 1000), act("Run", 12), act("SendEvent", 0, 11, Raw("StreamEvent"), 1)]
        app.link(11, "IsStopped", again, number=301, Shared=True)
        app.link(11, "StreamEvent", travel.noted("event"), number=302, Shared=True)
        app.link(0, "TimerFired", travel.noted("timer"), number=303, Shared=True)
        app.link(12, "ContentAvailable", travel.noted("file"), number=304, Shared=True)
        app.rectangle(11, 240, 32, 24, 32, WHITE, Shared=way == "launched")
        app.field(10, 24, 32, 120, 16, "1", BackgroundColour=BLUE, InitiallyActive=False)
        app.words(12, 24, 64, 120, 16, file_named("late"), InitiallyActive=False)
        app.items = [item for item in app.items if "{:Link" in item] + [item for item in app.items if "{:Link" not in item]
        for group in (travel.s, travel.t):
            travel.log(group, 0, "UserInput", group.path + "-key")
            travel.log(group, ref("a", 10), "InteractionCompleted", "done")
        travel.s.link(0, "UserInput", [leave], 101)
        for place, feed in enumerate(("green 2 tick:2000 select 3 file:late=words 4", "1 tick:2000 green 5 cancel 6 red 7")):
            yield travel.case("revived-application-%s-%d" % (way, place + 1), "What the application's objects begin while they halt goes with a Launch, and goes on over a transition: interaction, timers, events that wait, a file that is awaited", feed)


def launched_anew():
    """All that waits goes when the application is launched anew: events, timers, the interaction, texts that wait for files."""
    page = Page(log=False)
    app, scene = page.app, page.scene
    app.fields["OnStartUp"] = []
    app.variable(900, "")
    app.words(901, 0, 384, 720, 96, "", TextWrapping=True)
    noted = lambda word: [act("Append", ref("a", 900), word + "."), act("SetData", ref("a", 901), held(ref("a", 900)))]
    app.rectangle(10, 24, 32, 24, 32, RED)
    app.field(11, 24, 96, 120, 16, "1", BackgroundColour=BLUE)
    app.words(12, 24, 128, 120, 16, Raw(':ContentRef ("~/late")'))
    for source, word in ((10, "ten"), (0, "app"), (ref("s", 10), "scene-ten")):
        app.link(source, "StreamEvent", noted(word), Shared=True)
    app.link(0, "TimerFired", noted("timer"), Shared=True)
    app.link(11, "InteractionCompleted", noted("done"), Shared=True)
    app.link(12, "ContentAvailable", noted("file"), Shared=True)
    app.link(0, "EngineEvent", [act("TransitionTo", ref("s", 0))], 1)
    app.link(0, "EngineEvent", [act("Launch", 0)], 2, Shared=True)
    sends = [act("SendEvent", 0, source, Raw("StreamEvent"), 1) for source in (10, 0)] + [act("SetTimer", 0, 1, 1000), act("SetInteractionStatus", 11, True)]
    app.link(0, "EngineEvent", sends + [act("Launch", 0)], 3, Shared=True)
    app.link(0, "EngineEvent", sends, 4, Shared=True)
    app.link(0, "EngineEvent", sends + [act("TransitionTo", ref("s", 0))], 5, Shared=True)
    scene.rectangle(10, 240, 32, 24, 32, GREEN)
    scene.link(0, "UserInput", noted("key"))
    scene.link(ref("a", 0), "EngineEvent", [
        act("SendEvent", 0, 10, Raw("StreamEvent"), 1), act("SendEvent", 0, ref("a", 10), Raw("StreamEvent"), 1), act("SetTimer", 0, 1, 1000),
        act("Launch", ref("a", 0)),
    ], 6)
    for name, feed in (("waiting", "engine:3 7 tick:2000 engine:4 8 select tick:2000"), ("from-a-scene", "engine:1 red engine:6 tick:2000 engine:1 tick:2000 7"), ("interaction", "engine:4 7 engine:2 8 engine:1 9 select"), ("over-a-scene", "engine:5 7 select tick:2000"), ("file", "engine:2 file:late=words engine:2"), ("file-in-a-scene", "engine:1 file:late=words engine:2")):
        yield page.case("launched-anew-" + name, "Launch of the active application: nothing that waited is left, and all begins as it is written", feed)


def applications():
    for way in ("launch", "quit"):
        page = Page()
        page.app.fields["OnCloseDown"] = []
        page.app.rectangle(40, 24, 96, 24, 32, BLUE, Shared=True)
        page.app.link(0, "IsRunning", [act("TransitionTo", ref("s", 0))], Shared=True)
        page.app.fields["OnStartUp"] = []
        page.scene.rectangle(10, 24, 32, 24, 32, RED)
        other = page.group("b", "Application", OnStartUp=[act("SetPosition", 10, 300, 32)])
        other.rectangle(10, 240, 32, 24, 32, GREEN)
        other.words(11, 240, 80, 240, 16, "the other one")
        other.link(0, "EngineEvent", [act("TransitionTo", ref("t", 0))], 1)
        other.link(0, "EngineEvent", [act("Launch", ref("a", 0))], 2)
        other.link(0, "EngineEvent", [act("Quit", 0)], 3)
        scene = page.group("t")
        scene.words(10, 24, 160, 240, 16, "scene of the other")
        scene.link(ref("b", 0), "EngineEvent", [act("Launch", ref("a", 0))], 2)
        scene.link(ref("b", 0), "EngineEvent", [act("Quit", ref("b", 0))], 3)
        page.on("red", act("Launch", ref("b", 0)), *page.noted("behind"))
        page.on("green", act("Quit", ref("a", 0)), *page.noted("behind"))
        feeds = {"launch": ["red engine:1 engine:2 red engine:2", "red engine:1 red engine:3 engine:2"], "quit": ["green red", "red engine:3 engine:2"]}[way]
        for place, feed in enumerate(feeds):
            yield page.case("%s-%d" % (way, place + 1), "Launch leaves scene and application and begins the other, without a scene; Quit ends", feed)


def ended():
    """Links and visibles that are run again while the application is quit: the engine has ended all the same."""
    page = Page(stays=True)
    page.app.link(11, "IsStopped", [act("Run", 10), act("Activate", 302), act("Activate", 303), act("SendEvent", 0, 10, Raw("EngineEvent"), 2)], number=301, Shared=True)
    page.app.rectangle(11, 72, 32, 24, 32, GREEN, Shared=True)
    page.app.link(0, "EngineEvent", [act("SetPosition", 10, 24, 96)], 1, number=302, Shared=True)
    page.app.link(10, "EngineEvent", [act("SetFillColour", 10, BLUE)], 2, number=303, Shared=True)
    page.app.rectangle(10, 24, 32, 24, 32, RED, Shared=True)
    page.on("red", act("Quit", ref("a", 0)))
    yield page.case("quit-revived", "An engine that has ended does nothing any more, whatever runs and listens: its last picture stays", "red engine:1 red")


def closing_application():
    page = Page(stays=True)
    page.app.variable(900, "")
    page.app.words(901, 0, 384, 720, 64, "", TextWrapping=True, Shared=True)
    word = lambda text: [act("Append", ref("a", 900), text + "."), act("SetData", ref("a", 901), held(ref("a", 900)))]
    page.app.fields["OnCloseDown"] = word("app-close") + [act("LockScreen", ref("a", 0))]
    page.scene.fields["OnCloseDown"] = word("scene-close")
    for number in (10, 11):
        page.app.rectangle(number, 24 * number, 32, 24, 32, BLUE, Shared=True)
        page.scene.rectangle(number, 24 * number, 96, 24, 32, RED)
        page.app.link(number, "IsStopped", word("a%d" % number), Shared=True, number=200 + number)
        page.app.link(ref("s", number), "IsStopped", word("s%d" % number), Shared=True, number=210 + number)
    links = [item for item in page.app.items if item.startswith("{:Link")]
    page.app.items = links + [item for item in page.app.items if item not in links]
    page.group("b", "Application").rectangle(10, 240, 240, 24, 32, GREEN)
    page.scene.link(0, "UserInput", [act("Launch", ref("b", 0))], 100)
    page.scene.link(0, "UserInput", [act("Quit", ref("a", 0))], 101)
    for name, feed in (("launch", "red"), ("quit", "green")):
        yield page.case("close-down-" + name, "The scene closes down, then the application; all of both halts, the last first; the lock stays", feed)


def cases():
    for family in (closing, kept, stack_over, again, only_one, started, waiting_events, interaction_over, revived, revived_by_the_application, launched_anew, applications, ended, closing_application):
        yield from family()
