"""A page under test: a scene that shows what else is hidden.

Each event of a watched object is written, with its data, into a log at the bottom of the screen, in the order in which it comes.
The key `text` asks the watched objects all that a Get action answers, and writes the answers below the log.
"""
from .case import Case
from .group import Group
from .watching import asked, events_of
from .words import KEYS, Raw, act, held, typed

LOG, LOGGED, ANSWER, ANSWERED = 900, 901, 902, 903
NUMBER, TRUTH, OCTETS, OBJECT, NAMED, SECOND = range(904, 910)


class Page:
    """`scene` is the scene `s`, `app` the application `a` that leads to it; `groups` has further groups."""

    def __init__(self, stays=False, log=True, **fields):
        self.app, self.scene = Group("a", "Application"), Group("s", **fields)
        self.app.next_link = 500
        self.groups, self.files, self.late = [], {}, []
        self.before, self.asks, self.made, self.stays = Group("s"), [], None, stays
        self.before.next_link = 700
        if log:
            self.before.variable(LOG, "")
            self.before.words(LOGGED, 0, 384, 720, 96, TextWrapping=True, TextColour=bytes((255, 255, 0, 0)))

    def group(self, path, kind="Scene", **fields):
        """One more group of the service."""
        self.groups.append(Group(path, kind, **fields))
        return self.groups[-1]

    def noted(self, word):
        """The actions that write a word into the log."""
        return [act("Append", LOG, word + "."), act("SetData", LOGGED, held(LOG))]

    def log(self, source, event, word, data=None):
        self.before.link(source, event, self.noted(word), data)

    def watch(self, *numbers, data=range(0, 5), only=None):
        """Writes each event of these objects into the log: the object, a letter for the event, its data."""
        for number in numbers:
            for event, letter, kinds in events_of(self.scene.classes[number]):
                if only and event not in only:
                    continue
                for given in {"none": [None], "number": data, "truth": [True, False]}[kinds]:
                    told = "" if given is None else {True: "+", False: "-"}[given] if isinstance(given, bool) else str(given)
                    self.log(number, event, "%d%s%s" % (number, letter, told), given)

    def on(self, key, *actions, **fields):
        """What a key does."""
        return self.scene.link(0, "UserInput", actions, KEYS[key], **fields)

    def ask(self, *numbers, **options):
        """Has the key `text` write what the Get actions answer of these objects."""
        for number in numbers:
            self.asks += asked(number, self.scene.classes[number], **options)

    def _answering(self):
        last = self.before
        last.variable(ANSWER, "")
        last.words(ANSWERED, 0, 480, 720, 96, TextWrapping=True, TextColour=bytes((0, 255, 255, 0)))
        last.variable(NUMBER, -1)
        last.variable(TRUTH, False)
        last.variable(OCTETS, "")
        last.refers(OBJECT, 0)
        last.variable(NAMED, "")
        last.variable(SECOND, -1)
        last.link(TRUTH, "TestEvent", [act("Append", ANSWER, "T.")], True)
        last.link(TRUTH, "TestEvent", [act("Append", ANSWER, "F.")], False)
        last.link(OBJECT, "TestEvent", [act("Append", ANSWER, held(NAMED)), act("Append", ANSWER, ".")], True)
        said = [act("SetVariable", ANSWER, typed(""))] + self.asks + [act("SetData", ANSWERED, held(ANSWER))]
        last.link(0, "UserInput", said, KEYS["text"])
        self.scene.keyed[last.items[-1]] = KEYS["text"]

    def _assembled(self):
        """The groups, put together once: a page may make several cases."""
        if self.made:
            return self.made
        if self.asks:
            self._answering()
        self.scene.items = self.before.items + self.scene.items
        if self.stays:
            self.app.link(0, "IsRunning", [Raw('TransitionTo (("~/s" 0))')])
        elif "OnStartUp" not in self.app.fields:
            self.app.fields["OnStartUp"] = ['TransitionTo (("~/s" 0))']
        self.made = [self.app, self.scene] + self.groups
        return self.made

    def case(self, name, rule, feed, **facts):
        """The case: its rule in a sentence, what is fed, and what is captured (`case.Case`)."""
        groups = self._assembled()
        keys = {KEYS.get(word.strip("+,")) for word in feed.split()}
        service = {group.path: group.text(keys).encode() for group in groups}
        return Case(name, rule, feed, service, self.files, self.late, **facts)
