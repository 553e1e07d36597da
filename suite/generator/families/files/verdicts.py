"""Verdicts: what a verifier prints of services that are accepted, with their bounds, and of services that are refused, with chain and cycle."""
from ...case import Case
from ...family import Family

FAMILY = Family("verdicts", "What is accepted, with its bounds, and what is refused (for tools)", "What the verifier accepts; What a service costs", "What `check` prints",
                "none: a service is judged before it is broadcast")
START = ':OnStartUp ( :TransitionTo (("~/s" 0)) )'
BOX = "{:Rectangle 10 :OrigBoxSize 24 32 :OrigRefFillColour '=FF=00=00=00' }"


def key(number, effect):
    return "{:Link %d :EventSource 0 :EventType UserInput :EventData 100 :LinkEffect ( %s ) }" % (number, effect)


def service(name, rule, items, app="", start=START, **scenes):
    groups = {"a": '{:Application ("~/a" 0) %s :Items ( %s ) }\n' % (start, app), "s": '{:Scene ("~/s" 0) :Items ( %s ) }\n' % " ".join(items)}
    groups.update({path: text + "\n" for path, text in scenes.items()})
    return Case(name, rule, "", {path: text.encode() for path, text in groups.items()}, {}, [], verdict=True)


def wrong_actions():
    ways = {
        "v1-target": ":SetPosition (99 1 1)",
        "v1-parameter": ":PutBefore (10 99)",
        "v1-variable": ":SetPosition (10 :IndirectRef 99 1)",
        "v1-receiver": ":GetPosition (10 20 99)",
        "v1-other-scene": ':Run (("~/t" 10))',
        "v2-class": ":SetData (10 'x')",
        "v2-transition": ':TransitionTo (("~/a" 0))',
        "v2-variable": ":Run (20)",
        "v3-kind": ":SetVariable (20 :GBoolean true)",
        "v3-variable": ":SetPosition (10 :IndirectRef 21 1)",
        "v3-operator": ":TestVariable (21 3 :GOctetString 'x')",
        "v3-operator-held": ":TestVariable (20 :IndirectRef 20 :GInteger 1)",
        "v3-receiver": ":GetPosition (10 20 21)",
        "v7-number-held": ":SetTimer (0 :IndirectRef 20 500)",
        "v9-name": ":Call (30 22 ( :GInteger 1 ))",
        "v9-fewer": ":Call (31 22 ( :GOctetString 'x' ))",
        "v9-written": ":Call (31 22 ( :GOctetString 'x' :GInteger 1 ))",
        "several": ":SetPosition (10 1 1) :SetData (10 'x') :SetPosition (99 1 1)",
        "fine": ":SetPosition (10 :IndirectRef 20 1) :Call (31 22 ( :GOctetString 'x' :GInteger :IndirectRef 20 ))",
    }
    for name, effect in ways.items():
        items = [
            BOX, "{:IntegerVar 20 :OrigValue 1 }", "{:OStringVar 21 :OrigValue '' }", "{:BooleanVar 22 :OrigValue true }",
            "{:ResidentPrg 30 :Name 'XYZ' }", "{:ResidentPrg 31 :Name 'GSL' }", key(40, effect),
        ]
        yield service(name, "What is wrong with an action is told with its kind, its place and the configuration: " + name, items, t='{:Scene ("~/t" 0) :Items ( %s ) }' % BOX)


def flows():
    app = "{:ObjectRefVar 1 :OrigValue 2 } {:Text 2 :OrigBoxSize 24 16 :Shared true } {:ObjectRefVar 3 :OrigValue 2 }"
    sets = ':SetVariable (("~/a" 1) :GObjectRef 10)'
    through = ':SetVariable (("~/a" 3) :GObjectRef :IndirectRef ("~/a" 1))'
    other = '{:Scene ("~/t" 0) :Items ( {:Link 1 :EventSource 0 :EventType IsRunning :LinkEffect ( :SetPosition (:IndirectRef ("~/a" %d) 1 1) ) } ) }'
    leads = ':TransitionTo (("~/t" 0))'
    yield service("v4-chain-of-1", "A reference that has gone, with the chain by which it came", [BOX, key(40, sets + " " + leads)], app, t=other % 1)
    yield service("v4-chain-of-2", "A chain of two", [BOX, key(40, sets + " " + through + " " + leads)], app, t=other % 3)
    yield service("v4-original", "A chain that begins with an original value", [BOX, "{:ObjectRefVar 11 :OrigValue 99 }", key(40, ":Run (:IndirectRef 11)")], app)
    yield service("v5-class", "A reference of a class for which there is no rule", [BOX, key(40, sets + " :SetData (:IndirectRef (\"~/a\" 1) 'x')")], app)
    yield service("v4-list", "An item that a list may have", [BOX, "{:ListGroup 20 :Positions ( (0 0) ) :TokenGroupItems ( (10) (99) ) }"], app)
    yield service("v5-list-added", "An item that a list may be given", [
        BOX, "{:Stream 12 }", "{:ListGroup 20 :Positions ( (0 0) ) }", key(40, ":AddItem (20 1 12)"),
    ], app)
    yield service("v1-member", "A member of a token group that is absent", [BOX, "{:TokenGroup 20 :TokenGroupItems ( (10) (99) ) }"], app)
    yield service("v2-member", "A member of a token group that is no visible", ["{:Stream 12 }", "{:TokenGroup 20 :TokenGroupItems ( (12) ) }"], app)
    yield service("flow-fine", "A reference that is present wherever it is used", [BOX, key(40, sets + ' :SetPosition (:IndirectRef ("~/a" 1) 1 1) :SetVariable (("~/a" 1) :GObjectRef ("~/a" 2))')], app.replace(":Shared true", ""))


def circles():
    test = "{:Link %d :EventSource %d :EventType TestEvent :LinkEffect ( :TestVariable (%d 1 :GInteger 0) ) }"
    variables = ["{:IntegerVar %d :OrigValue 0 }" % number for number in (1, 2, 3)]
    begins = key(9, ":TestVariable (1 1 :GInteger 0)")
    yield service("v6-of-1", "An effect that puts itself to work", variables + [begins, test % (4, 1, 1)])
    yield service("v6-of-2", "A circle of two effects", variables + [begins, test % (4, 1, 2), test % (5, 2, 1)])
    yield service("v6-of-3", "A circle of three, and a shorter one beside it", variables + [
        begins, test % (4, 1, 2), test % (5, 2, 3), test % (6, 3, 1), test % (7, 3, 3),
    ])
    yield service("v6-queue", "A circle through an event that waits", [BOX, "{:Link 4 :EventSource 10 :EventType EngineEvent :LinkEffect ( :SendEvent (0 10 EngineEvent) ) }"])
    loop = '{:Scene ("~/%s" 0) :Items ( {:Link 1 :EventSource 0 :EventType IsRunning :LinkEffect ( :TransitionTo (("~/%s" 0)) ) } ) }'
    yield service("v6-scenes", "A circle of scenes that lead to one another at once", [], t=loop % ("t", "u"), u=loop % ("u", "t"), start=':OnStartUp ( :TransitionTo (("~/t" 0)) )')
    yield service("no-circle-through-a-key", "No circle: a key is in between", [key(4, ':TransitionTo (("~/t" 0))')], t='{:Scene ("~/t" 0) :Items ( {:Link 1 :EventSource 0 :EventType IsRunning :LinkEffect ( :TransitionTo (("~/s" 0)) ) } ) }', start=':OnStartUp ( :TransitionTo (("~/t" 0)) )')
    yield service("v6-apart-by-data", "No circle: the data of the event are others", variables + [begins, "{:Link 4 :EventSource 1 :EventType TestEvent :EventData true :LinkEffect ( :SendEvent (0 1 TestEvent false) ) }"])


def bounds():
    yield service("bounds-small", "The six bounds", [BOX, key(40, ":SetPosition (10 24 16)")])
    yield service("bounds-all", "Bounds of ticks, streams, the engine and files", [
        BOX, "{:Stream 11 }", "{:Stream 12 }", "{:Text 13 :OrigBoxSize 24 16 :OrigContent :ContentRef (\"~/x\") }",
        "{:EntryField 14 :OrigBoxSize 24 16 }", key(40, ":SetTimer (0 1 500) :SetTimer (0 2 500) :SetTimer ((\"~/a\" 0) 1 500)"),
        "{:Link 41 :EventSource 11 :EventType StreamEvent :LinkEffect ( :Stop (11) ) }",
        "{:Link 42 :EventSource (\"~/a\" 0) :EventType EngineEvent :LinkEffect ( :Run (10) :Run (11) ) }",
        "{:Link 43 :EventSource 13 :EventType ContentAvailable :LinkEffect ( :SetData (14 'x') ) }",
    ])
    yield service("bounds-groups", "What groups of objects cost", [
        BOX, BOX.replace("10", "11"), "{:TokenGroup 20 :TokenGroupItems ( (10 (:Run (11))) (11) ) }",
        "{:ListGroup 21 :Positions ( (0 0) (0 0) ) :TokenGroupItems ( (10) (11) ) }",
        key(40, ":Move (20 1) :CallActionSlot (20 1) :ScrollItems (21 1) :Run (20) :Stop (21)"),
    ])
    fires = "{:Link %d :EventSource %d :EventType TestEvent :LinkEffect ( " + " ".join([":TestVariable (%d 1 :GInteger 0)"] * 1) + " ) }"
    chain = ["{:IntegerVar %d :OrigValue 0 }" % number for number in range(1, 5)]
    for number in range(1, 4):
        chain.append(fires % (10 + number, number, number + 1) if number < 3 else "{:Link 13 :EventSource 3 :EventType TestEvent :LinkEffect ( %s ) }" % (":Add (4 1) " * 1000))
    twice = "{:Link 14 :EventSource 2 :EventType TestEvent :LinkEffect ( " + ":TestVariable (3 1 :GInteger 0) " * 1000 + ") }"
    yield service("v8-key", "A key that can lead to more than a million steps", chain + [twice, key(20, ":TestVariable (1 1 :GInteger 0)")])
    yield service("bounds-large", "Many steps, and not too many", chain + [key(20, ":TestVariable (1 1 :GInteger 0)")])


def cases():
    for family in (wrong_actions, flows, circles, bounds):
        yield from family()
