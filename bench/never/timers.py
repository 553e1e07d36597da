#!/usr/bin/env python3
"""timers.py SEED FOLDER: writes a random service of timers, keys and registers into FOLDER/service, for check.py.

An application and two scenes, whose links wait for timers and keys and set timers and registers; few of them are set from
outside, so that about half of the services have links that never hear.
"""
import os
import random
import sys

KEYS = [1, 5, 6, 15, 16, 100, 101, 102]


def action(r, scene):
    return r.choice([
        ":SetTimer (0 %d %d)" % (r.randint(1, 5), r.choice([0, 1, 500, 1000])),
        ":SetTimer (0 %d %d)" % (r.randint(1, 5), r.choice([0, 1, 500, 1000])),
        ":SetTimer (0 %d)" % r.randint(1, 5),
        ":SetData (1 'a')",
        ":Add (2 1)",
    ] + ([":SetInputRegister (0 %s)" % r.choice(["3", "4", "5", ":IndirectRef 2"])] if scene else []))


def link(r, number, scene):
    if scene and r.random() < 0.5:
        waits = ":EventType UserInput" + (" :EventData %d" % r.choice(KEYS) if r.random() < 0.9 else "")
    else:
        waits = ":EventType TimerFired" + (" :EventData %d" % r.randint(1, 5) if r.random() < 0.9 else "")
    acts = " ".join(action(r, scene) for _ in range(r.randint(1, 2)))
    shared = "" if scene else " :Shared true"
    return "{:Link %d%s :EventSource 0 %s :LinkEffect ( %s ) }" % (number, shared, waits, acts)


def group(r, head, leads, scene):
    shared = "" if scene else " :Shared true"
    links = [link(r, 10 + n, scene) for n in range(r.randint(2, 5))]
    if leads:
        links.append("{:Link 30 :EventSource 0 :EventType %s :LinkEffect ( :TransitionTo ((\"~/%s\" 0)) ) }" % (
            r.choice(["IsRunning", "UserInput :EventData 100"]) if scene else "IsRunning", leads))
    started = " :OnStartUp ( :SetTimer (0 %d 500) )" % r.randint(1, 5) if r.random() < 0.5 else ""
    register = " :InputEventReg %d" % r.choice([3, 4, 5]) if scene else ""
    return "{:%s%s%s\n :Items ( {:Text 1%s :OrigBoxSize 240 16 } {:IntegerVar 2 :OrigValue %d }\n  %s ) }\n" % (
        head, register, started, shared, r.choice([3, 4, 5]), "\n  ".join(links))


def main():
    r = random.Random(int(sys.argv[1]))
    service = os.path.join(sys.argv[2], "service")
    os.makedirs(service, exist_ok=True)
    for name, text in [
        ("a", group(r, 'Application ("~/a" 0)', "s", False)),
        ("s", group(r, 'Scene ("~/s" 0)', "t", True)),
        ("t", group(r, 'Scene ("~/t" 0)', r.choice(["s", None]), True)),
    ]:
        with open(os.path.join(service, name), "w", encoding="latin1") as file:
            file.write(text)


if __name__ == "__main__":
    main()
