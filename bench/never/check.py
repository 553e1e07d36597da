#!/usr/bin/env python3
"""check.py GENERATOR REDPLAY REDLOOK [COUNT [FIRST]]: plays what `redlook lint --all` says never happens.

GENERATOR SEED FOLDER writes FOLDER/service, a random service. Of COUNT accepted ones (300), from the seed FIRST (1) on, each
finding is marked in a copy of the service: an effect that is told dead gets an action in front that does nothing
(UnlockScreen where nothing is locked any more), a group that nothing leads to gets one in its start-up, and of an object that
is told idle a new link of its group waits until it runs. A mark that is done is one step more. So a twin of the copy, in which
the links that wait have no action, and the dead effects no mark, has to be played with just the same report. Twenty random
scripts are played on both. Prints a line for each report that differs, and at the end what was played; the exit status is 1
if a mark was done.
"""
import os
import random
import re
import shutil
import subprocess
import sys
import tempfile

KEYS = ["up", "down", "left", "right", "select", "cancel", "red", "green", "yellow", "blue", "text"] + [str(d) for d in range(10)]
LINE = re.compile(r"^(?P<group>[^:]+):\d+:\d+: never: (?P<class>\w+) (?P<number>\d+) (?P<what>.*)$")
MARK = ' :UnlockScreen (("~/%s" 0))'
WAITS = ' {:Link %d :EventSource %d :EventType IsRunning :LinkEffect (%s ) }'
SCRIPTS = 20


def run(*words):
    return subprocess.run(words, capture_output=True, text=True)


def script(seed):
    r = random.Random(seed)
    lines = ["run"]
    for _ in range(r.randint(5, 40)):
        lines.append(r.choice([
            "key " + r.choice(KEYS), "key " + r.choice(KEYS), "tick %d" % r.choice([0, 1, 500, 1000, 60000]),
            "stream %d" % r.randint(0, 6), "engine %d" % r.randint(0, 6), "file x 41", "file z 42", "run", "step 3", "show"]))
    return "\n".join(lines + ["run", "show"]) + "\n"


def in_items(text, more):
    """the group with more items, in front of those that it has: what runs first hears the others"""
    found = re.search(r":Items\s*\(", text)
    if found:
        return text[:found.end()] + more + text[found.end():]
    return text.rstrip()[:-1] + " :Items (" + more + " ) }\n"


def with_mark(text, number, mark):
    """the group with a mark in front of the effect of a link"""
    found = re.search(r"\{:Link %d\b(.*?):LinkEffect\s*\(" % number, text, re.S)
    return text[:found.end()] + mark + text[found.end():]


def with_start(text, mark):
    found = re.search(r":OnStartUp\s*\(", text)
    if found:
        return text[:found.end()] + mark + text[found.end():]
    head = re.search(r"\{:(Application|Scene)\s*\(\s*\"[^\"]*\"\s*\d+\s*\)", text)
    return text[:head.end()] + " :OnStartUp (" + mark + " )" + text[head.end():]


def marked(service, found, app, is_twin):
    """marks the findings in the files of a service; the twin has the same links that wait, and no marks"""
    mark = "" if is_twin else MARK % app
    fresh = {}
    for group, kind, number, what in found:
        path = os.path.join(service, group)
        text = open(path, encoding="latin1").read()
        number = int(number)
        if what.startswith("is entered by nothing"):
            text = with_start(text, mark)
        elif kind == "Link":
            text = with_mark(text, number, mark)
        else:
            fresh[group] = fresh.get(group, 5000) + 1
            text = in_items(text, WAITS % (fresh[group], number, mark))
        open(path, "w", encoding="latin1").write(text)


def play(program, folder, text):
    path = folder + ".script"
    open(path, "w").write(text)
    return run(program, "play", folder, "--script", path).stdout


def main():
    generator, redplay, redlook = sys.argv[1:4]
    wanted = int(sys.argv[4]) if len(sys.argv) > 4 else 300
    seed = int(sys.argv[5]) if len(sys.argv) > 5 else 1
    services = marks = plays = apart = passed = 0
    top = tempfile.mkdtemp()
    while services < wanted and seed < 100 * wanted:
        folder = os.path.join(top, str(seed))
        run(generator, str(seed), folder)
        service = os.path.join(folder, "service")
        told = run(redlook, "lint", service, "--all", "--color", "never")
        found = [LINE.match(line).group("group", "class", "number", "what") for line in told.stdout.splitlines() if " never: " in line]
        accepted = run(redplay, "check", service).stdout.startswith("accepted")
        seed += 1
        if accepted and found:
            with_marks, twin = folder + ".marked", folder + ".twin"
            shutil.copytree(service, with_marks)
            shutil.copytree(service, twin)
            marked(with_marks, found, "a", False)
            marked(twin, found, "a", True)
            both = [run(redplay, "check", x).stdout.startswith("accepted") for x in (with_marks, twin)]
            if not all(both):
                passed += 1
            else:
                services, marks = services + 1, marks + len(found)
                for n in range(SCRIPTS):
                    text = script(seed * 1000 + n)
                    plays += 1
                    if play(redplay, with_marks, text) != play(redplay, twin, text):
                        apart += 1
                        print(f"seed {seed - 1}, script {n}: a mark was done", flush=True)
            shutil.rmtree(with_marks)
            shutil.rmtree(twin)
        shutil.rmtree(folder, ignore_errors=True)
        for name in os.listdir(top):
            if name.endswith(".script"):
                os.remove(os.path.join(top, name))
    shutil.rmtree(top)
    print(f"{services} accepted services with {marks} findings, {plays} plays, {apart} in which a mark was done; {passed} more whose copies are not accepted")
    return 1 if apart else 0


if __name__ == "__main__":
    sys.exit(main())
