"""Each moment of a case may be missed: the same frames are shown where inputs come earlier or later."""
import os

from runner.commands import of_redplay, shown
from runner.frames import parsed
from runner.playing import judged


def shifted(lines, at, by):
    """The script with one tick longer and the next one shorter, so that what lies between comes later; None where it cannot be."""
    ticks = [number for number, line in enumerate(lines) if line.startswith("tick ")]
    made = list(lines)
    for number, change in ((at, by), (at + 1, -by)):
        if number < len(ticks):
            long = int(lines[ticks[number]].split()[1]) + change
            if not 1 <= long <= 60000:
                return None
            made[ticks[number]] = "tick %d" % long
    return made


def in_parts(lines, part=40):
    """The script with a clock that ticks every so many milliseconds, as a receiver's does."""
    made = []
    for line in lines:
        word, _, long = line.partition(" ")
        if word == "tick" and int(long) > part:
            made += ["tick %d" % part, "run"] * (int(long) // part)
            line = "tick %d" % (int(long) % part) if int(long) % part else "run"
        made.append(line)
    return made


def with_time(lines):
    """The script of a case that needs no clock, with the time that goes by on a receiver before each capture."""
    made = []
    for line in lines:
        made += ["tick 40", "run"] * 10 if line == "show" else []
        made.append(line)
    return made


def other_times(case):
    """Scripts whose inputs come at other moments, and which show the same."""
    with open(os.path.join(case.folder, "script"), encoding="utf-8") as file:
        lines = file.read().split("\n")
    if "clock" not in case.facts["needs"]:
        return [with_time(lines)]
    count = sum(line.startswith("tick ") for line in lines)
    ways = [shifted(lines, at, by) for at in range(count) for by in (case.facts["room"], -case.facts["room"])]
    return [made for made in ways if made] + [in_parts(lines)]


def look_at_room(program, cases):
    """Each moment of a case may be missed by 200 milliseconds, and the clock may tick as it likes: the frames are the same."""
    tried = 0
    for case in cases:
        if case.facts["level"] in ("program", "tools"):
            continue
        for made in other_times(case):
            late = os.path.join(case.folder, "late")
            script = os.path.join(case.folder, "script-of-another-moment")
            with open(script, "w", encoding="utf-8") as file:
                file.write("\n".join(made))
            words = of_redplay(os.path.abspath(program), os.path.join(case.folder, "text"), script, late if os.path.exists(late) else None, case.facts)
            outcome = judged(case, parsed(shown(words)[0].decode("utf-8")))
            tried += 1
            if outcome.why is not None:
                print("room: %s: %s" % (case.id, outcome.why))
    print("room: %d plays at other moments: 200 ms early or late, with a clock that ticks every 40 ms, with time between keys" % tried, flush=True)
