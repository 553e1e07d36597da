#!/usr/bin/env python3
"""Times changes of scene, of which most cover little of the screen: see README.md beside this file.

    measure.py ./PROGRAM [./OTHER ..] [FAMILY ..]

What has a slash in it is a program.
"""
import os
import resource
import subprocess
import sys
import tempfile

KEYS = 200
SIZES = [125, 250, 500]
WHOLE = ":Shared true :OrigBoxSize 720 576 :OrigPosition 0 0"


def box(number, x, y, width, height):
    place = f":OrigBoxSize {width} {height} :OrigPosition {x} {y}"
    return f"{{:Rectangle {number} {place} :OrigLineWidth 0 :OrigRefFillColour '=FF=00=00=00' }}"


def application(visibles):
    first = '{:Link 1000 :EventSource 0 :EventType IsRunning :LinkEffect ( :TransitionTo (("~/s0" 0)) ) }'
    items = "\n".join([*visibles, first])
    return f'{{:Application ("~/a" 0) :Items (\n{items}) }}'


def scene(number, visibles):
    effect = f':TransitionTo (("~/s{1 - number}" 0))'
    key = f"{{:Link 1 :EventSource 0 :EventType UserInput :EventData 100 :LinkEffect ( {effect} ) }}"
    items = "\n".join([*visibles, key])
    return f'{{:Scene ("~/s{number}" 0) :InputEventReg 3 :Items (\n{items}) }}'


def service(visibles, of_scene):
    """An application with these visibles, and two scenes with theirs."""
    return {"a": application(visibles), "s0": scene(0, of_scene(0)), "s1": scene(1, of_scene(1))}


def one_cell(number):
    return [box(10, 12 * number, 16, 12, 16)]


def many_boxes(size):
    return lambda number: [box(n + 10, 12 * ((7 * n + number) % 56), 16 * (n % 34), 48, 32) for n in range(size)]


def all_shown():
    return "run\nshow\n" + "key red\nrun\nshow\n" * KEYS


def last_shown():
    return "run\nshow\n" + "key red\nrun\n" * KEYS + "show\n"


def outlined(size):
    """Boxes with an edge and no inside, which are asked for each cell; each key shows."""
    boxes = [f"{{:Rectangle {n} {WHOLE} :OrigLineWidth 1 }}" for n in range(1, size + 1)]
    return service(boxes, one_cell), all_shown()


def written(size):
    """Texts of 600 octets, without a background; each key shows."""
    content = "a word " * 85
    texts = [f"{{:Text {n} {WHOLE} :OrigContent '{content}' :TextWrapping true }}" for n in range(1, size + 1)]
    return service(texts, one_cell), all_shown()


def opaque(size):
    """Boxes with an inside, the topmost of which hides the others; each key shows."""
    boxes = [f"{{:Rectangle {n} {WHOLE} :OrigLineWidth 0 :OrigRefFillColour '=00=00=FF=00' }}" for n in range(1, size + 1)]
    return service(boxes, one_cell), all_shown()


def unseen(size):
    """As outlined, and only the last key shows."""
    return outlined(size)[0], last_shown()


def full(size):
    """No visible of the application, and boxes of the scenes all over the screen; each key shows."""
    return service([], many_boxes(size)), all_shown()


FAMILIES = [outlined, written, opaque, unseen, full]


def play(program, folder, keys):
    """Returns the processor seconds of the best of three plays, and what is printed."""
    words = [program, "play", folder, "--script", keys, "--lenient"]
    best, said = None, None
    for _ in range(3):
        before = resource.getrusage(resource.RUSAGE_CHILDREN)
        said = subprocess.run(words, capture_output=True, check=False).stdout
        after = resource.getrusage(resource.RUSAGE_CHILDREN)
        took = after.ru_utime + after.ru_stime - before.ru_utime - before.ru_stime
        best = took if best is None else min(best, took)
    return best, said


def measured(family, size, programs):
    files, script = family(size)
    with tempfile.TemporaryDirectory() as top:
        folder, keys = os.path.join(top, "service"), os.path.join(top, "script")
        os.mkdir(folder)
        for name, text in files.items():
            with open(os.path.join(folder, name), "w") as file:
                file.write(text)
        with open(keys, "w") as file:
            file.write(script)
        return [play(program, folder, keys) for program in programs]


def main():
    programs = [os.path.abspath(word) for word in sys.argv[1:] if os.sep in word]
    names = [word for word in sys.argv[1:] if os.sep not in word]
    if not programs:
        print(__doc__)
        return 2
    differing = 0
    for family in FAMILIES:
        if names and family.__name__ not in names:
            continue
        for size in SIZES:
            found = measured(family, size, programs)
            times = "  ".join(f"{1000 * took:9.1f} ms" for took, _ in found)
            is_same = len({said for _, said in found}) == 1
            differing += not is_same
            print(f"{family.__name__:10} {size:5}  {times}{'' if is_same else '  another report'}", flush=True)
    return 1 if differing else 0


if __name__ == "__main__":
    sys.exit(main())
