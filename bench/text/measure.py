#!/usr/bin/env python3
"""Makes folders of group files of about 1 MB, and times a program that checks them."""
import pathlib
import subprocess
import sys
import tempfile
import time

SIZE = 1_000_000

RECTANGLE = (
    "{{:Rectangle {0} :InitiallyActive true :Shared false :OrigBoxSize 24 32 :OrigPosition {1} 16 "
    ":OrigLineWidth 1 :OrigRefLineColour '=00=00=00=00' :OrigRefFillColour '=FF=00=00=00' }}"
)
LINK = (
    "{{:Link {0} :EventSource 0 :EventType UserInput :EventData {1} "
    ":LinkEffect ( :SetPosition ({2} 24 16) :SetPosition ({2} 0 0) ) }}"
)
COMMENT = "// what stands in a comment is passed over, byte by byte\n"


def group(items):
    """A scene with these items, as bytes."""
    return ('{:Scene ("~/s" 0) :InputEventReg 3 :Items (\n' + "\n".join(items) + "\n) }\n").encode()


def many_items():
    """As many small items as a list may have."""
    return group(RECTANGLE.format(n, n % 600) for n in range(1, 4097))


def long_effects():
    """Links with long effects."""
    effect = " ".join(":SetPosition (10 {} 16)".format(n % 700) for n in range(4096))
    link = "{{:Link {} :EventSource 0 :EventType UserInput :LinkEffect ( {} ) }}"
    return group(link.format(n, effect) for n in range(1, SIZE // len(effect) + 1))


def many_comments():
    """Links, and a comment behind each."""
    return group(LINK.format(n, n, n) + " " + COMMENT * 2 for n in range(1, 4000))


FILES = {"items": many_items, "effects": long_effects, "comments": many_comments}


def main():
    if len(sys.argv) < 2:
        sys.exit("usage: measure.py PROGRAM [ARGUMENT ..]   (the folder is put behind the arguments)")
    for name, make in FILES.items():
        content = make()
        with tempfile.TemporaryDirectory() as folder:
            pathlib.Path(folder, "s").write_bytes(content)
            pathlib.Path(folder, "a").write_bytes(
                b'{:Application ("~/a" 0) :OnStartUp ( :TransitionTo (("~/s" 0)) ) }'
            )
            times = []
            for _ in range(5):
                before = time.perf_counter()
                done = subprocess.run(sys.argv[1:] + [folder], stdout=subprocess.DEVNULL)
                times.append(time.perf_counter() - before)
        size = len(content) / 1_000_000
        print(f"{name}: {size:.2f} MB, status {done.returncode}, {size / min(times):.1f} MB/s")


if __name__ == "__main__":
    main()
