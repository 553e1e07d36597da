#!/usr/bin/env python3
"""Measures the adapter of captured pictures on simulated captures: `redlook image` draws wanted frames, they are spoilt, and read again.

    bench/suite/captures.py REDLOOK [--every N]

Told is, for each way of spoiling, of how many cases all frames are read as they are wanted, and how long a frame takes.
"""
import os
import random
import subprocess
import sys
import tempfile
import time

sys.dont_write_bytecode = True
SUITE = os.path.join(os.path.dirname(os.path.dirname(os.path.dirname(os.path.abspath(__file__)))), "suite")
sys.path.insert(0, SUITE)
from capture.png import Picture, read, written  # noqa: E402
from generator.families import families  # noqa: E402
from generator.folder import write_case  # noqa: E402
from generator.wanted import Wanted, read_family  # noqa: E402
from runner.playing import CaseFolder, judged, played  # noqa: E402

WAYS = {"as drawn": {}, "shifted by 1 and 1": {"shift": (1, 1)}, "shifted by -1 and 0": {"shift": (-1, 0)}, "4:2:0": {"halved": True}, "noise of 8": {"noise": 8}, "noise of 20": {"noise": 20},
        "4:2:0, shifted by 1 and 1": {"halved": True, "shift": (1, 1)}, "4:2:0, noise of 8, shifted by 1 and -1": {"halved": True, "noise": 8, "shift": (1, -1)}, "darker and paler": {"pale": True},
        "4:2:0, noise of 20, shifted by 1 and 1": {"halved": True, "noise": 20, "shift": (1, 1)}}
LOT = random.Random(5)
NOISE = {deviation: [int(LOT.gauss(0, deviation)) for _ in range(65537)] for deviation in (8, 20)}


def shifted(picture, by):
    x, y = by
    blank = bytes(3 * picture.width)
    rows = [picture.rows[at - y] if 0 <= at - y < picture.height else blank for at in range(picture.height)]
    if x >= 0:
        rows = [bytes(3 * x) + bytes(row[:len(row) - 3 * x]) for row in rows]
    else:
        rows = [bytes(row[-3 * x:]) + bytes(-3 * x) for row in rows]
    return Picture(picture.width, picture.height, rows)


def halved(picture):
    """4:2:0: of each four points the brightness stays, and the two differences of colour become their mean."""
    rows = [bytearray(row) for row in picture.rows]
    for top in range(0, picture.height - 1, 2):
        one, other = rows[top], rows[top + 1]
        for left in range(0, 3 * picture.width - 3, 6):
            four = [one[left:left + 3], one[left + 3:left + 6], other[left:left + 3], other[left + 3:left + 6]]
            if four[0] == four[1] == four[2] == four[3]:
                continue
            lumas = [0.299 * red + 0.587 * green + 0.114 * blue for red, green, blue in four]
            blue_off = sum(point[2] - luma for point, luma in zip(four, lumas)) / 4
            red_off = sum(point[0] - luma for point, luma in zip(four, lumas)) / 4
            green_off = -(0.299 * red_off + 0.114 * blue_off) / 0.587
            made = [bytes(min(255, max(0, round(luma + off))) for off in (red_off, green_off, blue_off)) for luma in lumas]
            one[left:left + 3], one[left + 3:left + 6], other[left:left + 3], other[left + 3:left + 6] = made
    return Picture(picture.width, picture.height, rows)


def noisy(picture, deviation):
    lot = NOISE[deviation]
    rows = []
    for row in picture.rows:
        begin = LOT.randrange(60000)
        rows.append(bytes(min(255, max(0, octet + lot[(begin + at) % 65537])) for at, octet in enumerate(row)))
    return Picture(picture.width, picture.height, rows)


def spoilt(picture, shift=None, halved_colour=False, noise=None, pale=False):
    if pale:
        table = bytes(24 + octet * 180 // 255 for octet in range(256))
        picture = Picture(picture.width, picture.height, [bytes(row).translate(table) for row in picture.rows])
    if shift:
        picture = shifted(picture, shift)
    if halved_colour:
        picture = halved(picture)
    return noisy(picture, noise) if noise else picture


def drawn(redlook, folder, out):
    """The wanted frames of a case as redlook draws them."""
    with open(os.path.join(folder, "wanted"), encoding="utf-8") as file:
        lines = file.read().split("\n")
    frames, made = [], []
    for line in lines:
        if line.startswith("frame "):
            frames.append(["frame 1"])
        elif line:
            frames[-1].append(line)
    for frame in frames:
        report = os.path.join(out, "one.report")
        with open(report, "w", encoding="utf-8") as file:
            file.write("\n".join(frame + ["total 0"]) + "\n")
        made.append(read(subprocess.run([redlook, "image", report, "--frame", "1"], capture_output=True, check=True).stdout))
    return made


def measure(redlook, folders, way, top):
    """The share of the cases whose frames are all read as they are wanted."""
    captures, good, frames, seconds = os.path.join(top, "captures"), 0, 0, 0.0
    adapter = [sys.executable, os.path.join(SUITE, "adapters", "capture"), captures]
    options = {"halved_colour" if name == "halved" else name: value for name, value in way.items()}
    wrong = []
    for folder in folders:
        case = CaseFolder(folder)
        here = os.path.join(captures, *case.id.split("/"))
        os.makedirs(here, exist_ok=True)
        for number, picture in enumerate(drawn(redlook, folder, top), 1):
            with open(os.path.join(here, "%d.png" % number), "wb") as file:
                file.write(written(spoilt(picture, **options)))
            frames += 1
        moment = time.time()
        outcome = judged(case, played(adapter, folder, "text"))
        seconds += time.time() - moment
        good += outcome.why is None
        wrong += [] if outcome.why is None else ["%s: %s" % (case.id, outcome.why)]
    return good, frames, seconds, wrong


def main():
    words = sys.argv[1:]
    if not words:
        print(__doc__)
        return 2
    every = int(words[words.index("--every") + 1]) if "--every" in words else 20
    with tempfile.TemporaryDirectory() as top:
        cases = [case for family in families() for case in family.cases if case.level() not in ("tools", "program")]
        folders = [write_case(case, os.path.join(top, "cases"), read_family(case.family.name).get(case.id, Wanted())) for case in cases[::every]]
        for name, way in WAYS.items():
            good, frames, seconds, wrong = measure(words[0], folders, way, top)
            print("%-40s %3d of %3d cases, %d frames, %.1f s a frame" % (name, good, len(folders), frames, seconds / max(1, frames)), flush=True)
            for line in wrong[:3]:
                print("    " + line)
    return 0


if __name__ == "__main__":
    sys.exit(main())
