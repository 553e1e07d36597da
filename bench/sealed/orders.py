"""Brings the scenes of a service in many orders, some of them or all, and compares the play by the seal with that of the whole service.

    python3 bench/sealed/orders.py REDPLAY [ORDERS]

The service has ten scenes, of which all but the first come late. In each of so many orders (20), drawn at random, every prefix of the
late files is brought, the first of them twice and among presses of keys that lead from scene to scene. It is no part of the gate.
"""

import pathlib
import random
import subprocess
import sys
import tempfile

from figures import KEYS, make

NAMES = {100: "red", 101: "green", 102: "yellow", 103: "blue", 15: "select", 16: "cancel", 1: "up", 2: "down", 3: "left", 4: "right"}


def script(order, octets, drawn):
    """Behind each scene that comes some keys, steps and a picture."""
    lines = ["run", "show"]
    for name in order:
        lines.append(f"scene {name} {octets[name]}")
        for _ in range(3):
            key = drawn.choice(KEYS)
            lines += [f"key {NAMES.get(key, key - 5)}", "run", "show"]
        if name == order[0]:  # it is not late any more
            lines.append(f"scene {name} {octets[name]}")
    return "\n".join(lines + ["tick 500", "run", "show"]) + "\n"


def printed(*words):
    told = subprocess.run([*map(str, words)], capture_output=True, check=False)
    return told.returncode, told.stdout


def main(redplay, orders="20"):
    drawn, wrong, plays = random.Random(79), 0, 0
    with tempfile.TemporaryDirectory() as folder:
        top = pathlib.Path(folder)
        make(top, 10, 80)
        whole, here, seal, file = top / "whole", top / "here", top / "seal", top / "brought"
        late = ["--late", top / "late"]
        seal.write_bytes(printed(redplay, "seal", whole, *late)[1])
        names = (top / "late").read_text().split()
        octets = {name: (whole / name).read_bytes().hex() for name in names}
        for _ in range(int(orders)):
            order = drawn.sample(names, len(names))
            for count in range(len(order) + 1):
                file.write_text(script(order[:count], octets, drawn))
                by_all = printed(redplay, "play", whole, *late, "--script", file)
                wrong += by_all != printed(redplay, "play", here, "--sealed", seal, "--script", file) or by_all[0] != 0
                plays += 1
    print(f"{plays - wrong} of {plays} reports are alike")
    return 1 if wrong else 0


if __name__ == "__main__":
    sys.exit(main(*sys.argv[1:]))
