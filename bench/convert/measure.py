#!/usr/bin/env python3
"""Times conversions of group files of about 1 MB: see README.md beside this file.

    measure.py PROGRAM [PLAIN]
"""
import os
import subprocess
import sys
import tempfile
import time

SIZE = 1_000_000
RECTANGLE = (
    "{{:Rectangle {0} :InitiallyActive true :Shared false :OrigBoxSize 24 32 :OrigPosition {1} 16 "
    ":OrigLineWidth 1 :OrigRefLineColour '=00=00=00=00' :OrigRefFillColour '=FF=00=00=00' }}"
)


def scene(items):
    return ('{:Scene ("~/s" 0) :InputEventReg 3 :Items (\n' + "\n".join(items) + "\n) }\n").encode()


def texts():
    effect = " ".join(f":SetPosition (10 {n % 700} 16)" for n in range(4096))
    link = "{{:Link {} :EventSource 0 :EventType UserInput :LinkEffect ( {} ) }}"
    row = "( " + " ".join(str(n % 1000 - 500) for n in range(4096)) + " )"
    table = "{{:TokenGroup {} :MovementTable ( {} ) }}"
    return {
        "many items": scene(RECTANGLE.format(n, n % 600) for n in range(1, 4097)),
        "long effects": scene(link.format(n, effect) for n in range(1, SIZE // len(effect) + 1)),
        "many numbers": scene([table.format(1, " ".join([row] * 40))]),
        "octets": scene(["{:OStringVar 1 :OrigValue '" + "=00" * 330_000 + "' }"]),
    }


def run(words):
    """The best time of five runs, the output, and the status."""
    best = None
    for _ in range(5):
        start = time.perf_counter()
        done = subprocess.run(words, capture_output=True)
        seconds = time.perf_counter() - start
        best = seconds if best is None else min(best, seconds)
    return best, done.stdout, done.returncode


def peak(words):
    """The most memory that the program held, in MB, as GNU time tells it."""
    done = subprocess.run(["time", "-f", "%M"] + words, stdout=subprocess.DEVNULL, stderr=subprocess.PIPE)
    return int(done.stderr.split()[-1]) / 1024


def main():
    if len(sys.argv) < 2:
        print(__doc__)
        return 2
    program, plain = sys.argv[1], sys.argv[2] if len(sys.argv) > 2 else None
    for name, text in texts().items():
        with tempfile.TemporaryDirectory() as folder:
            written, octets = os.path.join(folder, "text"), os.path.join(folder, "octets")
            open(written, "wb").write(text)
            open(octets, "wb").write(run([program, "to-der", written])[1])
            print(f"{name}: text {len(text)} bytes, octets {os.path.getsize(octets)} bytes")
            cases = [("to-der", written), ("to-text", written), ("to-der", octets), ("to-text", octets)]
            for word, path in cases:
                seconds, out, status = run([program, word, path])
                kind = "text" if path == written else "octets"
                line = f"  {kind} {word}: status {status}, {len(out)} bytes, {seconds * 1000:.0f} ms, peak {peak([program, word, path]):.1f} MB"
                if plain:
                    other, _, _ = run([plain, kind, path])
                    line += f"; plain tree of the {kind}: {other * 1000:.0f} ms, peak {peak([plain, kind, path]):.1f} MB"
                print(line)
    return 0


if __name__ == "__main__":
    sys.exit(main())
