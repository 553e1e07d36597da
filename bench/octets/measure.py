#!/usr/bin/env python3
"""Times a program that reads services in the binary notation: see README.md beside this file."""
import os
import subprocess
import sys
import tempfile
import time

LIMIT = 1048576


def length(n):
    if n < 128:
        return bytes([n])
    digits = n.to_bytes((n.bit_length() + 7) // 8, "big")
    return bytes([128 + len(digits)]) + digits


def element(tag, contents):
    return tag + length(len(contents)) + contents


def own(number, *parts):
    """A constructed context element."""
    if number < 31:
        tag = bytes([0xA0 + number])
    else:
        digits = [number % 128]
        rest = number // 128
        while rest:
            digits.insert(0, 128 + rest % 128)
            rest //= 128
        tag = bytes([0xBF] + digits)
    return element(tag, b"".join(parts))


def sequence(*parts):
    return element(b"\x30", b"".join(parts))


def integer(x):
    size = 1
    while not -(1 << (8 * size - 1)) <= x < (1 << (8 * size - 1)):
        size += 1
    return element(b"\x02", x.to_bytes(size, "big", signed=True))


def octets(data):
    return element(b"\x04", data)


def group(tag, name, *fields):
    return own(tag, sequence(octets(name), integer(0)), *fields)


def rectangle(number):
    return own(8, integer(number), own(13, integer(24), integer(32)), own(14, integer(number % 720), integer(16)),
               own(15, integer(0)), own(17, octets(b"\xff\x00\x00\x00")))


def link(number, actions):
    moves = [own(126, integer(1), integer(12 * (k % 60)), integer(16)) for k in range(actions)]
    return own(2, integer(number), own(8, integer(0)), own(9, integer(6)), own(10, integer(100)), own(11, sequence(*moves)))


def scene(items):
    return group(1, b"~/s", own(3, sequence(*items)), own(4, integer(3)))


def filled(make):
    """A scene of as many items as a file and a list may have."""
    items = []
    size = 64
    while len(items) < 4096:
        item = make(len(items) + 1)
        if size + len(item) > LIMIT:
            break
        items.append(item)
        size += len(item)
    return scene(items)


def best(words, folder):
    times = []
    status = None
    for _ in range(5):
        start = time.perf_counter()
        status = subprocess.run(words + [folder], stdout=subprocess.DEVNULL).returncode
        times.append(time.perf_counter() - start)
    return min(times), status


def main():
    words = sys.argv[1:]
    if not words:
        print(__doc__)
        return 2
    scenes = {
        "many items": filled(rectangle),
        "long effects": filled(lambda n: rectangle(1) if n == 1 else link(n, 1500)),
    }
    for name, data in scenes.items():
        with tempfile.TemporaryDirectory() as folder:
            with open(os.path.join(folder, "a"), "wb") as out:
                out.write(group(0, b"~/a", own(1, sequence(own(112, sequence(octets(b"~/s"), integer(0)))))))
            with open(os.path.join(folder, "s"), "wb") as out:
                out.write(data)
            seconds, status = best(words, folder)
            print(f"{name}: {len(data)} bytes, status {status}, {seconds * 1000:.1f} ms, {len(data) / seconds / 1e6:.1f} MB/s")
    return 0


if __name__ == "__main__":
    sys.exit(main())
