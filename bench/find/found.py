#!/usr/bin/env python3
"""Of services that the verifier refuses and that go wrong in a random play: for how many `redtry find` finds a script, and whether
`redplay play --lenient` meets a fault by it.

    found.py REDPLAY REDTRY GEN FIRST LAST [CHAOS]     random services of a generator: GEN SEED FOLDER --chaos CHAOS
    found.py REDPLAY REDTRY SERVICE..                  these folders

It prints a line on each service for which no script is found, or whose script meets no fault, and counts; it ends with 1 if there
is a script that meets none."""
import os
import shutil
import subprocess
import sys
import tempfile

REFUSED, FAULTED = 1, 3


def status(words):
    return subprocess.run(words, stdout=subprocess.DEVNULL, stderr=subprocess.DEVNULL).returncode


def fault_of(redplay, service, script):
    return status([redplay, "play", service, "--script", script, "--lenient"]) == FAULTED


def found(redplay, redtry, service, folder):
    """Whether a script is found, and whether it meets a fault."""
    script = os.path.join(folder, "found")
    with open(script, "wb") as output:
        is_found = subprocess.run([redtry, "find", service], stdout=output, stderr=subprocess.DEVNULL).returncode == 0
    return is_found, is_found and fault_of(redplay, service, script)


def tell(counts, name, outcome):
    is_found, faults = outcome
    counts["wrong"] += 1
    counts["found"] += is_found
    counts["faults"] += faults
    if not is_found:
        print(f"{name}: none is found")
    elif not faults:
        print(f"{name}: the script that is found meets no fault")


def random_services(redplay, redtry, words, counts):
    generator, first, last = words[0], int(words[1]), int(words[2])
    chaos = words[3] if len(words) > 3 else "0.03"
    for seed in range(first, last + 1):
        folder = tempfile.mkdtemp()
        subprocess.run([generator, str(seed), folder, "--chaos", chaos], check=True)
        service, script = os.path.join(folder, "service"), os.path.join(folder, "script")
        if status([redplay, "check", service]) == REFUSED:
            counts["refused"] += 1
            if fault_of(redplay, service, script):
                tell(counts, f"seed {seed}", found(redplay, redtry, service, folder))
        shutil.rmtree(folder)


def main():
    redplay, redtry, words = sys.argv[1], sys.argv[2], sys.argv[3:]
    counts = {"refused": 0, "wrong": 0, "found": 0, "faults": 0}
    if words and os.path.isfile(words[0]):
        random_services(redplay, redtry, words, counts)
    else:
        for service in words:
            folder = tempfile.mkdtemp()
            tell(counts, service, found(redplay, redtry, service, folder))
            shutil.rmtree(folder)
    print(f"refused {counts['refused']}, wrong in a play {counts['wrong']}, found {counts['found']}, of which {counts['faults']} meet a fault")
    return counts["found"] != counts["faults"]


if __name__ == "__main__":
    sys.exit(main())
