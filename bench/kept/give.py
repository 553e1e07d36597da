"""Gives each crate of this checkout a built library of the same text, so that `rt check` begins above it.

    python3 bench/kept/give.py            what `rt ci` kept on this machine, where the kit keeps anything
    python3 bench/kept/give.py GATE..     what `rt ci` has built so far in these other checkouts, also while it runs

Run at the top of the repository. It says of each crate whether it was given; what stands on a crate that was not is left
to `rt check`. It calls the kit's own functions, and may have to be changed with another kit. The gate looks at none of it.
"""
import functools
import importlib.machinery
import importlib.util
import json
import os
import shutil
import subprocess
import sys

KIT = os.path.dirname(os.path.realpath(shutil.which("rt")))


def load_rt():
    sys.path.insert(0, KIT)
    loader = importlib.machinery.SourceFileLoader("rt", f"{KIT}/rt")
    module = importlib.util.module_from_spec(importlib.util.spec_from_loader("rt", loader))
    loader.exec_module(module)
    return module


def library_of(root, name):
    return f"{root}/crates/{name}/out/rlib"


def stamps_of(root):
    """Returns the sum of each library's text in the checkout. The kit's functions see one checkout a process."""
    said = subprocess.run([sys.executable, os.path.abspath(__file__), "--stamps"], cwd=root, capture_output=True, text=True, check=True)
    return json.loads(said.stdout)


def print_stamps():
    rt = load_rt()
    root = os.getcwd()
    rt.Crate.allowed = rt.handles_of(root)
    # a crate's sum asks for those of the crates below it, each time anew
    rt.rtlib.Crate.stamp = functools.cache(rt.rtlib.Crate.stamp)
    print(json.dumps({crate.name: crate.stamp() for crate in rt.rtlib.crates_below(root) if not crate.is_program}))


def is_of_text(gate, name, stamp):
    """Returns whether the gate's library was built of its text as it stands now; where `rt lib` built it, a file tells."""
    told = f"{library_of(gate, name)}/stamp"
    if not os.path.exists(told):
        return True
    with open(told) as written:
        return written.read() == stamp


def taken(root, gate, name, stamp):
    """Returns whether the library that the gate built stands in the checkout now, as links to its files."""
    built, library = f"{library_of(gate, name)}/{name}.rlib", library_of(root, name)
    if not os.path.isdir(built) or not is_of_text(gate, name, stamp):
        return False
    shutil.rmtree(library, ignore_errors=True)
    shutil.copytree(built, f"{library}/{name}.rlib", copy_function=os.link)
    with open(f"{library}/stamp", "w") as written:
        written.write(stamp)
    return True


def give_of_gates(root, gates):
    mine = stamps_of(root)
    theirs = {gate: stamps_of(gate) for gate in gates}
    for name, stamp in mine.items():
        same = [gate for gate in gates if theirs[gate].get(name) == stamp]
        was_given = any(taken(root, gate, name, stamp) for gate in same)
        print(f"{name}: {'given' if was_given else 'none'}")


def kept_given(kept, crate):
    """Returns whether the crate has a library now that was kept of its text."""
    key = kept.key(crate)
    if not os.path.isdir(kept.place(crate, False, key)):
        return False
    library = f"{crate.folder}/out/rlib"
    shutil.rmtree(library, ignore_errors=True)
    if not kept.give(crate, False, key):
        return False
    kept.is_built(crate)
    if os.path.isdir(library):
        # an archive for C, on which no crate stands, has none
        with open(f"{library}/stamp", "w") as stamp:
            stamp.write(crate.stamp())
    return True


def give_what_is_kept(root):
    rt = load_rt()
    if not hasattr(rt, "Kept"):
        sys.exit("this kit keeps nothing between runs of rt ci: name a checkout in which it ran or runs")
    rt.rtlib.guarded()
    rt.Crate.allowed = rt.handles_of(root)
    # as under `rt ci`: the crates above a library load its statements
    rt.Crate.cuts_libraries = True
    crates = rt.crates_of(root)
    kept, lost = rt.Kept(crates), set()
    for crate in crates:
        above_lost = any(below.name in lost for below in crate.below())
        if crate.is_program or above_lost or not kept_given(kept, crate):
            lost.add(crate.name)
            print(f"{crate.name}: none")
        else:
            print(f"{crate.name}: given")


def main():
    root, words = os.getcwd(), sys.argv[1:]
    if words == ["--stamps"]:
        print_stamps()
    elif words:
        give_of_gates(root, [os.path.abspath(word) for word in words])
    else:
        give_what_is_kept(root)


if __name__ == "__main__":
    main()
