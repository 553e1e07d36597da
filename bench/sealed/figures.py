"""What the first frame costs of a service of many scenes: with the verdict, without it, and by a seal with the first scene alone.

    python3 bench/sealed/figures.py REDPLAY [SCENES [OBJECTS]]

It makes a service of so many scenes with so many objects each (50 and 80), of which all but the first come late, seals it, and tells
of each play how many instructions it takes (callgrind), its memory at its height, and how many octets are read. It is no part of the
gate, and wants valgrind.
"""

import pathlib
import re
import subprocess
import sys
import tempfile

KEYS = [*range(1, 17), 100, 101, 102, 103]


def place(turn):
    return f":OrigBoxSize 96 32 :OrigPosition {turn % 6 * 108} {turn // 6 * 48}"


def link(number, key, effect):
    return f"{{:Link {number} :EventSource 0 :EventType UserInput :EventData {key} :LinkEffect ( {effect} ) }}"


def effect(turn, variable, target):
    """What a key does: it leads on, changes a text and a box, or tests and sets a timer."""
    return [
        f':SetVariable ({variable} :GInteger {turn}) :TransitionTo (("~/{target}" 0))',
        f":Add ({variable} 1) :SetData ({23 + turn % 22} 'red {turn}') :BringToFront ({1 + turn % 44}) :SetFillColour ({1 + turn % 22} '=80=00=00=00')",
        f":TestVariable ({variable} 1 :GInteger {turn}) :SetTimer (0 {turn} 500) :SetPosition ({1 + turn % 44} 12 16)",
    ][turn % 3]


def scene(index, objects, names):
    items = [f"{{:Rectangle {1 + t} {place(t)} :OrigLineWidth 0 :OrigRefFillColour '=00=00={t * 11 % 256:02X}=00' }}" for t in range(22)]
    items += [f"{{:Text {23 + t} {place(t)} :OrigContent 'Page {index} entry {t} of the list' :TextWrapping true }}" for t in range(22)]
    items += [f"{{:IntegerVar {45 + t} :OrigValue {t} }}" for t in range(6)]
    for turn in range(objects - 50):
        number, variable = 51 + turn, 45 + turn % 6
        if turn < len(KEYS):
            items.append(link(number, KEYS[turn], effect(turn, variable, names[(index + turn * 7 + 1) % len(names)])))
        else:
            done = f":SetData ({23 + turn % 22} 'done') :Run ({1 + turn % 22})"
            items.append(f"{{:Link {number} :EventSource {variable} :EventType TestEvent :EventData true :LinkEffect ( {done} ) }}")
    inner = "\n  ".join(items)
    return f'{{:Scene ("~/{names[index]}" 0)\n :InputEventReg 3 :SceneCS 720 576\n :Items (\n  {inner}\n )\n}}\n'


def make(top, scenes, objects):
    """The folder `whole` has all files, `here` those that are there from the start."""
    names = [f"s{index}" for index in range(scenes)]
    files = {name: scene(index, objects, names) for index, name in enumerate(names)}
    files["a"] = '{:Application ("~/a" 0) :OnStartUp ( :TransitionTo (("~/s0" 0)) ) }\n'
    for folder, kept in (("whole", files), ("here", {name: files[name] for name in ("a", "s0")})):
        (top / folder).mkdir()
        for name, text in kept.items():
            (top / folder / name).write_text(text)
    (top / "late").write_text("".join(name + "\n" for name in names[1:]))
    (top / "script").write_text("run\nshow\n")


def instructions(command, top):
    told = subprocess.run(["valgrind", "--tool=callgrind", f"--callgrind-out-file={top}/cost", *command], capture_output=True, text=True, check=True)
    return int(re.search(r"Collected : (\d+)", told.stderr)[1])


def memory(command, top):
    """The most bytes that are held on the heap at once. A resident set would count that of the caller, too."""
    subprocess.run(["valgrind", "--tool=massif", f"--massif-out-file={top}/held", *command], capture_output=True, check=True)
    return max(int(held) for held in re.findall(r"mem_heap_B=(\d+)", (top / "held").read_text()))


def octets(*paths):
    files = [file for path in paths for file in (path.iterdir() if path.is_dir() else [path])]
    return sum(file.stat().st_size for file in files)


def main(redplay, scenes="50", objects="80"):
    with tempfile.TemporaryDirectory() as folder:
        top = pathlib.Path(folder)
        make(top, int(scenes), int(objects))
        whole, here, seal = top / "whole", top / "here", top / "seal"
        late = ["--late", str(top / "late")]
        seal.write_bytes(subprocess.run([redplay, "seal", str(whole), *late], capture_output=True, check=True).stdout)
        script = ["--script", str(top / "script")]
        plays = {
            "play": ([str(whole), *late], octets(whole)),
            "play --lenient": ([str(whole), *late, "--lenient"], octets(whole)),
            "play --sealed": ([str(here), "--sealed", str(seal)], octets(here, seal)),
        }
        for name, (words, read) in plays.items():
            command = [redplay, "play", *words, *script]
            print(f"{name}: {instructions(command, top) / 1e6:.1f} M instructions, {memory(command, top) / 1e6:.2f} MB, {read} octets")


if __name__ == "__main__":
    main(*sys.argv[1:])
