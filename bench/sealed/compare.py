"""Compares what `redplay seal` prints of services with what this says of the same files by means of its own: the octets of a group
are those of the suite's encoder, digests are Python's, content files are found in the text, and bounds are those of `redplay check`.

    python3 bench/sealed/compare.py REDPLAY FOLDER..

Each folder has `service`, and `late` where scenes come late. It is no part of the gate. Run it anywhere.
"""

import hashlib
import pathlib
import posixpath
import re
import subprocess
import sys

ROOT = pathlib.Path(__file__).resolve().parents[2]
sys.path.insert(0, str(ROOT / "suite"))
from generator.binary import encoded  # noqa: E402

CONTENT = re.compile(rb':G?ContentRef\s*\(\s*"([^"]*)"')
COMMENT = re.compile(rb"//[^\n]*")


def digest(octets):
    return hashlib.sha256(octets).hexdigest()


def is_group(text):
    return COMMENT.sub(b"", text).lstrip().startswith(b"{")


def led_to(group, name):
    """The path to which a name leads that this group writes."""
    if name.startswith("~/"):
        return name[2:]
    return posixpath.normpath(posixpath.join(posixpath.dirname(group), name))


def files_of(folder):
    found = sorted(path for path in folder.rglob("*") if path.is_file())
    return {path.relative_to(folder).as_posix(): path.read_bytes() for path in found}


def wanted(files, late, bounds):
    """The lines of the seal, and the names of the content files in any order."""
    groups = {name: text for name, text in files.items() if is_group(text)}
    lines = ["redplay seal 1", "start a"]
    lines += [f"group {digest(encoded(text))} {'late' if name in late else 'here'} {name}" for name, text in groups.items()]
    named = {led_to(name, found.decode()) for name, text in groups.items() for found in CONTENT.findall(COMMENT.sub(b"", text))}
    ending = [f"bound {line}" for line in bounds] + [f"tags {digest(b'')}", "end"]
    return lines, named, ending


def printed(redplay, word, folder, late):
    chosen = ["--late", str(late)] if late.exists() else []
    return subprocess.run([redplay, word, str(folder / "service"), *chosen], capture_output=True, text=True, check=False)


def is_alike(redplay, folder):
    late = folder / "late"
    check, seal = printed(redplay, "check", folder, late), printed(redplay, "seal", folder, late)
    if check.returncode != 0:
        return (seal.returncode, seal.stdout) == (check.returncode, check.stdout)
    names = late.read_text().split("\n") if late.exists() else []
    front, named, ending = wanted(files_of(folder / "service"), names, check.stdout.splitlines()[1:])
    lines = seal.stdout.splitlines()
    contents = lines[len(front) : len(lines) - len(ending)]
    return (
        seal.returncode == 0
        and lines[: len(front)] == front
        and lines[len(lines) - len(ending) :] == ending
        and len(contents) == len(named)
        and {line.removeprefix("content ") for line in contents} == named
    )


def main(redplay, *folders):
    wrong = [folder for folder in folders if not is_alike(redplay, pathlib.Path(folder))]
    for folder in wrong:
        print(f"another seal: {folder}")
    print(f"{len(folders) - len(wrong)} of {len(folders)} seals are alike")
    return 1 if wrong else 0


if __name__ == "__main__":
    sys.exit(main(*sys.argv[1:]))
