"""Plays services by their seals, without the files of late scenes, and compares what is printed with the play of the whole service.

    python3 bench/sealed/plays.py REDPLAY FOLDER..

Each folder has `service`, `script`, and `late` where scenes come late. A service that is refused has no seal, and is counted. In the
script of a play by a seal the octets of the file stand behind the name of a scene. It is no part of the gate. Run it anywhere.
"""

import pathlib
import shutil
import subprocess
import sys
import tempfile


def printed(redplay, *words):
    return subprocess.run([redplay, *map(str, words)], capture_output=True, check=False)


def octets_named(line, service):
    """The line of a script, with the octets of the scene's file where it names one alone."""
    words = line.split(" ")
    if len(words) != 2 or words[0] != "scene" or not words[1]:
        return line
    file = service / words[1]
    return f"{line} {file.read_bytes().hex()}" if file.is_file() else line


def by_seal(redplay, folder, seal, late):
    """What is printed of the play by this seal."""
    with tempfile.TemporaryDirectory() as top:
        here, told, script = pathlib.Path(top) / "here", pathlib.Path(top) / "seal", pathlib.Path(top) / "script"
        shutil.copytree(folder / "service", here)
        for name in late:
            (here / name).unlink(missing_ok=True)
        told.write_bytes(seal)
        lines = (folder / "script").read_text().split("\n")
        script.write_text("\n".join(octets_named(line, folder / "service") for line in lines))
        return printed(redplay, "play", here, "--sealed", told, "--script", script)


def report(redplay, folder):
    """None where the service has no seal; else whether the plays are alike."""
    late = folder / "late"
    chosen = ["--late", late] if late.exists() else []
    seal = printed(redplay, "seal", folder / "service", *chosen)
    if seal.returncode != 0:
        return None
    whole = printed(redplay, "play", folder / "service", "--script", folder / "script", *chosen)
    names = [name for name in late.read_text().split("\n") if name] if late.exists() else []
    part = by_seal(redplay, folder, seal.stdout, names)
    return (whole.returncode, whole.stdout) == (part.returncode, part.stdout)


def main(redplay, *folders):
    found = {folder: report(redplay, pathlib.Path(folder)) for folder in folders}
    for folder, alike in found.items():
        if alike is False:
            print(f"another report: {folder}")
    sealed = [alike for alike in found.values() if alike is not None]
    print(f"{sum(sealed)} of {len(sealed)} reports are alike; {len(found) - len(sealed)} services have no seal")
    return 0 if all(sealed) else 1


if __name__ == "__main__":
    sys.exit(main(*sys.argv[1:]))
