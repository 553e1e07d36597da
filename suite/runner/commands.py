"""The command lines of programs that play a folder and a script, and what of their output is shown or said."""
import json
import os
import subprocess


def facts_of(case):
    with open(os.path.join(case, "case.json"), encoding="utf-8") as file:
        return json.load(file)


def of_redplay(program, service, script, late, facts):
    """That of `redplay play`, or of `redplay check` where a verdict is wanted."""
    words = [program, "check", service] if facts.get("verdict") else [program, "play", service, "--script", script]
    words += ["--late", late] if late else []
    words += ["--tags", os.path.join(os.path.dirname(service), "tags")] if facts.get("tags") else []
    if not facts.get("verdict"):
        words += ["--lenient"] if facts["lenient"] else []
        words += ["--mjd", str(facts["date"])] if "date" in facts else []
    return words


def of_player(player, service, script, late, facts):
    """That of examples/embed/player.c, whose day is the one of `redplay` without an option."""
    words = [player] + (["--late", late] if late else []) + (["--lenient"] if facts["lenient"] else [])
    return words + [service, "--check" if facts.get("verdict") else script]


def covered(redtry, folder):
    """What `redtry cover` tells of a case."""
    words = [redtry, "cover", os.path.join(folder, "text"), os.path.join(folder, "script")]
    for name in ("late", "tags"):
        path = os.path.join(folder, name)
        words += ["--" + name, path] if os.path.exists(path) else []
    return subprocess.run(words, stdout=subprocess.PIPE, check=True).stdout.decode("utf-8")


def shown(words):
    """The lines `frame` and `row` of a play, or all lines where nothing was played; and whether the program ended as it should."""
    ran = subprocess.run(words, stdout=subprocess.PIPE, stderr=subprocess.PIPE)
    played = b"did " in ran.stdout
    lines = [line for line in ran.stdout.split(b"\n") if line.startswith((b"frame ", b"row ")) or line and not played]
    return b"".join(line + b"\n" for line in lines), ran.returncode in (0, 1, 2, 3)
