"""Writes the conversation that the gate plays: `python3 bench/edit/conversation.py` writes the input of `crates/redlsp` and the files of
its service. What is wanted stands beside them, in `stdout`.
"""
import os
import pathlib

from cases import APPLICATION, SCENE, place_of
from talk import HERE, Editor, between

CRATE = pathlib.Path(HERE).parents[1] / "crates" / "redlsp"


def conversation():
    """Returns what an editor says that opens a service, makes a mistake and mends it, and asks for what there is to know."""
    editor = Editor("service")
    editor.open("s", SCENE)
    line, character = place_of(SCENE, ":EventType TestEvent")
    editor.change("s", ((line, character + 3), (line, character + 4), "a"))
    editor.change("s", ((line, character + 3), (line, character + 4), "e"))
    for words in (":SetPosition", "UserInput", "'=FF"):
        editor.about("hover", "s", place_of(SCENE, words, 1))
    variable = place_of(SCENE, '"~/a" 1', 6)
    editor.about("hover", "s", variable)
    editor.about("definition", "s", variable)
    editor.about("references", "s", variable, context={"includeDeclaration": True})
    editor.about("prepareRename", "s", variable)
    editor.about("rename", "s", variable, newName="7")
    editor.about("rename", "s", place_of(SCENE, "Rectangle 1", 10), newName="2")
    editor.about("completion", "s", place_of(SCENE, ":SetPosition (1", 15))
    editor.about("documentSymbol", "s")
    editor.ask("workspace/symbol", {"query": "Var"})
    editor.about("foldingRange", "s")
    editor.about("documentColor", "s")
    colour = {"red": 0.5, "green": 0.0, "blue": 1.0, "alpha": 1.0}
    editor.about("colorPresentation", "s", color=colour, range=between((3, 0), (3, 1)))
    editor.change("s", ((1, 0), (1, 4), "  "))
    editor.about("formatting", "s", options={})
    told = [{"severity": 3, "code": "no-actions"}]
    editor.about("codeAction", "s", range=between((0, 0), (0, 1)), context={"diagnostics": told})
    editor.about("implementation", "s", variable)
    editor.close("s")
    editor.end()
    return b"".join(editor.sent)


def main():
    (CRATE / "stdin").write_bytes(conversation())
    service = CRATE / "data" / "service"
    os.makedirs(service, exist_ok=True)
    (service / "a").write_text(APPLICATION)
    (service / "s").write_text(SCENE)


if __name__ == "__main__":
    main()
