"""The folder of a case, as a test house has it."""
import json
import os

from .binary import encoded
from .tags import Tags
from .undone import WHY


def facts_of(case, undone):
    """What `case.json` says."""
    facts = {"id": case.id, "rule": case.rule, "documents": case.family.documents(), "level": case.level(), "needs": case.needs(),
             "start": "a", "lenient": case.lenient, "refused": bool(case.facts.get("refused")), "room": 200,
             "undone": [{"effects": effects, "why": WHY[word]} for word, effects in undone.items()], "events": case.events()}
    for name in ("date", "exact", "verdict"):
        if name in case.facts:
            facts[name] = case.facts[name]
    facts.update({name: True for name in ("tags", "line") if name in case.facts})
    return facts


def write(path, octets):
    os.makedirs(os.path.dirname(path), exist_ok=True)
    with open(path, "wb") as file:
        file.write(octets)


def in_binary(octets, tags):
    """A group in the binary notation; what is no group that can be read stays as it is."""
    return encoded(octets, tags) if octets.lstrip().startswith((b"{", b"//")) else octets


def write_case(case, top, wanted, undone=None):
    """Writes the folder of the case below `top`, and answers its path. `undone` has effects by the word for their reason."""
    folder = os.path.join(top, *case.id.split("/"))
    tags = None if case.one_form() else Tags(case.facts.get("tags", ""))
    for path, octets in case.service.items():
        write(os.path.join(folder, "text", path), octets)
        write(os.path.join(folder, "der", path), octets if case.one_form() else in_binary(octets, tags))
    for path, octets in case.files.items():
        write(os.path.join(folder, "text", path), octets)
        write(os.path.join(folder, "der", path), octets)
    write(os.path.join(folder, "case.json"), (json.dumps(facts_of(case, undone or {}), indent=1) + "\n").encode())
    write(os.path.join(folder, "script"), case.script().encode())
    if "tags" in case.facts:
        write(os.path.join(folder, "tags"), case.facts["tags"].encode())
    if case.late:
        write(os.path.join(folder, "late"), "".join(name + "\n" for name in case.late).encode())
    write(os.path.join(folder, "wanted"), wanted.report().encode())
    return folder
