"""The families, in the order of the index. Each module has a FAMILY and a function `cases` that yields its cases."""
import importlib

NAMES = ["picture.calibration", "machine.states", "machine.links", "machine.keys", "machine.values", "machine.indirect", "picture.visibles",
         "picture.overlap", "picture.shapes", "picture.layout", "widgets.fields", "widgets.buttons", "widgets.tokens", "widgets.lists",
         "machine.timers", "machine.streams", "machine.content", "machine.scenes", "machine.late", "machine.lock", "machine.programs",
         "machine.stuck", "machine.queue", "files.names", "files.notation", "files.tags", "files.refused", "files.verdicts"]


def families(only=None):
    """The families, or those that are named, each with its cases."""
    for name in NAMES:
        if only and name.rpartition(".")[2] not in only:
            continue
        module = importlib.import_module("." + name, __name__)
        family = module.FAMILY
        family.cases = list(module.cases())
        for case in family.cases:
            case.family = family
        yield family


def all_cases(only=None):
    for family in families(only):
        yield from family.cases
