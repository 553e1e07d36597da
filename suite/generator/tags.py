"""A table of tags: the numbers by which a head-end writes classes, attributes, actions and what stands around values (docs/PROFILE.md, Other tags)."""
from .tables import ACTION_TAG, ACTIONS, ATTRIBUTES, CLASSES, WRAPPERS


class Tags:
    """The profile's tags, and those that the lines of a table give instead."""

    def __init__(self, table=""):
        self.classes, self.attributes, self.values = dict(CLASSES), dict(ATTRIBUTES), dict(WRAPPERS)
        self.actions = {name: ACTION_TAG + number for name, number in ACTIONS.items()}
        contexts = {"class": self.classes, "attr": self.attributes, "action": self.actions, "value": self.values}
        for line in table.split("\n"):
            if line and not line.startswith("#"):
                context, name, tag = line.split(" ")
                contexts[context][name] = int(tag)
