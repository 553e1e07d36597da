"""A family: the cases of one rule, with the documents in which it stands."""


class Family:

    def __init__(self, name, title, machine, profile, standard):
        self.name, self.title, self.machine, self.profile, self.standard = name, title, machine, profile, standard

    def documents(self):
        return {"machine": "docs/MACHINE.md, " + self.machine, "profile": "docs/PROFILE.md, " + self.profile,
                "standard": self.standard}
