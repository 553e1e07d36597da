"""The index: a table a family, a line a case."""
from .case import LEVELS

HEAD = """# Index of the suite

Written by `suite/make --index`. {cases} cases: {levels}. How they are played: [docs/TESTING_RECEIVERS.md](../docs/TESTING_RECEIVERS.md).
"""


def family_lines(family):
    told = ["", "## %s: %s" % (family.name, family.title), "", "MACHINE: %s. PROFILE: %s. %s." % (family.machine, family.profile, family.standard), "",
            "| Case | Level | Rule |", "|---|---|---|"]
    for case in family.cases:
        told.append("| %s | %s | %s |" % (case.name, case.level(), case.rule.replace("|", "\\|")))
    return told


def index(families):
    families = list(families)
    cases = [case for family in families for case in family.cases]
    levels = ", ".join("%d %s" % (sum(case.level() == level for case in cases), level) for level in LEVELS)
    told = [HEAD.format(cases=len(cases), levels=levels).rstrip()]
    for family in families:
        told += family_lines(family)
    return "\n".join(told) + "\n"
