"""What the scripts leave undone: `redtry cover` tells of each case what its `case.json` says."""
from generator.undone import effects_of, single
from runner.commands import covered


def look_at_undone(redtry, cases):
    seen, left = 0, {}
    for case in cases:
        if case.facts["refused"] or case.facts.get("verdict"):
            continue
        said = {effect for part in case.facts["undone"] for effect in single(part["effects"])}
        found = set(effects_of(covered(redtry, case.folder)))
        for effect in sorted(said ^ found):
            print("undone: %s: %s %s" % (case.id, effect, "is done, and is said not to be" if effect in said else "is not done, and nothing says why"))
        seen += 1
        for part in case.facts["undone"]:
            left[part["why"]] = left.get(part["why"], 0) + 1
    print("undone: %d cases" % seen)
    for why, count in sorted(left.items(), key=lambda pair: -pair[1]):
        print("undone: in %d cases: %s" % (count, why), flush=True)
