"""What came of the cases: the first wrong row with wanted beside actual, images of both frames, TAP and JUnit."""
import os
import re
import subprocess
from xml.sax.saxutils import escape, quoteattr

from .frames import cells_of, whole


def side_by_side(outcome):
    """The first wrong row, wanted above actual, with a mark below the first wrong column."""
    if outcome.row is None:
        return []
    wanted = outcome.case.wanted.frames[outcome.frame] if outcome.frame < len(outcome.case.wanted.frames) else {}
    actual = outcome.actual.frames[outcome.frame]
    told = []
    for name, frame in (("wanted", wanted), ("actual", actual)):
        cells = cells_of(frame.get(outcome.row, ""))
        told.append("  %s |%s|" % (name, "".join(cell[0] if cell[0].isprintable() else "?" for cell in cells)))
    told.append("          %s^" % (" " * outcome.column))
    for name, frame in (("wanted", wanted), ("actual", actual)):
        told.append("  %s row %02d: %s" % (name, outcome.row, frame.get(outcome.row, "(black)")))
    return told


def fed_before(events, frame):
    """What was fed before a frame was captured."""
    fed = []
    for event in events:
        if event.get("capture") == frame:
            break
        fed += [event["do"]] if "do" in event else []
    return ", behind " + ", ".join(fed[-8:]) if fed else ", at the start"


def told(outcome):
    """The lines about a case that is not as wanted."""
    facts = outcome.case.facts
    behind = "" if outcome.frame is None else fed_before(facts["events"], outcome.frame + 1)
    return ["  rule: %s" % facts["rule"], "  stands in: %s; %s" % (facts["documents"]["machine"], facts["documents"]["standard"]),
            "  what: %s%s" % (outcome.why, behind)] + side_by_side(outcome)


def write_images(outcome, folder, redlook):
    """Both frames as images, by `redlook image`, and as reports where there is no redlook; answers what was written."""
    if outcome.frame is None:
        return []
    os.makedirs(folder, exist_ok=True)
    made = []
    wanted = outcome.case.wanted.frames[outcome.frame] if outcome.frame < len(outcome.case.wanted.frames) else {}
    for name, frame in (("wanted", wanted), ("actual", outcome.actual.frames[outcome.frame])):
        base = os.path.join(folder, "%s-%d-%s" % (outcome.case.id.replace("/", "-"), outcome.frame + 1, name))
        text = "".join(line + "\n" for line in ["frame 1"] + whole(frame) + ["total 0"])
        with open(base + ".report", "w", encoding="utf-8") as file:
            file.write(text)
        made.append(base + ".report")
        try:
            ran = subprocess.run([redlook, "image", base + ".report", "--frame", "1"], capture_output=True)
        except OSError:
            continue
        if ran.returncode == 0:
            with open(base + ".png", "wb") as file:
                file.write(ran.stdout)
            made[-1] = base + ".png"
    return made


def tap(outcomes):
    lines = ["TAP version 13", "1..%d" % len(outcomes)]
    for number, outcome in enumerate(outcomes, 1):
        lines.append("%s %d - %s" % ("ok" if outcome.why is None else "not ok", number, outcome.case.id))
        if outcome.why is not None:
            lines += ["  ---"] + ["  " + line.strip().replace("\t", " ") for line in ["message: %s" % quoteattr(outcome.why)]] + ["  ..."]
    return "".join(line + "\n" for line in lines)


def clean(text):
    """What may stand in XML."""
    return re.sub("[^\t\n\r\x20-\ud7ff\ue000-\ufffd\U00010000-\U0010ffff]", "?", text)


def junit(outcomes, seconds):
    bad = sum(outcome.why is not None for outcome in outcomes)
    lines = ['<?xml version="1.0" encoding="UTF-8"?>', '<testsuite name="suite" tests="%d" failures="%d" time="%.1f">' % (len(outcomes), bad, seconds)]
    for outcome in outcomes:
        family, _, name = outcome.case.id.partition("/")
        head = "<testcase classname=%s name=%s" % (quoteattr(family), quoteattr(name))
        if outcome.why is None:
            lines.append(" %s/>" % head)
        else:
            lines.append(" %s><failure message=%s>%s</failure></testcase>" % (head, quoteattr(clean(outcome.why)), escape(clean("\n".join(told(outcome))))))
    return "".join(line + "\n" for line in lines + ["</testsuite>"])
