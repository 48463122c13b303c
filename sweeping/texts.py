"""What programs wrote, and what of it differs on the day of a failure."""
import json

# The fields of an exit that may be replaced, in the order in which a report has them.
REPLACED = ("src", "dst", "sport", "dport")


def outcomes_text(outcomes):
    """The outcomes of one side of a group as a report has them."""
    texts = []
    for outcome in outcomes:
        words = [outcome[name] for name in ("end", "device", "interface") if name in outcome]
        texts.append(" ".join(words + ["%s %s" % (name, outcome[name]) for name in REPLACED if name in outcome]))
    return " | ".join(texts)


def group_line(group):
    """A group of the document of `view --json` as a line."""
    return "%s  %s: %s -> %s\n" % (group["kind"], group["words"], outcomes_text(group["old"]), outcomes_text(group["new"]))


def groups_of(path):
    """The groups in what `view --json` wrote (docs/report-schema.json), as lines, by the ingresses."""
    with open(path, encoding="ascii") as stream:
        document = json.load(stream)
    return {"ingress %s %s" % (one["device"], one["interface"]): list(map(group_line, one["groups"])) for one in document["ingresses"]}


def group_difference(before, after):
    """The lines of the groups that only one of the two has, by ingress: `+` where the failure brings one, `-` where it takes it."""
    lines = []
    for ingress, groups in after.items():
        old, new = set(before[ingress]), set(groups)
        told = ["    + " + line for line in groups if line not in old] + ["    - " + line for line in before[ingress] if line not in new]
        lines += ["  %s\n" % ingress] + told if told else []
    return "".join(lines)


def answer_difference(before, after):
    """The answers that differ, each with its number: that without failure, and that of the day."""
    lines = []
    for old, new in zip(before[:-1], after[:-1]):
        if old != new:
            lines.append("  %s -> %s\n" % (old.rstrip("\n"), new.rstrip("\n").split(" ", 1)[1]))
    return "".join(lines)


def lines_of(path):
    with open(path, encoding="latin-1", newline="\n") as stream:
        return stream.readlines()
