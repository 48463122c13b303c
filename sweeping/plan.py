"""The plan of a sweep, which lies with the networks in the kit: a folder that holds all that a job reads, and has the number of the
sweep in its name, so that what is copied to another machine never comes together with files of another sweep.

The identity of a job is the number of a failure, as `7`, or two of them, as `7+12`; of a part of the ingresses it is the part's number.
"""
import json
import os


class Plan:
    """The words of the sweep, the failures, and the jobs in order."""

    def __init__(self, kit):
        self.kit = kit
        with open(os.path.join(kit, "plan.json"), encoding="latin-1") as stream:
            for name, value in json.load(stream).items():
                setattr(self, name, value)
        self.versions = [version for version in ("old", "new") if version in self.paths]

    def path(self, *names):
        return os.path.join(self.kit, *names)

    def check(self):
        """Wants each file of the kit whole: a copy that was broken off is no network."""
        for name, size in self.sizes.items():
            if os.path.getsize(self.path(name)) != size:
                raise OSError("%s isn't whole" % self.path(name))

    def jobs(self):
        """The identities of all jobs, in order."""
        with open(self.path("jobs"), encoding="latin-1") as stream:
            return stream.read().split()

    def name(self, identity):
        """What a job is called: its failure, as the answer tells it."""
        if self.by_ingress:
            return "part %s" % identity
        return " + ".join(self.failures[int(number)]["name"] for number in identity.split("+"))

    def words(self, folders, table):
        """The words of the command on these folders, by version, behind the name of the program."""
        words = [self.command] + [folders[version] for version in self.versions] + [table]
        if self.command == "ask":
            words.append(self.path("questions"))
        return words + self.options


def kit_name(digest):
    return "kit-" + digest


def result_path(folder, identity):
    return os.path.join(folder, "results", identity)


def head_of(digest, identity, status, lines):
    """The first line of a result. A result is whole where as many lines as it says follow it."""
    return "sweep %s %s %d %d\n" % (digest, identity, status, lines)


def status_of(folder, digest, identity):
    """The status that a whole result tells, or None where there is no whole one of this sweep."""
    try:
        with open(result_path(folder, identity), "rb") as stream:
            words = stream.readline().decode("latin-1").split()
            lines = sum(block.count(b"\n") for block in iter(lambda: stream.read(1 << 20), b""))
    except OSError:
        return None
    if len(words) != 5 or words[:3] != ["sweep", digest, identity] or int(words[4]) != lines:
        return None
    return int(words[3])
