"""Many failures by one run of `rollout`, where all questions hold without failure.

A window goes to the network of each failure and back, a device a step, and `rollout` tells the first of its networks in which a question
fails. A failure whose network comes before that one answers as the network without failure, and has its result so. The failure at which
the window ends is left to its job, and the next window goes on behind it: on the way to a failure of two devices there is a network
with one of them changed, which is that of no failure, so this one may still answer as without failure.
"""
import os
import resource
import subprocess
import tempfile
import time

from failures import Configuration
from job import do_job
from plan import head_of, result_path, status_of
from runners import keep_whole_results, log_whole
from texts import lines_of

# As much as a window may have: steps, and bytes of their files together.
MOST_STEPS = 1024
MOST_BYTES = 1 << 26
# How many failures the first window has, and each one behind one that was too dear.
FEWEST = 8
# How many jobs are done first, to know what a job costs, and which part of its jobs' processor seconds a window may take: it does a part of
# its work on one processor, and jobs are on all.
TIMED = 2
MOST_COST = 0.5


def can_tell(read, plan):
    """Whether windows tell of this sweep: single failures on this machine, questions that all hold, and the TTL that `rollout` has."""
    if plan.command != "ask" or read.pairs or read.sshlogin or read.slurm or read.jobs_only or read.ttl not in (None, "255"):
        return False
    return os.path.exists(plan.path("rollout")) and lines_of(plan.path("without"))[-1] == "failed 0\n"


class Window:
    """The way through the networks of some failures: its steps are files in a folder, named by their numbers from 1 on."""

    def __init__(self, folder, network):
        self.folder, self.network = folder, network
        self.steps = self.bytes = 0
        # Behind how many steps the network of each failure is.
        self.places = []
        # The configurations that the last failure changed, in the order in which they are put back: the first one changed is the last.
        self.changed = []

    def text(self, file, interfaces):
        with open(os.path.join(self.network, file), encoding="latin-1", newline="") as stream:
            return Configuration(stream.read()).shut(interfaces)

    def add(self, changes):
        """Goes on to the network of a failure, if that fits; tells whether it did. Where the last failure's first configuration is of this
        failure too, it is changed at once and not put back in between."""
        last = self.changed[-1:]
        files = sorted(changes, key=lambda file: [file] != last)
        back = self.changed[:-1] if files[:1] == last else self.changed
        texts = [self.text(file, []) for file in back] + [self.text(file, changes[file]) for file in files]
        size = sum(map(len, texts))
        if self.steps + len(texts) > MOST_STEPS or self.bytes + size > MOST_BYTES:
            return False
        for text in texts:
            self.steps += 1
            with open(os.path.join(self.folder, str(self.steps)), "w", encoding="latin-1", newline="") as stream:
                stream.write(text)
        self.bytes += size
        self.places.append(self.steps)
        self.changed = files[::-1]
        return True

    def holding(self, plan):
        """How many failures answer as the network without failure, from the first on; None where `rollout` gives no answer."""
        with open(os.path.join(self.folder, "steps"), "w", encoding="ascii") as stream:
            stream.writelines("change %d\n" % step for step in range(1, self.steps + 1))
        words = [plan.path("launch"), "--run", plan.path("rollout"), "rollout", *map(plan.path, ("old", "links", "questions"))]
        # A path of a step has no blank in it.
        nothing = subprocess.DEVNULL
        done = subprocess.run(words + ["steps"], cwd=self.folder, stdin=nothing, stdout=subprocess.PIPE, stderr=nothing)
        networks, *answer = [line.split() for line in done.stdout.decode("latin-1").splitlines()] or [[]]
        if networks != ["networks", str(self.steps + 1)] or len(answer) != 1:
            return None
        if done.returncode == 0 and answer[0] == ["rollout", "holds"]:
            return len(self.places)
        if done.returncode != 1 or answer[0][:1] != ["step"] or answer[0][1] == "0":
            return None
        return sum(place < int(answer[0][1]) for place in self.places)


def write_holding(folder, plan, identity):
    """The result of a failure that answers as the network without failure, as its job writes it."""
    path = result_path(folder, identity)
    with open(path + ".part", "wb") as stream:
        stream.write(head_of(plan.digest, identity, 0, 0).encode("latin-1"))
    os.replace(path + ".part", path)


def ask_window(plan, identities):
    """Asks one window of these failures, or of the first ones that fit: how many it has, and how many of them hold."""
    with tempfile.TemporaryDirectory(prefix="diqenyu-sweep-") as scratch:
        window = Window(scratch, plan.path("old"))
        for identity in identities:
            if not window.add(plan.failures[int(identity)]["changes"]["old"]):
                break
        return len(window.places), window.holding(plan) if window.places else 0


def seconds_used():
    """Processor seconds of this program and of all that it has run."""
    return sum(used.ru_utime + used.ru_stime for used in map(resource.getrusage, (resource.RUSAGE_SELF, resource.RUSAGE_CHILDREN)))


def job_seconds(folder, plan, identities):
    """Does some jobs, for the processor seconds of the one that takes least; None where one gives no answer."""
    seconds = []
    for identity in identities:
        began, before = time.time(), seconds_used()
        do_job(plan, identity, folder)
        if status_of(folder, plan.digest, identity) not in (0, 1):
            return None
        seconds.append(seconds_used() - before)
        log_whole(folder, plan, [identity], began, "job.py")
    return min(seconds)


def settle(folder, plan):
    """Writes the results of failures that hold, as far as windows tell and are cheap beside jobs; the others are left to their jobs.
    Behind windows in a row that weren't, ever more failures are left, so that all of these cost little."""
    try:
        plan.check()
    except OSError:
        # A kit that isn't whole is told by the jobs.
        return
    keep_whole_results(folder, plan)
    waiting = [identity for identity in plan.jobs() if status_of(folder, plan.digest, identity) not in (0, 1)]
    seconds = job_seconds(folder, plan, waiting[:TIMED]) if len(waiting) > TIMED + 1 else None
    waiting, size, too_dear = waiting[TIMED:], FEWEST, 0
    while seconds is not None and len(waiting) > 1:
        began, before = time.time(), seconds_used()
        count, holding = ask_window(plan, waiting[:size])
        if holding is None:
            # What refuses or ends it, the jobs tell.
            return
        for identity in waiting[:holding]:
            write_holding(folder, plan, identity)
        log_whole(folder, plan, waiting[:holding], began, "rollout")
        too_dear = 0 if seconds_used() - before < MOST_COST * holding * seconds else too_dear + 1
        size = FEWEST if too_dear else max(FEWEST, 2 * holding)
        # The failure at which the window ended, or that fits none, and those that are left behind windows that were too dear.
        left = int(holding < count or count == 0) + (8 ** too_dear if too_dear else 0)
        waiting = waiting[holding + left:]
