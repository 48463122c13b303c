#!/usr/bin/env python3
"""Runs `review` on the networks of each single failure, and tells which failures change its answer. docs/GUIDE.md tells how."""
import fcntl
import hashlib
import json
import os
import shlex
import shutil
import signal
import subprocess
import sys
import traceback

import failures
import runners
import windows
from as_running import as_running
from gather import gather
from plan import Plan, kit_name
from words import read_words

from launching import programs
from preparing.marks import marks_told

HERE = os.path.dirname(os.path.abspath(__file__))
TOP = os.path.dirname(HERE)
# (behind the modules of a sweep, some of which have the names of others there)
sys.path.append(os.path.join(TOP, "windowing"))

from header_words import Places, questions_of  # type: ignore[import]  # noqa: E402

# What a job reads of these programs.
SCRIPTS = ("job.py", "gather.py", "failures.py", "plan.py", "texts.py")


class Stop(Exception):
    """The sweep ends here, with a status and what is to be told."""

    def __init__(self, status, told):
        super().__init__(told)
        self.status = status
        self.told = told


class Program:
    """`review`, `view` or `rollout`, built: how it is called here, and the file that is copied for the jobs."""

    def __init__(self, name):
        self.name = name
        try:
            self.file, self.command = programs.find(name).path, programs.command(name)
        except programs.NotBuilt as none:
            raise Stop(70, none.told) from None

    def starts(self):
        """Ends the sweep where the program doesn't start, before any job does: without words it says its usage alone."""
        done = subprocess.run(self.command, stdin=subprocess.DEVNULL, stdout=subprocess.DEVNULL, stderr=subprocess.PIPE)
        if done.returncode != 2:
            told = done.stderr.decode("utf-8", "surrogateescape")
            raise Stop(done.returncode if done.returncode > 2 else 70, told or "%s: the program doesn't start\n" % self.name)

    def run(self, words, path):
        """Runs it with its output in a file; ends the sweep with its own line and status where it gives no answer."""
        with open(path, "wb") as output:
            done = subprocess.run(self.command + words, stdin=subprocess.DEVNULL, stdout=output, stderr=subprocess.PIPE)
        status = done.returncode if done.returncode >= 0 else 128 - done.returncode
        if status > 1:
            told = done.stderr.decode("utf-8", "surrogateescape")
            raise Stop(status, told or "%s: status %d\n" % (self.name, status))


def read_file(path):
    with open(path, "rb") as stream:
        return stream.read()


class Inputs:
    """All that a sweep reads, as bytes: the configurations of each version, the link table, the questions. Configurations are as routers
    run them, where nothing else is said; `written` tells whether one of them is another text then. Questions have numbers for their words;
    `worded` tells whether the file has words."""

    def __init__(self, read):
        command, *paths = read.words
        names = ("old", "new", "links") if command == "compare" else ("old", "links", "questions")
        self.paths = dict(zip(names, paths))
        self.folders, self.files, self.written, self.worded = {}, {}, False, False
        for name, path in self.paths.items():
            if name in failures.VERSIONS:
                files = sorted(file for file in os.listdir(path) if file.endswith(".cfg"))
                texts = {file: read_file(os.path.join(path, file)) for file in files}
                running = texts if keeps_texts(read) else {file: as_running(text) for file, text in texts.items()}
                self.written = self.written or running != texts
                self.folders[name] = running
            else:
                self.files[name] = read_file(path)
        if command == "ask":
            text = self.files["questions"]
            self.files["questions"] = questions_of(text, Places([self.paths["old"]]))
            self.worded = self.files["questions"] != text

    def items(self):
        """Each file by its name in the kit."""
        for version, files in self.folders.items():
            yield from ((os.path.join(version, file), text) for file, text in files.items())
        yield from self.files.items()


def keeps_texts(read):
    """Whether configurations are taken as they are written: where that is asked, and where no failure is."""
    return bool(read.as_written or read.by_ingress)


def read_inputs(read):
    """The inputs, or None where a file can't be read: the program then says why."""
    try:
        return Inputs(read)
    except OSError:
        return None


def latin(path):
    return os.fsencode(path).decode("latin-1")


def options_of(read):
    """What each run is told beside its files. Jobs work beside one another, so each has one worker where nothing else is said."""
    return ["--workers", read.workers or "1"] + (["--ttl", read.ttl] if read.ttl else [])


def digest_of(read, inputs, found):
    """A number that tells this sweep from any other: its words, its inputs, its programs."""
    asked = [read.words, options_of(read), bool(read.pairs), read.by_ingress, keeps_texts(read)]
    digest = hashlib.sha256(json.dumps(asked).encode("ascii"))
    contents = list(inputs.items()) + [(program.name, read_file(program.file)) for program in found]
    contents += [(script, read_file(os.path.join(HERE, script))) for script in SCRIPTS + ("windows.py",)]
    for name, text in contents:
        digest.update(b"%s %d\n" % (os.fsencode(name), len(text)))
        digest.update(text)
    return digest.hexdigest()[:16]


def find_failures(read, inputs):
    """The failures, the jobs, the names of failures that change nothing, and the sections that aren't there."""
    texts = {version: {file: text.decode("latin-1") for file, text in files.items()} for version, files in inputs.folders.items()}
    devices, table = failures.Devices(texts, not keeps_texts(read)), inputs.files["links"].decode("latin-1")
    found = failures.single_failures(devices, table)
    possible = [number for number, failure in enumerate(found) if failure.is_possible()]
    jobs = [str(number) for number in possible]
    if read.pairs:
        jobs += ["%d+%d" % pair for pair in failures.pairs_of(found, possible)]
    missing = ["%s %s" % (latin(os.path.join(inputs.paths[version], file)), interface)
               for version, file, interface in failures.missing_sections(devices, table)]
    return found, jobs, [failure.name for failure in found if not failure.is_possible()], missing


def parts_of(table, number):
    """Link tables with a part of the ingresses each, in order: the lines of the others are comments, so that lines keep their numbers."""
    lines = table.split(b"\n")
    ingresses = [position for position, line in enumerate(lines) if failures.words_of(line.decode("latin-1"))[:1] == ["ingress"]]
    number = min(number, len(ingresses))
    for part in range(number):
        own = set(ingresses[len(ingresses) * part // number:len(ingresses) * (part + 1) // number])
        yield b"\n".join(b"!" if position in ingresses and position not in own else line for position, line in enumerate(lines))


def write_file(path, text):
    os.makedirs(os.path.dirname(path), exist_ok=True)
    with open(path, "wb") as stream:
        stream.write(text)


def sizes_of(kit):
    """How long each file of the kit is."""
    paths = [os.path.join(folder, name) for folder, _, names in os.walk(kit) for name in names]
    return {os.path.relpath(path, kit): os.path.getsize(path) for path in paths}


def write_plan(kit, read, digest, inputs):
    """Writes which jobs there are, and what they are called, behind all else that is in the kit."""
    found, jobs, impossible, missing = ([], [], [], []) if read.by_ingress else find_failures(read, inputs)
    if read.by_ingress:
        for part, table in enumerate(parts_of(inputs.files["links"], int(read.by_ingress)), 1):
            write_file(os.path.join(kit, "parts", str(part)), table)
            jobs.append(str(part))
    write_file(os.path.join(kit, "jobs"), "".join(job + "\n" for job in jobs).encode("ascii"))
    plan = {"digest": digest, "command": read.words[0], "options": options_of(read), "by_ingress": bool(read.by_ingress),
            "paths": {name: latin(path) for name, path in inputs.paths.items()}, "impossible": impossible, "missing": missing,
            "sizes": sizes_of(kit),
            "failures": [{"name": failure.name, "changes": failure.changes} for failure in found]}
    write_file(os.path.join(kit, "plan.json"), json.dumps(plan).encode("ascii"))


def answer(read, found, kit, words):
    """Runs the command without failure on these words, and keeps the answer in the kit, to compare with."""
    review, *others = found
    output = os.path.join(kit, "output")
    review.run(words + (["--ttl", read.ttl] if read.ttl else []), output)
    if read.words[0] == "ask":
        os.replace(output, os.path.join(kit, "without"))
    else:
        others[0].run(["--json", output], os.path.join(kit, "without"))


def judge(read, found, inputs, kit):
    """Runs the command on the networks as they stand: what is refused is told as the program tells it, and nothing else is run. The
    answer is kept in the kit, to compare with. For parts of the ingresses it is enough that all is accepted: a TTL of 1 tells that soon."""
    if read.by_ingress:
        found[0].run(read.words + ["--ttl", "1"], os.path.join(kit, "output"))
    elif inputs is not None and inputs.worded:
        numbers = os.path.join(kit, "questions")
        write_file(numbers, inputs.files["questions"])
        try:
            answer(read, found, kit, read.words[:-1] + [numbers])
        except Stop as stop:
            raise Stop(stop.status, stop.told.replace(numbers, read.words[-1])) from None
    else:
        answer(read, found, kit, read.words)


def make_kit(read, found, digest, inputs, folder):
    """Writes all that the jobs read into the folder."""
    making = os.path.join(folder, "making")
    shutil.rmtree(making, ignore_errors=True)
    os.makedirs(making)
    judge(read, found, inputs, making)
    again = read_inputs(read)
    if inputs is None or again is None or dict(again.items()) != dict(inputs.items()):
        raise Stop(4, "sweep: files changed while they were read\n")
    for name, text in inputs.items():
        write_file(os.path.join(making, name), text)
    for version in inputs.folders:
        os.makedirs(os.path.join(making, version), exist_ok=True)
    if inputs.written:
        answer(read, found, making, [read.words[0]] + [os.path.join(making, name) for name in inputs.paths])
    for script in SCRIPTS:
        shutil.copy(os.path.join(HERE, script), making)
    shutil.copy(os.path.join(TOP, "launch"), making)
    for program in found:
        shutil.copy(program.file, os.path.join(making, program.name))
    write_plan(making, read, digest, inputs)
    # The kit is there whole or not at all.
    os.rename(making, os.path.join(folder, kit_name(digest)))


def default_folder(read, digest):
    """One folder for each sweep, which the same words find again, and another one for what it shows, which stays."""
    cache = os.environ.get("XDG_CACHE_HOME") or os.path.join(os.path.expanduser("~"), ".cache")
    return os.path.join(cache, "diqenyu", ("sweep-" if read.show is None else "shown-") + digest)


def hold(folder):
    """Holds the folder against another call at the same time, until this one ends; gives what holds it."""
    lock = open(os.path.join(folder, "lock"), "w")
    try:
        fcntl.flock(lock, fcntl.LOCK_EX | fcntl.LOCK_NB)
    except BlockingIOError:
        raise Stop(4, "sweep: another sweep is at work in %s\n" % folder) from None
    return lock


def find_programs(read):
    """The programs that the sweep runs, `review` before the others. It can do without `rollout`, which is not built for it; but
    where it is there, it is one of the sweep's, whatever runs the jobs, so that each way goes on with what another one has done."""
    names = ["review"] + (["view"] if read.words[0] == "compare" and not read.by_ingress else [])
    found = [Program(name) for name in names]
    for program in found:
        program.starts()
    if read.words[0] == "ask" and programs.standing("rollout"):
        found.append(Program("rollout"))
    sys.stderr.write(programs.unproved_line("sweep", [program.name for program in found]))
    return found


def prepare(read):
    """Finds the folder of this sweep, or makes it; gives the folder, the plan and what holds the folder."""
    found = find_programs(read)
    inputs = read_inputs(read)
    if inputs is None:
        found[0].run(read.words, os.devnull)
        raise Stop(4, "sweep: files changed while they were read\n")
    digest = digest_of(read, inputs, found)
    folder = os.path.abspath(read.folder or default_folder(read, digest))
    kit = os.path.join(folder, kit_name(digest))
    if not os.path.exists(kit):
        if os.path.exists(folder) and any(name.startswith("kit-") for name in os.listdir(folder)):
            raise Stop(2, "sweep: %s holds another sweep: remove it, or name another folder\n" % folder)
    os.makedirs(os.path.join(folder, "results"), exist_ok=True)
    lock = hold(folder)
    if not os.path.exists(kit):
        make_kit(read, found, digest, inputs, folder)
    return folder, Plan(kit), lock


def show(read, folder, plan):
    """Makes the networks of a failure, and prints the command that asks of them."""
    identities = [identity for identity in plan.jobs() if plan.name(identity) == latin(read.show)]
    if not identities:
        raise Stop(2, "sweep: no failure %s\n" % read.show)
    first, *more = [plan.failures[int(number)]["changes"] for number in identities[0].split("+")]
    changes = failures.both(first, more[0]) if more else first
    paths = dict(zip(plan.paths, read.words[1:]))
    for version in plan.versions:
        target = os.path.join(folder, "shown", identities[0], version)
        shutil.rmtree(target, ignore_errors=True)
        failures.write_failed(plan.path(version), target, changes[version])
        paths[version] = target
    if plan.command == "ask" and read_file(plan.path("questions")) != read_file(read.words[3]):
        # (the command takes numbers alone)
        paths["questions"] = plan.path("questions")
    program = os.path.abspath(programs.named("review") or os.path.join(TOP, "review"))
    words = [program, plan.command] + list(paths.values()) + (["--ttl", read.ttl] if read.ttl else [])
    sys.stdout.buffer.write(os.fsencode(" ".join(map(shlex.quote, words)) + "\n"))
    return 0


def sweep(words):
    """Does what the words say; gives the status."""
    read = read_words(words)
    folder, plan, _lock = prepare(read)
    tell_marks(read)
    if read.show is not None:
        return show(read, folder, plan)
    if read.slurm:
        status = runners.by_slurm(folder, plan)
    else:
        runners.need_parallel()
        if windows.can_tell(read, plan):
            windows.settle(folder, plan)
        runners.by_parallel(folder, plan, read)
        status = gather(folder, plan)
    if read.folder is None and status in (0, 1):
        # What was asked is told, and the folder was none that the caller named.
        shutil.rmtree(folder)
    return status


def tell_marks(read):
    """Tells what no answer on these networks can know, as prepared texts say it."""
    for line in marks_told(read.words[1:3] if read.words[0] == "compare" else read.words[1:2]):
        sys.stderr.buffer.write(line.encode("utf-8", "surrogateescape") + b"\n")


def interrupt(*_):
    raise KeyboardInterrupt


def main():
    # What ends a sweep ends its jobs.
    signal.signal(signal.SIGTERM, interrupt)
    signal.signal(signal.SIGINT, interrupt)
    try:
        return sweep(sys.argv[1:])
    except Stop as stop:
        sys.stderr.buffer.write(os.fsencode(stop.told))
        return stop.status
    except runners.Missing as missing:
        sys.stderr.write("sweep: %s\n" % missing)
        return 70
    except KeyboardInterrupt:
        sys.stderr.write("sweep: interrupted; the same command continues from here\n")
        return 130
    except OSError as error:
        sys.stderr.write("sweep: %s\n" % error)
        return 4
    except Exception:
        # The status 1 of an error would be taken for an answer.
        traceback.print_exc()
        return 70


if __name__ == "__main__":
    sys.exit(main())
