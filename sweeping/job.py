#!/usr/bin/env python3
"""One job of a sweep, on whatever machine it is run: it stands in the kit, beside all that it reads.

    job.py IDENTITY               writes the result to the standard output
    job.py --share K N FOLDER     each N-th job from the K-th on that has no whole result, into the folder's results
"""
import os
import shutil
import signal
import subprocess
import sys
import tempfile

from failures import both, write_failed
from plan import Plan, head_of, result_path, status_of
from texts import answer_difference, group_difference, groups_of, lines_of

KIT = os.path.dirname(os.path.abspath(__file__))


def run(program, words, output):
    """Runs a program of the kit with its output in a file; gives its status, 128 and more for a signal, and its error lines."""
    with open(output, "wb") as stream:
        done = subprocess.run([os.path.join(KIT, "launch"), "--run", os.path.join(KIT, program)] + words,
                              stdin=subprocess.DEVNULL, stdout=stream, stderr=subprocess.PIPE)
    return (done.returncode if done.returncode >= 0 else 128 - done.returncode), done.stderr


def failed_folders(plan, identity, scratch):
    """Makes the networks on the day of the failure; gives their folders by version."""
    first, *more = [plan.failures[int(number)]["changes"] for number in identity.split("+")]
    changes = both(first, more[0]) if more else first
    folders = {version: os.path.join(scratch, version) for version in plan.versions}
    for version, folder in folders.items():
        write_failed(plan.path(version), folder, changes[version])
    return folders


def by_their_names(plan, errors, folders):
    """Error lines with the paths that the caller gave in place of those of the job."""
    pairs = [(folders[version], plan.paths[version]) for version in plan.versions]
    pairs += [(plan.path(name), plan.paths[name]) for name in ("links", "questions") if name in plan.paths]
    for here, theirs in pairs:
        errors = errors.replace(os.fsencode(here), theirs.encode("latin-1"))
    return errors


def failure_result(plan, identity, scratch):
    """The status of the first program that ended otherwise than well, and the text of the result."""
    folders = failed_folders(plan, identity, scratch)
    output = os.path.join(scratch, "output")
    status, errors = run("review", plan.words(folders, plan.path("links")), output)
    if status > 1:
        return status, by_their_names(plan, errors, folders)
    if plan.command == "ask":
        return status, answer_difference(lines_of(plan.path("without")), lines_of(output)).encode("latin-1")
    shown = os.path.join(scratch, "shown")
    shown_status, errors = run("view", ["--json", output], shown)
    if shown_status != 0:
        return shown_status if shown_status > 1 else 70, errors
    return status, group_difference(groups_of(plan.path("without")), groups_of(shown)).encode("latin-1")


def write_result(plan, identity, output):
    """Does a job and writes its result; gives its status."""
    with tempfile.TemporaryDirectory(prefix="diqenyu-sweep-") as scratch:
        if plan.by_ingress:
            folders = {version: plan.path(version) for version in plan.versions}
            report = os.path.join(scratch, "report")
            status, errors = run("review", plan.words(folders, plan.path("parts", identity)), report)
            if status <= 1:
                lines = sum(1 for _ in open(report, "rb"))
                output.write(head_of(plan.digest, identity, status, lines).encode("latin-1"))
                with open(report, "rb") as stream:
                    shutil.copyfileobj(stream, output)
                return status
            body = by_their_names(plan, errors, folders)
        else:
            status, body = failure_result(plan, identity, scratch)
    if body and not body.endswith(b"\n"):
        body += b"\n"
    output.write(head_of(plan.digest, identity, status, body.count(b"\n")).encode("latin-1") + body)
    return status


def do_job(plan, identity, folder):
    """Does a job as a process of its own, so that one that dies takes no other with it."""
    path = result_path(folder, identity)
    with open(path + ".part", "wb") as output, open(path + ".err", "wb") as errors:
        running = subprocess.Popen([sys.executable, "-S", plan.path("job.py"), identity], stdout=output, stderr=errors)
        try:
            running.wait()
        except BaseException:
            # It takes its program and its files with it.
            running.terminate()
            running.wait()
            raise
    # A result is there whole or not at all, whenever the job is ended.
    os.replace(path + ".part", path)


def do_share(plan, first, step, folder):
    """Does some of the jobs one by one."""
    for identity in plan.jobs()[first::step]:
        if status_of(folder, plan.digest, identity) not in (0, 1):
            do_job(plan, identity, folder)


def main():
    # A job that is told to end takes its files with it.
    signal.signal(signal.SIGTERM, lambda *_: sys.exit(143))
    plan = Plan(KIT)
    plan.check()
    if sys.argv[1] == "--share":
        do_share(plan, int(sys.argv[2]), int(sys.argv[3]), sys.argv[4])
        return 0
    status = write_result(plan, sys.argv[1], sys.stdout.buffer)
    return status if status > 1 else 0


if __name__ == "__main__":
    sys.exit(main())
