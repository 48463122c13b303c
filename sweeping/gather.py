#!/usr/bin/env python3
"""The answer of a sweep, from the results of its jobs: it stands in the kit, beside the plan.

    gather.py FOLDER      writes the answer, and ends with its status

Nothing is written of a sweep with a job that gave no answer: its line is told, and the status is that of its program.
"""
import os
import shutil
import sys
import tempfile
import traceback

from plan import Plan, result_path, status_of
from texts import groups_of, lines_of

# Where a job left no result, by want of its machine or by a kill.
NO_RESULT = 70
# How many jobs without an answer are told by name.
TOLD = 10


def write_error(line):
    sys.stderr.buffer.write(line)
    sys.stderr.buffer.flush()


def body_of(folder, identity):
    """The text of a result behind its first line."""
    with open(result_path(folder, identity), "rb") as stream:
        stream.readline()
        return stream.read()


def tell_no_result(folder, plan, identity):
    """Says that a job left no result, with the last line of what it said."""
    errors = b""
    if os.path.exists(result_path(folder, identity) + ".err"):
        with open(result_path(folder, identity) + ".err", "rb") as stream:
            errors = b"".join(stream.readlines()[-1:])
    write_error(("no result %s\n" % plan.name(identity)).encode("latin-1") + errors)


def first_failing(folder, plan, statuses):
    """The status of the sweep where some job gave no answer, of which the first ones are told; else None."""
    failing = [(identity, status) for identity, status in statuses.items() if status not in (0, 1)]
    if not failing:
        return None
    for identity, status in failing[:TOLD]:
        if status is None:
            tell_no_result(folder, plan, identity)
        else:
            # An input that is refused is told by its own line, as the program tells it, and a death by its status alone.
            body = body_of(folder, identity)
            write_error(body)
            write_error(("status %d %s\n" % (status, plan.name(identity))).encode("latin-1"))
    if len(failing) > TOLD:
        write_error(b"and %d more\n" % (len(failing) - TOLD))
    return failing[0][1] or NO_RESULT


def classes_of(folder, plan, statuses):
    """The failures by what they change: each text with its failures, in the order of the first ones."""
    classes = {}
    for identity in statuses:
        classes.setdefault(body_of(folder, identity), []).append(identity)
    return classes


def without_failure(plan):
    """The first line of the answer, of the network as it stands."""
    if plan.command == "ask":
        return "without failure: %s" % lines_of(plan.path("without"))[-1]
    return "without failure: groups %d\n" % sum(map(len, groups_of(plan.path("without")).values()))


def failure_answer(folder, plan, statuses, output):
    """Writes the failures with what they change, and those that change nothing behind them; gives the status."""
    def write(text):
        output.write(text.encode("latin-1"))

    classes = classes_of(folder, plan, statuses)
    unchanged = classes.pop(b"", [])
    write(without_failure(plan))
    for text, identities in classes.items():
        write("\n" + "".join("failure %s\n" % plan.name(identity) for identity in identities))
        output.write(text)
    if unchanged:
        write("\n" + "".join("failure %s\n" % plan.name(identity) for identity in unchanged) + "  nothing else\n")
    if plan.impossible or plan.missing:
        write("\n")
    write("".join("cannot fail %s\n" % name for name in plan.impossible))
    write("".join("no section %s\n" % missing for missing in plan.missing))
    differing = len(statuses) - len(unchanged)
    write("\nfailures %d differ %d\n" % (len(statuses), differing))
    return 1 if differing else 0


def report_answer(folder, statuses, output):
    """Writes the sections of all parts, one behind the other, and the sum of their rows; gives the status."""
    affected = 0
    for identity in statuses:
        with open(result_path(folder, identity), "rb") as stream:
            stream.readline()
            line = stream.readline()
            while not line.startswith(b"affected "):
                if not line:
                    raise ValueError("a report without its last line")
                output.write(line)
                line = stream.readline()
            affected += int(line.split()[1])
    output.write(b"affected %d\n" % affected)
    return 1 if affected else 0


def gather(folder, plan):
    """Writes the answer to the standard output where each job gave its own; gives the status of the sweep."""
    statuses = {identity: status_of(folder, plan.digest, identity) for identity in plan.jobs()}
    failing = first_failing(folder, plan, statuses)
    if failing is not None:
        return failing
    # An answer is complete before a line of it is written.
    with tempfile.TemporaryFile(dir=folder) as answer:
        status = report_answer(folder, statuses, answer) if plan.by_ingress else failure_answer(folder, plan, statuses, answer)
        answer.seek(0)
        try:
            shutil.copyfileobj(answer, sys.stdout.buffer)
            sys.stdout.buffer.flush()
        except OSError:
            write_error(b"cannot write\n")
            os.dup2(os.open(os.devnull, os.O_WRONLY), 1)
            return 6
    return status


def main():
    try:
        return gather(sys.argv[1], Plan(os.path.dirname(os.path.abspath(__file__))))
    except Exception:
        # The status 1 of an error would be taken for an answer.
        traceback.print_exc()
        return NO_RESULT


if __name__ == "__main__":
    sys.exit(main())
