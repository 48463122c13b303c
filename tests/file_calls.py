#!/usr/bin/env python3
"""Watches by strace which files the programs open: each folder and file of a job, in the job's order, whole, for reading, and nothing else.

No proof reaches this: the system's files tell nothing of what they hold. DIQENYU_REVIEW, DIQENYU_ROLLOUT, DIQENYU_VIEW and DIQENYU_DOCTOR
name other programs than those that are built.

The last line is 'N passed, M failed'.
"""
from __future__ import annotations

import os
import re
import shutil
import subprocess
import sys
import tempfile
from typing import NamedTuple

TOP = os.path.dirname(os.path.dirname(os.path.abspath(__file__)))
sys.path.insert(0, TOP)

from launching import programs  # noqa: E402

OLD, NEW, LINKS = "examples/campus/old", "examples/campus/new", "examples/campus/links"
REPORT = "examples/campus/expected"
# What every program opens as it starts.
SYSTEM = re.compile(r"/etc/ld\.so|/lib|/usr/lib|/proc/|/sys/")
# Calls by which a program would change or look at other files, start another program or reach a network.
OTHER_CALLS = ("creat,truncate,ftruncate,unlink,unlinkat,rename,renameat,renameat2,mkdir,mkdirat,link,linkat,symlink,symlinkat,chmod,fchmod,"
               "socket,connect")
CALL = re.compile(r"^(?:\[pid +\d+\] |\d+ +)?(\w+)\((.*)\) += (-?\d+)")


class Case(NamedTuple):
    """A run: the program, its words, and the folders (with a slash behind) and files that it has to open, in this order."""

    name: str
    program: str
    words: list[str]
    opened: list[str]


def folder(path: str, listed: int = 1) -> list[str]:
    """A folder that is listed, once or twice, and then its configurations in the order of their names."""
    names = sorted(name for name in os.listdir(os.path.join(TOP, path)) if name.endswith(".cfg"))
    first = ["%s/" % path] + ["%s/%s" % (path, name) for name in names]
    return first + ["%s/" % path] * (listed - 1)


NET = "examples/traps/may-arrive"
CASES = [
    Case("a comparison", "review", ["compare", OLD, NEW, LINKS], folder(OLD) + folder(NEW) + [LINKS]),
    Case("a comparison by one worker", "review", ["compare", OLD, NEW, LINKS, "--workers", "1"], folder(OLD) + folder(NEW) + [LINKS]),
    Case("a comparison with two tables", "review", ["compare", OLD, NEW, LINKS, LINKS], folder(OLD) + folder(NEW) + [LINKS, LINKS]),
    Case("questions", "review", ["ask", NET + "/net", NET + "/links", NET + "/questions"],
         folder(NET + "/net") + [NET + "/links", NET + "/questions"]),
    Case("a reading", "review", ["read", OLD], folder(OLD)),
    Case("an audit", "rollout", ["audit", OLD], folder(OLD)),
    # The doctor lists a folder once for its configurations and once for its other files.
    Case("the doctor", "doctor", [OLD, NEW, LINKS], folder(OLD, 2) + folder(NEW, 2) + [LINKS]),
    Case("a view", "view", [REPORT], [REPORT]),
    Case("no command", "review", ["nothing"], []),
]


def program(name: str) -> str:
    """The built program of this name, or the one that the environment names."""
    given = os.environ.get("DIQENYU_" + name.upper())
    return os.path.abspath(given) if given else programs.find(name).path


def calls_of(trace: str) -> list[tuple[str, str, int]]:
    """The calls of a trace: their names, their words and what they gave."""
    found = (CALL.match(line) for line in trace.splitlines())
    return [(call.group(1), call.group(2), int(call.group(3))) for call in found if call]


def watch(case: Case, scratch: str) -> list[tuple[str, str, int]]:
    """The calls of a run."""
    trace = os.path.join(scratch, "trace")
    calls = "trace=open,openat,openat2,execve,read,pread64,readv,close," + OTHER_CALLS
    subprocess.run(["strace", "-f", "-qq", "-o", trace, "-e", calls, program(case.program)] + case.words, cwd=TOP,
                   stdin=subprocess.DEVNULL, stdout=subprocess.DEVNULL, stderr=subprocess.DEVNULL)
    with open(trace, encoding="latin-1") as stream:
        return calls_of(stream.read())


def faults_of(case: Case, calls: list[tuple[str, str, int]]) -> list[str]:
    """What is wrong with the calls of a run."""
    faults: list[str] = []
    opened: list[str] = []
    read: dict[int, int] = {}
    files: dict[int, str] = {}
    for name, words, gave in calls:
        path = re.search(r'"((?:[^"\\]|\\.)*)"', words)
        if name in ("open", "openat", "openat2"):
            if path is None or SYSTEM.match(path.group(1)):
                continue
            opened.append(path.group(1))
            if "O_RDONLY" not in words or re.search("O_WRONLY|O_RDWR|O_TRUNC|O_CREAT", words):
                faults.append("%s is opened for more than reading" % path.group(1))
            files[gave], read[gave] = path.group(1), 0
        elif name in ("read", "pread64", "readv"):
            descriptor = int(words.split(",")[0])
            read[descriptor] = read.get(descriptor, 0) + max(gave, 0)
        elif name == "close" and int(words) in files:
            faults += part_of(files.pop(int(words)), read[int(words)])
        elif name in OTHER_CALLS.split(",") or name == "execve" and program(case.program) not in words:
            faults.append("a call %s" % name)
    faults += [fault for descriptor, path in files.items() for fault in part_of(path, read[descriptor])]
    if opened != case.opened:
        faults.append("opened %s, and not %s" % (" ".join(opened), " ".join(case.opened)))
    return faults


def part_of(path: str, count: int) -> list[str]:
    """Says where a file wasn't read to its end."""
    where = os.path.join(TOP, path)
    if os.path.isdir(where) or os.path.getsize(where) == count:
        return []
    return ["of %s %d bytes are read, and it has %d" % (path, count, os.path.getsize(where))]


def main() -> int:
    """Tries all cases; the status is 0 where all are right."""
    if shutil.which("strace") is None:
        print("strace isn't there")
        return 1
    failed = 0
    with tempfile.TemporaryDirectory() as scratch:
        for case in CASES:
            calls = watch(case, scratch)
            faults = faults_of(case, calls) if calls else ["no call was seen"]
            if faults:
                failed += 1
                print("FAILED %s:" % case.name, *faults, sep="\n  ")
    print("%d passed, %d failed" % (len(CASES) - failed, failed))
    return 1 if failed else 0


if __name__ == "__main__":
    sys.exit(main())
