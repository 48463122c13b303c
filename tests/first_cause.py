#!/usr/bin/env python3
"""Folders with several causes to stop, read by 1, 2, 4 and 7 workers: the first file's cause is told, whichever worker met its own first.

    first_cause.py PROGRAM

Each folder has files so large that they are shared among the workers. PROGRAM is `review`. The last line is 'N passed, M failed'.
"""
import os
import subprocess
import sys
import tempfile

WORKERS = ("1", "2", "4", "7")
COUNT = 9
LINES = 2_000
WRONG = "ip route 300.0.0.0 255.0.0.0 Null0"


def config(i, host=None, wrong_at=None):
    """A configuration of LINES routes, whose hostname is that of its number; a line of it may be no route."""
    lines = [f"hostname {host or f'R{i}'}", "interface Ethernet0", f" ip address 10.0.{i}.1 255.255.255.0"]
    for j in range(LINES):
        lines.append(WRONG if j == wrong_at else f"ip route 172.{16 + j // 256 % 16}.{j % 256}.0 255.255.255.0 10.0.{i}.2")
    return "\n".join(lines) + "\n"


def write(folder, files):
    os.makedirs(folder)
    for name, text in files.items():
        with open(os.path.join(folder, name), "w", encoding="ascii") as out:
            out.write(text)
    return folder


def name(i):
    return f"r{i}.cfg"


def whole():
    return {name(i): config(i) for i in range(COUNT)}


def cases(scratch):
    """The folder of each case, and the line that it must be refused with; none where it is read."""
    def folder(case, changed):
        return write(os.path.join(scratch, case), {**whole(), **changed})

    line = 4
    path = os.path.join
    two = folder("two refused", {name(3): config(3, wrong_at=LINES - 1), name(6): config(6, wrong_at=0)})
    first = folder("the first refused", {name(0): config(0, wrong_at=LINES - 1), name(8): config(8, wrong_at=0)})
    last = folder("the last refused", {name(8): config(8, wrong_at=LINES - 1)})
    taken = folder("a hostname twice before a refusal", {name(4): config(4, host="R1"), name(5): config(5, wrong_at=0)})
    behind = folder("a refusal before a hostname that stands twice", {name(4): config(4, wrong_at=LINES - 1), name(5): config(5, host="R1")})
    long = "!" * 16_777_217
    too_long = folder("a refusal before a file that is too long", {name(4): config(4, wrong_at=LINES - 1), name(5): long})
    before = folder("a file that is too long before a refusal", {name(4): long, name(5): config(5, wrong_at=0)})
    half = "!" * 16_777_000 + "\n"
    full = folder("a folder that is too long after a refusal", {name(0): config(0, wrong_at=0), **{name(i): half for i in range(1, 6)}})
    return [
        ("several files", folder("several files", {}), None),
        ("two refused", two, f"refused {path(two, name(3))} line {LINES + line - 1} BadWord 300.0.0.0"),
        ("the first refused", first, f"refused {path(first, name(0))} line {LINES + line - 1} BadWord 300.0.0.0"),
        ("the last refused", last, f"refused {path(last, name(8))} line {LINES + line - 1} BadWord 300.0.0.0"),
        ("a hostname twice before a refusal", taken, f"refused {path(taken, name(4))} hostname taken by {path(taken, name(1))}"),
        ("a refusal before a hostname that stands twice", behind, f"refused {path(behind, name(4))} line {LINES + line - 1} BadWord 300.0.0.0"),
        ("a refusal before a file that is too long", too_long, f"refused {path(too_long, name(4))} line {LINES + line - 1} BadWord 300.0.0.0"),
        ("a file that is too long before a refusal", before, f"too long {path(before, name(4))}"),
        ("a folder that is too long after a refusal", full, f"refused {path(full, name(0))} line {line} BadWord 300.0.0.0"),
    ]


def main():
    program = sys.argv[1]
    passed, failed = 0, 0
    with tempfile.TemporaryDirectory(prefix="diqenyu-test-") as scratch:
        links = os.path.join(scratch, "links")
        with open(links, "w", encoding="ascii") as out:
            out.write("ingress R0 Ethernet0\n")
        for case, folder, wanted in cases(scratch):
            for workers in WORKERS:
                run = subprocess.run([program, "compare", folder, folder, links, "--workers", workers], capture_output=True, check=False)
                told = run.stderr.decode().strip()
                if wanted is None:
                    right = run.returncode == 0 and not told
                else:
                    right = run.returncode != 0 and told == wanted and not run.stdout
                passed, failed = passed + right, failed + (not right)
                if not right:
                    print(f"FAILED {case}, by {workers} workers: status {run.returncode}, told {told!r}, wanted {wanted!r}")
    print(f"{passed} passed, {failed} failed")
    return 1 if failed else 0


if __name__ == "__main__":
    sys.exit(main())
