#!/usr/bin/env python3
"""Texts that are cut or spoiled: the program refuses them with their line, or accepts them, and does nothing else.

    hostile.py PROGRAM [--every N] [--jobs J] [--seconds S]
    hostile.py PROGRAM --large

Each configuration, link table and question file of examples/, or each file of its change window and of its edits where PROGRAM's name begins
with `rollout`, is cut after each of its bytes, has each byte replaced by 0, by
255, by a blank and by a line end, and each of its words doubled. With --every N each Nth of these texts is tried alone
(without it, all: half an hour), and with --seconds S a run that takes longer fails. The last line is 'N passed, M failed'.

With --large the texts are instead of 16,777,216 bytes, the most that a file may have: the longest lines, the most lines and the
most words, in a configuration, a link table and a file of questions. Each has a line with its status, processor seconds and memory.
"""
import multiprocessing
import os
import re
import shutil
import subprocess
import sys
import tempfile
import time

TOP = os.path.join(os.path.dirname(os.path.abspath(__file__)), "..")
REFUSED = re.compile(rb"refused (.+) line ([0-9]+) [A-Z][A-Za-z]*( .*)?\n", re.DOTALL)
# Of a folder of which two files say one name.
TAKEN = re.compile(rb"refused (.+) hostname taken by (.+)\n", re.DOTALL)


def spoiled(text):
    """Each spoiled text, with what was done."""
    for at in range(len(text)):
        yield f"cut at {at}", text[:at]
        for byte in (0, 255, 32, 10):
            if text[at] != byte:
                yield f"byte {at} is {byte}", text[:at] + bytes([byte]) + text[at + 1:]
    for word in re.finditer(rb"\S+", text):
        yield f"word at {word.start()} doubled", text[:word.end()] + b" " + word.group() + text[word.end():]


def words_of(example):
    """The words of the commands that read this example, with the files that each reads."""
    tables = [name for name in ("links", "newlinks") if os.path.exists(f"{example}/{name}")]
    if os.path.isdir(f"{example}/new"):
        yield ["compare", "old", "new", *tables], ["old", "new"], tables
    if os.path.isdir(f"{example}/old"):
        yield ["read", "old"], ["old"], []
    for net in ("net", "new", "old"):
        if os.path.exists(f"{example}/questions") and os.path.isdir(f"{example}/{net}"):
            yield ["ask", net, "links", "questions"], [net], ["links", "questions"]


def rollout_words_of(example):
    """The same of the program `rollout`."""
    for steps in ("steps", "steps-leak"):
        if os.path.exists(f"{example}/{steps}"):
            yield ["rollout", "net", "links", "questions", steps], ["net", "changes"], ["links", "questions", steps]
    if os.path.exists(f"{example}/edits"):
        yield ["edits", "old", "links", "edits"], [], ["edits"]


def sources(example):
    """The folders whose files a case has: the edits are those of a network that stands in another example."""
    return [example] + ([f"{TOP}/examples/list-entry"] if os.path.exists(f"{example}/edits") else [])


def cases(of_rollout):
    for name in sorted(os.listdir(f"{TOP}/examples")):
        example = f"{TOP}/examples/{name}"
        if not os.path.isdir(example):
            continue
        for words, folders, files in (rollout_words_of if of_rollout else words_of)(example):
            paths = list(files)
            for folder in folders:
                paths += [f"{folder}/{file}" for file in sorted(os.listdir(f"{example}/{folder}"))]
            for path in paths:
                yield example, words, path


def judge(program, scratch, words, most):
    """What is wrong with a run, or None."""
    start = time.monotonic()
    try:
        it = subprocess.run([program, *words], cwd=scratch, capture_output=True, timeout=60)
    except subprocess.TimeoutExpired:
        return "no end within a minute"
    seconds = time.monotonic() - start
    return f"{seconds:.1f} seconds" if seconds > most else wrong_end(scratch, it)


def wrong_end(scratch, it):
    """What is wrong with how a run ended, or None. A spoiled path of a step may name what isn't there or can't be read."""
    if it.returncode in (4, 8) and re.fullmatch(rb"(cannot read|not found) .*\n", it.stderr, re.DOTALL) and not it.stdout and it.args[1] == "rollout":
        return None
    if it.returncode not in (0, 1, 3):
        return f"status {it.returncode}: {it.stderr!r}"
    if it.returncode != 3:
        return f"an error line: {it.stderr!r}" if it.stderr else None
    if it.stdout:
        return "an output where the text is refused"
    found = REFUSED.fullmatch(it.stderr)
    if not found:
        return None if TAKEN.fullmatch(it.stderr) else f"no line of a refusal: {it.stderr!r}"
    with open(os.path.join(scratch, os.fsdecode(found[1])), "rb") as file:
        lines = file.read().count(b"\n") + 1
    return f"a line that isn't there: {it.stderr!r}" if int(found[2]) > lines else None


LIMIT = 16777216

# A small network, in which a text takes the place of one file.
SMALL = {
    "net/R1.cfg": b"hostname R1\ninterface E0\n ip address 10.0.0.1 255.255.255.0\n",
    "links": b"ingress R1 E0\n",
    "questions": b"noloop R1 E0\n",
}

# What stands first in a large text, and what then comes again and again, as often as it has room; the last time it is cut.
LARGE = {
    "net/R1.cfg": [
        (b"hostname R1\n", b"\n"),
        (b"hostname R1\n", b"!"),
        (b"hostname R1\n", b"!\n"),
        (b"hostname R1\n", b"x"),
        (b"hostname R1\n", b"x "),
        (b"hostname R1\n", b"x\n"),
        (b"hostname R1\n", b" \r\t"),
        (b"hostname R1\n", b"hostname R1\n"),
        (b"hostname R1\nhostname ", b"R"),
        (b"hostname R1\nhostname R", b" R"),
        (b"hostname R1\ninterface ", b"E"),
        (b"hostname R1\n", b"interface E\n"),
        (b"hostname R1\ninterface E0\n", b" shutdown\n"),
        (b"hostname R1\ninterface E0\n", b" ip address 1.1.1.1 255.0.0.0 secondary\n"),
        (b"hostname R1\ninterface E0\n ip address ", b"1"),
        (b"hostname R1\nbanner motd ^C", b"^"),
        (b"hostname R1\nbanner motd #", b"\n"),
        (b"hostname R1\nip access-list standard a\n", b" permit any\n"),
        (b"hostname R1\nip access-list standard a\n remark ", b"x "),
        (b"hostname R1\nip access-list standard a\n", b" 5 permit any\n"),
        (b"hostname R1\nip access-list extended a\n permit 6 any eq ", b"1 "),
        (b"hostname R1\nip access-list extended a\n permit 6 any any match-any ", b"+syn "),
        (b"hostname R1\nip route 0.0.0.0 0.0.0.0 Null0 ", b"name x "),
        (b"hostname R1\n", b"ip route 0.0.0.0 0.0.0.0 Null0\n"),
        (b"hostname R1\nip route 0.0.0.0 0.0.0.0 ", b"9"),
        (b"", b"\0"),
        (b"", b"\xff"),
    ],
    "links": [
        (b"ingress R1 E0\n", b"\n"),
        (b"ingress R1 E0\n", b"! "),
        (b"ingress R1 E0\n", b"x"),
        (b"", b"ingress R1 E0\n"),
        (b"ingress R1 E0\nlan R1 E1 R1 E2", b" R1 E3"),
        (b"ingress R1 E0\nlan", b" x"),
        (b"ingress R1 E0\np2p R1 ", b"E"),
        (b"", b"\0"),
    ],
    "questions": [
        (b"", b"\n"),
        (b"", b"! "),
        (b"", b"x"),
        (b"noloop R1 E0", b" dst 10.0.0.0/8"),
        (b"noloop R1 E0 dst ", b"*"),
        (b"", b"noloop R1 E0\n"),
        (b"", b"reach R1 E0 to R1 E0 dst 10.0.0.9\n"),
        (b"", b"\0"),
    ],
}

# Numbered lines.
NUMBERED = {
    "net/R1.cfg": [b"interface %x\n", b"ip access-list standard a%x\n", b"ip route 0.0.0.0 0.0.0.0 %d.1.1.1\n"],
    "links": [b"ingress R1 %x\n", b"ingress %x E0\n"],
}


def large():
    """The path, a name and the bytes of each large text."""
    for path, texts in LARGE.items():
        for front, again in texts:
            bytes_left = LIMIT - len(front)
            text = front + again * (bytes_left // len(again)) + again[: bytes_left % len(again)]
            yield path, f"{front!r} and {again!r} again and again", text
    for path, lines in NUMBERED.items():
        for line in lines:
            text = bytearray(b"hostname R1\n" if path.endswith(".cfg") else b"")
            number = 0
            while len(text) + 40 < LIMIT:
                text += line % (number % 224 if b"%d" in line else number)
                number += 1
            yield path, f"{line!r} with each number", bytes(text)


def try_large(program, path, text):
    """What is wrong with the run over a small network in which this text stands at the path; and how it ended."""
    with tempfile.TemporaryDirectory(prefix="hostile") as scratch:
        os.mkdir(f"{scratch}/net")
        for name, bytes_of in {**SMALL, path: text}.items():
            with open(f"{scratch}/{name}", "wb") as it:
                it.write(bytes_of)
        words = ["ask", "net", "links", "questions"]
        timed = ["/usr/bin/time", "-f", "%U s %M KB", "-o", f"{scratch}/time", os.path.abspath(program)]
        it = subprocess.run([*timed, *words], cwd=scratch, capture_output=True)
        with open(f"{scratch}/time") as file:
            took = file.read().split("\n")[-2]
        wrong = wrong_end(scratch, it)
        return wrong, f"status {it.returncode}, {took}, {it.stderr[:100] or it.stdout[-40:]!r}"


def from_the_folder(scratch):
    """Steps name their files from the top: here they name them from this folder."""
    for name in os.listdir(scratch):
        if name.startswith("steps"):
            with open(f"{scratch}/{name}", "rb") as it:
                text = it.read()
            with open(f"{scratch}/{name}", "wb") as it:
                it.write(text.replace(b"examples/rollout/", b""))


def try_case(task):
    program, example, words, path, every, first, most = task
    scratch = tempfile.mkdtemp(prefix="hostile")
    passed, failures, number = 0, [], first
    try:
        for source in sources(example):
            shutil.copytree(source, scratch, dirs_exist_ok=True)
        from_the_folder(scratch)
        with open(f"{scratch}/{path}", "rb") as it:
            text = it.read()
        for what, bad in spoiled(text):
            number += 1
            if number % every:
                continue
            with open(f"{scratch}/{path}", "wb") as it:
                it.write(bad)
            wrong = judge(program, scratch, words, most)
            if wrong is None:
                passed += 1
            else:
                failures.append(f"FAILED {os.path.basename(example)} {' '.join(words)}: {path}, {what}: {wrong}")
    finally:
        shutil.rmtree(scratch, ignore_errors=True)
    return passed, failures


def try_all_large(program):
    passed = failed = 0
    for path, name, text in large():
        wrong, ended = try_large(program, path, text)
        passed += wrong is None
        failed += wrong is not None
        print(f"{path}, {name}: {ended}{'' if wrong is None else f': FAILED: {wrong}'}", flush=True)
    return passed, failed


def main():
    words = sys.argv[1:]
    every, jobs, most = 1, os.cpu_count(), 60.0
    if words[1:] == ["--large"]:
        passed, failed = try_all_large(words[0])
        print(f"{passed} passed, {failed} failed")
        sys.exit(failed > 0 or passed == 0)
    while len(words) > 2:
        *words, option, value = words
        if option == "--every":
            every = int(value)
        elif option == "--jobs":
            jobs = int(value)
        elif option == "--seconds":
            most = float(value)
    program = os.path.abspath(words[0])
    # Each case begins at another text, so that a short run tries other places of each.
    tasks = [(program, *case, every, number * 7, most) for number, case in enumerate(cases(os.path.basename(program).startswith("rollout")))]
    passed = failed = 0
    with multiprocessing.Pool(jobs) as pool:
        for right, failures in pool.imap_unordered(try_case, tasks):
            passed += right
            failed += len(failures)
            for line in failures[:10]:
                print(line)
    print(f"{passed} passed, {failed} failed")
    # A run of nothing shows nothing.
    sys.exit(failed > 0 or passed == 0)


main()
