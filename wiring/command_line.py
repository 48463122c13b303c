"""The words of the command line, and what the program does."""
from __future__ import annotations

import os
import sys

from launching.programs import version
from preparing.command_line import split_words
from preparing.faults import CannotWrite, Fault, Faults, Usage
from preparing.told import print_lines

from .checking import check_lines
from .neighbors import Seen, read_neighbors
from .network import read_network
from .segments import find_wiring
from .table import read_table, table_lines

USAGE = """usage:
  wire NET [--neighbors FOLDER] [--active FILE]
  wire NET --check LINKS [--neighbors FOLDER]
  wire --help | --version"""


def print_table(lines: list[str]) -> None:
    """Writes lines to the output."""
    try:
        sys.stdout.buffer.write("".join(line + "\n" for line in lines).encode("utf-8", "surrogateescape"))
        sys.stdout.buffer.flush()
    except OSError:
        # (what is left in the buffer is not to be tried again at the end)
        os.dup2(os.open(os.devnull, os.O_WRONLY), sys.stdout.fileno())
        raise CannotWrite("the output", "nobody takes it") from None


def write_active(path: str, seen: Seen) -> None:
    """Writes who is active for each group, as `prepare --active` reads it."""
    try:
        with open(path, "x", encoding="utf-8", errors="surrogateescape") as file:
            file.write("".join(line + "\n" for line in sorted(seen.active)))
    except OSError as error:
        raise CannotWrite(path, error.strerror or str(error)) from None


def work(words: list[str]) -> int:
    """Does what the words ask; gives the status."""
    if words in (["--help"], ["--version"]):
        print_table(USAGE.splitlines() if words == ["--help"] else ["wire of Diqenyu %s, schema 1" % version()])
        return 0
    positional, options = split_words(words, ("--neighbors", "--check", "--active"), (), USAGE)
    if len(positional) != 1 or "--active" in options and ("--check" in options or "--neighbors" not in options):
        raise Usage(USAGE)
    folder = positional[0]
    devices = read_network(folder)
    seen = read_neighbors(options["--neighbors"], devices) if "--neighbors" in options else Seen()
    wiring = find_wiring(devices, seen)
    if "--check" in options:
        told = check_lines(options["--check"], read_table(options["--check"]), wiring, devices, seen)
        print_table(told + ["differences %d" % len(told)])
        return 1 if told else 0
    if "--active" in options:
        write_active(options["--active"], seen)
    print_table(table_lines(wiring, devices, folder))
    print_lines(wiring.contradictions)
    return 1 if wiring.contradictions else 0


def wire_main(words: list[str]) -> int:
    """The program `wire`: its status is 0 where a table is written or agrees, 1 where something contradicts or differs."""
    try:
        return work(words)
    except Fault as fault:
        print_lines([fault.line()])
        return fault.status
    except Faults as several:
        print_lines([fault.line() for fault in several.faults])
        return several.faults[0].status
