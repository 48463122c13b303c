"""The words of the command lines, and how a program ends."""
from dataclasses import dataclass
from typing import Optional

from .faults import Fault, Faults, Usage
from .told import print_lines

PREPARE_USAGE = """usage:
  prepare CONFIGS OUT [--routes FOLDER] [--vrf NAME] [--keep-static] [--active FILE] [--waivers FILE]
          [--as-written] [--check]
  prepare --apply TICKETS OLD NEW [--check]"""
COLLECT_USAGE = """usage:
  collect INVENTORY OUT"""


@dataclass
class PrepareWords:
    """What the words of `prepare` ask for. `by_table` names configurations whose static routes are the table's in spite of `keep_static`."""

    configs: str
    out: str
    routes: Optional[str] = None
    vrf: Optional[str] = None
    active: Optional[str] = None
    tickets: Optional[str] = None
    keep_static: bool = False
    check: bool = False
    as_written: bool = False
    waivers: Optional[str] = None
    by_table: frozenset = frozenset()


def split_words(words, with_value, without_value, usage):
    """The positional words, and the options, which stand anywhere before a word `--`, each at most once."""
    positional, options, words = [], {}, list(words)
    while words:
        word = words.pop(0)
        if word == "--":
            positional += words
            break
        if not word.startswith("-"):
            positional.append(word)
            continue
        name, sign, value = word.partition("=")
        if name in options or name not in with_value + without_value or (name in without_value and sign):
            raise Usage(usage)
        if name in with_value and not sign:
            value = words.pop(0) if words else ""
        if name in with_value and (value == "" or value.startswith("-")):
            raise Usage(usage)
        options[name] = value
    if "" in positional:
        raise Usage(usage)
    return positional, options


def prepare_words(words):
    """What the words of `prepare` ask for."""
    with_value, without_value = ("--routes", "--vrf", "--active", "--apply", "--waivers"), ("--keep-static", "--check", "--as-written")
    positional, options = split_words(words, with_value, without_value, PREPARE_USAGE)
    apply = "--apply" in options
    if len(positional) != 2 or apply and set(options) - {"--apply", "--check"} or "--keep-static" in options and "--routes" not in options:
        raise Usage(PREPARE_USAGE)
    return PrepareWords(
        positional[0], positional[1], options.get("--routes"), options.get("--vrf"), options.get("--active"), options.get("--apply"),
        "--keep-static" in options, "--check" in options, "--as-written" in options, options.get("--waivers"),
    )


def end_with(work):
    """Does the work, which gives lines to tell, and gives the exit status: that of the first line where there are faults."""
    try:
        print_lines(work())
    except Fault as fault:
        print_lines([fault.line()] if fault.line() else [])
        return fault.status
    except Faults as several:
        print_lines([fault.line() for fault in several.faults])
        return several.faults[0].status
    return 0


def prepare_main(words):
    """The program `prepare`."""
    def work():
        """The program's work for these words."""
        asked = prepare_words(words)
        if asked.tickets is not None:
            from .tickets import apply
            return apply(asked)
        from .preparation import prepare
        return prepare(asked)
    return end_with(work)


def collect_main(words):
    """The program `collect`."""
    def work():
        """The program's work for these words."""
        positional, _ = split_words(words, (), (), COLLECT_USAGE)
        if len(positional) != 2:
            raise Usage(COLLECT_USAGE)
        from .collecting import collect
        return collect(*positional)
    return end_with(work)
