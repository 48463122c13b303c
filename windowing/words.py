"""The words of the command line: a table of options, from which the usage is made."""
from __future__ import annotations

from dataclasses import dataclass
from typing import Iterable, NamedTuple


class Option(NamedTuple):
    """An option, the name of its value (None for a switch), and what it does, for the usage."""

    name: str
    value: str | None
    help: str


OPTIONS = (
    Option("--newlinks", "FILE", "the link table of the new network, if the change moves cables"),
    Option("--questions", "FILE", "what must hold before the change and after it"),
    Option("--page", "FILE", "write the page on which you decide, for a browser"),
    Option("--title", "TEXT", "the name of the change"),
    Option("--questions-new", "FILE", "what must hold only after the change"),
    Option("--expect", "FILE", "what the change should do; anything else is unexpected"),
    Option("--write-expect", "FILE", "write what the change does as such a file, to be approved"),
    Option("--sources", "FILE", "the sources that can be at ingresses, if you know better"),
    Option("--foreign", None, "list packets whose source can't be at their ingress one by one"),
    Option("--all-edges", None, "take each interface where packets can come in as an ingress"),
    Option("--accept", "FILE", "known warnings, which don't change the status"),
    Option("--fail-on", "CAUSES", "what gives a status other than 0, with commas, or `none`"),
    Option("--json", "FILE", "write everything as a document"),
    Option("--sarif", "FILE", "write warnings and lines without effect, for a code review system"),
    Option("--junit", "FILE", "write questions and expectations as test cases"),
    Option("--no-lines", None, "don't look at each changed line by itself"),
    Option("--finer", None, "look at each changed line by itself, however many there are"),
    Option("--tickets", "FOLDER", "instead of NEW: the lines that you will paste, R1.txt for R1.cfg"),
    Option("--routes", "FOLDER", "the output of `show ip route`, R1.txt for R1.cfg, instead of routing protocols"),
    Option("--vrf", "NAME", "only the interfaces and routes of this VRF"),
    Option("--active", "FILE", "which device is active for each group of HSRP, VRRP and GLBP"),
    Option("--waivers", "FILE", "refused lines that may be left out, each with its reason"),
    Option("--as-written", None, "read default routes by next hop alone and subinterfaces as they are written"),
    Option("--keep", "FOLDER", "keep the prepared files, and the table of changed lines"),
    Option("--git", "REPO", "CONFIGS at two revisions are old and new; without REV2 new is the working tree"),
)
# Options that name a file or a folder that is read, so that with --git it is one of the later revision.
READ_FILES = ("newlinks", "questions", "waivers", "active", "expect", "sources", "accept", "questions_new")


def usage_of(options: Iterable[Option]) -> str:
    """The usage, with a line for each option."""
    lines = ["usage:", "  window OLD NEW [LINKS] [OPTION ...]", "  window OLD [LINKS] --tickets FOLDER [OPTION ...]",
             "  window --git REPO REV1 [REV2] CONFIGS LINKS [OPTION ...]", "  window --help | --version", "options:"]
    lines += ["  %-21s %s" % (option.name + (" " + option.value if option.value else ""), option.help) for option in options]
    return "".join(line + "\n" for line in lines)


USAGE = usage_of(OPTIONS)


class Usage(Exception):
    """The words are outside the usage."""


@dataclass
class Words:
    """What the words ask for; None for an option that isn't there."""

    old: str
    new: str
    links: str  # "" where the table is to be found in the configurations
    newlinks: str | None = None
    questions: str | None = None
    page: str | None = None
    title: str | None = None
    questions_new: str | None = None
    expect: str | None = None
    write_expect: str | None = None
    sources: str | None = None
    foreign: bool = False
    all_edges: bool = False
    accept: str | None = None
    fail_on: str | None = None
    json: str | None = None
    sarif: str | None = None
    junit: str | None = None
    no_lines: bool = False
    finer: bool = False
    tickets: str | None = None
    routes: str | None = None
    vrf: str | None = None
    active: str | None = None
    waivers: str | None = None
    as_written: bool = False
    keep: str | None = None
    git: str | None = None
    revisions: tuple[str, ...] = ()

    def tables(self) -> list[str]:
        """The link tables, one for both networks or one for each."""
        return [self.links] + ([self.newlinks] if self.newlinks else [])


def value_of(option: Option, given: str, words: list[str]) -> str | bool:
    """The value of an option, which stands behind a sign in the option's own word or is the next of `words`; True for a switch."""
    name, sign, value = given.partition("=")
    if option.value is None:
        if sign:
            raise Usage
        return True
    if not sign:
        value = words.pop(0) if words else ""
    if value == "" or value.startswith("-") and name != "--title":
        raise Usage
    return value


def read_words(given: list[str]) -> Words:
    """The positional words and the options, which stand anywhere before a word `--`, as two words or as one, each at most once."""
    known = {option.name: option for option in OPTIONS}
    positional: list[str] = []
    options: dict[str, str | bool] = {}
    words = list(given)
    while words:
        word = words.pop(0)
        if word == "--":
            positional += words
            break
        if not word.startswith("-"):
            positional.append(word)
            continue
        name = word.partition("=")[0]
        if name not in known or name in options:
            raise Usage
        options[name] = value_of(known[name], word, words)
    values = {name[2:].replace("-", "_"): value for name, value in options.items()}
    return Words(**places_of(positional, options), **values)  # type: ignore[arg-type]


def places_of(positional: list[str], options: Iterable[str]) -> dict[str, object]:
    """What the positional words name: with --git one or two revisions, the folder and the table; with --tickets the folder and perhaps the
    table; else both folders and perhaps the table."""
    revisions: list[str] = []
    if "--git" in options:
        revisions, positional = positional[:-2], positional[-2:]
    if "" in positional + revisions or "--git" in options and len(revisions) not in (1, 2) or any(one.startswith("-") for one in revisions):
        raise Usage
    if "--git" in options and len(positional) != 2:
        raise Usage
    if "--git" in options or "--tickets" in options:
        positional = positional[:1] + positional
    if len(positional) == 2 and "--newlinks" not in options:
        positional.append("")
    if len(positional) != 3:
        raise Usage
    return dict(zip(("old", "new", "links"), positional), revisions=tuple(revisions))
