#!/usr/bin/env python3
"""Tries the pages of `view`: that they show what their documents have, that hostile names stay texts, and that they ask for nothing.

usage: view_pages.py [--keep | --pictures FOLDER]

With --keep it writes the pages of the examples' documents to tests/kept-pages, which the tests compare with; with --pictures pictures of
pages, for docs/img. Where Jinja2, Chromium or Graphviz isn't there a line says what isn't tried. DIQENYU_VIEW and DIQENYU_REVIEW name other
programs than those of the launchers.
"""
from __future__ import annotations

import os
import re
import shutil
import subprocess
import sys
import tempfile
import unittest
from functools import lru_cache
from typing import Any, Callable, NamedTuple

TOP = os.path.dirname(os.path.dirname(os.path.abspath(__file__)))
sys.dont_write_bytecode = True
sys.path[:0] = [TOP, os.path.join(TOP, "tests")]

import browser  # noqa: E402
from window_page import HOSTILE, HOSTILE_SEEN, Reader  # noqa: E402

from showing import answered, asked, audited, explained, links, rendering, reported, traced  # noqa: E402
from showing.documents import document_of, report_document  # noqa: E402
from showing.page import File  # noqa: E402
from showing.texts import shown  # noqa: E402
from windowing.programs import command_of  # noqa: E402

KEPT = os.path.join(TOP, "tests", "kept-pages")
CAMPUS, EDGE = "examples/campus", "examples/campus-edge-down"
SIDES = (CAMPUS + "/old", CAMPUS + "/new", CAMPUS + "/links")
PACKET = ("BRANCH", "Vlan40", "10.30.20.1,10.40.0.5,17,53,5000,0")
FILES = [File("a file", "its name", "12 bytes,", "abc")]
PROGRAMS = [File("view", "", "7 bytes,", "def")]


# ---- pages of the examples


def wiring(path: str) -> links.Wiring:
    return links.wiring_of(links.content_of(os.path.join(TOP, path)))


def report_page(path: str, table: str = "", title: str = "") -> bytes:
    return reported.page_of(report_document(path), reported.Beside(title, "a command", FILES, PROGRAMS, wiring(table) if table else None))


def why_page() -> bytes:
    words = [*SIDES, CAMPUS + "/expected"]
    told = document_of(["--why-all", "--json", *words])
    return reported.page_of(report_document(words[3]), reported.Beside(
        "", "a command", FILES, PROGRAMS, wiring(words[2]), explained.explained_of(told), (told["groups"], told["explained"])))


def traces_page() -> bytes:
    document = document_of(["--traces", "--json", *SIDES, *PACKET])
    return traced.page_of(document, traced.Beside("a command", FILES, PROGRAMS, wiring(SIDES[2])))


def audit_page() -> bytes:
    document = document_of(["--audit", "--json", "--rows", "examples/audit/findings", "examples/audit/net"])
    return audited.page_of(document, audited.Beside("a command", FILES, PROGRAMS))


def answers_page(*names: str) -> bytes:
    document = document_of(["--answers", "--json", *(EDGE + "/" + name for name in names)])
    return answered.page_of(document, answered.Beside("a command", FILES, PROGRAMS))


PAGES: dict[str, Callable[[], bytes]] = {name: lru_cache(maxsize=None)(page) for name, page in {
    "report": lambda: report_page(CAMPUS + "/expected", CAMPUS + "/links", "old to new"), "why": why_page, "traces": traces_page,
    "kinds": lambda: report_page("tests/view-report"), "edge-down": lambda: report_page(EDGE + "/expected"), "audit": audit_page,
    "answers": lambda: answers_page("questions", "answers-old", "answers-new"), "one-answer": lambda: answers_page("questions", "answers-new")}.items()}


def without_places(page: str) -> str:
    """A page without the numbers of its picture, which are Graphviz's."""
    return re.sub(r"<svg.*?</svg>", lambda one: re.sub(r"-?[0-9]+\.[0-9]+|viewBox=\"[^\"]*\"", "#", one[0]), page, flags=re.DOTALL)


# ---- counts that a text says


class Counts(NamedTuple):
    """The counts of a report's summary, as `view` writes it for a terminal, and the groups and rows of each ingress."""

    ingresses: int
    kinds: dict[str, int]
    places: dict[str, dict[str, int]]
    untouched: int
    outcomes: dict[tuple[str, str], tuple[int, int]]


def counts_in(text: str) -> Counts:
    """The counts of a summary: that of the examples is derived by hand."""
    head, *lines = text.split("\n\n")[0].split("\n")
    ingresses = int(head.rpartition(" ")[2])
    found = Counts(ingresses, {}, {}, 0, {})
    for line in lines:
        outcome = re.fullmatch(r"  (old|new) (.*): groups ([0-9]+), rows ([0-9]+)", line)
        place = re.fullmatch(r"  ingress (.*): (.*)", line)
        untouched = re.fullmatch(r"  no.* (?:at|any of) ([0-9]+)(?: of [0-9]+)? ingresses", line)
        if outcome:
            found.outcomes[outcome[1], outcome[2]] = int(outcome[3]), int(outcome[4])
        elif place:
            found.places[place[1]] = {name: int(number) for name, _, number in (part.rpartition(" ") for part in place[2].split(", "))}
        elif untouched:
            found = found._replace(untouched=int(untouched[1]))
        else:
            kind, _, number = line.strip().rpartition(" ")
            found.kinds[kind] = int(number)
    return found


def texts(page: str, pattern: str) -> list[str]:
    """The texts of all places of a page that match, each without markup."""
    return [" ".join(re.sub("<[^>]*>", " ", one).split()) for one in re.findall(pattern, page, re.DOTALL)]


def number(text: str) -> int:
    return int(text.replace(",", ""))


def counted(count: int, one: str, several: str = "s") -> str:
    return "%s %s" % (format(count, ","), one if count == 1 else one + several)


class Line(NamedTuple):
    """A group's line on a page: the section that it stands in, its ingress and its rows."""

    section: str
    place: str
    rows: int


def lines_of(page: str) -> list[Line]:
    """The groups of a page."""
    found = []
    for section, inside in re.findall(r'<div class="grp[^"]*" id="([a-z-]*)">(.*?)<p class="note rest"', page, re.DOTALL):
        places = texts(inside, r"<dt>at</dt><dd>(.*?)</dd>")
        rows = texts(inside, r'<span class="rows">(.*?)</span>')
        found += [Line(section.replace("-", " "), place, number(count.split(" ")[0])) for place, count in zip(places, rows)]
    return found


def wrong_counts(page: str, counts: Counts) -> list[str]:
    """What a page of a report counts otherwise than a summary."""
    lines, wrong = lines_of(page), []
    kinds, rows = list(counts.kinds), sum(some["rows"] for some in counts.places.values())
    groups = counted(sum(counts.kinds.values()), "group") + " of packets in " + counted(rows, "row")
    ingresses = counted(counts.ingresses, "ingress", "es")

    def same(name: str, found: object, wanted: object) -> None:
        if found != wanted:
            wrong.append("%s: %s, and not %s" % (name, found, wanted))

    chips = texts(page, r'<li><a class="chip[^>]*>(.*?)</a>')
    same("chips", {one.split(" ", 2)[2]: number(one.split(" ")[1]) for one in chips}, counts.kinds)
    by_kind = {kind: sum(line.rows for line in lines if line.section == kind) for kind in kinds}
    same("headings", [re.sub(" packets that .*, ", ": ", one) for one in texts(page, "<h3>(.*?)</h3>")],
         ["%s %s: %s" % (kind, format(count, ","), counted(by_kind[kind], "row")) for kind, count in counts.kinds.items()])
    matrix = re.findall(r'<tr><th scope="row" title="([^"]*)"[^>]*>[^<]*</th>(.*?)</tr>', page)
    same("matrix", {place: [number(cell or "0") for cell in re.findall(r'<td class="num">([0-9,]*)</td>', cells)] for place, cells in matrix},
         {place: [some.get(kind, 0) for kind in kinds] + [some["rows"]] for place, some in counts.places.items()})
    same("outcomes", outcomes_in(page), counts.outcomes)
    same("crumb", texts(page, r'<p class="crumb">.*?<span>(.*?)</span>'), ["%s, %s" % (ingresses, groups)])
    same("what changes", texts(page, r'<h2 id="h-g">.*?<small>(.*?)</small>'), [groups])
    same("lines", {kind: sum(line.section == kind for line in lines) for kind in kinds}, counts.kinds)
    same("rows", {place: sum(line.rows for line in lines if line.place == place) for place in counts.places},
         {place: some["rows"] for place, some in counts.places.items()})
    same("numbers", texts(page, r'<span class="nr">(.*?)</span>'), [str(at + 1) for at in range(len(lines))])
    same("untouched", texts(page, r'<details class="fold" id="untouched"><summary>(.*?)</summary>'),
         ["Nothing changes at %d of %s" % (counts.untouched, ingresses)] if counts.untouched else [])
    same("listed as untouched", "".join(re.findall('id="untouched">.*?</details>', page)).count("<li>"), counts.untouched)
    return wrong + wrong_verdict(texts(page, "<h1>(.*?)</h1>")[0], counts)


def outcomes_in(page: str) -> dict[tuple[str, str], tuple[int, int]]:
    """The table of outcomes: by version and text the groups and rows."""
    found = {}
    for text, cells in re.findall(r"<tr><td><code>([^<]*)</code></td>(.*?)</tr>", page):
        numbers = re.findall(r'<td(?: class="num")?>([0-9,]*)</td>', cells)
        for version, some in (("old", numbers[:2]), ("new", numbers[2:])):
            if some != ["", ""]:
                found[version, text] = number(some[0]), number(some[1])
    return found


def wrong_verdict(told: str, counts: Counts) -> list[str]:
    """What the verdict of a report counts otherwise."""
    ingresses = counted(counts.ingresses, "ingress", "es")
    wanted = "\u2713 No packet is treated differently at any of %s." % ingresses
    if counts.kinds:
        sign = "\u2715" if {"loops", "closes"} & set(counts.kinds) else "?"
        kinds = ", ".join("%s %d" % one for one in counts.kinds.items())
        wanted = "%s To be decided: packets change at %d of %s (%s)." % (sign, counts.ingresses - counts.untouched, ingresses, kinds)
    return [] if told == wanted else ["verdict: %s, and not %s" % (told, wanted)]


class Shows(unittest.TestCase):
    """Pages show what their documents have."""

    def test_counts_of_examples(self) -> None:
        """Those of summaries that are derived by hand."""
        tried = 0
        for name in sorted(os.listdir(os.path.join(TOP, "examples"))):
            path = os.path.join("examples", name)
            if os.path.exists(os.path.join(TOP, path, "view")):
                with open(os.path.join(TOP, path, "view"), encoding="utf-8") as stream:
                    counts = counts_in(stream.read())
                self.assertEqual(wrong_counts(report_page(path + "/expected").decode("utf-8"), counts), [], name)
                tried += 1
        self.assertGreater(tried, 0)
        with open(os.path.join(TOP, "tests", "view-shown"), encoding="utf-8") as stream:
            self.assertEqual(wrong_counts(report_page("tests/view-report").decode("utf-8"), counts_in(stream.read())), [])

    def test_spoiled_templates(self) -> None:
        """A template that shows another count than the document's is told."""
        with open(os.path.join(TOP, "tests", "view-shown"), encoding="utf-8") as stream:
            counts = counts_in(stream.read())
        document = report_document("tests/view-report")
        for old, new in SPOILED:
            with spoiled_templates(self, "report.html.j2", old, new):
                page = reported.page_of(document, reported.Beside()).decode("utf-8")
            self.assertNotEqual(wrong_counts(page, counts), [], old)

    def test_kept(self) -> None:
        """Pages of the examples' documents are those that were looked at."""
        if not shutil.which("dot"):
            self.skipTest("Graphviz isn't there")
        for name, page in PAGES.items():
            with open(os.path.join(KEPT, name + ".html"), encoding="utf-8") as stream:
                kept = stream.read()
            if without_places(page().decode("utf-8")) != without_places(kept):
                self.fail("the page %s isn't the kept one: look at it, and keep it with tests/view_pages.py --keep" % name)

    def test_answers(self) -> None:
        """By hand: of eight questions the last one fails now, at line 13."""
        page = PAGES["answers"]().decode("utf-8")
        self.assertEqual(texts(page, "<h1>(.*?)</h1>"), ["\u2715 1 question fails now that held before."])
        self.assertEqual(texts(page, r'<li><a class="chip[^>]*>(.*?)</a>'), ["\u2715 1 fail now", "\u2713 7 hold in both"])
        self.assertEqual(texts(page, r'<section id="fail-now">.*?<tr id="q8"><td>(.*?)</td>'),
                         ["noloop BRANCH Vlan40 dst 10.128.0.0/9 8, line 13 packet dst 10.128.0.0 src 10.40.0.0 proto 0"])
        self.assertEqual(page.count('<tr id="q'), 8)
        self.assertEqual((page.count(">✓ holds<"), page.count(">✕ fails<")), (15, 1))
        page = PAGES["one-answer"]().decode("utf-8")
        self.assertEqual(texts(page, "<h1>(.*?)</h1>"), ["\u2715 1 question fails of 8."])

    def test_audit(self) -> None:
        """By hand: three dead entries and a redundant one in four lists, and two closing denials."""
        page = PAGES["audit"]().decode("utf-8")
        self.assertEqual(texts(page, "<h1>(.*?)</h1>"), ["? 4 entries could go, in 4 of 4 lists: 3 dead, 1 redundant."])
        self.assertEqual(texts(page, r'<a class="chip[^>]*>(.*?)</a>'), ["3 dead", "1 redundant", "2 closing denials"])
        self.assertEqual(texts(page, r'<div class="entry c-\w+"><p>(.*?)</p>'), [
            "R1.cfg:3 access-list 101 permit tcp any host 10.0.1.5 eq www dead", "R2.cfg:3 permit ip any any redundant",
            "R2.cfg:5 permit tcp any any gt 65535 dead", "R3.cfg:5 deny ip 10.0.0.0 0.0.0.255 any dead"])
        self.assertIn("by line 3, 1 row: permit ip 10.0.0.0 0.0.0.127 any Headers 1 dst * src 10.0.0.0/25 proto *", " ".join(texts(page, "<li>(.*?)</li>")))
        self.assertEqual(texts(page, '<h2 id="h-c">(.*?)</h2>'), ["Closing denials 2"])

    def test_traces(self) -> None:
        """By hand: both go by CORE2 to DC1, which has no route today, and as planned the address."""
        page = PAGES["traces"]().decode("utf-8")
        self.assertEqual(texts(page, "<h1>(.*?)</h1>"), ["? The networks part at DC1: drop today, local DC1 GigabitEthernet0/3 as planned."])
        self.assertEqual(texts(page, "<mark>(.*?)</mark>"), ["discard", "local DC1 GigabitEthernet0/3"])
        self.assertIn("same in both: BRANCH Vl40 \u2192 CORE2 Gi0/5", texts(page, '<tr class="same">(.*?)</tr>'))
        if shutil.which("dot"):
            self.assertEqual(len(re.findall('<path class="both"', page)), 2)

    def test_explanations(self) -> None:
        """Each group of the example has its packet and its hops."""
        page = PAGES["why"]().decode("utf-8")
        self.assertEqual(texts(page, "<dt>example</dt><dd>(.*?)</dd>")[0], "dst 10.30.20.0 src 10.11.1.0 proto 6 dport 443 sport 0 flags 0")
        self.assertEqual(page.count('<table class="hops">'), 4)
        self.assertIn("ACC1 Vl11 list USERS in denies at 30 dropped ACC1 Vl11 list USERS in permits at 15 \u2192 Gi0/0, next hop 10.10.0.1",
                      texts(page, '<tr class="part">(.*?)</tr>'))


# Of the report's template: a place that shows a count, and the same with another one.
SPOILED = [
    ('<b>{{ "{:,}".format(section.groups) }}</b>', '<b>{{ "{:,}".format(section.groups - 1) }}</b>'),
    ('<span class="n">{{ "{:,}".format(section.groups) }}</span>', '<span class="n">{{ "{:,}".format(section.lines|length + 1) }}</span>'),
    ('counted(section.rows, "row", "rows")', 'counted(section.rows + 1, "row", "rows")'),
    ("{{ words }}</h1>", '{{ words|replace("2 of 3", "3 of 3") }}</h1>'),
    ('counted(ingresses, "ingress", "ingresses") }}, {{', 'counted(ingresses + 1, "ingress", "ingresses") }}, {{'),
    ('<small>{{ counted(groups, "group", "groups") }} of packets', '<small>{{ counted(groups - 1, "group", "groups") }} of packets'),
    ('of packets in {{ counted(rows, "row", "rows") }}</small>', 'of packets in {{ counted(groups, "row", "rows") }}</small>'),
    ('{{ counted(one.rows, "row", "rows") }}</span></summary>', '{{ counted(one.rows + 1, "row", "rows") }}</span></summary>'),
    ("{% for one in section.lines %}", "{% for one in section.lines[1:] %}"),
    ("{% if count %}{{ \"{:,}\".format(count) }}{% endif %}", "{% if count %}{{ \"{:,}\".format(count + 1) }}{% endif %}"),
    ('<td class="num">{{ "{:,}".format(number) }}</td>', '<td class="num">{{ "{:,}".format(number - 1) }}</td>'),
    ('{{ "{:,}".format(pair[0]) }}', '{{ "{:,}".format(pair[1]) }}'), ('{{ "{:,}".format(pair[1]) }}', '{{ "{:,}".format(pair[0]) }}'),
    ("{{ both(one.old) }}{{ both(one.new) }}", "{{ both(one.new) }}{{ both(one.old) }}"),
    ('{{ "{:,}".format(untouched_count) }}', '{{ "{:,}".format(untouched_count + 1) }}'),
    ("{% for place in untouched %}", "{% for place in untouched[1:] %}"),
    ('<span class="nr">{{ one.number }}</span>', '<span class="nr">{{ one.number + 1 }}</span>')]


class spoiled_templates:
    """Templates of which one has another text in a place."""

    def __init__(self, case: unittest.TestCase, name: str, old: str, new: str) -> None:
        self.folder, self.own = tempfile.mkdtemp(prefix="diqenyu-templates-"), rendering.TEMPLATES
        shutil.copytree(self.own, self.folder, dirs_exist_ok=True)
        path = os.path.join(self.folder, name)
        with open(path, encoding="utf-8") as stream:
            text = stream.read()
        case.assertIn(old, text)
        with open(path, "w", encoding="utf-8") as stream:
            stream.write(text.replace(old, new))

    def __enter__(self) -> None:
        rendering.TEMPLATES = self.folder

    def __exit__(self, *_: object) -> None:
        rendering.TEMPLATES = self.own
        shutil.rmtree(self.folder)


# ---- words, link tables and statuses

# Words, and what they ask: the command, the form, the operands, the title, whether rows are asked for; None where they are outside the usage.
WORDS: list[tuple[str, tuple[str, str, tuple[str, ...], str, bool] | None]] = [
    ("--html R", ("report", "--html", ("R",), "", False)), ("--html R L", ("report", "--html", ("R", "L"), "", False)),
    ("--html --title T R L", ("report", "--html", ("R", "L"), "T", False)), ("--html --title --html R", ("report", "--html", ("R",), "--html", False)),
    ("--csv R", ("report", "--csv", ("R",), "", False)), ("--csv R L", None), ("--csv --title T R", None), ("--html", None), ("--html R L M", None),
    ("--html -R", None), ("--html --title T", None), ("--json R", None), ("R", None), ("", None), ("--junit R", None),
    ("--audit --html F N", ("--audit", "--html", ("F", "N"), "", False)), ("--audit --csv --rows F N", ("--audit", "--csv", ("F", "N"), "", True)),
    ("--audit --rows --html F N", None), ("--audit --html F", None), ("--audit --junit F N", None), ("--audit --json F N", None),
    ("--answers --junit Q A", ("--answers", "--junit", ("Q", "A"), "", False)), ("--answers --csv Q B A", ("--answers", "--csv", ("Q", "B", "A"), "", False)),
    ("--answers --html Q", None), ("--answers --html Q B A C", None),
    ("--traces --html O N L D I H", ("--traces", "--html", ("O", "N", "L", "D", "I", "H"), "", False)),
    ("--traces --csv O N L D I H", None), ("--traces --html O N L D I", None), ("--why --html O N L R", ("--why", "--html", ("O", "N", "L", "R"), "", False)),
    ("--why-all --html O N L R", ("--why-all", "--html", ("O", "N", "L", "R"), "", False)), ("--why --csv O N L R", None), ("--why --html O N L", None)]
# Link tables that are refused, as the rules of docs/REFUSALS.md have it; the proved `review` says the same of each.
TABLES = [
    (b"", "0 NoIngress"), (b"! ingress R1 E0\n", "0 NoIngress"), (b"p2p R1 E0 R2 E0\n", "0 NoIngress"), (b"wire R1 E0\n", "1 BadWord wire"),
    (b"ingress R1 E0\np2p R1 E1 R2\n", "2 MissingWord"), (b"p2p R1 E1 R2 E1 R3 E0\n", "1 BadWord R3"), (b"p2p R1 E1\n", "1 MissingWord"),
    (b"ingress\n", "1 MissingWord"), (b"ingress R1\n", "1 MissingWord"), (b"ingress R1 E0 x\n", "1 BadWord x"),
    (b"lan R1 E1\n", "1 MissingWord"), (b"lan R1 E1 R2 E1 R1 E1\n", "1 EndTaken E1"), (b"ingress R1 E0\n\n \t\r\ningress R1 E0\n", "4 EndTaken E0"),
    (b"p2p R1 E1 R2 E1\nlan R3 E0 R2 E1\n", "2 EndTaken E1"), (b"ingress R1 E0\nP2P R1 E1 R2 E1\n", "2 BadWord P2P"),
    (b"w" * 70 + b" R1 E0\n", "1 BadWord " + "w" * 64)]


class Words(unittest.TestCase):
    """Words, link tables, and how runs end."""

    def setUp(self) -> None:
        self.scratch = tempfile.mkdtemp(prefix="diqenyu-test-")
        self.addCleanup(shutil.rmtree, self.scratch)

    def path(self, name: str, content: bytes) -> str:
        path = os.path.join(self.scratch, name)
        with open(path, "wb") as stream:
            stream.write(content)
        return path

    def run_view(self, *words: str, **more: Any) -> tuple[int, bytes, bytes]:
        done = subprocess.run([os.path.join(TOP, "view"), *words], cwd=TOP, stdin=subprocess.DEVNULL, stderr=subprocess.PIPE,
                              **{"stdout": subprocess.PIPE, **more})
        return done.returncode, done.stdout, done.stderr

    def test_words(self) -> None:
        for words, wanted in WORDS:
            try:
                found = tuple(asked.asked_of(words.split()))
            except asked.Usage:
                found = ()
            self.assertEqual(found, wanted or (), words)

    def test_link_tables(self) -> None:
        good = wiring(CAMPUS + "/links")
        self.assertEqual(len(good.devices), 11)
        self.assertEqual(links.wiring_of(b"lan R1 E0  R2\tE0 R3 E0\r\n!x\n p2p R1 E1 R2 E1\ningress R1 E0\ningress R4 E1"), links.Wiring(
            [(("R1 E0", "R2 E0", "R3 E0"), True), (("R1 E1", "R2 E1"), False)], ["R1", "R2", "R3", "R4"]))
        for content, wanted in TABLES:
            path = self.path("links", content)
            with self.assertRaises(links.Refused, msg=content) as caught:
                links.wiring_of(content)
            refused = caught.exception
            told = "%d %s %s" % (refused.line, refused.kind, refused.word.decode())
            self.assertEqual(told.rstrip(), wanted)
            done = subprocess.run([*command_of("review"), "trace", os.path.join(TOP, CAMPUS, "new"), path, "R1", "E0", "1.2.3.4,1.2.3.4,0,0,0,0"],
                                  stdout=subprocess.PIPE, stderr=subprocess.PIPE)
            self.assertEqual((done.returncode, done.stderr.decode()), (3, "refused %s line %s\n" % (path, wanted)))

    def test_ends(self) -> None:
        """Each run that gives nothing says why in one line, with the status of the proved programs."""
        report, table = CAMPUS + "/expected", self.path("links", b"ingress R1\n")
        spoiled = self.path("report", b"ingress R1 E0 rows 1\naffected 0\n")
        usage = asked.USAGE.encode()
        for words, status, told in [
                (("--html", report, table), 3, b"refused %s line 1 MissingWord\n" % table.encode()),
                (("--html", spoiled), 3, b"refused %s line 2\n" % spoiled.encode()), (("--csv", spoiled), 3, b"refused %s line 2\n" % spoiled.encode()),
                (("--html", "nowhere", table), 8, b"not found nowhere\n"), (("--html", report, "nowhere"), 8, b"not found nowhere\n"),
                (("--html", report, self.scratch), 4, b"cannot read %s\n" % self.scratch.encode()),
                (("--answers", "--junit", "nowhere", "a"), 8, b"not found nowhere\n"), (("--audit", "--csv", "nowhere", "a"), 8, b"not found nowhere\n"),
                (("--csv",), 2, usage), (("--answers", "--text", "a", "b"), 2, usage), (("--traces", "--html", *SIDES, "R1", "E0", "1.2.3.4"), 2, usage)]:
            self.assertEqual(self.run_view(*words), (status, b"", told), words)
        self.assertEqual(self.run_view("--help"), (0, usage, b""))
        with open("/dev/full", "wb") as full:
            self.assertEqual(self.run_view("--csv", report, stdout=full)[::2], (6, b"cannot write\n"))

    def test_without_jinja(self) -> None:
        """The run ends at once; tables want no Jinja2."""
        call = "import sys; sys.modules['jinja2'] = None; sys.path.insert(0, '.'); from showing import view; sys.exit(view.main(sys.argv[1:]))"
        for form, wanted in (("--html", (70, b"view: Debian's package python3-jinja2 is missing\n")), ("--csv", (0, b""))):
            done = subprocess.run([sys.executable, "-BS", "-c", call, form, CAMPUS + "/expected"], cwd=TOP, stdout=subprocess.PIPE, stderr=subprocess.PIPE)
            self.assertEqual((done.returncode, done.stderr), wanted)
            self.assertEqual(bool(done.stdout), form == "--csv")

    def test_without_graphviz(self) -> None:
        """The page has no picture, and a word about it."""
        document, path = report_document(CAMPUS + "/expected"), os.environ["PATH"]
        os.environ["PATH"] = "/nowhere"
        try:
            page = reported.page_of(document, reported.Beside(wiring=wiring(CAMPUS + "/links"))).decode("utf-8")
        finally:
            os.environ["PATH"] = path
        self.assertIn("No picture: Graphviz isn&#39;t installed", page)
        self.assertNotIn("<svg", page)

    def test_pipe(self) -> None:
        """A report that comes through a pipe is read once, and has no sum."""
        done = subprocess.run("cat %s/expected | ./view --html /dev/stdin" % CAMPUS, shell=True, cwd=TOP, stdout=subprocess.PIPE, stderr=subprocess.PIPE)
        self.assertEqual((done.returncode, done.stderr), (0, b""))
        self.assertEqual(done.stdout.count(b'<details class="f '), 4)
        self.assertNotIn(b"<dt>report</dt>", done.stdout)


# ---- hostile names

# Members of documents whose texts are names or lines of a file, and those whose words can be names.
NAMED, WORDED = {"device", "interface", "file", "list", "text", "question"}, {"old", "new", "group", "outcome"}
LISTS = {"USERS", "SERVERS"}


class Renamed:
    """A document, and what stands beside it, in which each name and each line of a file has a text behind it."""

    def __init__(self, text: str, names: set[str]) -> None:
        self.text, self.names = text, names
        self.found: list[str] = []

    def put(self, value: str) -> str:
        self.found.append(value + self.text)
        return value + self.text

    def words(self, line: str) -> str:
        """A line in which each word that is a name has the text."""
        return " ".join(self.put(word) if word in self.names else word for word in line.split(" "))

    def value(self, value: Any, name: str = "") -> Any:
        if isinstance(value, dict):
            return {key: self.value(one, key) for key, one in value.items()}
        if isinstance(value, list):
            return [self.value(one, name) for one in value]
        if isinstance(value, str) and name in NAMED:
            return self.put(value)
        return self.words(value) if isinstance(value, str) and name in WORDED else value

    def files(self) -> list[File]:
        return [File(*(self.put(part) for part in one)) for one in FILES]

    def wiring(self, given: links.Wiring) -> links.Wiring:
        return links.Wiring([(tuple(map(self.words, ends)), is_lan) for ends, is_lan in given.segments], list(map(self.words, given.devices)))


def names_in(value: Any, name: str = "") -> set[str]:
    """The names of devices and interfaces in a document, and of lists in its traces."""
    if isinstance(value, dict):
        return set().union(*(names_in(one, key) for key, one in value.items()))
    if isinstance(value, list):
        return set().union(*(names_in(one, name) for one in value))
    return {value} if isinstance(value, str) and name in ("device", "interface") else set()


@lru_cache(maxsize=None)
def named_pages(text: str) -> dict[str, tuple[bytes, list[str]]]:
    """Each page with this text behind each name, and what was put there."""
    table, found = wiring(SIDES[2]), {}
    report, why = report_document(CAMPUS + "/expected"), document_of(["--why-all", "--json", *SIDES, CAMPUS + "/expected"])
    traces = document_of(["--traces", "--json", *SIDES, *PACKET])
    words = {word for place in (place for ends, _ in table.segments for place in ends) for word in place.split(" ")}
    names = names_in(report) | names_in(traces) | words | LISTS | set(table.devices)

    one = Renamed(text, names)
    page = reported.page_of(one.value(report), reported.Beside(
        one.put("title"), one.put("command"), one.files(), one.files(), one.wiring(table), explained.explained_of(one.value(why)), (4, 3)))
    found["report"] = page, one.found
    one = Renamed(text, names)
    page = traced.page_of(one.value(traces), traced.Beside(one.put("command"), one.files(), one.files(), one.wiring(table)))
    found["traces"] = page, one.found
    one = Renamed(text, set())
    document = document_of(["--audit", "--json", "--rows", "examples/audit/findings", "examples/audit/net"])
    found["audit"] = audited.page_of(one.value(document), audited.Beside(one.put("command"), one.files(), one.files())), one.found
    one = Renamed(text, set())
    document = document_of(["--answers", "--json", *(EDGE + "/" + name for name in ("questions", "answers-old", "answers-new"))])
    found["answers"] = answered.page_of(one.value(document), answered.Beside(one.put("command"), one.files(), one.files())), one.found
    return found


@unittest.skipUnless(shutil.which("dot"), "Graphviz isn't there")
class Hostile(unittest.TestCase):
    """Names of devices, lists, questions and files are texts wherever they stand."""

    def setUp(self) -> None:
        self.pages = named_pages(HOSTILE)

    def test_names_stay_texts(self) -> None:
        for name, (content, _) in named_pages("plain").items():
            plain, reader = Reader(content.decode("utf-8")), Reader(self.pages[name][0].decode("utf-8"))
            self.assertEqual(reader.structure(), plain.structure(), name)
            after = reader.all()
            # (of an interface a page may show the short name)
            missing = {one for one in self.pages[name][1] if shown(one) not in after and "Ethernet" not in one and "Vlan" not in one}
            self.assertLess(len(missing), 3, (name, missing))
            self.assertGreater(after.count(HOSTILE_SEEN), 15, name)

    def test_ids_and_links(self) -> None:
        """Ids stand once and are none of a file; each link leads to something on the page."""
        for name, (content, _) in self.pages.items():
            reader = Reader(content.decode("utf-8"))
            ids = reader.ids()
            self.assertEqual(len(ids), len(set(ids)), name)
            self.assertTrue(all(re.fullmatch("[a-z]+(-[a-z]+)*|[a-z][0-9]+", one) for one in ids), ids)
            for tag, attributes in reader.elements:
                if tag == "a":
                    self.assertIn(attributes["href"][1:], ids)

    def test_asks_for_nothing(self) -> None:
        for name, (content, _) in self.pages.items():
            reader = Reader(content.decode("utf-8"))
            for tag, attributes in reader.elements:
                for attribute, value in attributes.items():
                    self.assertFalse(attribute.startswith("on"), (name, tag, attribute))
                    if attribute in ("href", "src", "action", "srcset"):
                        self.assertTrue(value == "data:," or value.startswith("#"), (name, tag, value))
            self.assertEqual({tag for tag, _ in reader.elements} & {"img", "iframe", "object", "form", "base", "embed"}, set())
            policy = next(attributes["content"] for _, attributes in reader.elements if "http-equiv" in attributes)
            self.assertTrue(policy.startswith("default-src 'none'; img-src data:; "), policy)
            self.assertNotIn("unsafe", policy)
            self.assertEqual(sum(tag == "script" for tag, _ in reader.elements), 3 if name == "report" else 0)
        for style in ("style.css", "view.css"):
            self.assertNotIn("url(", rendering.part(style))
            self.assertNotIn("@import", rendering.part(style))


# ---- in a browser

# Whether the script builds groups as the template has them.
SAME = """<script>
(function () {
  const now = () => Array.from(document.querySelectorAll('details.f')).map(f => f.outerHTML.replace(/>\\s+</g, '><'));
  const before = now();
  document.getElementById('words').dispatchEvent(new Event('input'));
  const after = now();
  document.body.dataset.same = before.length + ' ' + (JSON.stringify(before) === JSON.stringify(after));
})();
</script>"""
# What the filter says of each of these words.
FILTER = """<script>
(function () {
  const $ = id => document.getElementById(id), said = [];
  for (const words of %s) {
    $('words').value = words;
    $('words').dispatchEvent(new Event('input'));
    said.push([$('count').textContent, document.querySelectorAll('details.f').length + ' shown', $('told').textContent].join(', '));
  }
  document.body.dataset.said = said.join('; ');
})();
</script>"""
# A device and an ingress that are pressed, and a key.
PRESS = """<script>
(function () {
  const said = [], count = () => said.push(document.getElementById('count').textContent);
  const device = Array.from(document.querySelectorAll('[data-device]')).find(d => d.dataset.device === 'ACC1');
  device.dispatchEvent(new KeyboardEvent('keydown', { key: 'Enter' })); count();
  said.push(device.getAttribute('aria-pressed'));
  device.dispatchEvent(new MouseEvent('click')); count();
  document.querySelector('[data-place]').click(); count();
  document.getElementById('clear').click(); count();
  document.body.dispatchEvent(new KeyboardEvent('keydown', { key: 'j', bubbles: true }));
  said.push(document.activeElement.closest('details').id);
  document.body.dataset.said = said.join('; ');
})();
</script>"""


@unittest.skipUnless(browser.BROWSER and shutil.which("dot"), "Chromium or Graphviz isn't there")
class Browser(unittest.TestCase):
    """Chromium runs the script under the page's policy, and has nothing to complain of."""

    def setUp(self) -> None:
        self.scratch = tempfile.mkdtemp(prefix="diqenyu-test-")
        self.addCleanup(shutil.rmtree, self.scratch)

    def open(self, page: bytes, behind: str = "", more: str = "") -> str:
        """The page as the browser has it; `more` stands at its end, and the page is without its policy then."""
        path, text = os.path.join(self.scratch, "page.html"), page.decode("utf-8")
        with open(path, "w", encoding="utf-8") as stream:
            stream.write(browser.unpoliced(text).replace("</body>", more + "</body>") if more else text)
        found = browser.opened(path, behind)
        self.assertEqual(found.console, [])
        return found.dom

    def test_hostile(self) -> None:
        for name, (content, _) in named_pages(HOSTILE).items():
            reader = Reader(self.open(content, "#g1"))
            self.assertNotIn("b", [tag for tag, attributes in reader.elements if "onclick" in attributes])
            self.assertIn(HOSTILE_SEEN, reader.all())
            if name == "report":
                self.assertIn(("html", {"lang": "en", "class": "js"}), reader.elements)
                self.assertIn("open", next(attributes for _, attributes in reader.elements if attributes.get("id") == "g1"))
                self.assertIn("way on", [attributes.get("class") for _, attributes in reader.elements if attributes.get("id") == "w1"])

    def test_filter(self) -> None:
        """By hand: the address of DC1 is in a group of each ingress, one of BRANCH in both groups of BRANCH, and another one in none."""
        page = PAGES["report"]()
        wanted = [("10.30.20.1", 2), ("10.40.0.7", 2), ("10.30.20.255", 0), ("10.30.0.0/16", 4), ("10.31.0.0/16", 0), ("443 branch", 2),
                  ("tcp local", 2), ("udp acc1", 0), ("opens GigabitEthernet0/3", 4), ("10.30.20.1 nowhere", 0)]
        told = ["%s of 4 groups, %d shown, %s" % (count, count, "Not understood: nowhere" if "nowhere" in words else "") for words, count in wanted]
        dom = self.open(page, more=FILTER % [words for words, _ in wanted])
        self.assertEqual(re.findall('data-said="([^"]*)"', dom), ["; ".join(told).replace("4 of 4", "4")])
        dom = self.open(page, "#443%20branch")
        self.assertEqual((texts(dom, '<output id="count"[^>]*>(.*?)</output>'), dom.count('<details class="f ')), (["2 of 4 groups"], 2))

    def test_script_builds_the_same(self) -> None:
        for name in ("why", "kinds"):
            page = PAGES[name]()
            dom = self.open(page, more=SAME)
            self.assertIn('data-same="%d true"' % page.count(b'<details class="f '), dom, name)

    def test_pressed(self) -> None:
        dom = self.open(PAGES["report"](), more=PRESS)
        self.assertEqual(re.findall('data-said="([^"]*)"', dom), ["2 of 4 groups; true; 4 groups; 2 of 4 groups; 4 groups; g1"])

    def test_on_demand(self) -> None:
        """Behind the first groups of a kind the others are shown on demand; a link leads to each."""
        page = many_groups(450)
        self.assertEqual(page.count(b'<details class="f '), 200)
        self.assertIn("and 250 groups more: the page\u2019s script shows them", page.decode("utf-8"))
        dom = self.open(page)
        self.assertEqual((dom.count('<details class="f '), texts(dom, "<button[^>]*>(Show.*?)</button>")), (200, ["Show 200 more of 250"]))
        dom = self.open(page, "#g420")
        self.assertEqual((dom.count('<details class="f '), texts(dom, "<button[^>]*>(Show.*?)</button>")), (450, ["Show 0 more of 0"]))
        self.assertIn('id="g420" name="group" open=""', dom)
        reader = Reader(dom)
        self.assertEqual(sum(tag == "script" for tag, _ in reader.elements), 3)
        self.assertIn("exit R419 <script>1</script>", reader.text())

    def test_look(self) -> None:
        """At both widths, in light and dark: nothing is wider than the page, no contrast below 4.5, and the keyboard reaches everything."""
        pages = [PAGES[name]().decode("utf-8") for name in ("why", "kinds", "traces", "audit", "answers")]
        for width, dark in ((1400, False), (400, True)):
            found, console = browser.looked(pages, width, dark)
            self.assertEqual((found, console), (["%d, wide 0, contrast, unreachable 0" % width] * len(pages), []))


def many_groups(count: int) -> bytes:
    """The page of a report that has so many groups of one kind, of hostile names."""
    with tempfile.TemporaryDirectory(prefix="diqenyu-test-") as folder:
        path = os.path.join(folder, "report")
        with open(path, "w", encoding="utf-8") as stream:
            stream.write(report_text(count))
        return reported.page_of(report_document(path), reported.Beside())


def report_text(count: int) -> str:
    """A report of so many groups, one row each."""
    lines = ["ingress <b>\"R1\" &amp;'x rows %d" % count]
    for at in range(count):
        address = "10.%d.%d.%d" % (at >> 16, at >> 8 & 255, at & 255)
        lines += ["dst %s src * proto %d dport * sport * flags *" % (address, 6 + at % 2 * 11), "old drop", "new exit R%d <script>1</script>" % at]
    return "\n".join([*lines, "affected %d" % count]) + "\n"


def keep() -> None:
    """Writes the pages that the tests compare with."""
    for name, page in PAGES.items():
        with open(os.path.join(KEPT, name + ".html"), "wb") as stream:
            stream.write(page())


# Of each page the widths, heights and schemes of its pictures; and those that are printed.
PICTURES = (("report", 1400, 880, False), ("report", 400, 1150, False), ("kinds", 1400, 1200, True), ("why", 1400, 1250, False), ("why", 400, 1150, True),
            ("traces", 1400, 800, False), ("traces", 400, 1100, True), ("audit", 1400, 1180, False), ("audit", 400, 1200, True),
            ("answers", 1400, 640, False), ("answers", 400, 800, False))
PRINTED = ("why", "answers")


def pictures(folder: str) -> None:
    """Writes pictures of pages as KIND-WIDTH-SCHEME.png and KIND-printed.png."""
    os.makedirs(folder, exist_ok=True)
    with tempfile.TemporaryDirectory(prefix="diqenyu-test-") as scratch:
        for name, page in PAGES.items():
            with open(os.path.join(scratch, name + ".html"), "wb") as stream:
                stream.write(page())
        for name, width, height, dark in PICTURES:
            to = os.path.join(folder, "%s-%d-%s.png" % (name, width, "dark" if dark else "light"))
            behind = "#g1" if name == "why" and width > 500 else ""
            browser.pictured(os.path.join(scratch, name + ".html"), width, height, dark, to, behind)
        for name in PRINTED:
            browser.printed(os.path.join(scratch, name + ".html"), os.path.join(folder, name + "-printed.png"))


def main() -> None:
    os.chdir(TOP)
    try:
        rendering.with_jinja()
    except rendering.NoJinja:
        print("view's pages aren't tried: python3-jinja2 isn't there")
        return
    if sys.argv[1:] == ["--keep"]:
        keep()
    elif sys.argv[1:2] == ["--pictures"]:
        pictures(sys.argv[2])
    else:
        unittest.main(verbosity=1)


if __name__ == "__main__":
    main()
