#!/usr/bin/env python3
"""Tries the page of `window`: that it shows what its document has, that hostile names stay texts, and that it asks for nothing.

Where Jinja2 isn't there a line says what isn't tried; so it is with Chromium. DIQENYU_REVIEW and DIQENYU_DOCTOR name other programs than
those of the launchers.
"""
from __future__ import annotations

import copy
import hashlib
import itertools
import json
import os
import re
import shutil
import subprocess
import sys
import tempfile
import unittest
from html.parser import HTMLParser

TOP = os.path.dirname(os.path.dirname(os.path.abspath(__file__)))
sys.dont_write_bytecode = True
sys.path.insert(0, TOP)

from launching import programs  # noqa: E402
from showing import hops, page, picture, rendering  # noqa: E402
from showing.texts import shown  # noqa: E402

CAMPUS = ["examples/campus/old", "examples/campus/new", "examples/campus/links"]
# What a file may hold: the end of a script, both quotes, an entity, template marks, a byte above 127 that is no UTF-8, and one that is.
HOSTILE = "</script></style><b/onclick='x'\"y\">&lt;{{7*7}}{#\xff\xc3\xa9-->]]>"
HOSTILE_SEEN = "</script></style><b/onclick='x'\"y\">&lt;{{7*7}}{#\\xff\u00e9-->]]>"


def place(device: str, interface: str, **more: object) -> dict[str, object]:
    return {"device": device, "interface": interface, **more}


def group(old: str, new: str) -> dict[str, object]:
    ends = {"drop": {"end": "drop"}, "loop": {"end": "expired"},
            "out": place("D2", "Ethernet7", end="exit", src="9.9.9.9", sport=80),
            "here": place("D2", "Ethernet7", end="local")}
    return {"ingresses": [place("D1", "Vlan10")], "sources": "its", "headers": [{}], "old": [ends[old]], "new": [ends[new], ends["drop"]],
            "unexpected": None}


def finding(number: int, kind: str, expected: str | None, cause: dict[str, object] | None, plausible: bool = True) -> dict[str, object]:
    return {
        "number": number, "kind": kind, "becomes": "what becomes", "plausible": plausible, "expected": expected,
        "expectations": [3],
        "ingresses": [place("D1", "Vlan10"), place("D2", "Vlan20")],
        "words": ["from 10.0.0.0/8 to 10.1.0.0/16: tcp 443", "and 2 sets more"],
        "unexpected words": ["from 10.0.0.1 to 10.1.0.1: udp"] if expected == "part" else [], "cause": cause,
        "groups": [group("here", "loop"), group("out", "drop")],
        "example": place("D1", "Vlan10", header="1.2.3.4,1.2.3.4,6,1,1,2", words="tcp packet", note="a note")}


def line(number: int, **more: object) -> dict[str, object]:
    return {"number": number, "place": "D%d.cfg:7" % number, "sign": "+", "text": "a line", "other": "another line", "kind": "route",
            "device": "D1", "also": ["D3.cfg:8"], "words": "in words", "idle": None, "beside": None, "holds back": False,
            "note": None, **more}


def question(before: bool | None, after: bool | None) -> dict[str, object]:
    return {"path": "questions", "line": 4, "words": "reach here to there", "before": before, "after": after,
            "packets": {"before": None, "after": "a packet" if after is False else None}}


def idle(reason: str, backup: bool = False, quiet: bool = False) -> dict[str, object]:
    """Why a line has no effect."""
    return {"reason": reason, "backup": backup, "quiet": quiet}


def everything() -> dict[str, object]:
    """A document that has something of each. What it counts: 1 missing, 3 unexpected, 2 questions that fail now, 3 new warnings, 2 lines
    without effect, 1 edge that is no ingress, 1 as expected, 2 standing warnings."""
    by = {"how": "by", "lines": [0, 1]}
    return {
        "schema": "diqenyu-window", "version": 1, "title": "a title", "status": 9, "told": ["waived: this"], "prepared": ["prepared: that"],
        "verdict": {"word": "unexpected", "words": "Not as expected: this.", "lines": [0], "rest": "packets don't change"},
        "old": "old", "new": "new", "links": ["links"], "identical": False,
        "ingresses": [place("D1", "Vlan10", rows=1200), place("D2", "Vlan20", rows=34)], "sources": [],
        "expected": {"path": "folder/expect", "nothing else": 9,
                     "lines": [{"line": 3, "words": "opens this"}, {"line": 9, "words": "nothing else"}]},
        "missing": [{"number": 1, "line": 3, "kind": "opens", "why": "does not get through", "sources": "its",
                     "ingresses": [place("D1", "Vlan10")], "headers": [{}], "words": ["from 10.7.0.0/16 to 10.8.0.0/16: any"],
                     "example": place("D1", "Vlan10", header="1", words="a packet", note=None)}],
        "findings": [finding(2, "loops", "no", by), finding(3, "closes", "part", {"how": "any", "lines": [1, 0]}),
                     finding(4, "moves on a lan", "no", by), finding(5, "opens", "whole", None),
                     finding(6, "translated otherwise", None, {"how": "all", "lines": [5]}, False)],
        "warnings": {"new": ["warn 1", "warn 2", "warn 3"], "both": ["stands 1", "stands 2"], "old": ["gone"], "accepted": ["accepted"]},
        "edges": [place("D3", "Vlan30", addresses=["10.3.0.1/24"], why="on a device that the change touches", kinds=None),
                  place("D3", "Vlan31", addresses=["10.3.1.1/24"], why="on a device that the change touches", kinds=[])],
        "edges known": 4,
        "questions": [question(True, False), question(None, False), question(False, False), question(False, True), question(True, True),
                      question(True, None)],
        "lines": [line(0), line(1, note="be careful"), line(2, idle=idle("the same")), line(3, idle=idle("shut")),
                  line(4, idle=idle("stands by", backup=True)), line(5, **{"holds back": True}), line(6, beside="others do it"),
                  line(7, idle=idle("a description", quiet=True))],
        "lines untold": "no reason"}


TRACES = {2: (["state 1 at D1 Vlan10 dst 1.2.3.4", "input IN permit 20", "out Ethernet1 next 10.0.0.2", "output none", "go 2",
               "state 2 at D2 Ethernet0 dst 1.2.3.4", "input none", "discard", "outcome drop"],
              ["state 1 at D1 Vlan10 dst 1.2.3.4", "input IN permit 20", "out Ethernet1 next 10.0.0.2", "output none", "go 2",
               "state 2 at D2 Ethernet0 dst 1.2.3.4", "input none", "nat dst 10.9.9.9", "out Ethernet0 next 10.0.0.1",
               "output OUT permit 10", "go 3",
               "state 3 at D1 Ethernet1 dst 10.9.9.9", "input none", "out Ethernet1 next 10.0.0.2", "output none", "go 2",
               "outcome expired"])}


def beside() -> page.Beside:
    return page.Beside(
        "today", "./window here", [page.File("today", "old", "2 files", "abc")], [page.File("review", "", "7 bytes", "def")],
        ["limit: this"],
        picture.Wiring([(("D1 Ethernet1", "D2 Ethernet0"), False), (("D1 Ethernet2", "D2 Ethernet2", "D3 Ethernet2"), True)], ["D4"]),
        copy.deepcopy(TRACES))


# ---- reading a page


class Reader(HTMLParser):
    """The elements of a page with their attributes, and its texts; what stands in a script or a style is no text."""

    def __init__(self, text: str) -> None:
        super().__init__(convert_charrefs=True)
        self.elements: list[tuple[str, dict[str, str]]] = []
        self.texts: list[str] = []
        self.open: list[str] = []
        self.feed(text)
        self.close()

    def handle_starttag(self, tag: str, attrs: list[tuple[str, str | None]]) -> None:
        self.elements.append((tag, {name: value or "" for name, value in attrs}))
        self.open.append(tag)

    def handle_endtag(self, tag: str) -> None:
        while self.open and self.open.pop() != tag:
            pass

    def handle_data(self, data: str) -> None:
        if self.open[-1:] not in (["script"], ["style"]):
            self.texts.append(data)

    def structure(self) -> list[tuple[str, tuple[str, ...]]]:
        """The elements with the names of their attributes."""
        return [(tag, tuple(attributes)) for tag, attributes in self.elements]

    def text(self) -> str:
        return " ".join("".join(self.texts).split())

    def all(self) -> str:
        """Texts and values of attributes."""
        return "\n".join([*self.texts, *(value for _, attributes in self.elements for value in attributes.values())])

    def ids(self) -> list[str]:
        return [attributes["id"] for _, attributes in self.elements if "id" in attributes]


# Members of the document whose texts are words of the program, never those of a file.
WORDS = {"schema", "word", "kind", "kinds", "sign", "end", "expected", "how", "sources"}


def hostile(value: object, text: str, found: list[str], name: str = "") -> object:
    """The value with a text of its own in the place of each text that can come of a file; those are put into `found`. Words that the page
    takes apart keep what stands between."""
    if isinstance(value, dict):
        kept = {key for key in WORDS & set(value) if isinstance(value[key], (str, list)) and not (key == "sources" and value[key] == [])}
        return {key: one if key in kept else hostile(one, text, found, key) for key, one in value.items()}
    if isinstance(value, list):
        return [hostile(one, text, found, name) for one in value]
    if not isinstance(value, str):
        return value
    parts = re.fullmatch("from (.*) to (.*): (.*)", value)
    some = ["t%dz%s" % (len(found) + at, text) for at in range(3 if parts else 1)]
    found += some
    return "from %s to %s: %s" % tuple(some) if parts else some[0]


def spoiled(text: str) -> tuple[Reader, list[str], bytes]:
    """The page with this text in each place of the document and of what stands beside it, and all that was put there. The names of devices
    in traces, tables and lines are the same everywhere, so that the picture has them."""
    found: list[str] = []
    document = hostile(everything(), text, found)
    assert isinstance(document, dict)
    names = {name: "%s%s" % (name, text) for name in ("D1", "D2", "D3", "D4")}
    lists = {"IN": "IN" + text, "OUT": "OUT" + text, "Ethernet": "Ethernet" + text}

    def named(told: str) -> str:
        return re.sub(r"\b(D[1-4]|IN|OUT|Ethernet)(?=\b|\d)", lambda one: {**names, **lists}[one[0]], told)

    for one in document["lines"]:
        one["device"] = names["D1"]
    other = beside()
    other.traces = {number: ([named(told) for told in both[0]], [named(told) for told in both[1]]) for number, both in TRACES.items()}
    segments = [(tuple(map(named, ends)), is_lan) for ends, is_lan in other.wiring.segments]
    other.wiring = picture.Wiring(segments, list(map(named, other.wiring.devices)))
    for name in ("made", "command", "files", "programs", "limits"):
        given = getattr(other, name)
        value = hostile([list(one) if isinstance(one, tuple) else one for one in given] if isinstance(given, list) else given, text, found)
        setattr(other, name, [page.File(*one) for one in value] if name in ("files", "programs") else value)
    content = page.page_of(document, other)
    return Reader(content.decode("utf-8")), [*found, *names.values(), *lists.values()], content


@unittest.skipUnless(shutil.which("dot"), "Graphviz isn't there")
class Hostile(unittest.TestCase):
    """Names of files, devices, lists, lines and tickets are texts wherever they stand."""

    def test_names_stay_texts(self) -> None:
        plain, plain_texts, _ = spoiled("plain")
        reader, texts, _ = spoiled(HOSTILE)
        self.assertEqual(reader.structure(), plain.structure())
        before, after = plain.all(), reader.all()
        places = [(one, other) for one, other in zip(plain_texts, texts) if one in before]
        self.assertGreater(len(places), 100)
        for one, other in places:
            # (of a path the page may show the last part)
            self.assertTrue(shown(other) in after or shown(other).rpartition("/")[2] in after, one)
        self.assertIn(HOSTILE_SEEN, after)

    def test_ids_and_links(self) -> None:
        """Ids stand once and are none of a file; each link leads to something on the page."""
        reader, _, _ = spoiled(HOSTILE)
        ids = reader.ids()
        self.assertEqual(len(ids), len(set(ids)))
        self.assertTrue(all(re.fullmatch("[a-z]+(-[a-z]+)?|[a-z][0-9]+(-why)?", one) for one in ids), ids)
        for tag, attributes in reader.elements:
            if tag == "a":
                self.assertIn(attributes["href"][1:], ids)

    def test_asks_for_nothing(self) -> None:
        _, _, content = spoiled(HOSTILE)
        reader = Reader(content.decode("utf-8"))
        for tag, attributes in reader.elements:
            for name, value in attributes.items():
                self.assertFalse(name.startswith("on"), (tag, name))
                if name in ("href", "src", "action", "srcset", "data"):
                    self.assertTrue(value == "data:," or value.startswith("#"), (tag, value))
        self.assertEqual({tag for tag, _ in reader.elements} & {"img", "iframe", "object", "form", "base", "embed"}, set())
        style = page.part("style.css")
        self.assertNotIn("url(", style)
        self.assertNotIn("@import", style)
        policy = next(attributes["content"] for _, attributes in reader.elements if "http-equiv" in attributes)
        self.assertTrue(policy.startswith("default-src 'none'; img-src data:; "), policy)
        self.assertNotIn("unsafe", policy)

    def test_unseen_characters(self) -> None:
        for text, told in (("a\x00b", "a\\x00b"), ("\xe2\x80\xaeabc", "\\u202eabc"), ("\xc3\xa9", "\u00e9"), ("\xff", "\\xff"),
                           ("a\nb", "a\\nb"),
                           ("\xc2\xa0", "\u00a0"), ("\xf0\x9f\x98\x80", "\U0001f600")):
            self.assertEqual(shown(text), told)


class Whole(unittest.TestCase):
    """What the document has stands on the page, and no other count."""

    def setUp(self) -> None:
        self.reader = Reader(page.page_of(everything(), beside()).decode("utf-8"))

    def chips(self) -> list[tuple[str, str]]:
        return [(one["class"], one["href"]) for _, one in self.reader.elements if one.get("class", "").startswith("chip")]

    def test_marks(self) -> None:
        words = re.search(r"Not as expected: this\..*?What changes", self.reader.text())
        assert words
        self.assertIn("\u2205 1 missing! 3 unexpected? 2 questions fail now\u25b2 3 new warnings\u2013 2 lines without effect"
                      "\u25cc 1 edge that is no ingress"
                      "\u2713 1 as expected\u25b2 2 standing warnings", words[0])
        self.assertEqual(self.chips(), [
            ("chip red", "#missing"), ("chip red", "#unexpected"), ("chip red", "#questions"), ("chip amber", "#warnings"),
            ("chip violet", "#idle"), ("chip amber", "#edges"), ("chip plain", "#expected"), ("chip plain", "#warnings")])

    def test_zeros_are_left_out(self) -> None:
        document = everything()
        document.update(missing=[], findings=[], edges=[], questions=None, lines=[], expected=None,
                        warnings={"new": [], "both": [], "old": [], "accepted": []},
                        verdict={"word": "nothing", "words": "Nothing changes for any packet.", "lines": [], "rest": None})
        reader = Reader(page.page_of(document, page.Beside("today", "./window")).decode("utf-8"))
        self.assertEqual([one for one in reader.elements if one[1].get("class", "").startswith("chip")], [])
        self.assertIn("\u2713 Nothing changes for any packet.", reader.text())
        self.assertIn("none asked", reader.text())

    def test_verdict_names_the_line(self) -> None:
        self.assertIn("All that changes unexpectedly comes of D0.cfg:7 + a line. Without it packets don't change.", self.reader.text())
        self.assertIn(("a", {"href": "#l0"}), self.reader.elements)

    def test_findings(self) -> None:
        """Each stands once, in the document's order within its section, foreign ones last."""
        cards = [one["id"] for tag, one in self.reader.elements if tag == "details" and one.get("name") == "finding"]
        self.assertEqual(cards, ["f1", "f2", "f3", "f4", "f5", "f6"])
        text = self.reader.text()
        self.assertIn("5 findings, 10 groups of packets in 1,234 rows", text)
        self.assertIn("Expected, and doesn\u2019t happen 1", text)
        self.assertIn("Not expected 3", text)
        self.assertIn("As expected 1", text)
        self.assertIn("1 finding of packets whose source can\u2019t be where they come in groups: translated otherwise 2", text)
        for told in ("was 2 ends", "10.0.0.0/8 \u2192 10.1.0.0/16 +1", "today D2 Et7 itself planned goes round or dropped",
                     "today out of D2 Et7 with src 9.9.9.9 sport 80 planned dropped", "by any of", "D1 Vlan10, D2 Vlan20",
                     "expect:3 opens this",
                     "expect:9 nothing else", "not expectedfrom 10.0.0.1 to 10.1.0.1: udp", "tcp packet at D1 Vlan10a note"):
            self.assertIn(told, text)

    def test_hops(self) -> None:
        text = self.reader.text()
        self.assertIn("same in both: D1 Vl10", text)
        self.assertIn("D2 Et0no route, or one to Null0: dropped", text)
        self.assertIn("D2 Et0translated: dst 10.9.9.9\u2192 Et0, next hop 10.0.0.1list OUT out permits at 10", text)
        self.assertIn("D1 Et1\u2192 Et1, next hop 10.0.0.2\u21bb back to D2", text)

    def test_lines(self) -> None:
        text = self.reader.text()
        self.assertIn("8 lines, 2 without effect", text)
        self.assertIn("Without effect 2", text)
        self.assertIn("With effect 3", text)
        self.assertIn("D0.cfg:7 + a linein the place of another linewith D3.cfg:82 3 4", text)
        for told in ("the same", "shut", "Backups: without effect while nothing fails 1", "stands by",
                     "Say nothing of packets 1", "a description",
                     "Take no part: others do their part already 1", "Hold back what the other lines would change 1", "be careful",
                     "foreign sources alone", "isn\u2019t known: no reason"):
            self.assertIn(told, text)

    def links_of(self, tag: str, number: str) -> set[str]:
        """Where the links lead that stand in the element of this number, as far as the next one of its tag."""
        elements = self.reader.elements
        first = next(at for at, (_, attributes) in enumerate(elements) if attributes.get("id") == number)
        behind = itertools.takewhile(lambda one: one[0] != tag, elements[first + 1:])
        return {attributes["href"] for name, attributes in behind if name == "a"}

    def test_each_way_round(self) -> None:
        """A finding leads to its lines and a line to its findings, without a script."""
        for finding, lines in (("f2", {"#l0", "#l1"}), ("f3", {"#l0", "#l1"}), ("f4", {"#l0", "#l1"}), ("f5", set()), ("f6", {"#l5"})):
            self.assertEqual({one for one in self.links_of("details", finding) if one.startswith("#l")}, lines, finding)
        three = {"#f2-why", "#f3-why", "#f4-why"}
        for number, findings in (("l0", three), ("l1", three), ("l2", set()), ("l7", set())):
            self.assertEqual(self.links_of("tr", number), findings, number)

    def test_the_rest(self) -> None:
        text = self.reader.text()
        for told in ("3 new, 2 in both networks", "In both networks 2", "Accepted 1", "The change ends 1", "Limits of the model 1",
                     "6, of which 2 fail only afterwards", "Fail in both networks 1", "Hold only afterwards 1", "Hold in both networks 1",
                     "2 of 4 edges are ingresses", "nobody looked", "Not touched, or nothing changes there 1", "waived: this",
                     "prepared: that", "sha256 abc", "sha256 def", "a question fails that held before"):
            self.assertIn(told, text)

    def test_picture(self) -> None:
        if not shutil.which("dot"):
            self.skipTest("Graphviz isn't there")
        boxes = [one["class"] for tag, one in self.reader.elements if tag == "g" and one.get("class", "").startswith("node")]
        self.assertEqual(sorted(boxes), ["node device", "node device", "node device", "node device chg", "node lan"])
        paths = [one["class"] for tag, one in self.reader.elements if tag == "path" and one.get("class") in ("both", "old", "new")]
        self.assertEqual(paths, ["both", "new"])

    def test_no_graphviz(self) -> None:
        path = os.environ["PATH"]
        os.environ["PATH"] = "/nowhere"
        try:
            content = page.page_of(everything(), beside()).decode("utf-8")
        finally:
            os.environ["PATH"] = path
        self.assertIn("No picture: Graphviz isn&#39;t installed", content)
        self.assertNotIn("<svg", content)


class Many(unittest.TestCase):
    """Large networks, and long ways."""

    def test_thousand_devices(self) -> None:
        """What has no part in the change is one box for all that hangs together, with its count."""
        if not shutil.which("dot"):
            self.skipTest("Graphviz isn't there")
        segments = [(("R%d E0" % at, "R%d E1" % (at + 1)), False) for at in range(999)]
        walk = picture.Walk(1, [("R499 E0", "R500 E1")], [], [])
        found = picture.picture_of(picture.Wiring(segments, []), {"R500"}, {"R0"}, {"R499"}, [walk])
        self.assertEqual(sorted((box.kind, box.name) for box in found.boxes),
                         [("device", "R499"), ("device", "R500"), ("rest", "499 more"), ("rest", "499 more")])
        self.assertEqual([side for side, _ in found.ways[0].paths], ["old"])

    def test_many_findings(self) -> None:
        document = everything()
        document["findings"] = [finding(number, "moves", "no", None) for number in range(2, 1002)]
        reader = Reader(page.page_of(document, beside()).decode("utf-8"))
        self.assertIn("! 1000 unexpected", reader.text())
        self.assertIn("and 700 findings more: --json has all", reader.text())

    def test_equal_ways(self) -> None:
        """The last hop of both says why the packet gets no further."""
        lines = ["state 1 at R1 E0 dst 1.2.3.4", "input none", "out E1 next 10.0.0.2", "output none", "go 2",
                 "state 2 at R2 E0 dst 1.2.3.4", "input IN deny end", "outcome drop"]
        table = hops.table_of(lines, lines)
        self.assertEqual([hop.device for hop in table.same], ["R1"])
        self.assertEqual([(row.today.ends, row.planned.decides) for row in table.rows if row.today and row.planned],
                         [(["dropped"], ["list IN in denies at its end"])])

    def test_long_ways(self) -> None:
        told = ["state %d at R%d E0 dst 1.2.3.4|input none|out E1 next 10.0.0.1|output none|go %d" % (at, at, at + 1)
                for at in range(1, 100)]
        lines = "|".join([*told, "state 100 at R100 E0 dst 1.2.3.4", "input none", "local R100 E0"]).split("|")
        table = hops.table_of(["state 1 at R1 E0 dst 1.2.3.4", "closed"], lines)
        self.assertEqual((len(table.same), len(table.rows), table.more), (0, hops.MOST_HOPS, 100 - hops.MOST_HOPS))


class Run(unittest.TestCase):
    """The page of `window` itself."""

    def setUp(self) -> None:
        self.scratch = tempfile.mkdtemp(prefix="diqenyu-test-")
        self.addCleanup(shutil.rmtree, self.scratch)
        self.page = os.path.join(self.scratch, "page.html")

    def test_campus(self) -> None:
        """Its findings, lines and sums are those of the document and of the files."""
        document = os.path.join(self.scratch, "document")
        title = "Server </script> subnet \u00e9"
        words = ["--questions", "examples/campus/questions", "--page", self.page, "--json", document, "--title", title]
        done = subprocess.run(["./window", *CAMPUS, *words], cwd=TOP, stdin=subprocess.DEVNULL, stdout=subprocess.PIPE,
                              stderr=subprocess.PIPE)
        self.assertEqual(done.returncode, 1, done.stderr)
        with open(self.page, encoding="utf-8") as stream:
            reader = Reader(stream.read())
        with open(document, encoding="utf-8") as stream:
            told = json.load(stream)
        text = reader.text()
        self.assertIn(title, text)
        self.assertIn(told["verdict"]["words"], text)
        self.assertEqual([one for one in reader.ids() if re.fullmatch("f[0-9]+", one)], ["f%d" % one["number"] for one in told["findings"]])
        for one in told["lines"]:
            self.assertIn("%s %s %s" % (one["place"], one["sign"], one["text"]), text)
        lines = [subprocess.run("LC_ALL=C; cd %s; sha256sum *.cfg | sha256sum" % folder, shell=True, cwd=TOP,
                                stdout=subprocess.PIPE).stdout.decode()[:64] for folder in CAMPUS[:2]]
        with open(os.path.join(TOP, CAMPUS[2]), "rb") as stream:
            lines.append(hashlib.sha256(stream.read()).hexdigest())
        for one in lines:
            self.assertIn("sha256 " + one, text)
        for name in ("review", "doctor"):
            self.assertIn("%s%s," % (name, programs.find(name).told()), " ".join(text.split()))
        self.assertIn("same in both: BRANCH Vl40 \u2192 ", text)

    def test_table_that_is_not_there(self) -> None:
        """It is told as without a page."""
        told = [subprocess.run(["./window", *CAMPUS[:2], "nowhere", *words], cwd=TOP, stdout=subprocess.PIPE, stderr=subprocess.PIPE)
                for words in ([], ["--page", self.page])]
        self.assertEqual(told[1].returncode, 8, told[1].stderr)
        self.assertEqual((told[0].returncode, told[0].stderr), (told[1].returncode, told[1].stderr))

    def test_without_jinja(self) -> None:
        """The run ends at once, and nothing is written."""
        call = ("import sys; sys.modules['jinja2'] = None; sys.path.insert(0, 'windowing'); sys.argv = ['window', *sys.argv[1:]]; "
                "import window; sys.exit(window.main())")
        done = subprocess.run([sys.executable, "-BS", "-c", call, *CAMPUS, "--page", self.page], cwd=TOP, stdout=subprocess.PIPE,
                              stderr=subprocess.PIPE)
        self.assertEqual((done.returncode, done.stdout, done.stderr), (70, b"", b"window: Debian's package python3-jinja2 is missing\n"))
        self.assertFalse(os.path.exists(self.page))

    def test_browser(self) -> None:
        """Chromium runs the script under the page's policy, and has nothing to complain of; names stay texts."""
        browser = shutil.which("chromium")
        if browser is None or not shutil.which("dot"):
            self.skipTest("Chromium or Graphviz isn't there")
        _, _, content = spoiled(HOSTILE)
        with open(self.page, "wb") as stream:
            stream.write(content)
        profile = "--user-data-dir=" + os.path.join(self.scratch, "profile")
        done = subprocess.run([browser, "--headless", "--no-sandbox", "--disable-gpu", profile, "--enable-logging=stderr",
                               "--virtual-time-budget=2000", "--dump-dom", "file://%s#f2-why" % self.page],
                              stdin=subprocess.DEVNULL, stdout=subprocess.PIPE, stderr=subprocess.PIPE, timeout=300)
        told = done.stderr.decode("utf-8", "replace")
        self.assertEqual([one for one in told.split("\n") if "CONSOLE" in one], [])
        dumped = Reader(done.stdout.decode("utf-8"))
        self.assertIn(("html", {"lang": "en", "class": "js"}), dumped.elements)
        self.assertIn("open", next(attributes for _, attributes in dumped.elements if attributes.get("id") == "f2"))
        self.assertIn("way on", [attributes.get("class") for _, attributes in dumped.elements if attributes.get("id") == "w2"])
        self.assertNotIn("b", [tag for tag, attributes in dumped.elements if "onclick" in attributes])
        self.assertIn(HOSTILE_SEEN, dumped.all())


if __name__ == "__main__":
    try:
        rendering.with_jinja()
    except rendering.NoJinja:
        print("window's page isn't tried: python3-jinja2 isn't there")
        sys.exit(0)
    unittest.main(verbosity=1)
