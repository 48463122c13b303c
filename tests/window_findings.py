#!/usr/bin/env python3
"""Tries what `window` makes of a report: kinds of changes by hand, sources that can be there and the groups of a report by set
arithmetic and by tests/rules.py, the words of fields, what the first lines say of changes that looked harmless, and the documents.

DIQENYU_REVIEW, DIQENYU_VIEW and DIQENYU_DOCTOR name other programs than those of the launchers; NETWORKS how many random networks are
tried.
"""
import json
import os
import random
import re
import shutil
import subprocess
import sys
import tempfile
import unittest
from types import SimpleNamespace
from xml.etree import ElementTree

TOP = os.path.dirname(os.path.dirname(os.path.abspath(__file__)))
sys.dont_write_bytecode = True
sys.path[:0] = [os.path.join(TOP, "tests"), os.path.join(TOP, "windowing")]

import cubes  # noqa: E402
import field_words  # noqa: E402
import findings  # noqa: E402
import kinds  # noqa: E402
import rules  # noqa: E402
from comparing import Found  # noqa: E402
from cubes import FIELDS, WIDTHS, Box, Headers, Values, union  # noqa: E402
from document_kinds import DocumentKinds  # noqa: E402
from documents import document_of, json_of, sarif_of  # noqa: E402
from edges import edges_of  # noqa: E402
from jobs import Refused  # noqa: E402
from kind_rules import kind_of  # noqa: E402
from kinds import KINDS, outcome_of, side_of  # noqa: E402
from model import Cause, Finding, Idle, Line, Part, Result  # noqa: E402
from networks import network_of  # noqa: E402
from parts import Lans  # noqa: E402
from rest import rest_of  # noqa: E402
from telling import lines_of  # noqa: E402
from verdict import fewest_lines, verdict_of  # noqa: E402

try:
    import jsonschema
    with open(os.path.join(TOP, "docs", "window-schema.json"), encoding="utf-8") as schema:
        VALIDATOR = jsonschema.Draft7Validator(json.load(schema))
except ImportError:
    VALIDATOR = None

NETWORKS = int(os.environ.get("NETWORKS", "6"))
CAMPUS = tuple("examples/campus/" + name for name in ("old", "new", "links"))
# Two routers and their users; R1's servers are on no ingress where a case says so.
R1 = """hostname R1
interface Ethernet0
 ip address 10.1.0.1 255.255.255.0
interface Ethernet1
 ip address 10.0.0.1 255.255.255.0
"""
R2 = """hostname R2
interface Ethernet0
 ip address 10.0.0.2 255.255.255.0
interface Ethernet1
 ip address 10.2.0.1 255.255.255.0
ip route 10.1.0.0 255.255.255.0 10.0.0.1
"""
LINKS = "lan R1 Ethernet1 R2 Ethernet0\ningress R1 Ethernet0\ningress R2 Ethernet1\n"


def write(path, text):
    os.makedirs(os.path.dirname(path), exist_ok=True)
    with open(path, "w", encoding="utf-8") as stream:
        stream.write(text)
    return path


class Windows(unittest.TestCase):
    """A scratch folder, and calls of `window` on networks that a case writes."""

    def setUp(self):
        self.scratch = tempfile.mkdtemp(prefix="diqenyu-test-")
        self.addCleanup(shutil.rmtree, self.scratch)

    def path(self, name):
        return os.path.join(self.scratch, name)

    def networks(self, old, new, links=LINKS, newlinks=None):
        """Writes both, each a list of configurations, and gives the words for them."""
        for side, texts in (("old", old), ("new", new)):
            shutil.rmtree(self.path(side), ignore_errors=True)
            for text in texts:
                write(self.path("%s/%s.cfg" % (side, re.match("hostname (.*)", text)[1])), text)
        words = [self.path("old"), self.path("new"), write(self.path("links"), links)]
        return words + (["--newlinks", write(self.path("newlinks"), newlinks)] if newlinks else [])

    def window(self, *words):
        """The status, the lines and the error lines."""
        done = subprocess.run(["./window", *words, "--no-lines"], cwd=TOP, stdin=subprocess.DEVNULL, stdout=subprocess.PIPE, stderr=subprocess.PIPE,
                              check=False)
        return done.returncode, done.stdout.decode().splitlines(), done.stderr.decode().splitlines()

    def document(self, *words):
        """What `--json` writes, validated, and the status."""
        path = self.path("document.json")
        status, _, errors = self.window(*words, "--json", path)
        self.assertIn(status, (0, 1, 9), errors)
        with open(path, encoding="utf-8") as stream:
            document = json.load(stream)
        if VALIDATOR:
            self.assertEqual([error.message[:300] for error in VALIDATOR.iter_errors(document)], [])
        return document, status


# ---- kinds, by hand

A, B, C = "exit R1 E1", "exit R2 E1", "exit R3 E1"
LANS = {"R1 E1": "one", "R2 E1": "one", "R3 E1": "two"}
# Old outcomes, new outcomes, those of the old and of the new network that nobody answers, and the kind.
CASES = [
    ("drop", "expired", "", "", "loops"),
    (A, "expired", "", "", "loops"),
    ("drop", A + " | expired", "", "", "loops"),
    ("drop", "drop | expired", "", "", "loops"),
    ("local R1 E0", "drop | expired", "", "", "loops"),
    ("drop | expired", "expired", "", "", "loops"),
    (A, "drop", "", "", "closes"),
    ("local R1 E0", "drop", "", "", "closes"),
    ("drop | exit R3 E0", "drop", "", "", "closes"),
    (A + " | expired", "expired", "", "", "closes"),
    (A + " | " + B, "drop", "", "", "closes"),
    (A + " | expired", "drop | expired", "", "", "closes"),
    ("drop", A, "", A, "unanswered"),
    (B, A, "", A, "unanswered"),
    (A + " | " + B, A + " | " + B + " src 10.0.0.9", A, A, "translated otherwise"),
    (A, A + " | drop", A, A, "sometimes"),
    ("expired", A, "", A, "unanswered"),
    (B + " | drop", A, B, A, "unanswered"),
    ("drop", A, "", "", "opens"),
    ("expired", A, "", "", "opens"),
    ("drop", "local R1 E0", "", "", "opens"),
    ("drop", "drop | " + A, "", "", "opens"),
    ("drop | expired", A + " | expired", "", "", "opens"),
    (A, "drop | " + A, "", "", "sometimes"),
    ("drop | " + A, A, "", "", "sometimes"),
    (A + " | expired", A, "", "", "sometimes"),
    ("drop | " + A, B, "", "", "sometimes"),
    (A + " | drop | expired", A + " | expired", "", "", "sometimes"),
    (A, A + " dst 10.0.0.5", "", "", "translated otherwise"),
    (A + " src 10.0.0.5", A + " src 10.0.0.6", "", "", "translated otherwise"),
    ("drop | " + A, "drop | " + A + " dport 80", "", "", "translated otherwise"),
    (A, C, "", "", "moves"),
    (A, "local R1 E1", "", "", "moves"),
    ("local R1 E1", "local R2 E1", "", "", "moves"),
    (A, A + " | " + C, "", "", "moves"),
    ("drop | " + A, "drop | " + C, "", "", "moves"),
    (A + " | expired", C + " | drop", "", "", "moves"),
    (A, B, "", "", "moves on a lan"),
    (A, A + " | " + B, "", "", "moves on a lan"),
    ("expired", "drop", "", "", "loop gone"),
    ("drop | expired", "drop", "", "", "loop gone"),
    ("expired", "drop | expired", "", "", "loop gone"),
    (A + " | expired", A + " | drop", "", "", "loop gone"),
]


def outcomes(text):
    return tuple(text.split(" | ")) if text else ()


class Kinds(unittest.TestCase):
    """Kinds over outcomes alone."""

    def test_cases(self):
        for old, new, before, after, wanted in CASES:
            found = kind_of(side_of(outcomes(old), frozenset(outcomes(before))), side_of(outcomes(new), frozenset(outcomes(after))), LANS)
            self.assertEqual(found, wanted, (old, new, before, after))
        self.assertEqual({case[4] for case in CASES}, set(KINDS))

    def told(self, cases):
        """The kinds that a window gives, by those of the document: of old and new outcomes and those that nobody answers."""
        def in_order(text):
            """The outcomes as a report has them."""
            return " | ".join(sorted(outcomes(text), key=lambda one: (("drop", "expired", "local", "exit").index(one.split()[0]), one)))

        with tempfile.TemporaryDirectory(prefix="diqenyu-test-") as folder:
            known = DocumentKinds(folder).of((in_order(old), in_order(new)) for old, new, *_ in cases)
        return [kinds.kind_of(known[in_order(old), in_order(new)], side_of(outcomes(old), frozenset(outcomes(before))),
                              side_of(outcomes(new), frozenset(outcomes(after))), LANS)
                for old, new, before, after, *_ in cases]

    def test_of_the_document(self):
        self.assertEqual(self.told(CASES), [case[4] for case in CASES])

    def test_of_the_document_of_every_pair(self):
        """Those of a window are those of the rules, whatever nobody answers."""
        ends = ["drop", "expired", A, B, C, "local R1 E1"]
        texts = [" | ".join(end for at, end in enumerate(ends) if some >> at & 1) for some in range(1, 1 << len(ends))]
        cases = [(old, new, before, after) for old in texts for new in texts if old != new
                 for before, after in (("", ""), (A if A in old else "", B if B in new else ""))]
        wanted = [kind_of(side_of(outcomes(old), frozenset(outcomes(before))), side_of(outcomes(new), frozenset(outcomes(after))), LANS)
                  for old, new, before, after in cases]
        self.assertEqual(self.told(cases), wanted)

    def test_every_pair_has_a_kind(self):
        """Each pair of lists of outcomes that differ: what an engineer fears is never called by a kind that says less."""
        ends = ["drop", "expired", A, B, C]
        lists = [[end for at, end in enumerate(ends) if some >> at & 1] for some in range(1, 1 << len(ends))]
        for old in lists:
            for new in lists:
                if old == new:
                    continue
                kind = kind_of(side_of(tuple(old)), side_of(tuple(new)), LANS)
                through = [[end for end in side if end.startswith("exit")] for side in (old, new)]
                if "expired" in new and "expired" not in old:
                    self.assertEqual(kind, "loops")
                elif through[0] and not through[1]:
                    self.assertEqual(kind, "closes")
                elif through[1] and not through[0]:
                    self.assertEqual(kind, "opens")
                else:
                    self.assertNotIn(kind, ("closes", "opens", "unanswered"))
                    loses = ["drop" in side or "expired" in side for side in (old, new)]
                    self.assertEqual(kind.startswith("moves"), through[0] != through[1] and loses[0] == loses[1])


# ---- words

def box(*texts):
    return Box.of_texts(texts)


ADDRESSES = [
    (("*",), "any"), (("10.1.0.0/16",), "10.1.0.0/16"), (("10.1.0.0/24", "10.1.1.0/24"), "10.1.0.0/23"), (("10.0.0.5",), "10.0.0.5"),
    (("0.0.0.0/1", "128.0.0.0/2", "192.0.0.0/3"), "all but 224.0.0.0/3"), (("00001010********0000000000000101",), "10.*.0.5"),
    (("10.0.0.0", "10.0.0.2", "10.0.0.4/30", "10.0.0.8/29"), "10.0.0.0/28 (but 10.0.0.1, 10.0.0.3)"),
]
SERVICES = [
    ([box("*", "*", "*", "*", "*", "*")], "any"),
    ([box("*", "*", "6", "443", "*", "*")], "tcp 443 (https)"),
    ([box("*", "*", "17", "53", "*", "*"), box("*", "*", "6", "80", "*", "*")], "tcp 80 (www); udp 53 (domain)"),
    ([box("*", "*", "1", "*", "00001000********", "*")], "icmp echo"),
    ([box("*", "*", "1", "*", "771", "*")], "icmp port-unreachable"),
    ([box("*", "*", "1", "*", "0000000*********", "*")], "icmp echo-reply, type 1"),
    ([box("*", "*", "6", "22", "*", "*")._replace(flags=field_words.ESTABLISHED)], "tcp 22 (ssh) established"),
    ([box("*", "*", "6", "*", "*", "*")._replace(flags=~field_words.ESTABLISHED)], "tcp not established"),
    ([box("*", "*", "17", "*", "53", "*")], "udp from port 53 (domain)"),
    ([box("*", "*", "47", "*", "*", "*")], "gre"),
    ([box("*", "*", "*", "80", "*", "*")], "any protocol dport 80"),
    ([box("*", "*", "6", "*", "*", "***1**0*")], "tcp flags ack no syn"),
    ([box("*", "*", "200", "*", "*", "*")], "200"),
]
NOT_SMB = (~Headers.of_boxes([box("*", "*", "6", "445", "*", "*"),
                              box("*", "*", "17", "*", "*", "*")._replace(destination_port=Values.of_range(137, 139, 16))])).boxes()
PACKETS = [
    (box("10.2.0.0/24", "10.1.0.0/24", "*", "*", "*", "*"), "tcp 10.1.0.20:49152 -> 10.2.0.10:443 syn"),
    (box("10.2.0.5", "*", "1", "*", "*", "*"), "icmp echo 203.0.113.20 -> 10.2.0.5"),
    (box("10.2.0.5", "10.1.0.1", "17", "*", "*", "*"), "udp 10.1.0.1:49152 -> 10.2.0.5:53"),
    (box("10.2.0.5", "10.1.0.1", "6", "8443", "443", "***1****"), "tcp 10.1.0.1:443 -> 10.2.0.5:8443 ack"),
    (box("10.2.0.5", "10.1.0.1", "89", "*", "*", "*"), "ospf 10.1.0.1 -> 10.2.0.5"),
    (box("10.2.0.5", "10.1.0.1", "1", "*", "0000000000******", "*"), "icmp echo-reply 10.1.0.1 -> 10.2.0.5"),
]


class Words(unittest.TestCase):
    """Sets in words, and example packets."""

    def test_addresses(self):
        for texts, wanted in ADDRESSES:
            self.assertEqual(field_words.addresses(Values.of_texts(texts, 32)), wanted)

    def test_services(self):
        for boxes, wanted in SERVICES:
            self.assertEqual(field_words.services(boxes), wanted)
        self.assertEqual(field_words.services(NOT_SMB), "all but tcp 445; udp 137-139")

    def test_packets(self):
        for one, wanted in PACKETS:
            self.assertEqual(field_words.packet(field_words.example(Headers.of_box(one))), wanted)

    def test_an_example_is_of_the_set(self):
        draw = random.Random(4)
        for _ in range(300):
            texts = ["".join(draw.choice("01***") for _ in range(width)) for width in WIDTHS]
            headers = Headers.of_box(Box.of_texts(texts))
            self.assertTrue(headers.holds(field_words.example(headers)), texts)


# ---- groups, by set arithmetic and by the rules

def outcome_text(document):
    """An outcome of the document, as a report writes it."""
    words = [document["end"]] + [document[name] for name in ("device", "interface") if name in document]
    return " ".join(words + ["%s %s" % (name, document[name]) for name in ("src", "dst", "sport", "dport") if name in document])


def headers_of(boxes):
    """The headers of the document."""
    return Headers.of_boxes(Box.of_fields([Values.of_texts(one.get(name, ["*"]), width) for name, width in zip(FIELDS, WIDTHS)])
                            for one in boxes)


def place_of(document):
    return "%(device)s %(interface)s" % document


def answered(network, place, value):
    """Whether a destination is in a subnet of an interface that leads there."""
    interface = network.interface(tuple(place.split(" ")))
    return any(value & rules.first_bits(length) == address & rules.first_bits(length) for address, length in interface.subnets())


def unanswered_in(network, outcomes_, header):
    """The exits over lans for addresses that nobody there has, by the rules' networks."""
    found = set()
    for text in outcomes_:
        words = text.split(" ")
        place = tuple(words[1:3])
        if words[0] == "exit" and place in network.segments and network.segments[place][0] == "lan":
            replaced = dict(zip(words[3::2], words[4::2])).get("dst")
            if not answered(network, " ".join(place), rules.address_of(replaced) if replaced else header[0]):
                found.add(text)
    return frozenset(found)


class Groups(Windows):
    """The groups of a document are exactly the report, cut by sources that can be there."""

    def plausible(self, networks, place, address):
        """By the rules: whether a network sends the address out of the interface at which it enters, or has it in a subnet there."""
        for network in networks:
            for other in network.devices.values():
                # backup routes are in use beside the others
                other.routes = [(prefix, name, hop, distance if distance == 255 else 1) for prefix, name, hop, distance in other.routes]
                other.install()
            interface = network.interface(tuple(place.split(" ")))
            subnets = interface.subnets() if interface else []
            if any(address & rules.first_bits(length) == own & rules.first_bits(length) for own, length in subnets):
                return True
            device = network.devices.get(place.split(" ")[0])
            if device is None:
                continue
            alone = rules.Network([device], "ingress %s\n" % place)
            kept = [(one, one.lists, one.side) for one in device.interfaces.values()]
            for one in device.interfaces.values():
                one.lists, one.side = {}, None
            header = rules.header_of("%s,1.1.1.1,6,80,5000,0" % rules.dotted(address))
            ends = alone.label(tuple(place.split(" ")), header, 255)
            for one, lists, side in kept:
                one.lists, one.side = lists, side
            if any(rules.outcome_text(end).split(" ")[:3] == ["exit", *place.split(" ")] for end in ends):
                return True
        return False

    def judge(self, words, draw, tries=12):
        """What a document says of the groups of a change, against its report."""
        document, _ = self.document(*words)
        tables = words[2:3] + words[4:5]
        report = subprocess.run(TOOLS["review"] + ["compare", *words[:2], *tables], cwd=TOP, stdout=subprocess.PIPE,
                                check=False).stdout.decode()
        sources = {place_of(one): Values.of_texts(one["sources"], 32) for one in document["sources"]}
        found = {}
        for finding in document["findings"]:
            for group in finding["groups"]:
                for place in map(place_of, group["ingresses"]):
                    self.assertIn(place, [place_of(one) for one in finding["ingresses"]])
                    bound = {"its": sources[place], "foreign": ~sources[place], "own": Values.all(32)}[group["sources"]]
                    headers = headers_of(group["headers"]) & Headers.where(source=bound)
                    inside = headers & Headers.where(source=sources[place])
                    self.assertEqual(inside, headers if finding["plausible"] else Headers.none())
                    key = (" | ".join(map(outcome_text, group["old"])), " | ".join(map(outcome_text, group["new"])))
                    found.setdefault((place, *key), []).append((headers, finding["kind"], group))
        wanted = {(place, *key): headers for place, rows in cubes.sections(report) for key, headers in cubes.by_outcome(rows).items()}
        self.assertEqual(set(found), set(wanted))
        networks = [rules.Network(rules.load(folder), open(table, encoding="utf-8").read())
                    for folder, table in zip(words[:2], tables * 2 if len(tables) == 1 else tables)]
        for key, pieces in found.items():
            self.assertEqual(cubes.union(headers for headers, _, _ in pieces), wanted[key])
            self.assertEqual(sum(headers.size() for headers, _, _ in pieces), wanted[key].size())
            for headers, kind, _ in pieces:
                header = field_words.example(headers)
                sides = [side_of(outcomes(text), unanswered_in(network, outcomes(text), header))
                         for text, network in zip(key[1:], networks)]
                segments = [item for network in networks for item in network.segments.items()]
                lans = {" ".join(end): str(sorted(ends)) for end, (word, ends) in segments if word == "lan"}
                self.assertEqual(kind, kind_of(*sides, lans), (key, header))
        for place, values in sources.items():
            near = [one.bits ^ draw.getrandbits(3) for one in values.patterns()]
            for address in draw.sample(near, min(tries, len(near))) + [draw.getrandbits(32) for _ in range(tries)]:
                self.assertEqual(address in values, self.plausible(networks, place, address), (place, rules.dotted(address)))

    def test_examples(self):
        draw = random.Random(1)
        for name in sorted(os.listdir(os.path.join(TOP, "examples"))):
            here = "examples/%s/" % name
            if os.path.exists(os.path.join(TOP, here, "expected")) and name != "ospf":
                more = ["--newlinks", here + "newlinks"] if os.path.exists(os.path.join(TOP, here, "newlinks")) else []
                self.judge([here + "old", here + "new", here + "links", *more], draw)

    def test_random_networks(self):
        draw, judged, seed = random.Random(2), 0, 0
        while judged < NETWORKS:
            seed += 1
            folder = self.path("random")
            subprocess.run([sys.executable, os.path.join(TOP, "tests", "random_networks.py"), folder, str(seed)], check=True)
            words = [os.path.join(folder, name) for name in ("old", "new", "links")] + (
                ["--newlinks", os.path.join(folder, "newlinks")] if seed % 3 == 0 else [])
            if self.window(*words)[0] in (0, 1):
                judged += 1
                self.judge(words, draw, 4)


# ---- what looked harmless

DEFAULT = "ip route 0.0.0.0 0.0.0.0 "


class FirstLines(Windows):
    """Changes that used to look harmless: the first five lines say what is the matter."""

    def first(self, old, new, links=LINKS):
        status, lines, errors = self.window(*self.networks(old, new, links))
        self.assertEqual(status, 1, errors)
        self.assertNotIn("byte for byte", "\n".join(lines))
        return "\n".join(lines[:5]), "\n".join(lines)

    def test_a_way_of_two_is_dropped_as_the_other_was(self):
        both = "ip route 10.9.0.0 255.255.0.0 Null0\n"
        text, _ = self.first([R1 + both + "ip route 10.9.0.0 255.255.0.0 10.0.0.2\n", R2 + DEFAULT + "10.2.0.9\n"],
                             [R1 + both, R2 + DEFAULT + "10.2.0.9\n"])
        self.assertIn("To be decided: packets change (closes", text)
        self.assertIn("1 closes: no longer gets through, at R1 Ethernet0", text)

    def test_next_hop_that_nobody_has(self):
        text, whole = self.first([R1 + DEFAULT + "10.0.0.2\n", R2], [R1 + DEFAULT + "10.0.0.3\n", R2])
        self.assertIn("packets change (", text)
        self.assertIn("unanswered: leaves over a lan to a next hop that nobody has, at R1 Ethernet0", whole)
        self.assertNotIn("opens", whole)
        # what R2 dropped leaves over the lan now: it doesn't get through
        self.assertRegex(text, r"unanswered 1")
        self.assertIn("sent out of R1 Ethernet1 to the next hop 10.0.0.3, which nobody there has", whole)

    def test_who_answers_on_a_lan(self):
        """An address within the subnet, translated or not."""
        words = self.networks([R1, R2], [R1, R2])
        network = network_of(self.path("new"), words[2])
        lans = Lans(network, network)
        for text, wanted in (("exit R1 Ethernet1 dst 10.0.0.9", Headers.none()), ("exit R1 Ethernet1 dst 10.9.0.9 dport 80", Headers.all()),
                             ("exit R1 Ethernet1 src 10.9.0.9", Headers.where(destination=~Values.of_text("10.0.0.0/24", 32))),
                             ("exit R1 Ethernet0", Headers.none()), ("local R1 Ethernet1", Headers.none()), ("drop", Headers.none())):
            self.assertEqual(lans.strangers(outcome_of(text), 1), wanted, text)

    def test_loop_that_is_gone(self):
        loop = R2 + "ip route 10.9.0.0 255.255.0.0 10.0.0.1\n"
        text, whole = self.first([R1 + "ip route 10.9.0.0 255.255.0.0 10.0.0.2\n", loop],
                                 [R1 + "ip route 10.9.0.0 255.255.0.0 10.0.0.2\n", R2])
        self.assertIn("(loop gone 1)", text)
        self.assertNotIn("closes", whole)

    def test_warnings_of_the_change_come_first(self):
        standing = "access-list 7 permit any\naccess-list 8 permit any\naccess-list 9 permit any\n"
        text, whole = self.first([R1 + standing, R2], [R1 + standing, R2 + "access-list 77 permit any\n"])
        self.assertIn("new/R2.cfg: nothing names the access list 77", text)
        self.assertIn("1 new warning, 3 standing warnings", text)
        self.assertEqual(whole.count("names the access list"), 1)

    def test_servers_that_are_no_ingress_are_blocked(self):
        links = "lan R1 Ethernet1 R2 Ethernet0\ningress R1 Ethernet0\n"
        blocked = R2.replace("10.2.0.1 255.255.255.0\n",
                             "10.2.0.1 255.255.255.0\n ip access-group 150 in\n") + "access-list 150 deny ip any any\n"
        route = R1 + DEFAULT + "10.0.0.2\n"
        text, _ = self.first([route, R2], [route, blocked], links)
        self.assertIn("packets change at edges that are no ingress: closes at R2 Ethernet1", text)
        self.assertIn("1 of 2 edges are ingresses", text)
        self.assertIn("edge: R2 Ethernet1 (10.2.0.1/24) is no ingress, on a device that the change touches; "
                      "packets that come in there: closes", text)

    def test_renumbered_subnet_is_not_foreign(self):
        """The users' new addresses are plausible, though the old network has them nowhere; a spoofed source stays foreign."""
        new = R1.replace("10.1.0.1 255.255.255.0\n", "10.5.0.1 255.255.255.0\n ip access-group 150 in\n")
        default, users = DEFAULT + "10.0.0.2\n", "access-list 150 permit ip 10.1.0.0 0.0.0.255 any\n"
        text, whole = self.first([R1 + default, R2], [new + default + users, R2.replace("10.1.0.0", "10.5.0.0")])
        self.assertIn("closes", text)
        self.assertIn("    from 10.5.0.0/24 to 10.0.0.0/24 (but 10.0.0.255), 10.2.0.0/24 (but 10.2.0.255): any", whole)
        document, _ = self.document(self.path("old"), self.path("new"), self.path("links"))
        self.assertEqual(document["sources"][0], {"device": "R1", "interface": "Ethernet0", "sources": ["10.1.0.0/24", "10.5.0.0/24"]})

    def test_identical_folders(self):
        status, lines, _ = self.window(CAMPUS[0], CAMPUS[0], CAMPUS[2])
        self.assertEqual(status, 0)
        self.assertIn("packets: nothing changes: both folders have the same 11 files, byte for byte; 4 of 8 edges are ingresses", lines[:5])


# ---- findings, warnings, edges, questions, statuses

class Decisions(Windows):
    """What a person decides on."""

    def test_one_finding_at_several_ingresses(self):
        route = R1 + DEFAULT + "10.0.0.2\n"
        document, _ = self.document(*self.networks([route, R2], [route, R2 + "ip route 10.9.0.0 255.255.0.0 Ethernet1 10.2.0.9\n"]))
        told = [(one["kind"], [place_of(place) for place in one["ingresses"]], one["words"])
                for one in document["findings"] if one["plausible"]]
        self.assertEqual(told, [("opens", ["R1 Ethernet0", "R2 Ethernet1"], ["from their sources to 10.9.0.0/16: any"])])

    def test_foreign_sources_are_one_line(self):
        here = ["examples/traps/spoofed-sources/" + name for name in ("old", "new", "links")]
        status, lines, _ = self.window(*here)
        self.assertEqual(status, 0)
        self.assertIn("foreign: 1 group of packets whose source can't be where they come in: opens 1 (--foreign)", lines)
        self.assertEqual(lines[1], "Nothing changes but for packets whose source can't be where they come in.")
        _, lines, _ = self.window(*here, "--foreign")
        self.assertIn("    from 10.2.0.0/24 to 10.9.0.5: tcp 443 (https)", lines)

    def test_sources_of_a_file(self):
        here = ["examples/traps/spoofed-sources/" + name for name in ("old", "new", "links")]
        document, status = self.document(*here, "--sources", write(self.path("sources"), "! users\nR1 Ethernet0 10.1.0.0/24 10.2.0.0/25\n"))
        self.assertEqual(status, 1)
        self.assertEqual([(one["plausible"], one["words"]) for one in document["findings"]],
                         [(True, ["from 10.2.0.0/25 to 10.9.0.5: tcp 443 (https)"]),
                          (False, ["from 10.2.0.128/25 to 10.9.0.5: tcp 443 (https)"])])
        for text, told in (("R1 Ethernet0\n", "line 1 MissingWord"), ("R1 Ethernet9 any\n", "line 1 UnknownPlace R1 Ethernet9"),
                           ("\nR1 Ethernet0 10.0.0.1/8\n", "line 2 BadWord 10.0.0.1/8"),
                           ("R1 Ethernet0 any\nR1 Ethernet0 any\n", "line 2 EndTaken Ethernet0")):
            status, lines, errors = self.window(*here, "--sources", write(self.path("sources"), text))
            self.assertEqual((status, lines, errors[-1]), (3, [], "refused %s %s" % (self.path("sources"), told)))
        self.assertEqual(self.window(*here, "--sources", self.path("none"))[0], 8)

    def test_backup_routes_send_back_too(self):
        """Packets of the Internet come in at the second provider, though a better route sends answers to the first one."""
        providers = ("hostname R1\ninterface Ethernet0\n ip address 10.1.0.1 255.255.255.0\n"
                     "interface Ethernet1\n ip address 192.0.2.1 255.255.255.252\n"
                     "interface Ethernet2\n ip address 192.0.2.5 255.255.255.252\n%s"
                     "ip route 0.0.0.0 0.0.0.0 Ethernet1 192.0.2.2 name first tag 5\n"
                     "ip route 0.0.0.0 0.0.0.0 Ethernet2 192.0.2.6 250 name second\n"
                     "ip route 203.0.113.0 255.255.255.0 Ethernet2 192.0.2.6 255\naccess-list 150 permit ip 192.0.2.4 0.0.0.3 any\n")
        words = self.networks([providers % ""], [providers % " ip access-group 150 in\n"], "ingress R1 Ethernet1\ningress R1 Ethernet2\n")
        document, status = self.document(*words)
        self.assertEqual((status, document["findings"][0]["kind"], document["findings"][0]["words"][0]),
                         (1, "closes", "from all but 224.0.0.0/3, 10.1.0.0/24, 192.0.2.0/29 "
                          "to all but 224.0.0.0/3, 10.1.0.255, 192.0.2.3, 192.0.2.7: any"))

    def test_accepted_warnings(self):
        words = self.networks([R1, R2 + "access-list 7 permit any\n"], [R1, R2 + "! moved\naccess-list 7 permit any\n"])
        status, lines, _ = self.window(*words)
        self.assertEqual((status, lines[1]), (1, "To be decided: a standing warning."))
        known = write(self.path("known"), "%s/R2.cfg: nothing names the access list 7\nwarnings 1\n" % self.path("old"))
        status, lines, _ = self.window(*words, "--accept", known)
        self.assertEqual((status, lines[1]), (0, "Nothing changes for any packet."))
        self.assertIn("accepted warnings: 1", lines)

    def test_what_an_edge_is(self):
        """On no link, up and addressed; or an end of a lan of which another end is an ingress; no loopback."""
        more = ("interface Loopback0\n ip address 10.9.9.9 255.255.255.255\ninterface Ethernet2\n"
                "interface Ethernet3\n shutdown\n ip address 10.3.0.1 255.255.255.0\n")
        for ingress, wanted in (("R1 Ethernet0", ["R1 Ethernet0", "R2 Ethernet1"]),
                                ("R1 Ethernet1", ["R1 Ethernet0", "R1 Ethernet1", "R2 Ethernet0", "R2 Ethernet1"])):
            words = self.networks([R1 + more, R2], [R1 + more, R2], "lan R1 Ethernet1 R2 Ethernet0\ningress %s\n" % ingress)
            network = network_of(words[1], words[2])
            self.assertEqual(sorted(edges_of(network, network)), wanted)

    def test_all_edges(self):
        document, _ = self.document(*CAMPUS, "--all-edges")
        self.assertEqual(len(document["ingresses"]), 9)
        self.assertEqual([edge for edge in document["edges"] if edge["why"]], [])
        before, _ = self.document(*CAMPUS)
        told = {place_of(edge): edge["kinds"] for edge in before["edges"] if edge["why"]}
        self.assertEqual(set(told), {"ACC2 Vlan11", "DC1 GigabitEthernet0/2", "DC1 GigabitEthernet0/3"})
        # what is looked at there is what the comparison has there
        for place, some in told.items():
            found = {one["kind"] for one in document["findings"] if one["plausible"] and place in map(place_of, one["ingresses"])}
            self.assertEqual(set(some), found, place)

    def test_statuses(self):
        words = self.networks([R1 + DEFAULT + "10.0.0.2\n", R2], [R1, R2])
        for causes, wanted in ((None, 1), ("closes", 1), ("opens,loops", 0), ("none", 0), ("warnings", 0), ("unexpected", 1),
                               ("foreign", 1)):
            self.assertEqual(self.window(*words, *(["--fail-on", causes] if causes else []))[0], wanted, causes)
        for causes in ("close", "closes,", ""):
            self.assertEqual(self.window(*words, "--fail-on=" + causes)[0], 2, causes)
        asked = ["--questions",
                 write(self.path("questions"), "! one\nreach R1 Ethernet0 to R2 Ethernet1 dst 10.2.0.5 src 10.1.0.5 proto 6\n")]
        status, lines, _ = self.window(*words, *asked)
        self.assertEqual(status, 9)
        self.assertIn("fails now: questions:2 reach R1 Ethernet0 to R2 Ethernet1 dst 10.2.0.5 src 10.1.0.5 proto 6: "
                      "tcp 10.1.0.5:0 -> 10.2.0.5:0", lines)
        self.assertEqual(self.window(*words, *asked, "--fail-on", "closes")[0], 1)

    def test_questions_of_one_network(self):
        new = [R1 + DEFAULT + "10.0.0.2\n", R2]
        old = new + ["hostname R3\ninterface Ethernet0\n ip address 10.3.0.1 255.255.255.0\n"]
        links = LINKS + "ingress R3 Ethernet0\n"
        retired = write(self.path("questions"), "noloop R3 Ethernet0 dst 10.0.0.0/8\nnoloop R1 Ethernet0 dst 10.2.0.0/16\n")
        added = write(self.path("added"), "reach R1 Ethernet0 to R2 Ethernet1 dst 10.2.0.5 src 10.1.0.5 proto 6\n")
        document, _ = self.document(*self.networks(old, new, links), "--questions", retired, "--questions-new", added)
        self.assertEqual([(one["before"], one["after"]) for one in document["questions"]], [(True, None), (True, True), (None, True)])
        # a device that only the new network has, asked of both
        status, lines, errors = self.window(*self.networks(new, old, links), "--questions", retired)
        self.assertEqual((status, lines, errors[-1]), (3, [], "refused %s line 1 UnknownPlace R3: the old network hasn't it; "
                                                       "--questions-new asks the new one alone" % retired))

    def test_refusals_of_the_link_table(self):
        twice = R2.replace("10.0.0.2", "10.0.0.1")
        for old, new, told in (([R1, R2], [R1, twice], "in the new network"), ([R1, twice], [R1, R2], "in the old network")):
            words = self.networks(old, new)
            status, lines, errors = self.window(*words)
            self.assertEqual((status, lines), (3, []))
            self.assertEqual(errors[-1], "refused %s line 1 AddressTwice 10.0.0.1: %s; --newlinks FILE gives the new one a table of its own"
                             % (words[2], told))
        words = self.networks([R1, R2], [R1, R2], LINKS + "ingress R7 Ethernet0\n")
        self.assertEqual(self.window(*words)[2][-1], "refused %s line 4 UnknownDevice R7: neither network has it" % words[2])


class Verdicts(unittest.TestCase):
    """The fewest lines behind what isn't expected."""

    @staticmethod
    def findings(*causes):
        return [Finding("closes", True, ("R1 E0",), Cause(how, lines), None, (), []) for how, lines in causes]

    def test_fewest_lines(self):
        for causes, wanted in (
                ([("by", (3,))], (3,)), ([("by", (1, 2)), ("by", (2, 5))], (2,)), ([("by", (1,)), ("by", (2,))], (1, 2)),
                ([("any", (1, 2))], (1, 2)), ([("any", (1, 2)), ("by", (2, 4))], (1, 2)), ([("all", (4, 5))], (4, 5)),
                ([("by", (1,)), ("by", (2,)), ("by", (3,)), ("by", (4,))], ())):
            self.assertEqual(fewest_lines(self.findings(*causes)), wanted, causes)
        self.assertEqual(fewest_lines([]), ())

    def test_what_is_left_without_them(self):
        found = self.findings(("by", (0,)), ("by", (1,)))
        found[0].expected, found[1].expected, found[1].kind = "no", "whole", "opens"
        lines = [Line(0, "R1.cfg:7", "+", "shutdown", "", "shut", "R1"),
                 Line(1, "R1.cfg:9", "-", "ip route 10.0.0.0 255.0.0.0 Null0", "", "route", "R1")]
        result = Result("A", "old", "new", ("links",), {"R1 E0": 1}, {}, findings=found, lines=lines)
        self.assertEqual(verdict_of(result)[1:], ["All of it comes of R1.cfg:7 + shutdown."])
        result.rest = "packets don't change"
        self.assertEqual(verdict_of(result)[1:], ["All of it comes of R1.cfg:7 + shutdown. Without it packets don't change."])

    def test_rest(self):
        """What the change does without a line: as a comparison says, beside what it does with it."""
        sources = {"R1 E0": Values.of_text("10.1.0.0/24", 32)}

        def kinds_of(pairs):
            return {pair: kind_of(*(side_of(outcomes(text)) for text in pair), {}) for pair in pairs}

        lans = SimpleNamespace(strangers=lambda outcome, side: Headers.none(), names={})

        def found(*rows):
            places = {}
            for source, port, old, new in rows:
                box = Box.of_texts(("10.9.0.0/16", source, "6", port, "*", "*"))
                places.setdefault("R1 E0", {}).setdefault((old, new), []).append(Headers.of_box(box))
            return Found(len(rows), {place: {ends: union(some) for ends, some in alike.items()} for place, alike in places.items()})

        here, exit_ = "10.1.0.0/24", "exit R9 E1"
        report = found((here, "80", "drop", exit_), (here, "443", exit_, "drop"), ("10.7.0.0/16", "25", "drop", exit_))
        for rows, wanted in (
                ((), "packets don't change"),
                ((("10.7.0.0/16", "25", "drop", exit_),), "packets don't change but for packets whose source can't be where they come in"),
                (((here, "80", "drop", exit_),), "the change still does the rest: opens 1"),
                (((here, "22", "drop", exit_),), "it does something else instead: opens 1"),
                (((here, "443", exit_, "expired"),), "it does something else instead: loops 1"),
                (((here, "80", "drop", exit_), (here, "443", exit_, "drop"), (here, "22", "drop", exit_)),
                 "the change still does the rest: closes 1, opens 1, and something else instead: opens 1")):
            self.assertEqual(rest_of(found(*rows), report, sources, lans, kinds_of), wanted)
        self.assertEqual(rest_of(Refused("refused x line 1 BadWord y"), report, sources, lans, kinds_of), "the new network is refused")


class Telling(unittest.TestCase):
    """Findings with lines, which stand-ins give."""

    LINES = [Line(number, "R1.cfg:%d" % (number + 7), "+", "line %d" % number, "", "route", "R1") for number in range(5)]
    SOURCES = {"R1 E0": Values.of_text("10.1.0.0/24", 32), "R2 E0": Values.of_text("10.2.0.0/24", 32),
               "R3 E0": Values.of_text("10.3.0.0/24", 32)}

    def told(self, *parts):
        """The text of findings of parts: an ingress, the texts of a box, and a cause."""
        made = []
        for place, texts, cause in parts:
            headers = Headers.of_box(Box.of_texts(texts)) & Headers.where(source=self.SOURCES[place])
            made.append((Part(place, headers, ("exit R9 E1",), ("drop",), True, "closes"), cause))
        found = findings.numbered(findings.findings_of(findings.groups_of(made, self.SOURCES)))
        result = Result("A", "old", "new", ("links",), dict.fromkeys(self.SOURCES, 1), self.SOURCES, findings=found, lines=self.LINES)
        result.idle, result.beside = [Idle(4, "nobody uses it")], [Idle(3, "2 does the same")]
        result.holds_back, result.notes = [2], {1: "see R2"}
        if VALIDATOR:
            self.assertEqual(list(VALIDATOR.iter_errors(json.loads(json_of(result, 1)))), [])
        self.assertEqual(document_of(result, 1)["lines"][4]["idle"], {"reason": "nobody uses it", "backup": False, "quiet": False})
        self.assertEqual([one["ruleId"] for one in json.loads(sarif_of(result, 1))["runs"][0]["results"]], ["without-effect"])
        return lines_of(result)

    def test_lines_of_findings(self):
        anything, web = ("10.9.0.0/16", "*", "*", "*", "*", "*"), ("10.9.0.0/16", "*", "6", "80", "*", "*")
        lines = self.told(("R1 E0", anything, Cause("by", (0, 1))), ("R2 E0", anything, Cause("by", (0, 1))),
                          ("R3 E0", web, Cause("by", (0, 1))))
        self.assertEqual(lines[1:], [
            "To be decided: packets change (closes 2); 1 line without effect.",
            "All of it comes of R1.cfg:7 + line 0.", "2 findings, 1 line without effect",
            "packets: something changes at 3 of 3 ingresses, 3 rows",
            "1 closes: no longer gets through, at 2 ingresses: R1 E0, R2 E0", "    from their sources to 10.9.0.0/16: any",
            "    exit R9 E1 -> drop",
            "    as tcp 10.1.0.20:49152 -> 10.9.0.10:443 syn", "    by R1.cfg:7 + line 0", "       R1.cfg:8 + line 1",
            "    likewise 2, at R3 E0: from 10.3.0.0/24 to 10.9.0.0/16: tcp 80 (www)",
            "without effect: R1.cfg:11 + line 4", "    nobody uses it", "takes no part: R1.cfg:10 + line 3", "    2 does the same",
            "holds back what the other lines would change: R1.cfg:9 + line 2", "to be known of R1.cfg:8 + line 1", "    see R2",
            "questions: none asked"])

    def test_other_lines_are_another_finding(self):
        anything = ("10.9.0.0/16", "*", "*", "*", "*", "*")
        lines = self.told(("R1 E0", anything, Cause("by", (0,))), ("R2 E0", anything, Cause("any", (1, 2))),
                          ("R3 E0", anything, Cause("all", (1, 2, 3, 4))))
        self.assertIn("3 findings, 1 line without effect", lines)
        for line in ("    by R1.cfg:7 + line 0", "    each alone does it: R1.cfg:8 + line 1", "    only together: R1.cfg:10 + line 3",
                     "                   R1.cfg:8, R1.cfg:9"):
            self.assertIn(line, lines)


# ---- documents

SARIF_LEVELS = {"none", "note", "warning", "error"}


class Documents(Windows):
    """SARIF by what its schema requires, JUnit by its members, JSON by its own schema."""

    def sarif(self, document):
        """The required members of SARIF 2.1.0: sarifLog, run, tool, toolComponent, reportingDescriptor, result, message, locations,
        region."""
        self.assertEqual(document["version"], "2.1.0")
        self.assertIsInstance(document["runs"], list)
        for one in document["runs"]:
            driver = one["tool"]["driver"]
            self.assertTrue(driver["name"])
            names = [rule["id"] for rule in driver["rules"]]
            self.assertEqual(len(names), len(set(names)))
            for found in one["results"]:
                self.assertTrue(found["message"]["text"])
                self.assertIn(found["ruleId"], names)
                self.assertIn(found["level"], SARIF_LEVELS)
                for location in found.get("locations", []):
                    place = location["physicalLocation"]
                    self.assertTrue(place["artifactLocation"]["uri"])
                    self.assertGreaterEqual(place.get("region", {"startLine": 1})["startLine"], 1)
                for known in found.get("suppressions", []):
                    self.assertIn(known["kind"], ("inSource", "external"))
            yield from one["results"]

    def test_examples(self):
        for name in sorted(os.listdir(os.path.join(TOP, "examples"))):
            here = "examples/%s/" % name
            if not os.path.exists(os.path.join(TOP, here, "expected")):
                continue
            more = ["--newlinks", here + "newlinks"] if os.path.exists(os.path.join(TOP, here, "newlinks")) else []
            more += ["--questions", here + "questions"] if os.path.exists(os.path.join(TOP, here, "questions")) else []
            paths = [self.path(kind) for kind in ("sarif", "junit", "expect")]
            words = [here + "old", here + "new", here + "links", *more]
            self.window(*words, "--write-expect", paths[2])
            document, _ = self.document(*words, "--expect", paths[2], "--sarif", paths[0], "--junit", paths[1])
            with open(paths[0], encoding="utf-8") as stream:
                found = list(self.sarif(json.load(stream)))
            self.assertEqual(len(found), sum(len(document["warnings"][side]) for side in ("new", "both", "accepted")))
            top = ElementTree.parse(paths[1]).getroot()
            self.assertEqual(top.tag, "testsuites")
            cases = top.findall("testsuite/testcase")
            self.assertEqual((len(cases), len(top.findall("testsuite/testcase/failure"))),
                             (int(top.get("tests")), int(top.get("failures"))))
            self.assertEqual(len(cases), len(document["questions"] or []) + len(document["expected"]["lines"]) + 1)
            self.assertTrue(all(case.get("name") and case.get("classname") for case in cases))
            self.assertEqual(top.findall("testsuite[@name='expectations']/testcase/failure"), [], name)

    def test_a_warning_has_its_line(self):
        path = self.path("sarif")
        port = R1 + "interface Ethernet7\n"
        self.window(*self.networks([port, R2], [port + " keepalive 5\n", R2]), "--sarif", path)
        with open(path, encoding="utf-8") as stream:
            found = next(one for one in self.sarif(json.load(stream)) if "keepalive" in one["message"]["text"])
        place = {"artifactLocation": {"uri": self.path("new/R1.cfg")}, "region": {"startLine": port.count("\n") + 1}}
        self.assertEqual(found["locations"], [{"physicalLocation": place}])
        self.assertEqual((found["level"], found["message"]["text"]), ("warning", "passed over, only in this folder: keepalive 5"))

    def test_a_question_that_fails_is_a_failure(self):
        path = self.path("junit")
        here = "examples/campus-edge-down/"
        self.window(here + "old", here + "new", here + "links", "--questions", here + "questions", "--junit", path)
        failed = ElementTree.parse(path).getroot().findall("testsuite[@name='questions']/testcase[failure]")
        self.assertEqual([case.get("name") for case in failed], ["questions:13 noloop BRANCH Vlan40 dst 10.128.0.0/9"])

    def test_a_document_that_cannot_be_written(self):
        for option in ("--json", "--sarif", "--junit", "--write-expect"):
            path = self.path("none/document")
            status, lines, errors = self.window(*CAMPUS, option, path)
            self.assertEqual((status, lines, errors[-1]), (6, [], "cannot write " + path), option)


def tool(name):
    """How a program is called: by its launcher, or the one that the environment names."""
    return [os.path.abspath(os.environ.get("DIQENYU_" + name.upper()) or os.path.join(TOP, name))]


TOOLS = {"review": tool("review")}

if __name__ == "__main__":
    unittest.main(verbosity=1, warnings="ignore")
