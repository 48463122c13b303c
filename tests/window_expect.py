#!/usr/bin/env python3
"""Tries `window --expect`: lines that are read and refused, what is written and read back, twenty spoiled changes, and what doesn't happen.

DIQENYU_REVIEW, DIQENYU_VIEW and DIQENYU_DOCTOR name other programs than those of the launchers.
"""
import os
import random
import re
import shutil
import subprocess
import sys
import tempfile
import unittest

TOP = os.path.dirname(os.path.dirname(os.path.abspath(__file__)))
sys.dont_write_bytecode = True
sys.path[:0] = [os.path.join(TOP, "windowing")]

import expecting  # noqa: E402
from cubes import WIDTHS, Box, Headers, Values  # noqa: E402
from kinds import KINDS  # noqa: E402
from programs import Stop  # noqa: E402

INGRESSES = ("R1 Ethernet0", "R2 Ethernet0")
CAMPUS = tuple("examples/campus/" + name for name in ("old", "new", "links"))


def headers(**fields):
    """Headers by the texts of their fields as a report's rows have them."""
    widths = dict(zip(Box._fields, (8, 32, 32, 16, 16, 8)))
    return Headers.where(**{name: Values.of_texts(texts.split(), widths[name]) for name, texts in fields.items()})


# Lines, with their kind, their headers as rows of a report would have them, and their ingresses.
LINES = [
    ("opens any", "opens", headers(), None),
    ("opens tcp dport 443 from 10.11.1.0/24 to 10.30.20.0/24", "opens",
     headers(protocol="6", destination_port="443", source="10.11.1.0/24", destination="10.30.20.0/24"), None),
    ("closes any to 10.9.0.0/16", "closes", headers(destination="10.9.0.0/16"), None),
    ("closes to 10.9.0.0/16 any", "closes", headers(destination="10.9.0.0/16"), None),
    ("loops udp dport domain, ntp", "loops", headers(protocol="17", destination_port="53 123"), None),
    ("loop gone icmp echo", "loop gone", headers(protocol="1", source_port="00001000********"), None),
    ("opens icmp 3/1, 3/3", "opens", headers(protocol="1", source_port="769 771"), None),
    ("opens icmp 13", "opens", headers(protocol="1", source_port="00001101********"), None),
    ("translated otherwise tcp sport 80", "translated otherwise", headers(protocol="6", source_port="80"), None),
    ("moves tcp established", "moves", headers(protocol="6", flags="***1**** ***0*1**"), None),
    ("moves tcp not established", "moves", headers(protocol="6", flags="***0*0**"), None),
    ("moves on a lan proto 6,17 dport 16384-16387", "moves on a lan", headers(protocol="6 17", destination_port="01000000000000**"), None),
    ("unanswered from 10.0.0.0/8, 192.168.0.5", "unanswered", headers(source="10.0.0.0/8 192.168.0.5"), None),
    ("sometimes to not 128.0.0.0/1", "sometimes", headers(destination="0.0.0.0/1"), None),
    ("sometimes flags ***1**0*", "sometimes", headers(flags="***1**0*"), None),
    ("opens gre, esp", "opens", headers(protocol="47 50"), None),
    ("opens to 00001010********0000000000000101", "opens", headers(destination="00001010********0000000000000101"), None),
    ("opens any at R1 Ethernet0", "opens", headers(), ("R1 Ethernet0",)),
    ("opens any at R2 Ethernet0, R1 Ethernet0", "opens", headers(), ("R2 Ethernet0", "R1 Ethernet0")),
]
REFUSED = [
    ("open any", "BadWord open"), ("opens tcp tcp", "BadWord tcp"), ("opens tcp dport", "MissingWord"),
    ("opens any at R3 Ethernet0", "UnknownPlace R3 Ethernet0"), ("opens to 10.0.0.1/8", "BadWord 10.0.0.1/8"),
    ("opens to 10.0.0.0/33", "BadWord 10.0.0.0/33"), ("opens to 10.0.0.256", "BadWord 10.0.0.256"),
    ("opens tcp dport 65536", "BadWord 65536"), ("opens tcp dport 9-3", "BadWord 9-3"), ("opens any at R1", "MissingWord"),
    ("opens dport 1 dport 2", "BadWord dport"), ("opens icmp echoing", "BadWord echoing"), ("opens icmp 256", "BadWord 256"),
    ("opens tcp, dport", "BadWord dport"), ("opens flags 2*", "BadWord 2*"), ("opens proto 256", "BadWord 256"),
    ("moves on a lake", "BadWord on"), ("nothing", "BadWord nothing"), ("nothing else\nnothing else", "BadWord nothing"),
    ("opens from any from any", "BadWord from"), ("opens sport x", "BadWord x"), ("may", "MissingWord"),
    ("may nothing else", "BadWord nothing"),
]

# (spoofed sources change too in these networks, as everywhere without a list at the ingress)
AS_EXPECTED = "As expected: all that was expected happens, and nothing else but for packets whose source can't be where they come in."
USERS, SERVERS = "10.1.0.0 0.0.0.255", "10.2.0.0 0.0.0.255"
LINKS = "lan R1 Ethernet1 R2 Ethernet0\ningress R1 Ethernet0\ningress R2 Ethernet1\n"


def network(**changes):
    """Two routers: users at R1, servers at R2, a list of entries in front of these. A change replaces some of it."""
    has = {"entries": ["permit tcp %s host 10.2.0.10 eq 80" % USERS, "permit icmp any any", "permit tcp any any established"],
           "users": "10.1.0.1",
           "default": "10.0.0.2", "back": "10.1.0.0 255.255.255.0 10.0.0.1", "more": "", "shut": ""}
    has.update(changes)
    entries = "".join(" %d %s\n" % (10 * at, entry) for at, entry in enumerate(has["entries"], 1))
    return {
        "R1": "hostname R1\ninterface Ethernet0\n ip address %(users)s 255.255.255.0\n%(shut)s"
              "interface Ethernet1\n ip address 10.0.0.1 255.255.255.0\n"
              "ip route 0.0.0.0 0.0.0.0 %(default)s\n" % has,
        "R2": "hostname R2\ninterface Ethernet0\n ip address 10.0.0.2 255.255.255.0\n"
              "interface Ethernet1\n ip address 10.2.0.1 255.255.255.0\n"
              " ip access-group SERVERS out\nip route %(back)s\n%(more)sip access-list extended SERVERS\n" % has + entries}


WEB, PING, ANSWERS = network()["R2"].split("SERVERS\n")[1].splitlines()
OLD = network()
# What is meant: a second server, HTTPS in place of HTTP at the first one, and no ping.
MEANT = ["permit tcp %s host 10.2.0.10 eq 443" % USERS, "permit udp %s host 10.2.0.53 eq 53" % USERS, "permit tcp any any established"]
NEW = network(entries=MEANT)
# Each of these changes is something else than what was meant.
SPOILED = {
    "a port that differs": network(entries=[MEANT[0].replace("443", "444")] + MEANT[1:]),
    "a host that differs": network(entries=[MEANT[0].replace("10.2.0.10", "10.2.0.11")] + MEANT[1:]),
    "a host more": network(entries=[MEANT[0].replace("host 10.2.0.10", "10.2.0.10 0.0.0.1")] + MEANT[1:]),
    "all ports": network(entries=[MEANT[0].replace(" eq 443", "")] + MEANT[1:]),
    "half the users": network(entries=[MEANT[0].replace("0.0.0.255", "0.0.0.127", 1)] + MEANT[1:]),
    "all sources": network(entries=[MEANT[0].replace(USERS, "any", 1)] + MEANT[1:]),
    "tcp for udp": network(entries=[MEANT[0], MEANT[1].replace("udp", "tcp"), MEANT[2]]),
    "an entry forgotten": network(entries=[MEANT[0], MEANT[2]]),
    "an entry too many": network(entries=MEANT + ["permit tcp any any eq 22"]),
    "ping still there": network(entries=MEANT + ["permit icmp any any"]),
    "ping in part": network(entries=MEANT + ["permit icmp any any echo-reply"]),
    "a deny in front": network(entries=["deny tcp any any eq 443"] + MEANT),
    "the old port kept": network(entries=MEANT + ["permit tcp %s host 10.2.0.10 eq 80" % USERS]),
    "answers forgotten": network(entries=MEANT[:2]),
    "nothing at all": OLD,
    "no list": {**NEW, "R2": NEW["R2"].replace(" ip access-group SERVERS out\n", "")},
    "a list of another name": {**NEW, "R2": NEW["R2"].replace("access-group SERVERS", "access-group SERVER")},
    "an interface shut": network(entries=MEANT, shut=" shutdown\n"),
    "a next hop that nobody has": network(entries=MEANT, default="10.0.0.3"),
    "a loop": network(entries=MEANT, more="ip route 10.9.0.0 255.255.0.0 10.0.0.1\n"),
    "a route that is gone": network(entries=MEANT, back="10.7.0.0 255.255.255.0 10.0.0.1"),
    "renumbered users": network(entries=MEANT, users="10.3.0.1"),
    "a route that leads elsewhere": network(entries=MEANT, more="ip route 10.2.0.53 255.255.255.255 Null0\n"),
}


class Grammar(unittest.TestCase):
    """Lines that are read, and lines that are refused."""

    def test_lines(self):
        for text, kind, wanted, places in LINES:
            found = expecting.expectation_of(text, 1, INGRESSES)
            self.assertEqual((found.kind, found.headers, found.ingresses, found.wanted), (kind, wanted, places, True), text)
            self.assertEqual(expecting.expectation_of("may " + text, 1, INGRESSES)[2:], (*found[2:5], False))
        self.assertEqual({line[1] for line in LINES}, set(KINDS))

    def test_addresses_are_written_as_prefixes(self):
        """Also where one pattern with an open bit would do."""
        one = Box.of_texts(("*", "*", "6", "443", "*", "*"))._replace(source=Values.of_texts(("10.1.0.0/24", "10.5.0.0/24"), 32))
        self.assertEqual(expecting.line_of("opens", one, INGRESSES[:1]), "opens tcp dport 443 from 10.1.0.0/24,10.5.0.0/24 at R1 Ethernet0")

    def test_what_is_written_is_read(self):
        draw = random.Random(3)
        for _ in range(300):
            fields = []
            for width in WIDTHS:
                some = ["".join(draw.choice("01***") for _ in range(width)) for _ in range(draw.randrange(1, 4))]
                fields.append(Values.of_texts(["*"] if draw.random() < 0.4 else some, width))
            box = Box.of_fields(fields)
            text = expecting.line_of(draw.choice(KINDS), box, INGRESSES)
            self.assertEqual(expecting.expectation_of(text, 1, INGRESSES).headers, Headers.of_box(box), text)


class Expectations(unittest.TestCase):
    """A scratch folder, and calls of `window` with what is expected."""

    def setUp(self):
        self.scratch = tempfile.mkdtemp(prefix="diqenyu-test-")
        self.addCleanup(shutil.rmtree, self.scratch)

    def path(self, name):
        return os.path.join(self.scratch, name)

    def write(self, name, text):
        path = self.path(name)
        os.makedirs(os.path.dirname(path), exist_ok=True)
        with open(path, "w", encoding="utf-8") as stream:
            stream.write(text)
        return path

    def networks(self, old, new):
        for side, texts in (("old", old), ("new", new)):
            for name, text in texts.items():
                self.write("%s/%s.cfg" % (side, name), text)
        return [self.path("old"), self.path("new"), self.write("links", LINKS)]

    @staticmethod
    def window(*words):
        done = subprocess.run(["./window", *words, "--no-lines"], cwd=TOP, stdin=subprocess.DEVNULL, stdout=subprocess.PIPE, stderr=subprocess.PIPE,
                              check=False)
        return done.returncode, done.stdout.decode().splitlines(), done.stderr.decode().splitlines()

    def expect(self, text, old=None, new=None):
        """The status and the lines of a change with what is expected of it."""
        words = self.networks(old or OLD, new or NEW)
        return self.window(*words, "--expect", self.write("expect", text))

    def test_refused(self):
        for text, told in REFUSED:
            path = self.write("expect", "! a comment\n" + text + "\n")
            with self.assertRaises(Stop) as stopped:
                expecting.read_expectations(path, INGRESSES)
            told = "refused %s line %d %s\n" % (path, 2 + text.count("\n"), told)
            self.assertEqual((stopped.exception.status, stopped.exception.told.decode()), (3, told), text)
        status, lines, errors = self.window(*self.networks(OLD, NEW), "--expect", self.path("expect"), "--json", self.path("json"))
        self.assertEqual((status, lines, errors[-1] + "\n", os.path.exists(self.path("json"))), (3, [], told, False))
        self.assertEqual(self.window(*self.networks(OLD, NEW), "--expect", self.path("none"))[2][-1], "not found " + self.path("none"))

    def test_written_and_read_back(self):
        written = self.path("written")
        self.window(*self.networks(OLD, NEW), "--write-expect", written)
        status, lines, errors = self.window(*self.networks(OLD, NEW), "--expect", written)
        self.assertEqual((status, lines[1]), (0, AS_EXPECTED), errors)
        for name, spoiled in SPOILED.items():
            status, lines, errors = self.window(*self.networks(OLD, spoiled), "--expect", written)
            self.assertEqual((status, lines[1][:15]), (1, "Not as expected"), (name, lines[:5], errors))
        self.assertGreaterEqual(len(SPOILED), 20)

    def test_spoiled_files(self):
        """Without any one of its lines, or with one that is narrower, a file of what is there isn't what happens."""
        written = self.path("written")
        self.window(*self.networks(OLD, NEW), "--write-expect", written)
        with open(written, encoding="utf-8") as stream:
            lines = stream.read().splitlines()
        for at, line in enumerate(lines):
            if line.startswith("!") or line == "nothing else":
                continue
            other = ("", line + " from 10.1.0.0/25" if " from " not in line else "", re.sub("^(opens|closes)", "moves", line))[at % 3]
            spoiled = self.write("spoiled", "\n".join(lines[:at] + [other] + lines[at + 1:]) + "\n")
            told = self.window(*self.networks(OLD, NEW), "--expect", spoiled)[1]
            self.assertEqual(told[1][:15], "Not as expected", (line, other))

    def test_by_hand(self):
        status, lines, _ = self.expect("opens tcp dport 443 from 10.1.0.0/24 to 10.2.0.10\n"
                                       "opens udp dport 53 from 10.1.0.0/24 to 10.2.0.53\n"
                                       "closes icmp to 10.2.0.2/31, 10.2.0.4/30\nmay closes icmp\n"
                                       "closes tcp dport 80 not established to 10.2.0.10\nnothing else\n")
        self.assertEqual((status, lines[1]), (0, AS_EXPECTED))

    def test_expected_in_part(self):
        status, lines, _ = self.expect("opens tcp dport 443 from 10.1.0.0/25 to 10.2.0.10\nmay opens udp\nmay closes any\nnothing else\n")
        self.assertEqual((status, lines[1]), (1, "Not as expected: unexpected changes (opens 1)."))
        # (what closes is feared more, and is expected)
        self.assertEqual(lines[4], "1 opens: gets through now, at R1 Ethernet0 (expected in part, expect:1, expect:2)")
        self.assertIn("    not expected of it: from 10.1.0.128/25 to 10.2.0.10: tcp 443 (https) not established", lines)

    def test_what_does_not_happen(self):
        # the port that was meant is mistyped in the list
        status, lines, _ = self.expect("opens tcp dport 443 from 10.1.0.0/24 to 10.2.0.10\nmay opens udp\nmay closes any\n",
                                       new=SPOILED["a port that differs"])
        self.assertEqual((status, lines[1]), (1, "Not as expected: 1 of what was expected doesn't happen; unexpected changes (opens 1)."))
        self.assertEqual(lines[4:7], [
            "1 missing: opens tcp dport 443 from 10.1.0.0/24 to 10.2.0.10 (expect:1): "
            "does not get through in the new network, at R1 Ethernet0",
            "    from 10.1.0.0/24 to 10.2.0.10: tcp 443 (https) not established", "    as tcp 10.1.0.20:49152 -> 10.2.0.10:443 syn"])

    def test_what_happens_in_part(self):
        status, lines, _ = self.expect("closes icmp to 10.2.0.0/24\nmay opens any\nmay closes tcp\n", new=SPOILED["ping in part"])
        self.assertEqual(status, 1)
        self.assertIn("1 missing: closes icmp to 10.2.0.0/24 (expect:1): still gets through, at 2 ingresses: R1 Ethernet0, R2 Ethernet1",
                      lines)
        self.assertIn("    from their sources to 10.2.0.0/24 (but 10.2.0.1, 10.2.0.255): icmp echo-reply", lines)

    def test_what_was_so_before(self):
        status, lines, _ = self.expect("opens tcp established to 10.2.0.10\nmay opens any\nmay closes any\n")
        self.assertEqual(status, 1)
        self.assertIn("1 missing: opens tcp established to 10.2.0.10 (expect:1): is so in the old network already, "
                      "at 2 ingresses: R1 Ethernet0, R2 Ethernet1", lines)

    def test_sources_that_cannot_be_there(self):
        _, lines, _ = self.expect("opens any from 10.99.0.0/16\nmay opens any\nmay closes any\n")
        self.assertIn("1 missing: opens any from 10.99.0.0/16 (expect:1): has no source that can be at an ingress", lines)

    def test_at(self):
        """A line with ingresses allows nothing at others."""
        status, lines, _ = self.expect("may opens any\nmay closes any at R1 Ethernet0\nnothing else\n")
        self.assertEqual((status, lines[1]), (1, "Not as expected: unexpected changes (closes 1)."))
        self.assertIn("at R2 Ethernet1 (not expected)", lines[4])

    def test_nothing_else(self):
        """Without that line, what isn't named is to be decided."""
        for text, wanted in (("may closes any\n", "To be decided"), ("may closes any\nnothing else\n", "Not as expected")):
            status, lines, _ = self.expect(text)
            self.assertEqual((status, lines[1].split(":")[0]), (1, wanted))

    def test_no_router_forwards_a_broadcast(self):
        """`opens` to a whole subnet doesn't miss its last address, nor `closes` what was dropped before."""
        new = network(entries=["permit ip any any"])
        status, lines, _ = self.expect("opens any to 10.2.0.0/24\nnothing else\n", new=new)
        self.assertEqual((status, lines[1][:11]), (0, "As expected"), lines)
        status, lines, _ = self.expect("closes any to 10.2.0.0/24\nnothing else\n", old=new,
                                       new={**new, "R2": new["R2"].replace("permit ip", "deny ip")})
        # (the router's own address has no list in front)
        self.assertIn("1 missing: closes any to 10.2.0.0/24 (expect:1): still gets through, at 2 ingresses: R1 Ethernet0, R2 Ethernet1",
                      lines)
        self.assertIn("    from their sources to 10.2.0.1: any", lines)


if __name__ == "__main__":
    unittest.main(verbosity=1, warnings="ignore")
