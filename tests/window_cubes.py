#!/usr/bin/env python3
"""Tries windowing/cubes.py: by enumeration on small fields, and on reports of random networks, where tests/rules.py says of single headers
whether they change."""
import itertools
import os
import pickle
import random
import subprocess
import sys
import tempfile
import unittest

TOP = os.path.dirname(os.path.dirname(os.path.abspath(__file__)))
sys.dont_write_bytecode = True
sys.path[:0] = [os.path.join(TOP, "tests"), os.path.join(TOP, "windowing")]

import rules  # noqa: E402
from cubes import WIDTHS, Box, Headers, Pattern, Values, by_outcome, pattern_of, pattern_text, sections, union  # noqa: E402

SMALL = 6
NETWORKS = int(os.environ.get("NETWORKS", "6"))

REPORT = """ingress R1 Ethernet0 rows 3
dst 10.0.0.0/24 src * proto 6 dport 80 sport * flags ***1****
old drop
new exit R1 Ethernet1 | exit R2 Ethernet1
dst 10.0.1.0/24 src 10.9.0.0/31 proto 1 dport * sport 00001000******** flags *
old drop
new expired
dst 10.0.1.0/24 src 10.9.0.2 proto 1 dport * sport 00001000******** flags *
old drop
new expired
ingress R2 GigabitEthernet0/0.10 rows 0
affected 3
"""


def drawn(draw, count):
    """A random set of small values, with the Values that are made of it one by one."""
    members = {value for value in range(1 << SMALL) if draw.random() < draw.choice((0.1, 0.5, 0.9))} if count else set()
    return members, Values.of_patterns([Pattern((1 << SMALL) - 1, value) for value in members], SMALL)


def members_of(values):
    return [pattern.bits | free for pattern in values.patterns() for free in range(1 << values.width) if not free & pattern.mask]


class Fields(unittest.TestCase):
    """Sets of one field, by enumeration."""

    def test_operations(self):
        draw = random.Random(1)
        for _ in range(400):
            (a, first), (b, second) = drawn(draw, 1), drawn(draw, 1)
            for found, wanted in ((first & second, a & b), (first | second, a | b), (first - second, a - b), (~first, set(range(1 << SMALL)) - a)):
                self.assertEqual(sorted(members_of(found)), sorted(wanted))
                self.assertEqual(found.size(), len(wanted))
                self.assertEqual([value for value in range(1 << SMALL) if value in found], sorted(wanted))
                self.assertEqual(bool(found), bool(wanted))
            self.assertEqual(first <= second, a <= b)
            self.assertEqual(first == second, a == b)
            self.assertIs(first - second, first & ~second)

    def test_ranges(self):
        draw = random.Random(2)
        for _ in range(200):
            members, values = drawn(draw, 1)
            ranges = values.ranges()
            self.assertEqual([value for low, high in ranges for value in range(low, high + 1)], sorted(members))
            self.assertTrue(all(before[1] + 1 < after[0] for before, after in zip(ranges, ranges[1:])))
            self.assertIs(union_of_ranges(ranges), values)
            self.assertIsNone(values.ranges(len(ranges) - 1) if ranges else None)

    def test_each_range(self):
        for low, high in itertools.combinations_with_replacement(range(1 << 4), 2):
            self.assertEqual(members_of(Values.of_range(low, high, 4)), list(range(low, high + 1)))
        self.assertTrue(Values.of_range(0, 2**32 - 1, 32).is_all())

    def test_texts(self):
        for text, width, mask, bits in (
                ("*", 16, 0, 0), ("443", 16, 65535, 443), ("10.0.0.0/8", 32, 0xFF000000, 0x0A000000), ("10.0.0.9", 32, 0xFFFFFFFF, 0x0A000009),
                ("00001000********", 16, 0xFF00, 0x0800), ("***1****", 8, 16, 16), ("6", 8, 255, 6), ("1" + "*" * 30 + "0", 32, 0x80000001, 0x80000000),
                ("128.0.0.0/1", 32, 0x80000000, 0x80000000), ("0.0.0.0", 32, 0xFFFFFFFF, 0)):
            self.assertEqual(pattern_of(text, width), Pattern(mask, bits), text)
            self.assertEqual(pattern_text(Pattern(mask, bits), width), text)
        for text, width in (("x", 8), ("256", 8), ("65536", 16), ("10.0.0", 32), ("", 8)):
            with self.assertRaises(ValueError, msg=text):
                pattern_of(text, width)


def union_of_ranges(ranges):
    found = Values.none(SMALL)
    for low, high in ranges:
        found |= Values.of_range(low, high, SMALL)
    return found


# Fields whose values are drawn from few, so that boxes meet in many ways: each has its first three bits, as a rest stands behind them.
HEADERS = list(itertools.product((0, 1 << 31, 3 << 30), (0, 1 << 24), (6, 17), (80, 443), (0,), (2, 16)))
TEXTS = (("*", "0.0.0.0/1", "192.0.0.0/2", "128.0.0.0"), ("*", "0.0.0.0", "1.0.0.0/8"), ("*", "6", "17"), ("*", "80", "443"), ("*", "0"),
         ("*", "2", "***1****"))


def box_members(texts):
    """By the meaning of the texts alone, of the headers above."""
    def fits(value, text, width):
        pattern = pattern_of(text, width)
        return value & pattern.mask == pattern.bits
    return {header for header in HEADERS if all(map(fits, header, texts, WIDTHS))}


class Sets(unittest.TestCase):
    """Sets of headers, by enumeration of some."""

    def drawn(self, draw):
        texts = [tuple(map(draw.choice, TEXTS)) for _ in range(draw.randrange(5))]
        made = draw.choice((Headers.of_rows, lambda rows: Headers.of_boxes(map(Box.of_texts, rows)),
                            lambda rows: union(Headers.of_box(Box.of_texts(row)) for row in rows)))
        return set().union(*map(box_members, texts)), made(texts)

    def check(self, found, wanted):
        self.assertEqual({header for header in HEADERS if found.holds(header)}, wanted)
        boxes = found.boxes()
        for header in HEADERS:
            self.assertEqual(sum(box.holds(header) for box in boxes), header in wanted)
        self.assertEqual(sum(box.size() for box in boxes), found.size())
        self.assertIs(Headers.of_boxes(boxes), found)
        self.assertFalse(any(box.is_empty() for box in boxes))

    def test_operations(self):
        draw = random.Random(3)
        everything = set(HEADERS)
        for _ in range(300):
            (a, first), (b, second) = self.drawn(draw), self.drawn(draw)
            for found, wanted in ((first & second, a & b), (first | second, a | b), (first - second, a - b), (~first, everything - a)):
                self.check(found, wanted)
            self.assertIs(first - (first - second), first & second)
            self.assertIs(~(first | second), ~first & ~second)
            self.assertEqual(first <= second, not first - second)

    def test_boxes(self):
        draw = random.Random(4)
        for _ in range(300):
            first, second = (Box.of_texts(tuple(map(draw.choice, TEXTS))) for _ in range(2))
            parts = first.subtract(second)
            meet = first.meet(second)
            self.assertEqual(sum(part.size() for part in parts) + (0 if meet.is_empty() else meet.size()), first.size())
            for header in HEADERS:
                self.assertEqual(sum(part.holds(header) for part in parts), first.holds(header) and not second.holds(header))
                self.assertEqual(meet.holds(header), first.holds(header) and second.holds(header))

    def test_sizes(self):
        self.assertEqual(Headers.all().size(), 2**112)
        self.assertEqual(Headers.none().size(), 0)
        self.assertFalse(Headers.none())
        self.assertEqual(Headers.of_cube("dst 10.0.0.0/24 src * proto 6 dport 80 sport * flags *").size(), 2**(8 + 32 + 16 + 8))
        self.assertEqual(len(Headers.all().boxes()), 1)
        self.assertEqual(Headers.where(source=Values.of_text("10.0.0.0/8", 32)), Headers.of_cube("dst * src 10.0.0.0/8 proto * dport * sport * flags *"))

    def test_cubes_that_are_none(self):
        for text in ("dst * src * proto * dport * sport *", "src * dst * proto * dport * sport * flags *", "", "dst * src * proto x dport * sport * flags *"):
            with self.assertRaises(ValueError, msg=text):
                Headers.of_cube(text)

    def test_copies(self):
        headers = Headers.of_rows([("10.0.0.0/24", "*", "6", "80", "*", "***1****"), ("10.0.1.0/24", "*", "*", "80", "*", "*")])
        self.assertIs(pickle.loads(pickle.dumps(headers)), headers)
        other = subprocess.run([sys.executable, "-c", "import sys; sys.path.insert(0, 'windowing'); import pickle; from cubes import Headers, Values;"
                                "Values.of_text('10.7.0.0/16', 32); print(pickle.load(sys.stdin.buffer).size())"],
                               cwd=TOP, input=pickle.dumps(headers), stdout=subprocess.PIPE, check=True)
        self.assertEqual(int(other.stdout), headers.size())


class Reports(unittest.TestCase):
    """What the rows of a report say."""

    def test_sections(self):
        first, second = sections(REPORT)
        self.assertEqual((first.ingress, len(first.rows), second), ("R1 Ethernet0", 3, ("R2 GigabitEthernet0/0.10", [])))
        self.assertEqual(first.rows[0], ("10.0.0.0/24", "*", "6", "80", "*", "***1****", "drop", "exit R1 Ethernet1 | exit R2 Ethernet1"))
        alike = by_outcome(first.rows)
        self.assertEqual(list(alike), [("drop", "exit R1 Ethernet1 | exit R2 Ethernet1"), ("drop", "expired")])
        self.assertEqual([box.source.texts() for box in alike["drop", "expired"].boxes()], [["10.9.0.0/31", "10.9.0.2"]])

    def test_reports_that_are_cut(self):
        for text in (REPORT[:-2], REPORT.replace("affected 3", "affected 2"), REPORT.replace("rows 3", "rows 2"), REPORT.replace("old drop\n", "", 1), "",
                     REPORT.rsplit("ingress", 1)[0]):
            with self.assertRaises(ValueError):
                sections(text)

    def test_random_networks(self):
        """A header is in the rows of an ingress exactly where its outcomes differ, and these are the outcomes."""
        draw = random.Random(5)
        tried = changed = 0
        with tempfile.TemporaryDirectory(prefix="diqenyu-test-") as folder:
            for seed in range(1, NETWORKS + 1):
                subprocess.run([sys.executable, "tests/random_networks.py", folder, str(seed)], cwd=TOP, check=True)
                networks = [rules.Network(rules.load(os.path.join(folder, side)), open(os.path.join(folder, "links")).read()) for side in ("old", "new")]
                for place, found in self.found_of(folder):
                    for header in self.some(draw, union(found.values())):
                        one = rules.header_of(",".join([rules.dotted(header[0]), rules.dotted(header[1]), *map(str, header[2:])]))
                        old, new = (rules.label_text(network.label(tuple(place.split()), one, 255)) for network in networks)
                        self.assertEqual([outcomes for outcomes, headers in found.items() if headers.holds(header)], [(old, new)] if old != new else [], seed)
                        tried, changed = tried + 1, changed + (old != new)
        self.assertGreater(changed, NETWORKS)
        self.assertGreater(tried - changed, NETWORKS)

    def found_of(self, folder):
        report = rules.report(folder + "/old", folder + "/new", folder + "/links")
        for section in sections(report):
            found = by_outcome(section.rows)
            self.assertEqual(sum(headers.size() for headers in found.values()), sum(Box.of_texts(row[:6]).size() for row in section.rows))
            self.assertEqual(union(found.values()), Headers.of_rows(section.rows))
            yield section.ingress, found

    def some(self, draw, headers):
        """Headers in the set and beside it: at both ends of its boxes, and with a bit of them changed."""
        for box in headers.boxes()[:4] + (~headers).boxes()[:4]:
            patterns = [draw.choice(values.patterns()) for values in box.fields()]
            for free in (0, -1):
                header = [pattern.bits | free & ~pattern.mask & (1 << width) - 1 for pattern, width in zip(patterns, WIDTHS)]
                yield header
                field = draw.randrange(6)
                header[field] ^= 1 << draw.randrange(WIDTHS[field])
                yield header


if __name__ == "__main__":
    unittest.main(warnings="ignore")
