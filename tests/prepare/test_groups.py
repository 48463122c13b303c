"""Object groups: what is written out, what is refused, and random lists whose verdicts a second program of the rules gives."""
import os
import random
import unittest
from types import SimpleNamespace

import helpers
import group_rules
import rules
from preparing.addresses import fewest_prefixes
from preparing.blocks import blocks_of, lines_of
from preparing.expanding import expand_groups
from preparing.faults import Refused
from preparing.texts import Line
from preparing.told import Told

assert helpers
LISTS = int(os.environ.get("GROUPED_LISTS", "500"))
HEADERS = int(os.environ.get("GROUPED_HEADERS", "400"))


def expanded(text):
    """The lines of a configuration without groups, and the rows of its table."""
    lines = [Line(line, "R1.cfg", number) for number, line in enumerate(text.strip("\n").split("\n"), 1)]
    device = SimpleNamespace(blocks=blocks_of(lines), path="R1.cfg")
    told = Told("R1")
    expand_groups(device, told)
    return [line.text for line in lines_of(device.blocks)], told.lines()


GROUPS = """
hostname R1
object-group network A
 host 10.0.0.1
 10.0.1.0 255.255.255.0
object-group network B
 range 10.0.2.3 10.0.2.8
 group-object A
object-group service S
 description what is asked
 tcp eq www
 udp source gt 1023 range 5000 5001
object-group service T
 group-object S
 tcp-udp 53
 icmp echo
 89
"""


class Moved(unittest.TestCase):
    """What stands elsewhere since its list has groups is told."""

    def test_remarks_and_what_stands_below(self):
        found, told = expanded(GROUPS + "access-list 101 remark x\n permit ip any any\naccess-list 101 permit ip object-group A any")
        self.assertEqual(found[1:3], ["ip access-list extended 101", " remark x"])
        place = GROUPS.strip().count("\n") + 2
        wanted = ["%d replaced access-list 101 remark x: it stands in the section of list 101, as the list has groups" % place,
                  "%d left out permit ip any any: the command above it has no section" % (place + 1)]
        self.assertEqual([" ".join(line.split()) for line in told if str(place) in line.split() or str(place + 1) in line.split()], wanted)


class Written(unittest.TestCase):
    """What entries with groups become, written by hand."""

    def entries(self, *lines):
        """The lines of the list behind its remark."""
        found, _ = expanded(GROUPS + "ip access-list extended L\n" + "".join(" %s\n" % line for line in lines))
        return found[found.index("ip access-list extended L") + 1:]

    def test_network(self):
        self.assertEqual(self.entries("permit tcp object-group A eq 80 any log"), [
            " remark entry 10: permit tcp object-group A eq 80 any log",
            " 10000 permit tcp host 10.0.0.1 eq 80 any log",
            " 10001 permit tcp 10.0.1.0 0.0.0.255 eq 80 any log",
        ])

    def test_range_and_nested(self):
        self.assertEqual(self.entries("deny ip any object-group B"), [
            " remark entry 10: deny ip any object-group B",
            " 10000 deny ip any host 10.0.2.3",
            " 10001 deny ip any 10.0.2.4 0.0.0.3",
            " 10002 deny ip any host 10.0.2.8",
            " 10003 deny ip any host 10.0.0.1",
            " 10004 deny ip any 10.0.1.0 0.0.0.255",
        ])

    def test_services(self):
        self.assertEqual(self.entries("permit object-group T any host 10.9.9.9"), [
            " remark entry 10: permit object-group T any host 10.9.9.9",
            " 10000 permit tcp any host 10.9.9.9 eq www",
            " 10001 permit udp any gt 1023 host 10.9.9.9 range 5000 5001",
            " 10002 permit tcp any host 10.9.9.9 eq 53",
            " 10003 permit udp any host 10.9.9.9 eq 53",
            " 10004 permit icmp any host 10.9.9.9 echo",
            " 10005 permit 89 any host 10.9.9.9",
        ])

    def test_other_entries_keep_their_order(self):
        self.assertEqual(self.entries("remark first", "15 deny ip any any log", "5 permit tcp any eq 1 2 object-group A eq 3"), [
            " remark first",
            " 15000 deny ip any any log",
            " remark entry 5: permit tcp any eq 1 2 object-group A eq 3",
            " 5000 permit tcp any eq 1 2 host 10.0.0.1 eq 3",
            " 5001 permit tcp any eq 1 2 10.0.1.0 0.0.0.255 eq 3",
        ])

    def test_numbers_go_on_from_the_greatest(self):
        self.assertEqual(self.entries("15 permit udp any any", "remark x", "permit tcp object-group A any", "7 deny ip any any"), [
            " 15000 permit udp any any", " remark x", " remark entry 25: permit tcp object-group A any", " 25000 permit tcp host 10.0.0.1 any",
            " 25001 permit tcp 10.0.1.0 0.0.0.255 any", " 7000 deny ip any any"])

    def test_services_sources_destinations(self):
        self.assertEqual(self.entries("permit object-group S object-group A object-group A")[1:], [
            " 10000 permit tcp host 10.0.0.1 host 10.0.0.1 eq www",
            " 10001 permit tcp host 10.0.0.1 10.0.1.0 0.0.0.255 eq www",
            " 10002 permit tcp 10.0.1.0 0.0.0.255 host 10.0.0.1 eq www",
            " 10003 permit tcp 10.0.1.0 0.0.0.255 10.0.1.0 0.0.0.255 eq www",
            " 10004 permit udp host 10.0.0.1 gt 1023 host 10.0.0.1 range 5000 5001",
            " 10005 permit udp host 10.0.0.1 gt 1023 10.0.1.0 0.0.0.255 range 5000 5001",
            " 10006 permit udp 10.0.1.0 0.0.0.255 gt 1023 host 10.0.0.1 range 5000 5001",
            " 10007 permit udp 10.0.1.0 0.0.0.255 gt 1023 10.0.1.0 0.0.0.255 range 5000 5001",
        ])

    def test_numbered_list(self):
        found, told = expanded(GROUPS + "access-list 101 permit ip object-group A any\naccess-list 101 deny ip any any\n")
        self.assertEqual(found, [
            "hostname R1", "ip access-list extended 101", " remark entry 10: permit ip object-group A any",
            " 10000 permit ip host 10.0.0.1 any", " 10001 permit ip 10.0.1.0 0.0.0.255 any", " 20000 deny ip any any",
        ])
        self.assertEqual(told[-2:], [
            "     17  expanded  access-list 101 permit ip object-group A any: 2 entries of list 101 from number 10000 on, by its groups",
            "     18  replaced  access-list 101 deny ip any any: its number in list 101 is 20000, as the list has groups",
        ])

    def test_lists_without_groups_stay(self):
        text = "hostname R1\naccess-list 101 permit ip any any\nip access-list extended L\n 7 permit ip any any\n"
        self.assertEqual(expanded(text)[0], text.strip("\n").split("\n"))


class RefusedLines(unittest.TestCase):
    """Lines that aren't understood, with the line and the kind."""

    CASES = [
        (["ip access-list extended L", " permit ip object-group NONE any"], 19, "UnknownGroup", "NONE"),
        (["ip access-list extended L", " permit ip object-group S any"], 19, "GroupKind", "S"),
        (["ip access-list extended L", " permit object-group A any any"], 19, "GroupKind", "A"),
        (["ip access-list extended L", " permit object-group S any eq 80 any"], 19, "ExtraWord", "eq"),
        (["ip access-list extended L", " permit ip object-group A"], 19, "MissingWord", ""),
        (["ip access-list extended L", " permit ip any any object-group A"], 19, "ExtraWord", "object-group"),
        (["ip access-list standard L", " permit object-group A"], 19, "NotCovered", "object-group"),
        (["access-list 10 permit object-group A"], 18, "NotCovered", "object-group"),
        (["access-list 10 permit ip object-group A any"], 18, "NotCovered", "object-group"),
        (["object-group network E", "ip access-list extended L", " permit ip any object-group E"], 20, "EmptyGroup", "E"),
        (["object-group network E", " group-object F", "object-group network F", " group-object E",
          "access-list 101 permit ip object-group E any"], 21, "GroupInItself", "E"),
        (["object-group network E", " range 10.0.0.2 10.0.0.1", "access-list 101 permit ip object-group E any"], 19, "BadWord", "10.0.0.1"),
        (["object-group network E", " 10.0.0.1 255.255.255.0", "access-list 101 permit ip object-group E any"], 19, "HostBits", "10.0.0.1"),
        (["object-group network E", " 10.0.0.0 0.0.0.255", "access-list 101 permit ip object-group E any"], 19, "BadMask", "0.0.0.255"),
        (["object-group network E", " host 10.0.0.256", "access-list 101 permit ip object-group E any"], 19, "BadWord", "10.0.0.256"),
        (["object-group network E", " host server1", "access-list 101 permit ip object-group E any"], 19, "BadWord", "server1"),
        (["object-group service E", " tcp eq 80 443", "access-list 101 permit object-group E any any"], 19, "ExtraWord", "443"),
        (["object-group service E", " ip eq 80", "access-list 101 permit object-group E any any"], 19, "ExtraWord", "eq"),
        (["object-group service A", " tcp eq 80"], 18, "GroupKind", "A"),
        (["object-group network"], 18, "MissingWord", ""),
        (["access-list 101 10 permit ip object-group A any"], 18, "BadWord", "10"),
        (["ip access-list extended L", " 0 permit ip object-group A any"], 19, "BadWord", "0"),
        ([line for k in range(2000) for line in ("object-group network G%d" % k, " group-object G%d" % (k + 1))]
         + ["access-list 101 permit ip object-group G0 any"], 217, "GroupTooDeep", "G100"),
        (["object-group network H"] + [" host 10.0.%d.%d" % divmod(k, 256) for k in range(1001)]
         + ["access-list 101 permit ip object-group H object-group H"], 1020, "TooManyEntries", "1002001"),
    ]

    def test_cases(self):
        for lines, number, kind, word in self.CASES:
            with self.subTest(lines=lines[:9]):
                with self.assertRaises(Refused) as caught:
                    expanded(GROUPS.strip("\n") + "\n" + "\n".join(["!"] + lines))
                fault = caught.exception
                self.assertEqual((fault.number, fault.kind, fault.word), (number, kind, word))


class Prefixes(unittest.TestCase):
    """A range of addresses is the fewest prefixes."""

    def test_random_ranges(self):
        chance = random.Random(1)
        for _ in range(2000):
            low = chance.getrandbits(32)
            high = min(2**32 - 1, low + chance.randint(0, 2 ** chance.randint(0, 32)))
            found = fewest_prefixes(low, high)
            at = low
            for prefix, length in found:
                self.assertEqual(prefix, at)
                self.assertEqual(prefix % 2 ** (32 - length), 0)
                at += 2 ** (32 - length)
            self.assertEqual(at, high + 1)
            # No two that follow one another are the halves of one prefix, so none could be joined.
            for (one, length), (two, other) in zip(found, found[1:]):
                self.assertFalse(length == other and one >> (33 - length) == two >> (33 - length))

    def test_all(self):
        self.assertEqual(fewest_prefixes(0, 2**32 - 1), [(0, 0)])
        self.assertEqual(fewest_prefixes(2**32 - 1, 2**32 - 1), [(2**32 - 1, 32)])


class Maker:
    """A random configuration with groups and one list that uses them."""

    def __init__(self, seed):
        self.random = random.Random(seed)
        self.networks, self.services = [], []

    def pick(self, *items):
        return self.random.choice(items)

    def address(self):
        return 10 << 24 | self.random.randint(0, 1) << 8 | self.random.randint(0, 31)

    def dotted(self, address):
        return rules.dotted(address)

    def network_line(self):
        kind = self.random.randint(0, 9)
        if kind < 3:
            return "host %s" % self.dotted(self.address())
        if kind < 6:
            length = self.random.randint(23, 30)
            mask = rules.first_bits(length)
            return "%s %s" % (self.dotted(self.address() & mask), self.pick("/%d" % length, self.dotted(mask)))
        if kind < 9 or not self.networks:
            low = self.address()
            return "range %s %s" % (self.dotted(low), self.dotted(low + self.random.randint(0, 20)))
        return "group-object %s" % self.random.choice(self.networks) if self.random.random() < 0.95 else "any"

    def port(self):
        return self.pick("0", "53", "80", "443", "1023", "1024", "65535", "domain", "echo", "talk")

    def test(self):
        word = self.pick("", "eq ", "gt ", "lt ", "neq ", "range ")
        return "range 80 %d" % self.random.randint(80, 600) if word == "range " else word + self.port()

    def service_line(self):
        kind = self.random.randint(0, 9)
        if kind < 7:
            protocol = self.pick("tcp", "udp", "tcp-udp")
            source = " source " + self.test() if self.random.random() < 0.3 else ""
            destination = " " + self.test() if self.random.random() < 0.8 else ""
            return protocol + source + destination
        if kind < 9 or not self.services:
            return self.pick("icmp", "icmp echo", "icmp unreachable", "icmp 3", "esp", "gre", "ospf", "112", "ip")
        return "group-object %s" % self.random.choice(self.services)

    def groups(self):
        lines = []
        for kind, names, line in (("network", self.networks, self.network_line), ("service", self.services, self.service_line)):
            for number in range(self.random.randint(1, 3)):
                name = "%s%d" % (kind[0].upper(), number)
                lines.append("object-group %s %s" % (kind, name))
                lines += [" " + line() for _ in range(self.random.randint(1, 3))]
                names.append(name)
        return lines

    def endpoint(self):
        kind = self.random.randint(0, 5)
        if kind < 4:
            return "object-group %s" % self.random.choice(self.networks)
        return self.pick("any", "host %s" % self.dotted(self.address()), "%s 0.0.0.15" % self.dotted(self.address() & ~15))

    def entry(self):
        action = self.pick("permit", "permit", "deny")
        if self.random.random() < 0.5:
            return "%s object-group %s %s %s" % (action, self.random.choice(self.services), self.endpoint(), self.endpoint())
        protocol = self.pick("ip", "ip", "tcp", "udp", "icmp")
        ports = protocol in ("tcp", "udp")
        source = " eq %s" % self.port() if ports and self.random.random() < 0.2 else ""
        destination = " range 53 443" if ports and self.random.random() < 0.5 else ""
        trailing = " established" if protocol == "tcp" and self.random.random() < 0.2 else " log" if self.random.random() < 0.2 else ""
        return "%s %s %s%s %s%s%s" % (action, protocol, self.endpoint(), source, self.endpoint(), destination, trailing)

    def text(self):
        groups = self.groups()
        entries = [self.entry() for _ in range(self.random.randint(1, 4))]
        if self.random.random() < 0.3:
            listed = ["access-list 101 %s" % entry for entry in entries]
        else:
            listed = ["ip access-list extended 101"] + [" %s%s" % ("%d " % (5 * k + 5) if self.random.random() < 0.3 else "", entry)
                                                        for k, entry in enumerate(entries)]
            listed = listed if all(not line.strip()[0].isdigit() for line in listed[1:]) else self.all_numbered(entries)
        # The groups may stand behind the list.
        return "\n".join(["hostname R1"] + (groups + listed if self.random.random() < 0.8 else listed + groups))

    def all_numbered(self, entries):
        numbers = self.random.sample(range(1, 300), len(entries))
        return ["ip access-list extended 101"] + [" %d %s" % pair for pair in zip(numbers, entries)]

    def header(self):
        """A header near what the groups speak of."""
        bits = 0
        for name, shift, width in rules.FIELDS:
            bits |= self.value(name, width) << shift
        return rules.Headers(2**rules.PLACES - 1, bits)

    def header_within(self, words):
        """A header that the words of an expanded entry ask for, as far as they say it simply."""
        values = {name: self.value(name, width) for name, _, width in rules.FIELDS}
        words = words[words.index("permit" if "permit" in words else "deny") + 1:]
        number = rules.PROTOCOLS.get(words[0], None if words[0] == "ip" else int(words[0]) if words[0].isdigit() else None)
        values["proto"] = values["proto"] if number is None else number
        names = {6: rules.TCP_PORTS, 17: rules.UDP_PORTS}.get(number, {})
        words = words[1:]
        for field, port in (("src", "sport"), ("dst", "dport")):
            first, words = words[0], words[1:]
            if first != "any":
                address, wild = (first, 0) if first != "host" else (words[0], 0)
                wild = rules.address_of(words[0]) if first != "host" else wild
                values[field] = rules.address_of(address) | self.random.getrandbits(32) & wild
                words = words[1:]
            if words[:1] and words[0] in ("eq", "range"):
                values[port] = names[words[1]] if words[1] in names else int(words[1])
            if words[:1] and words[0] in ("eq", "range", "gt", "lt", "neq"):
                words = words[3 if words[0] == "range" else 2:]
        return rules.Headers(2**rules.PLACES - 1, sum(values[name] << shift for name, shift, _ in rules.FIELDS))

    def value(self, name, width):
        if name in ("dst", "src"):
            return self.address() if self.random.random() < 0.95 else self.random.getrandbits(32)
        if name == "proto":
            return self.pick(6, 6, 6, 6, 6, 17, 17, 17, 17, 17, 1, 1, 47, 50, 89, 112)
        if name in ("sport", "dport"):
            return self.pick(0, 7, 53, 79, 80, 81, 443, 444, 517, 1023, 1024, 65535, 8 << 8, 3 << 8 | 1, self.random.getrandbits(16))
        return self.random.getrandbits(width)


def factor_of(lines):
    """By what the numbers of a list are multiplied: 1 where no entry was expanded."""
    for line, following in zip(lines, lines[1:]):
        if line.startswith(" remark entry "):
            return int(following.split()[0]) // int(line.split()[2].rstrip(":"))
    return 1


def in_order(device):
    """The entries of the list with their numbers, in order."""
    return sorted(device.lists["101"][1].items())


def verdict(entries, header):
    """What the first entry that matches says, with its number."""
    for number, entry in entries:
        if entry.matches(header):
            return "permit" if entry.permit else "deny", number
    return "deny", "end"


class RandomLists(unittest.TestCase):
    """The list with groups, judged without expanding it, gives each header the verdict that the expanded list gives."""

    def test_verdicts(self):
        tried, permits = 0, 0
        for seed in range(LISTS):
            maker = Maker(seed)
            text = maker.text()
            lines, _ = expanded(text)
            factor = factor_of(lines)
            entries = [words for words in map(str.split, lines) if "remark" not in words and {"permit", "deny"} & set(words)]
            grouped = in_order(group_rules.Device(text))
            plain = in_order(rules.Device("\n".join(lines)))
            for _ in range(HEADERS):
                header = maker.header() if maker.random.random() < 0.5 else maker.header_within(maker.random.choice(entries))
                wanted, found = verdict(grouped, header), verdict(plain, header)
                # The number of an expanded entry tells the entry that it comes from.
                if found[1] != "end":
                    found = found[0], found[1] // factor
                self.assertEqual(found, wanted, (seed, rules.header_text(header)))
                tried += 1
                permits += wanted[0] == "permit"
        self.assertEqual(tried, LISTS * HEADERS)
        # Both verdicts are common, so that the comparison says something.
        self.assertGreater(permits, tried // 10)
        self.assertLess(permits, tried * 9 // 10)


if __name__ == "__main__":
    unittest.main()
