"""Tables of routes: forms of the command references in our own words, random tables in each form, and lines that are wrong."""
import os
import random
import tempfile
import unittest

import helpers
from preparing.addresses import dotted, mask_of, natural_length
from preparing.cef import Lookup
from preparing.faults import Refused
from preparing.route_tables import Route, Table, read_routes

assert helpers
LEGEND = """Codes: L - local, C - connected, S - static, R - RIP, M - mobile, B - BGP
       D - EIGRP, EX - EIGRP external, O - OSPF, IA - OSPF inter area
       ia - IS-IS inter area, * - candidate default, U - per-user static route
       + - replicated route, % - next hop override

"""
UNSET = LEGEND + "Gateway of last resort is not set\n\n"


def read(text, vrf=None):
    """The routes of a text as a set of short tuples, each once."""
    with tempfile.TemporaryDirectory() as folder:
        path = os.path.join(folder, "table")
        with open(path, "w", encoding="ascii") as file:
            file.write(text)
        routes = read_routes(path, vrf).routes
    found = [(route.text(), route.code, route.distance, dotted(route.hop) if route.hop is not None else None, route.interface) for route in routes]
    assert len(found) == len(set(found))
    return set(found)


class Reference(unittest.TestCase):
    """Forms that routers of several ages print."""

    def test_classes_and_continuations(self):
        self.assertEqual(read(LEGEND + """Gateway of last resort is 10.119.254.240 to network 10.140.0.0

     172.150.0.0/24 is subnetted, 2 subnets
O E2    172.150.1.0 [160/5] via 10.119.254.6, 0:01:00, Ethernet2
E       172.150.2.0 [200/128] via 10.119.254.244, 0:02:22, Ethernet2
                    [200/128] via 10.119.254.240, 0:02:22, Ethernet2
     10.0.0.0/16 is subnetted, 2 subnets
O*E2    10.140.0.0 [160/5] via 10.119.254.240, 0:00:59, Ethernet2
C       10.119.0.0 is directly connected, Ethernet2
R    192.168.7.0 [120/3] via 10.119.254.240, 00:00:11, Ethernet2
"""), {
            ("172.150.1.0/24", "O E2", 160, "10.119.254.6", "Ethernet2"),
            ("172.150.2.0/24", "E", 200, "10.119.254.244", "Ethernet2"),
            ("172.150.2.0/24", "E", 200, "10.119.254.240", "Ethernet2"),
            ("10.140.0.0/16", "O E2", 160, "10.119.254.240", "Ethernet2"),
            ("0.0.0.0/0", "O E2", 160, "10.119.254.240", "Ethernet2"),
            ("10.119.0.0/16", "C", None, None, "Ethernet2"),
            ("192.168.7.0/24", "R", 120, "10.119.254.240", "Ethernet2"),
        })

    def test_codes_and_ways(self):
        self.assertEqual(read("R1#sh ip route\n" + LEGEND + """Gateway of last resort is 10.1.2.2 to network 0.0.0.0

S*    0.0.0.0/0 [1/0] via 10.1.2.2
                is directly connected, Serial0/0/0
      10.0.0.0/8 is variably subnetted, 8 subnets, 5 masks
D        10.0.0.0/8 is a summary, 1d02h, Null0
C        10.1.2.0/30 is directly connected, GigabitEthernet0/0
L        10.1.2.1/32 is directly connected, GigabitEthernet0/0
D EX     10.1.3.0/24
           [170/3072] via 10.1.2.2, 2w3d,
             TenGigabitEthernet1/0/1.100
i L1     10.1.4.0/24 [115/20] via 10.1.2.2, 00:00:12, GigabitEthernet0/0
i su     10.2.0.0/16 [115/10] via 0.0.0.0, 00:00:06, Null0
B        10.3.0.0/16 [200/0] via 10.9.9.9, 3w1d
U        10.4.4.4/32 [1/0] via 10.1.2.2
R1#
"""), {
            ("0.0.0.0/0", "S", 1, "10.1.2.2", None),
            ("0.0.0.0/0", "S", None, None, "Serial0/0/0"),
            ("10.0.0.0/8", "D", None, None, "Null0"),
            ("10.1.2.0/30", "C", None, None, "GigabitEthernet0/0"),
            ("10.1.2.1/32", "L", None, None, "GigabitEthernet0/0"),
            ("10.1.3.0/24", "D EX", 170, "10.1.2.2", "TenGigabitEthernet1/0/1.100"),
            ("10.1.4.0/24", "i L1", 115, "10.1.2.2", "GigabitEthernet0/0"),
            ("10.2.0.0/16", "i su", 115, None, "Null0"),
            ("10.3.0.0/16", "B", 200, "10.9.9.9", None),
            ("10.4.4.4/32", "U", 1, "10.1.2.2", None),
        })

    def test_default_network(self):
        """The default route has the ways of the network with the star, and not those of a longer prefix with the same address."""
        text = LEGEND + """Gateway of last resort is 10.1.2.2 to network 10.140.0.0

      10.0.0.0/8 is variably subnetted, 3 subnets, 3 masks
C        10.1.2.0/30 is directly connected, Ethernet0
R*       10.140.0.0/16 [120/1] via 10.1.2.2, 00:00:04, Ethernet0
O        10.140.0.0/24 [110/2] via 10.1.2.1, 00:00:59, Ethernet0
"""
        self.assertEqual({route for route in read(text) if route[0] == "0.0.0.0/0"}, {("0.0.0.0/0", "R", 120, "10.1.2.2", "Ethernet0")})
        for old, new, kind in (("R* ", "R  ", "GatewayDiffers"), ("10.1.2.2 to", "10.1.2.1 to", "GatewayDiffers")):
            with self.assertRaises(Refused) as caught:
                read(text.replace(old, new))
            self.assertEqual((caught.exception.kind, caught.exception.number), (kind, 6))
        with self.assertRaises(Refused) as caught:
            read(text.replace("10.1.2.2 to", "0.0.0.0 to").replace("[120/1] via 10.1.2.2, 00:00:04", "is directly connected"))
        self.assertEqual((caught.exception.kind, caught.exception.number), ("NotCovered", 6))

    def test_clock_that_is_not_set(self):
        stamp = "Load for five secs: 0%/0%; one minute: 0%; five minutes: 0%\nNo time source, *15:24:55.123 UTC Sun Nov 29 2026\n\n"
        self.assertEqual(len(read("R1#sh ip route\n" + stamp + UNSET + "C    192.168.1.0/24 is directly connected, Vlan1\n")), 1)

    def test_masks_in_decimal(self):
        self.assertEqual(read(UNSET + """     10.0.0.0 255.255.255.0 is subnetted, 2 subnets
C       10.0.1.0 255.255.255.0 is directly connected, Ethernet0
O IA    10.0.2.0 255.255.255.0 [110/20] via 10.0.1.2, 00:01:00, Ethernet0
"""), {("10.0.1.0/24", "C", None, None, "Ethernet0"), ("10.0.2.0/24", "O IA", 110, "10.0.1.2", "Ethernet0")})

    def test_tables_of_vrfs(self):
        text = "Routing Table: A\n" + UNSET + "C    192.168.1.0/24 is directly connected, Vlan1\n\nRouting Table: B\n" \
            + UNSET + "C    192.168.2.0/24 is directly connected, Vlan2\n"
        self.assertEqual(read(text, "A"), {("192.168.1.0/24", "C", None, None, "Vlan1")})
        self.assertEqual(read(text, "B"), {("192.168.2.0/24", "C", None, None, "Vlan2")})
        with self.assertRaises(Refused) as caught:
            read(text)
        self.assertEqual(caught.exception.kind, "NoTable")


class Forwarding(unittest.TestCase):
    """Where next hops lead that are looked up again."""

    def test_hops_that_lead_to_two_hops_each(self):
        """A next hop is looked up once, however many ways lead to it."""
        table = Table("R1.txt")
        for k in range(40):
            table.routes += [Route(10 << 24 | k << 16, 16, "B", 20, 10 << 24 | k + 1 << 16 | host, None, 0) for host in (1, 2)]
        self.assertEqual(Lookup(table).wanted(10 << 24, 16), {"drop"})
        table.routes.append(Route(10 << 24 | 3 << 16 | 1, 32, "C", None, None, "Ethernet0", 0))
        self.assertEqual(Lookup(table).wanted(10 << 24 | 2 << 16, 16), {"drop", ("Ethernet0", 10 << 24 | 3 << 16 | 1)})


class Malformed(unittest.TestCase):
    """One line of a table is wrong: its number and the kind are told."""

    GOOD = UNSET + """      10.0.0.0/8 is variably subnetted, 3 subnets, 2 masks
C        10.1.2.0/30 is directly connected, GigabitEthernet0/0
O        10.1.3.0/24 [110/2] via 10.1.2.2, 00:05:01, GigabitEthernet0/0
                     [110/2] via 10.1.2.6, 00:05:01, GigabitEthernet0/1
S        10.1.4.0/24 [1/0] via 10.1.2.2
"""
    FIRST = 8
    CASES = [
        (8, "      10.0.0.0/8 is variably subnetted, 4 subnets, 2 masks", 8, "SubnetsMissing"),
        (8, "      10.0.0.0/8 is variably subnetted, 3 subnets, 3 masks", 8, "SubnetsMissing"),
        (8, "      10.1.0.0/8 is variably subnetted, 3 subnets, 2 masks", 8, "BadWord"),
        (9, "C        10.1.2.0/30 is connected, GigabitEthernet0/0", 9, "UnknownLine"),
        (9, "C        10.1.2.1/30 is directly connected, GigabitEthernet0/0", 9, "HostBits"),
        (9, "C        10.1.2.0/33 is directly connected, GigabitEthernet0/0", 9, "BadMask"),
        (9, "C        10.1.2/30 is directly connected, GigabitEthernet0/0", 9, "BadWord"),
        (9, "C        10.1.2.0 is directly connected, GigabitEthernet0/0", 9, "LengthMissing"),
        (9, "C        10.1.2.0/30 is directly connected,", 10, "InterfaceMissing"),
        (9, "C        10.1.2.0/30", 9, "WayMissing"),
        (9, "X        10.1.2.0/30 is directly connected, GigabitEthernet0/0", 9, "UnknownCode"),
        (10, "O XX     10.1.3.0/24 [110/2] via 10.1.2.2, 00:05:01, GigabitEthernet0/0", 10, "UnknownCode"),
        (10, "O   %    10.1.3.0/24 [110/2] via 10.1.2.2, 00:05:01, GigabitEthernet0/0", 10, "NotCovered"),
        (10, "O   +    10.1.3.0/24 [110/2] via 10.1.2.2, 00:05:01, GigabitEthernet0/0", 10, "NotCovered"),
        (10, "O        10.1.3.0/24 [110/2] via 10.1.2.2 (nexthop in vrf A), 00:05:01", 10, "UnknownLine"),
        (10, "O        10.1.3.0/24 [110] via 10.1.2.2, 00:05:01, GigabitEthernet0/0", 10, "UnknownLine"),
        (10, "O        10.1.3.0/24 [255/2] via 10.1.2.2, 00:05:01, GigabitEthernet0/0", 10, "BadWord"),
        (10, "O        10.1.3.0/24 [110/2] via 10.1.2.300, 00:05:01, GigabitEthernet0/0", 10, "BadWord"),
        (10, "O        10.1.3.0/24 [110/2] via 0.0.0.0, 00:05:01, GigabitEthernet0/0", 10, "BadWord"),
        (10, "O        10.1.3.0/24 [110/2] via 10.1.2.2, yesterday, GigabitEthernet0/0", 10, "UnknownLine"),
        (11, "                     [120/2] via 10.1.2.6, 00:05:01, GigabitEthernet0/1", 11, "BadWord"),
        (11, "                     GigabitEthernet0/1", 11, "UnknownLine"),
        (11, "                     [110/2] via 10.1.2.6, 00:05:01, GigabitEthernet0/1,", 11, "ExtraWord"),
        (12, "S        10.1.3.0/24 [1/0] via 10.1.2.2", 12, "PrefixTwice"),
        (12, " --More-- S        10.1.4.0/24 [1/0] via 10.1.2.2", 12, "Paged"),
        (12, "S        10.1.4.0/24 [1/0] via 10.1.2.2\x08", 12, "ControlCharacter"),
        (12, "S        10.1.4.0/24 [1/0]\x0c via 10.1.2.2", 12, "ControlCharacter"),
        (12, "\rS        10.1.4.0/24 [1/0] via 10.1.2.2", 12, "ControlCharacter"),
        (12, "S        10.1.4.0/24 [1/%s] via 10.1.2.2" % ("9" * 5000), 12, "BadWord"),
        (6, "Gateway of last resort is 10.1.2.2 to network 0.0.0.0", 6, "GatewayDiffers"),
        (12, "S*       0.0.0.0/0 [1/0] via 10.1.2.2", 12, "GatewayDiffers"),
        (6, "", 8, "UnknownLine"),
    ]

    def test_good(self):
        self.assertEqual(len(read(self.GOOD)), 4)

    def test_cases(self):
        for number, text, wanted, kind in self.CASES:
            lines = self.GOOD.split("\n")
            lines[number - 1] = text
            if kind == "GatewayDiffers":
                lines[7] = lines[7].replace("3 subnets", "2 subnets") if number == 12 else lines[7]
            with self.subTest(text=text):
                with self.assertRaises(Refused) as caught:
                    read("\n".join(lines))
                self.assertEqual((caught.exception.kind, caught.exception.number), (kind, wanted))

    def test_nothing(self):
        for text in ("", "\n\n", "R1#show ip route\n"):
            with self.assertRaises(Refused) as caught:
                read(text)
            self.assertEqual(caught.exception.kind, "NoTable")

    def test_cut(self):
        """Each cut of a table in mid-line is refused, but for those behind the last word that means something."""
        whole = read(self.GOOD)
        for length in range(len(UNSET) + 7, len(self.GOOD)):
            try:
                found = read(self.GOOD[:length])
            except Refused:
                continue
            self.assertEqual(len(found), len(whole), self.GOOD[:length])


class Maker:
    """Random routes of some networks of classes."""

    CODES = ["O", "O IA", "O E1", "O E2", "O N2", "D", "D EX", "R", "B", "i L1", "i L2", "S"]

    def __init__(self, seed):
        self.random = random.Random(seed)

    def network(self):
        """A network of a class, and one length for all its subnets or None."""
        first = self.random.choice([self.random.randint(1, 126), self.random.randint(128, 191), self.random.randint(192, 223)])
        network = first << 24 | self.random.getrandbits(24)
        natural = natural_length(network)
        one = self.random.randint(natural + 1, 32) if self.random.random() < 0.5 else None
        return network & mask_of(natural), natural, one

    def routes(self):
        """A dictionary from networks to the entries of each: prefix, length, code and ways."""
        networks = {}
        for _ in range(self.random.randint(1, 5)):
            network, natural, one = self.network()
            if any(network == other for other, _, _ in networks):
                continue
            subnets = set()
            for _ in range(self.random.randint(1, 6)):
                length = one or self.random.randint(natural, 32)
                subnets.add(((network | self.random.getrandbits(32 - natural)) & mask_of(length), length))
            networks[network, natural, one] = [self.entry(*subnet) for subnet in sorted(subnets)]
        return networks

    def entry(self, prefix, length):
        if self.random.random() < 0.2:
            return prefix, length, "C", [(None, None, self.interface())]
        code = self.random.choice(self.CODES)
        if code == "S" and self.random.random() < 0.4:
            return prefix, length, code, [(None, None, self.random.choice([self.interface(), "Null0"]))]
        distance, ways = self.random.randint(1, 254), set()
        for _ in range(self.random.choice([1, 1, 1, 2, 3])):
            hop = self.random.randint(1 << 24, 223 << 24)
            ways.add((distance, hop, self.interface() if code not in ("S", "B") else None))
        return prefix, length, code, sorted(ways, key=str)

    def interface(self):
        kind = self.random.choice(["Ethernet", "GigabitEthernet0/", "Serial0/0/", "Vlan", "Port-channel", "TenGigabitEthernet1/0/"])
        return kind + str(self.random.randint(0, 30))


class Printer:
    """Prints random routes in one form: `lengths` is how a length is written, `wraps` whether long lines are cut."""

    def __init__(self, chance, lengths, wraps):
        self.random, self.lengths, self.wraps = chance, lengths, wraps

    def length(self, length):
        return "/%d" % length if self.lengths != "masks" else " " + dotted(mask_of(length))

    def header(self, network, natural, one, entries):
        """The line above the subnets of a network, as routers have it."""
        count = "%d subnet%s" % (len(entries), "s" if len(entries) > 1 else "")
        if one is not None:
            return "     %s%s is subnetted, %s" % (dotted(network), self.length(one), count)
        masks = len({length for _, length, _, _ in entries})
        return "     %s%s is variably subnetted, %s, %d mask%s" % (dotted(network), self.length(natural), count, masks, "s" if masks > 1 else "")

    def entry(self, entry, hides_length):
        prefix, length, code, ways = entry
        main, _, sub = code.partition(" ")
        head = "%s %-2s     %s%s" % (main, sub, dotted(prefix), "" if hides_length else self.length(length))
        texts = [self.way(code, way) for way in ways]
        lines = []
        for number, text in enumerate(texts):
            before = head if number == 0 else " " * len(head)
            if self.wraps and number == 0 and self.random.random() < 0.3:
                lines.append(head)
                before = " " * 11
            if self.wraps and ", " in text and not text.startswith("is ") and text.count(",") == 2 and self.random.random() < 0.3:
                first, _, last = text.rpartition(" ")
                lines += [before + " " + first, " " * 14 + last]
            else:
                lines.append(before + " " + text)
        return lines

    def way(self, code, way):
        distance, hop, interface = way
        if hop is None:
            return "is directly connected, %s" % interface
        age = self.random.choice(["00:00:12", "1d02h", "2w3d", "0:01:00", "1y3w"])
        text = "[%d/%d] via %s" % (distance, self.random.randint(0, 9999), dotted(hop))
        if code == "S":
            return text
        return "%s, %s%s" % (text, age, ", " + interface if interface else "")

    def table(self, networks):
        lines = UNSET.split("\n")[:-1]
        for (network, natural, one), entries in networks.items():
            plain = len(entries) == 1 and entries[0][1] == natural
            if not plain:
                lines.append(self.header(network, natural, one, entries))
            for entry in entries:
                hides = self.lengths == "hidden" and (one is not None or plain)
                lines += self.entry(entry, hides)
        return "\n".join(lines) + "\n"


class RandomTables(unittest.TestCase):
    """What is printed is read back the same, in each form."""

    def test_forms(self):
        count = 0
        for seed in range(250):
            maker = Maker(seed)
            networks = maker.routes()
            wanted = {
                ("%s/%d" % (dotted(prefix), length), code, distance, dotted(hop) if hop is not None else None, interface)
                for entries in networks.values() for prefix, length, code, ways in entries for distance, hop, interface in ways
            }
            for lengths in ("strokes", "hidden", "masks"):
                for wraps in (False, True):
                    text = Printer(maker.random, lengths, wraps).table(networks)
                    with self.subTest(seed=seed, lengths=lengths, wraps=wraps):
                        self.assertEqual(read(text), wanted, text)
                    count += 1
        self.assertEqual(count, 1500)


if __name__ == "__main__":
    unittest.main()
