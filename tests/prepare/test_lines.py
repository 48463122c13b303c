"""Lines as devices show them (IOS 12.4 and 15, IOS XE 16 and 17), each with what becomes of it, and that none is left out untold."""
import random
import re
import unittest

import helpers

KEPT, LEFT_OUT = "=", None
# The line of a configuration, and what stands in its place in the prepared text: itself, another line, or nothing.
MARGIN = [
    ("version 12.4", KEPT), ("version 15.2", KEPT), ("version 17.3", KEPT), ("service timestamps debug datetime msec", KEPT),
    ("service password-encryption", KEPT), ("platform qfp utilization monitor load 80", KEPT), ("boot-start-marker", KEPT), ("no aaa new-model", KEPT),
    ("memory-size iomem 15", KEPT), ("ip cef", KEPT), ("no ipv6 cef", KEPT), ("multilink bundle-name authenticated", KEPT),
    ("license udi pid ISR4331/K9 sn FDO00000000", KEPT), ("spanning-tree extend system-id", KEPT), ("redundancy", KEPT), ("ip forward-protocol nd", KEPT),
    ("no ip http server", KEPT), ("ip ssh version 2", KEPT), ("cdp run", KEPT), ("control-plane", KEPT), ("line con 0", KEPT), ("ntp server 10.9.9.9", KEPT),
    ("snmp-server community public RO 10", KEPT), ("ip sla 1", KEPT), ("class-map match-any VOICE", KEPT), ("policy-map WAN", KEPT),
    ("ip prefix-list X seq 5 permit 10.0.0.0/8", KEPT), ("route-map X permit 10", KEPT), ("ipv6 access-list V6", KEPT), ("ipv6 nd cache expire 3600", KEPT),
    ("ipv6 unicast-routing", LEFT_OUT), ("ipv6 route ::/0 2001:DB8::2", LEFT_OUT), ("ipv6 route 2001:DB8:5::/48 GigabitEthernet0/0 FE80::1", LEFT_OUT),
    ("ip access-list logging interval 10", LEFT_OUT), ("ip access-list logging hash-generation", LEFT_OUT),
    ("ip access-list log-update threshold 5", LEFT_OUT), ("access-list compiled", LEFT_OUT), ("access-list dynamic-extended", LEFT_OUT),
    ("ip access-list match-local-traffic", LEFT_OUT), ("ip access-list persistent", LEFT_OUT), ("ip access-list helper egress check", LEFT_OUT),
    ("access-list rate-limit 7 mask 42", LEFT_OUT), ("ip route static bfd GigabitEthernet0/0 10.0.0.2", LEFT_OUT),
    ("ip route profile", LEFT_OUT), ("ip route static adjust-time 30", LEFT_OUT), ("ip route static inter-vrf", LEFT_OUT),
    ("access-list 200 permit 0x0000 0x0D0D", LEFT_OUT), ("access-list 299 deny 0x6000 0x0000", LEFT_OUT), ("access-list 600 permit includes 7", LEFT_OUT),
    ("access-list 700 permit 0000.0c00.0000 0000.00ff.ffff", LEFT_OUT), ("access-list 799 deny 0000.0000.0000 ffff.ffff.ffff", LEFT_OUT),
    ("access-list 1100 permit 0000.0000.0000 ffff.ffff.ffff 0000.0000.0000 ffff.ffff.ffff", LEFT_OUT),
    ("no ip access-list extended NEVER", LEFT_OUT), ("no ip access-list standard NEVER", LEFT_OUT), ("no access-list 150", LEFT_OUT),
    ("access-list 10 permit 10.0.0.0 0.0.0.255", KEPT), ("access-list 10 remark servers", KEPT), ("ip route 10.7.0.0 255.255.0.0 10.0.0.2", KEPT),
    ("ip route 10.7.0.0 255.255.0.0 Null0", KEPT), ("ip route 0.0.0.0 0.0.0.0 GigabitEthernet0/0 10.0.0.2", KEPT),
    ("ip route 0.0.0.0 0.0.0.0 10.0.0.2", "ip route 0.0.0.0 0.0.0.0 GigabitEthernet0/0 10.0.0.2"),
    ("ip route 0.0.0.0 0.0.0.0 10.0.0.2 250 name BACK", "ip route 0.0.0.0 0.0.0.0 GigabitEthernet0/0 10.0.0.2 250 name BACK"),
    ("ip route 10.0.0.0 255.0.0.0 10.0.0.2", "ip route 10.0.0.0 255.0.0.0 GigabitEthernet0/0 10.0.0.2"),
    ("ip route 0.0.0.0 0.0.0.0 10.7.0.2", KEPT),
]
INTERFACE = [
    ("description to the core", KEPT), ("ip address 10.0.1.1 255.255.255.0", KEPT), ("no ip address", KEPT), ("ip access-group 10 in", KEPT),
    ("ip nat inside", KEPT), ("no ip redirects", KEPT), ("no ip proxy-arp", KEPT), ("ip mtu 1400", KEPT), ("ip ospf 1 area 0", KEPT), ("duplex auto", KEPT),
    ("speed auto", KEPT), ("negotiation auto", KEPT), ("media-type rj45", KEPT), ("service-policy output WAN", KEPT), ("encapsulation dot1Q 20", KEPT),
    ("cdp enable", KEPT), ("shutdown", KEPT), ("ip flow monitor X input", KEPT), ("ipv6 nd ra suppress", KEPT), ("ipv6 traffic-filter V6 in", KEPT),
    ("ipv6 ospf 1 area 0", KEPT), ("ipv6 address 2001:DB8::1/64", LEFT_OUT), ("ipv6 address FE80::1 link-local", LEFT_OUT),
    ("ipv6 address autoconfig", LEFT_OUT), ("ipv6 enable", LEFT_OUT), ("load-interval 30", KEPT), ("bfd interval 50 min_rx 50 multiplier 3", KEPT),
]
# The entry of an extended list, and the entries in its place.
ENTRIES = [
    ("permit ip any any", KEPT), ("deny   ip any any log", KEPT), ("remark msrpc of the servers", KEPT), ("permit tcp any any eq www", KEPT),
    ("permit tcp any any eq 22 443", KEPT), ("permit tcp any any established", KEPT), ("permit icmp any any echo", KEPT), ("permit icmp any any 3 4", KEPT),
    ("permit tcp any any match-all +syn -ack", KEPT), ("permit esp any any", KEPT), ("permit ospf any any", KEPT), ("permit 47 any any", KEPT),
    ("permit tcp any any eq msrpc", "permit tcp any any eq 135"), ("permit tcp any eq msrpc any", "permit tcp any eq 135 any"),
    ("permit tcp any any eq www msrpc drip", "permit tcp any any eq www 135 3949"), ("permit tcp any any range msrpc 139", "permit tcp any any range 135 139"),
    ("permit tcp any any eq drip", "permit tcp any any eq 3949"), ("permit tcp any any eq onep-plain", "permit tcp any any eq 15001"),
    ("permit tcp any any eq onep-tls", "permit tcp any any eq 15002"), ("permit tcp any any eq connectedapps-plain", "permit tcp any any eq 15001"),
    ("permit tcp any any eq connectedapps-tls", "permit tcp any any eq 15002"), ("permit tcp any any eq pim-auto-rp", "permit tcp any any eq 496"),
    ("permit tcp any any eq syslog", "permit tcp any any eq 514"), ("permit 6 any any eq syslog", "permit 6 any any eq 514"),
    ("permit udp any any eq pim-auto-rp", "permit udp any any eq 496"), ("permit udp any any eq ripv6", "permit udp any any eq 521"),
    ("permit udp any eq ripv6 any gt dnsix", "permit udp any eq 521 any gt 195"), ("permit udp any any eq syslog", KEPT),
    ("permit udp host 10.0.0.1 eq dnsix host 10.0.0.2", "permit udp host 10.0.0.1 eq 195 host 10.0.0.2"),
    ("permit nos any any", "permit 94 any any"), ("permit pcp any any", "permit 108 any any"), ("deny sctp any any", "deny 132 any any"),
    ("permit igrp any any", "permit 9 any any"),
    ("permit icmp any any traceroute log", "permit icmp any any 30 log"), ("permit icmp any any timestamp-request", "permit icmp any any 13"),
    ("permit icmp any any timestamp-reply", "permit icmp any any 14"), ("permit icmp any any mask-request", "permit icmp any any 17"),
    ("permit icmp any any mask-reply", "permit icmp any any 18"), ("permit icmp any any host-redirect", "permit icmp any any 5 1"),
    ("permit icmp any any net-redirect", "permit icmp any any 5 0"), ("permit icmp any any net-tos-redirect", "permit icmp any any 5 2"),
    ("permit icmp any any host-tos-redirect", "permit icmp any any 5 3"), ("permit icmp any any protocol-unreachable", "permit icmp any any 3 2"),
    ("permit icmp any any router-advertisement", "permit icmp any any 9"), ("permit icmp any any router-solicitation", "permit icmp any any 10"),
    ("permit icmp any any alternate-address", "permit icmp any any 6"), ("permit icmp any any conversion-error", "permit icmp any any 31"),
    ("permit icmp any any dod-host-prohibited", "permit icmp any any 3 10"), ("permit icmp any any dod-net-prohibited", "permit icmp any any 3 9"),
    ("permit icmp any any general-parameter-problem", "permit icmp any any 12 0"), ("permit icmp any any host-isolated", "permit icmp any any 3 8"),
    ("permit icmp any any host-precedence-unreachable", "permit icmp any any 3 14"), ("permit icmp any any precedence-unreachable", "permit icmp any any 3 15"),
    ("permit icmp any any host-tos-unreachable", "permit icmp any any 3 12"), ("permit icmp any any net-tos-unreachable", "permit icmp any any 3 11"),
    ("permit icmp any any host-unknown", "permit icmp any any 3 7"), ("permit icmp any any network-unknown", "permit icmp any any 3 6"),
    ("permit icmp any any source-route-failed", "permit icmp any any 3 5"), ("permit icmp any any information-request", "permit icmp any any 15"),
    ("permit icmp any any information-reply", "permit icmp any any 16"), ("permit icmp any any mobile-redirect", "permit icmp any any 32"),
    ("permit icmp any any no-room-for-option", "permit icmp any any 12 2"), ("permit icmp any any option-missing", "permit icmp any any 12 1"),
    ("permit icmp any any reassembly-timeout", "permit icmp any any 11 1"),
    ("10 permit tcp any any eq msrpc", "10 permit tcp any any eq 135"), ("30 permit icmp any any administratively-prohibited", KEPT),
    ("permit tcp any any neq 80", KEPT),
    ("permit tcp any any neq 80 443", [
        "10000 permit tcp any any range 0 79", "10001 permit tcp any any range 81 442", "10002 permit tcp any any range 444 65535"]),
    ("20 deny udp any neq 0 65535 any log", ["20000 deny udp any range 1 65534 any log"]),
    ("permit tcp any neq 1 2 any neq www 81", ["10000 permit tcp any range 0 0 any range 0 79", "10001 permit tcp any range 0 0 any range 82 65535",
                                               "10002 permit tcp any range 3 65535 any range 0 79", "10003 permit tcp any range 3 65535 any range 82 65535"]),
]
REFUSED = [
    ("ip nat inside source list 7 interface GigabitEthernet0/0 overload", "NotCovered list"),
    ("router bgp 65000", "NotCovered router"),
    ("ip multicast-routing", "NotCovered multicast-routing"),
    ("access-list 250 permit 0x0000 0x0D0D\ninterface Ethernet9\n ip access-group 250 in", "BadListNumber 250"),
    ("ip access-list extended L\n permit tcp any any fragments", "NotCovered fragments"),
    ("ip access-list extended L\n permit sctp any any eq 80", "ExtraWord eq"),
    ("ip access-list role-based L", "NotCovered role-based"), ("interface Ethernet9\n ip policy route-map X", "NotCovered policy"),
    ("interface Ethernet9\n crypto map X", "NotCovered map"), ("ip route 10.9.0.0 255.255.0.0 10.0.0.2 track 1", "NotCovered track"),
]
BASE = ["interface GigabitEthernet0/0", " ip address 10.0.0.1 255.255.255.0"]


def text_of(place, line):
    """A configuration with a line at its place."""
    inner = {"interface": ["interface GigabitEthernet0/1", " " + line], "entry": ["ip access-list extended L", " " + line]}
    return BASE + inner.get(place, [line])


def cases():
    """Each line with its place and what becomes of it."""
    for place, rows in (("margin", MARGIN), ("interface", INTERFACE), ("entry", ENTRIES)):
        for line, becomes in rows:
            yield place, line, becomes


class Lines(helpers.Folders):
    """A configuration for each line."""

    def prepare(self, texts, ending="\n"):
        """Prepares a folder of these texts; gives the status and the tables by the numbers of the texts."""
        for number, lines in enumerate(texts):
            self.write("raw/D%d.cfg" % number, ("".join(line + ending for line in ["hostname D%d" % number] + lines)).encode())
        status, told = self.run_program("prepare", "raw", "out")
        tables = {}
        for line in told.split("\n"):
            if line.startswith("raw/"):
                rows = tables.setdefault(line.split(", D")[-1], [])
            elif line.strip():
                rows.append(line)
        return status, tables

    def wanted(self, line, becomes, place):
        """The prepared text of a case."""
        if becomes == LEFT_OUT:
            return text_of(place, line)[:-1]
        if isinstance(becomes, list):
            number = int(becomes[0].split()[0]) // 1000
            entry = re.sub(r"^[0-9]+ ", "", line)
            return text_of(place, line)[:-1] + [" remark entry %d: %s" % (number, entry)] + [" " + one for one in becomes]
        return text_of(place, line if becomes == KEPT else becomes)

    def test_what_becomes_of_each(self):
        rows = list(cases())
        self.assertGreaterEqual(len(rows) + len(REFUSED), 150)
        for ending in ("\n", "\r\n"):
            status, tables = self.prepare([text_of(place, line) for place, line, _ in rows], ending)
            self.assertEqual(status, 0)
            for number, (place, line, becomes) in enumerate(rows):
                with self.subTest(line=line, ending=ending):
                    found = self.read("out/D%d.cfg" % number).split("\n")[1:-1]
                    self.assertEqual(found, self.wanted(line, becomes, place))
                    told = [row for row in tables[str(number)] if "carriage returns" not in row and "nothing was changed" not in row]
                    self.assertEqual(bool(told), becomes != KEPT, told)
            helpers.remove_folder(self.path("out"))

    @helpers.needs_review
    def test_all_are_read(self):
        rows = list(cases())
        self.prepare([text_of(place, line) for place, line, _ in rows])
        self.assertEqual(helpers.review("read", self.path("out")).returncode, 0)

    @helpers.needs_review
    def test_refused(self):
        for number, (text, _) in enumerate(REFUSED):
            self.write("raw/D%02d.cfg" % number, ["hostname D%d" % number] + BASE + text.split("\n"))
        status, told = self.run_program("prepare", "raw", "out", "--check")
        found = [re.sub(r"^refused raw/D(\d+).cfg line \d+ ", "", line) for line in told.rstrip("\n").split("\n") if line.startswith("refused")]
        self.assertEqual((status, found), (3, [wanted for _, wanted in REFUSED]))

    def test_none_is_left_out_untold(self):
        """The table and the prepared text give together every line of the device's file."""
        refused = 0
        for seed in range(20):
            chosen = random.Random(seed)
            lines = ["hostname D0"] + BASE
            for place, line, _ in chosen.sample(list(cases()), 25):
                lines += [one for one in text_of(place, line) if one not in BASE]
            self.write("raw/D0.cfg", lines)
            helpers.remove_folder(self.path("out"))
            status, told = self.run_program("prepare", "raw", "out")
            if status:
                self.assertIn("refused", told)
                refused += 1
                continue
            prepared = self.read("out/D0.cfg").split("\n")
            rows = [row for row in told.split("\n") if row.startswith("  ")]
            covered = set()
            for row in rows:
                place = row.split()[0]
                first, _, last = place.partition("-")
                if place != "all":
                    covered |= set(range(int(first), int(last or first) + 1))
            names = [row for row in rows if row.split()[:2] == ["all", "replaced"]]
            for number, line in enumerate(lines, 1):
                if line not in prepared and number not in covered:
                    words = [word for word in line.split() if names and re.search(r"\b%s is " % re.escape(word), names[0])]
                    self.assertTrue(words, (seed, number, line, told))
        self.assertLess(refused, 5)


class Emptied(helpers.Folders):
    """A `no` before a list empties it, as a compiler of rules writes it."""

    def test_compiled(self):
        self.write("raw/R1.cfg", ["hostname R1", "ip access-list extended L", " permit tcp any any", "access-list 120 permit ip any any",
                                  "no ip access-list extended L", "ip access-list extended L", " permit udp any any", "no access-list 120",
                                  "access-list 120 deny ip any any", "no ip access-list extended M", "ip access-list extended M", " permit ip any any"])
        status, told = self.run_program("prepare", "raw", "out")
        self.assertEqual((status, self.read("out/R1.cfg").split("\n")[1:-1]), (0, [
            "ip access-list extended L", " permit udp any any", "access-list 120 deny ip any any", "ip access-list extended M", " permit ip any any"]))
        rows = [" ".join(row.split()) for row in told.split("\n")[1:-1]]
        self.assertEqual(rows, [
            "2-3 left out ip access-list extended L: line 5 takes the list away", "4 left out access-list 120 permit ip any any: line 8 takes the list away",
            "5 left out no ip access-list extended L: it empties list L", "8 left out no access-list 120: it empties list 120",
            "10 left out no ip access-list extended M: there is no list M before it"])

    def test_other_kind(self):
        self.write("raw/R1.cfg", ["hostname R1", "ip access-list standard L", " permit any", "no ip access-list extended L"])
        self.assert_refused(3, ["refused raw/R1.cfg line 4 ListKindClash L"], "raw", "out")


if __name__ == "__main__":
    unittest.main()
