"""Whole running texts as devices show them, each line with what becomes of it, and that no line is left out untold."""
import random
import unittest

import helpers
from test_lines import BASE, KEPT, LEFT_OUT, cases, text_of

from preparing import preparation
from preparing.command_line import PrepareWords
from preparing.faults import Fault, Faults

WIPE = "\x08" * 9
# IOS 12.4, by a terminal: prompts and a pager.
IOS_12 = [
    ("R1>enable", LEFT_OUT), ("R1#show running-config", LEFT_OUT), ("Building configuration...", KEPT), ("", KEPT),
    ("Current configuration : 1892 bytes", KEPT), ("!", KEPT), ("version 12.4", KEPT), ("service timestamps log datetime msec", KEPT),
    ("no service password-encryption", KEPT), ("!", KEPT), ("hostname R1", KEPT), ("!", KEPT), ("boot-start-marker", KEPT), ("boot-end-marker", KEPT),
    ("enable secret 5 $1$abcd$0123456789", KEPT), ("no aaa new-model", KEPT), ("memory-size iomem 15", KEPT), ("ip cef", KEPT),
    ("interface FastEthernet0/0", KEPT), (" description users", KEPT), (" ip address 10.0.0.1 255.255.255.0", KEPT), (" ip access-group 101 in", KEPT),
    (" no ip proxy-arp", KEPT), (" --More-- " + WIPE + "        " + WIPE + " duplex auto", " duplex auto"), (" speed auto", KEPT), ("!", KEPT),
    ("interface Serial0/0/0", KEPT), (" ip address 10.0.9.1 255.255.255.252", KEPT), (" clock rate 2000000", KEPT), ("!", KEPT),
    ("ip route 0.0.0.0 0.0.0.0 10.0.9.2", "ip route 0.0.0.0 0.0.0.0 Serial0/0/0 10.0.9.2"), ("ip route 10.7.0.0 255.255.0.0 10.0.9.2", KEPT),
    ("no ip http server", KEPT), ("!", KEPT), ("access-list 101 remark what users may", KEPT), ("access-list 101 permit tcp any any eq www", KEPT),
    ("access-list 101 permit icmp any any traceroute", "access-list 101 permit icmp any any 30"), ("access-list 101 deny   ip any any log", KEPT),
    ("access-list 700 deny   0000.0c00.0000   0000.00ff.ffff", LEFT_OUT), ("snmp-server community public RO", KEPT), ("control-plane", KEPT), ("!", KEPT),
    ("banner motd ^C", KEPT), ("interface of the company", KEPT), ("router ospf 1", KEPT), ("^C", KEPT), ("line con 0", KEPT), ("line vty 0 4", KEPT),
    (" login", KEPT), ("!", KEPT), ("end", KEPT), ("", KEPT), ("R1#exit", LEFT_OUT),
]
# IOS 15.2, as a file of another system.
IOS_15 = [
    ("!", KEPT), ("! Last configuration change at 10:12:31 UTC Mon Mar 2 2026 by admin", KEPT), ("version 15.2", KEPT), ("hostname R1", KEPT),
    ("ipv6 unicast-routing", LEFT_OUT), ("ip domain name example.net", KEPT), ("object-group network SERVERS", LEFT_OUT),
    (" description of the shop", LEFT_OUT), (" host 10.7.0.5", LEFT_OUT), (" 10.7.1.0 255.255.255.0", LEFT_OUT), ("!", KEPT),
    ("interface Loopback0", KEPT), (" ip address 10.255.0.1 255.255.255.255", KEPT), ("interface GigabitEthernet0/0", KEPT),
    (" ip address 10.0.0.1 255.255.255.0", KEPT), (" ip access-group USERS in", KEPT),
    (" ipv6 address 2001:DB8::1/64", LEFT_OUT), (" ipv6 enable", LEFT_OUT), (" ipv6 nd ra suppress", KEPT), ("ip forward-protocol nd", KEPT),
    ("ip route 0.0.0.0 0.0.0.0 GigabitEthernet0/0 10.0.0.2", KEPT), ("ip access-list logging interval 10", LEFT_OUT),
    ("ip access-list extended USERS", KEPT), (" remark shop", KEPT),
    (" permit tcp any object-group SERVERS eq msrpc", [" remark entry 10: permit tcp any object-group SERVERS eq msrpc",
                                                       " 10000 permit tcp any host 10.7.0.5 eq 135", " 10001 permit tcp any 10.7.1.0 0.0.0.255 eq 135"]),
    (" permit udp any any eq ntp", " 20000 permit udp any any eq ntp"), (" deny   ip any any", " 30000 deny ip any any"), ("ipv6 access-list V6", KEPT),
    (" permit ipv6 any any", KEPT), ("line con 0", KEPT), ("end", KEPT),
]
# IOS XE 16: a table of routes of its own for the management.
XE_16 = [
    ("version 16.9", KEPT), ("service timestamps debug datetime msec", KEPT), ("platform qfp utilization monitor load 80", KEPT), ("hostname R1", KEPT),
    ("vrf definition Mgmt-intf", LEFT_OUT), (" !", KEPT), (" address-family ipv4", LEFT_OUT), (" exit-address-family", LEFT_OUT), ("!", KEPT),
    ("license boot level ipbasek9", KEPT), ("redundancy", KEPT), (" mode none", KEPT), ("interface GigabitEthernet0/0/0", KEPT),
    (" ip address 10.0.0.1 255.255.255.0", KEPT), (" negotiation auto", KEPT), ("interface GigabitEthernet0/0/1", KEPT), (" shutdown", KEPT),
    ("interface GigabitEthernet0/0/1.7", KEPT), (" encapsulation dot1Q 7", KEPT), (" ip address 10.0.7.1 255.255.255.0", [
        " ip address 10.0.7.1 255.255.255.0", " shutdown"]),
    ("interface GigabitEthernet0", LEFT_OUT), (" vrf forwarding Mgmt-intf", LEFT_OUT), (" ip address 10.255.0.7 255.255.255.0", LEFT_OUT),
    (" negotiation auto", LEFT_OUT), ("ip route 10.9.0.0 255.255.0.0 10.0.0.2", KEPT), ("ip route 0.0.0.0 0.0.0.0 Null0", KEPT),
    ("ip route vrf Mgmt-intf 0.0.0.0 0.0.0.0 10.255.0.1", LEFT_OUT), ("ip ssh version 2", KEPT), ("no ip access-list extended WEB", LEFT_OUT),
    ("ip access-list extended WEB", KEPT), (" 10 permit tcp any any eq 443", KEPT), (" 20 permit tcp any any eq drip", " 20 permit tcp any any eq 3949"),
    ("end", KEPT),
]
# IOS XE 17: a switch with routed interfaces.
XE_17 = [
    ("version 17.3", KEPT), ("hostname R1", KEPT), ("switch 1 provision c9300-24t", KEPT), ("object-group service WEB", LEFT_OUT), (" tcp eq 443", LEFT_OUT),
    (" udp range 5000 5003", LEFT_OUT), ("object-group network UNUSED", LEFT_OUT), (" host 10.9.9.9", LEFT_OUT), ("vlan 10", KEPT), (" name users", KEPT),
    ("interface Port-channel1", KEPT), (" no switchport", KEPT), (" ip address 10.0.1.1 255.255.255.252", KEPT),
    ("interface TenGigabitEthernet1/1/1", LEFT_OUT), (" no switchport", LEFT_OUT), (" no ip address", LEFT_OUT), (" channel-group 1 mode active", LEFT_OUT),
    ("interface GigabitEthernet1/0/1", LEFT_OUT), (" switchport access vlan 10", LEFT_OUT), (" switchport mode access", LEFT_OUT), ("!", KEPT),
    ("interface Vlan10", KEPT), (" ip address 10.0.10.1 255.255.255.0", KEPT), (" ip access-group 110 in", KEPT),
    ("access-list 110 permit object-group WEB any host 10.7.0.5", [
        "ip access-list extended 110", " remark entry 10: permit object-group WEB any host 10.7.0.5", " 10000 permit tcp any host 10.7.0.5 eq 443",
        " 10001 permit udp any host 10.7.0.5 range 5000 5003"]),
    ("access-list 110 permit tcp any any neq 22 23", [
        " remark entry 20: permit tcp any any neq 22 23", " 20000 permit tcp any any range 0 21", " 20001 permit tcp any any range 24 65535"]),
    ("access-list 110 permit icmp any any echo", " 30000 permit icmp any any echo"), ("ip route 10.0.0.0 255.0.0.0 10.0.1.2",
                                                                                      "ip route 10.0.0.0 255.0.0.0 Port-channel1 10.0.1.2"),
    ("access-list compiled", LEFT_OUT), ("end", KEPT),
]
WHOLE = {"12.4": (IOS_12, "\n"), "15.2": (IOS_15, "\r\n"), "16.9": (XE_16, "\n"), "17.3": (XE_17, "\n")}


def becomes_of(rows):
    """The prepared text of rows."""
    found = []
    for line, becomes in rows:
        found += [line] if becomes == KEPT else [] if becomes == LEFT_OUT else becomes if isinstance(becomes, list) else [becomes]
    return found


class Whole(helpers.Folders):
    """Texts of four kinds of systems."""

    def test_texts(self):
        for version, (rows, ending) in WHOLE.items():
            with self.subTest(version):
                self.write("raw/R1.cfg", "".join(line + ending for line, _ in rows).encode())
                helpers.remove_folder(self.path("out"))
                status, told = self.run_program("prepare", "raw", "out")
                self.assertEqual(status, 0, told)
                self.assertEqual(self.read("out/R1.cfg").split("\n")[:-1], becomes_of(rows))

    @helpers.needs_review
    def test_are_read(self):
        for version, (rows, _) in WHOLE.items():
            self.write("texts/%s.cfg" % version, ["hostname R%s" % version if line == "hostname R1" else line for line in becomes_of(rows)])
        done = helpers.review("read", self.path("texts"))
        self.assertEqual(done.returncode, 0, done.stderr)


TABLE = ["Gateway of last resort is not set", "C    10.0.0.0/24 is directly connected, GigabitEthernet0/0",
         "O    10.8.0.0/16 [110/2] via 10.0.0.2, 00:00:01, GigabitEthernet0/0", "S    10.7.0.0/16 [1/0] via 10.0.0.2"]
MORE = [["object-group network A", " host 10.0.0.7", " 10.2.0.0 255.255.0.0"], ["ip access-list extended G", " permit ip object-group A any"],
        ["vrf definition V", " rd 1:1"], ["interface Ethernet7", " vrf forwarding V", " ip address 10.1.1.1 255.255.255.0"],
        ["ip route vrf V 10.3.0.0 255.255.0.0 10.1.1.2"], ["router ospf 1", " network 10.0.0.0 0.255.255.255 area 0"],
        ["interface Ethernet8", " switchport mode access"], ["D0#show clock"], ["D0#show run"], ["banner motd #", "no ip access-list extended G", "#"],
        ["interface Ethernet9", " shutdown"], ["interface Ethernet9.1", " ip address 10.6.0.1 255.255.255.0"], ["ip default-network 10.0.0.0"]]


class Untold(helpers.Folders):
    """The table and the prepared text give together every line of the device's file, each by its number."""

    def prepared(self, **options):
        """The device, or None where its text is refused."""
        try:
            return preparation.prepared(PrepareWords(self.path("raw"), self.path("out"), **options), ["D0.cfg"], {})[0]
        except (Fault, Faults):
            return None

    def names_of(self, told):
        """The numbers for names that the table tells, by the names."""
        rows = [row for row in told.rows if row[1:4] == ("all", "replaced", "names in access lists")]
        pairs = [pair.rsplit(" is ", 1) for row in rows for pair in row[4].partition(": ")[2].split(", ")]
        return {name.split(" ")[-1]: number for name, number in pairs}

    def untold(self, device, lines):
        """The lines of the file that are neither in the text nor in the table, and those of the text that come from nowhere told."""
        own = {line.number: line.text for line in preparation.lines_of(device.blocks) if line.path == device.path and line.number}
        covered = {number for _, place, *_ in device.told.rows if place != "all"
                   for first, _, last in [place.partition("-")] for number in range(int(first), int(last or first) + 1)}
        names = self.names_of(device.told)

        def in_numbers(text):
            return [word for one in text.split() for word in (names.get(one, one).split("/") if one in names else [one])]

        found = []
        for number, text in enumerate(lines, 1):
            stays = number in own and (own[number] == text or own[number].split() == in_numbers(text))
            if text.strip() and not text.strip().startswith("!") and not stays and number not in covered:
                found.append((number, text))
        return found + [(number, text) for number, text in own.items() if text != lines[number - 1] and number not in covered
                        and text.split() != in_numbers(lines[number - 1])]

    def test_each_line(self):
        tried = dict.fromkeys(((), ("routes",), ("vrf",)), 0)
        self.write("routes/D0.txt", TABLE)
        for seed in range(120):
            chosen = random.Random(seed)
            parts = [BASE] + [text_of(place, line)[2:] for place, line, _ in chosen.sample(list(cases()), 20)] + chosen.sample(MORE, 7)
            chosen.shuffle(parts)
            lines = [line for part in [["hostname D0"]] + parts for line in part]
            self.write("raw/D0.cfg", lines)
            for options in ({}, {"routes": self.path("routes")}, {"vrf": "V"}):
                device = self.prepared(**options)
                if device is not None:
                    tried[tuple(options)] += 1
                    self.assertEqual(self.untold(device, lines), [], (seed, options, device.told.lines()))
        self.assertGreater(min(tried.values()), 25, tried)

    def test_whole_texts(self):
        for rows, _ in WHOLE.values():
            lines = [line for line, _ in rows]
            self.write("raw/D0.cfg", lines)
            self.assertEqual(self.untold(self.prepared(), lines), [])

    def test_a_line_that_is_lost(self):
        """One that goes untold is seen."""
        lines = [line for line, _ in XE_16]
        self.write("raw/D0.cfg", lines)
        device = self.prepared()
        for block in device.blocks:
            block.body = [line for line in block.body if "negotiation" not in line.text]
        self.assertEqual(self.untold(device, lines), [(15, " negotiation auto")])


if __name__ == "__main__":
    unittest.main()
