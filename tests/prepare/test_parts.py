"""Switch ports, port channels, VRFs, virtual addresses, static routes and the second source of routes, by the whole program."""
import shutil
import unittest

import helpers

CORE = ["hostname R1", "interface Ethernet0", " ip address 10.0.0.1 255.255.255.0"]
LEGEND = ["Codes: C - connected, S - static", "", "Gateway of last resort is not set", ""]
CONNECTED = ["     10.0.0.0/24 is subnetted, 1 subnets", "C       10.0.0.0 is directly connected, Ethernet0"]


class Parts(helpers.Folders):
    """One configuration, what it becomes, and what is told of it."""

    def prepared(self, lines, *words):
        """The lines of the prepared configuration and the rows of its table."""
        self.write("raw/R1.cfg", lines)
        shutil.rmtree(self.path("out"), ignore_errors=True)
        status, told = self.run_program("prepare", "raw", "out", *words)
        self.assertEqual(status, 0, told)
        return self.read("out/R1.cfg").rstrip("\n").split("\n"), [" ".join(row.split()) for row in told.rstrip("\n").split("\n")[1:]]

    def refused(self, lines, line, *words):
        self.write("raw/R1.cfg", lines)
        self.assert_refused(3, [line], "raw", "out", *words)


class Switching(Parts):
    """What carries no routed packet."""

    def test_switch_port(self):
        found, told = self.prepared(CORE + ["!", "interface Ethernet1", " switchport mode access", " no ip address", "!", "end"])
        self.assertEqual(found, CORE + ["!", "!", "end"])
        self.assertEqual(told, ["5-7 left out interface Ethernet1: it is a switch port without address"])

    def test_routed_port(self):
        found, told = self.prepared(CORE + ["interface Ethernet1", " no switchport", " switchport access vlan 7", " ip address 10.0.1.1 255.255.255.0"])
        self.assertEqual(found, CORE + ["interface Ethernet1", " no switchport", " ip address 10.0.1.1 255.255.255.0"])
        self.assertEqual(told, ["6 left out switchport access vlan 7: it is no switch port: no switchport"])

    def test_no_word_of_a_switch_port(self):
        """`no switchport nonegotiate` leaves a switch port what it is."""
        found, told = self.prepared(CORE + ["interface Ethernet1", " switchport mode trunk", " no switchport nonegotiate"])
        self.assertEqual(found, CORE)
        self.assertEqual(told, ["4-6 left out interface Ethernet1: it is a switch port without address"])

    def test_address_of_a_switch_port(self):
        self.refused(CORE + ["interface Ethernet1", " switchport mode trunk", " no switchport nonegotiate", " ip address 10.0.1.1 255.255.255.0"],
                     "refused raw/R1.cfg line 7 SwitchportAddress switchport")

    def test_members(self):
        port = ["interface Port-channel3", " ip address 10.0.1.1 255.255.255.0"]
        found, told = self.prepared(CORE + port + ["interface Ethernet1", " no ip address", " channel-group 3 mode active"])
        self.assertEqual(found, CORE + port)
        self.assertEqual(told, ["6-8 left out interface Ethernet1: it is a member of Port-channel3"])

    def test_refused(self):
        for lines, line in (
            (["interface Ethernet1", " switchport", " ip address 10.0.1.1 255.255.255.0"], "6 SwitchportAddress switchport"),
            (["interface Ethernet1", " switchport", " ip access-group 101 in"], "6 NotCovered access-group"),
            (["interface Ethernet1", " channel-group 3 mode on"], "5 UnknownInterface Port-channel3"),
            (["interface Ethernet1", " channel-group 3 mode on", " ip address 10.0.1.1 255.255.255.0"], "6 MemberAddress channel-group"),
            (["vlan filter X vlan-list 1"], "4 NotCovered filter"),
        ):
            with self.subTest(lines=lines):
                self.refused(CORE + lines, "refused raw/R1.cfg line " + line)


class Vrfs(Parts):
    """One table of routes."""

    LINES = CORE + ["vrf definition A", " rd 1:1", "interface Ethernet1", " vrf forwarding A", " ip address 10.0.1.1 255.255.255.0",
                    "ip route 10.7.0.0 255.255.0.0 10.0.0.2", "ip route vrf A 10.8.0.0 255.255.0.0 10.0.1.2"]

    def test_global(self):
        found, told = self.prepared(self.LINES)
        self.assertEqual(found, CORE + ["ip route 10.7.0.0 255.255.0.0 10.0.0.2"])
        self.assertEqual(told, [
            "4-5 left out vrf definition A: another table of routes is chosen",
            "6-8 left out interface Ethernet1: it is in VRF A",
            "10 left out ip route vrf A 10.8.0.0 255.255.0.0 10.0.1.2: it is in VRF A",
        ])

    def test_chosen(self):
        found, told = self.prepared(self.LINES, "--vrf", "A")
        self.assertEqual(found, ["hostname R1", "interface Ethernet1", " ip address 10.0.1.1 255.255.255.0", "ip route 10.8.0.0 255.255.0.0 10.0.1.2"])
        self.assertEqual(told, [
            "2-3 left out interface Ethernet0: it is in the global table",
            "4-5 left out vrf definition A: it is chosen",
            "7 left out vrf forwarding A: VRF A is chosen",
            "9 left out ip route 10.7.0.0 255.255.0.0 10.0.0.2: it is in the global table",
            "10 replaced ip route vrf A 10.8.0.0 255.255.0.0 10.0.1.2: VRF A is chosen",
        ])

    def test_refused(self):
        self.refused(self.LINES, "refused raw/R1.cfg line 0 UnknownVrf B", "--vrf=B")
        self.refused(self.LINES + ["ip route vrf A 10.9.0.0 255.255.0.0 10.0.0.2 global"], "refused raw/R1.cfg line 11 NotCovered global", "--vrf=A")


class Gateways(Parts):
    """Virtual addresses."""

    def devices(self, protocol="standby"):
        for number in (1, 2):
            self.write("raw/R%d.cfg" % number, [
                "hostname R%d" % number, "interface Vlan7", " ip address 10.0.0.%d 255.255.255.0" % (number + 1), " %s 7 ip 10.0.0.1" % protocol,
                " %s 7 priority 1%d0" % (protocol, number), " no shutdown"])

    def test_told_alone(self):
        self.devices()
        self.write("raw/R1.cfg", self.read("raw/R1.cfg").rstrip("\n").split("\n") + [" standby 7 authentication md5 key-string geheim"])
        status, told = self.run_program("prepare", "raw", "out")
        self.assertEqual(status, 0)
        self.assertIn("4  kept  standby 7 ip 10.0.0.1: the verifier refuses it; --active FILE says which device is active\n", told)
        self.assertEqual(self.read("out/R1.cfg"), self.read("raw/R1.cfg"))
        self.assertIn("standby 7 authentication ..: ", told)
        self.assertNotIn("geheim", told)

    def test_active(self):
        for protocol in ("standby", "vrrp", "glbp"):
            self.devices(protocol)
            self.write("active", ["! who forwards", "R2 Vlan7 %s 7" % protocol])
            status, told = self.run_program("prepare", "raw", protocol, "--active", "active")
            self.assertEqual(status, 0, told)
            self.assertIn("Vlan7 gets 10.0.0.1 as a secondary address", told)
            self.assertEqual(self.read(protocol + "/R1.cfg").split("\n")[1:-1], ["interface Vlan7", " ip address 10.0.0.2 255.255.255.0", " no shutdown"])
            self.assertEqual(self.read(protocol + "/R2.cfg").split("\n")[1:-1], [
                "interface Vlan7", " ip address 10.0.0.3 255.255.255.0", " no shutdown", " ip address 10.0.0.1 255.255.255.0 secondary"])

    def test_learned_and_other_family(self):
        self.write("raw/R1.cfg", ["hostname R1", "interface Vlan7", " ip address 10.0.0.2 255.255.255.0", " standby 7 ip", " vrrp 8 address-family ipv6",
                                  "  address FE80::1 primary"])
        self.write("active", ["! nobody"])
        status, told = self.run_program("prepare", "raw", "out", "--active", "active")
        self.assertEqual((status, self.read("out/R1.cfg").split("\n")[-2]), (0, " ip address 10.0.0.2 255.255.255.0"), told)
        self.write("active", ["R1 Vlan7 standby 7"])
        self.assert_refused(3, ["refused active line 1 AddressMissing 7"], "raw", "out2", "--active", "active", out="out2")

    def test_nested(self):
        found, _ = self.prepared(
            ["hostname R1", "interface Vlan7", " ip address 10.0.0.2 255.255.255.0", " vrrp 7 address-family ipv4", "  priority 110",
             "  address 10.0.0.1 primary", "  exit-vrrp", " no shutdown"], "--active", self.write("active", ["R1 Vlan7 vrrp 7"]))
        self.assertEqual(found[2:], [" ip address 10.0.0.2 255.255.255.0", " no shutdown", " ip address 10.0.0.1 255.255.255.0 secondary"])

    def test_refused(self):
        self.devices()
        for lines, wanted in (
            ([], "refused raw/R1.cfg line 4 NoActive 10.0.0.1"),
            (["R1 Vlan7 standby 7", "R2 Vlan7 standby 7"], "refused active line 2 ActiveTwice 10.0.0.1"),
            (["R1 Vlan7 standby 7", "R1 Vlan7 standby 7"], "refused active line 2 ActiveTwice 7"),
            (["R1 Vlan8 standby 7"], "refused active line 1 UnknownGroup R1 Vlan8 standby 7"),
            (["R9 Vlan7 standby 7"], "refused active line 1 UnknownDevice R9"),
            (["R1 Vlan7 hsrp 7"], "refused active line 1 BadWord hsrp"),
            (["R1 Vlan7 standby"], "refused active line 1 MissingWord"),
        ):
            with self.subTest(lines=lines):
                self.write("active", lines)
                self.assert_refused(3, [wanted], "raw", "out", "--active", "active")
        self.write("raw/R2.cfg", ["hostname R2", "interface Vlan7", " ip address 10.0.9.3 255.255.255.0", " standby 7 ip 10.0.0.1"])
        self.write("active", ["R2 Vlan7 standby 7"])
        self.assert_refused(3, ["refused raw/R2.cfg line 4 NoSubnet 10.0.0.1"], "raw", "out", "--active", "active")


class Routes(Parts):
    """Routes unchanged. A text that has them bears a mark with the day of its table."""

    def prepared(self, lines, *words):
        if "--routes" not in words:
            return super().prepared(lines, *words)
        helpers.set_day(self.path("routes"))
        found, told = super().prepared(lines, *words)
        self.assertEqual(found[0], "! routes of R1.txt of %s: protocols don't react" % helpers.DAY)
        return found[1:], told

    def table(self, *lines):
        self.write("routes/R1.txt", LEGEND + CONNECTED + list(lines))

    def test_router_and_statics(self):
        self.table("O    192.168.1.0/24 [110/2] via 10.0.0.2, 00:00:01, Ethernet0", "                    [110/2] via 10.0.0.3, 00:00:01, Ethernet0",
                   "S    192.168.2.0/24 [1/0] via 10.0.0.2", "S    192.168.3.0/24 is directly connected, Null0")
        lines = CORE + ["router ospf 1", " network 10.0.0.0 0.0.0.255 area 0", "ip route 192.168.2.0 255.255.255.0 10.0.0.2",
                        "ip route 192.168.3.0 255.255.255.0 Null0 7", "ip route 192.168.1.0 255.255.255.0 10.0.0.9 200", "end"]
        found, told = self.prepared(lines, "--routes", "routes")
        self.assertEqual(found, CORE + [
            "ip route 192.168.1.0 255.255.255.0 Ethernet0 10.0.0.2 110", "ip route 192.168.1.0 255.255.255.0 Ethernet0 10.0.0.3 110",
            "ip route 192.168.2.0 255.255.255.0 10.0.0.2", "ip route 192.168.3.0 255.255.255.0 Null0 7", "end"])
        self.assertEqual(told, [
            "all added 4 routes: those of R1.txt, unchanged",
            "4-5 replaced router ospf 1: R1.txt has the routes",
            "6 replaced ip route 192.168.2.0 255.255.255.0 10.0.0.2: R1.txt has it",
            "7 replaced ip route 192.168.3.0 255.255.255.0 Null0 7: R1.txt has it",
            "8 left out ip route 192.168.1.0 255.255.255.0 10.0.0.9 200: it isn't in R1.txt: it floats, or is not installed; "
            "a new one is kept by --keep-static",
        ])

    def test_static_that_the_text_lost(self):
        self.table("S    192.168.2.0/24 [1/0] via 10.0.0.2")
        found, told = self.prepared(CORE, "--routes", "routes")
        self.assertEqual(found, CORE + ["ip route 192.168.2.0 255.255.255.0 10.0.0.2"])
        self.assertEqual(told, [
            "all added R1.txt line 7, 192.168.2.0/24: no static route of the text gives it; to use the text's own, "
            "give --keep-static",
            "all added 1 routes: those of R1.txt, unchanged"])

    def test_no_table(self):
        lines = CORE + ["router ospf 1", " network 10.0.0.0 0.0.0.255 area 0"]
        found, told = self.prepared(lines)
        self.assertEqual((found, told), (lines, ["4-5 kept router ospf 1: the verifier refuses it; with --routes FOLDER its routes take its place"]))

    def test_keep_static(self):
        self.table("O    192.168.1.0/24 [110/2] via 10.0.0.2, 00:00:01, Ethernet0", "S    192.168.2.0/24 [1/0] via 10.0.0.2",
                   "S    192.168.3.0/24 [254/0] via 10.0.0.4")
        statics = ["ip route 192.168.2.0 255.255.255.0 10.0.0.2", "ip route 192.168.1.0 255.255.255.0 10.0.0.9 200"]
        found, told = self.prepared(CORE + statics, "--routes", "routes", "--keep-static")
        self.assertEqual(found, CORE + statics + [
            "ip route 192.168.1.0 255.255.255.0 Ethernet0 10.0.0.2 110"])
        self.assertEqual(told, [
            "all left out R1.txt line 9, 192.168.3.0/24: no static route of the text gives it, and those of the text are kept",
            "all added 1 routes: those of R1.txt, unchanged", "all kept 1 static routes: they are in the text and in R1.txt",
            "5 kept ip route 192.168.1.0 255.255.255.0 10.0.0.9 200: it isn't in R1.txt: it floats, or is not installed"])

    def test_interfaces_that_differ(self):
        self.table()
        _, told = self.prepared(CORE + ["interface Ethernet1", " ip address 10.1.0.1 255.255.255.0"], "--routes", "routes")
        self.assertIn("all differs Ethernet1: it is up in the text, and R1.txt has no connected route of it: it is taken as up; "
                      "write shutdown if it is down", told)

    def test_tables_of_nobody(self):
        self.table()
        self.write("routes/R9.txt", ["x"])
        _, told = self.prepared(CORE, "--routes", "routes")
        self.assertEqual(told[-1], "routes/R9.txt: not read, no configuration has its name")

    def test_refused(self):
        for lines, wanted in (
            (["O    192.168.1.0/24 [110/2] via 10.0.0.2, 00:00:01, Ethernet7"], "refused routes/R1.txt line 7 UnknownInterface Ethernet7"),
            (["B    192.168.1.0/24 is directly connected, 00:00:01, Ethernet0"], "refused routes/R1.txt line 7 DistanceMissing B"),
            (["O    192.168.1.0/24 [110/2] through 10.0.0.2"], "refused routes/R1.txt line 7 UnknownLine O"),
        ):
            self.table(*lines)
            self.refused(CORE, wanted, "--routes", "routes")
        self.write("routes/R1.txt", LEGEND + ["C    192.168.9.0/24 is directly connected, Ethernet0"])
        self.refused(CORE, "refused routes/R1.txt line 5 OtherDevice R1", "--routes", "routes")
        self.write("routes/R1.txt", LEGEND)
        self.refused(CORE, "refused routes/R1.txt line 0 NoConnected R1", "--routes", "routes")

    def test_default_network(self):
        """A default route by the network of a static route is written as the table has it, and can't be kept as the text has it."""
        self.write("routes/R1.txt", LEGEND[:2] + ["Gateway of last resort is 10.0.0.2 to network 172.16.0.0", ""] + CONNECTED
                   + ["S*   172.16.0.0/16 [1/0] via 10.0.0.2"])
        text = CORE + ["ip default-network 172.16.0.0", "ip route 172.16.0.0 255.255.0.0 10.0.0.2"]
        self.refused(text, "refused routes/R1.txt line 3 NotCovered 172.16.0.0", "--routes", "routes", "--keep-static")
        found, _ = self.prepared(text, "--routes", "routes")
        self.assertEqual(found, CORE + ["ip route 172.16.0.0 255.255.0.0 10.0.0.2", "ip route 0.0.0.0 0.0.0.0 Ethernet0 10.0.0.2"])
        found, _ = super().prepared(text, "--routes", "routes", "--as-written")
        self.assertEqual(found[-1], "ip route 0.0.0.0 0.0.0.0 10.0.0.2")

    def cef(self, *lines):
        self.write("routes/R1.cef", ["Prefix               Next Hop             Interface", "0.0.0.0/0            no route",
                                     "10.0.0.0/24          attached             Ethernet0", "10.0.0.1/32          receive              Ethernet0",
                                     "10.0.0.2/32          attached             Ethernet0", "224.0.0.0/4          drop"] + list(lines))

    def test_second_source(self):
        self.table("O    192.168.1.0/24 [110/2] via 10.0.0.2, 00:00:01, Ethernet0", "                    [110/2] via 10.0.0.3, 00:00:01, Ethernet0",
                   "S    192.168.2.0/24 [1/0] via 192.168.1.7", "S    192.168.3.0/24 is directly connected, Null0")
        same = ["192.168.1.0/24       10.0.0.2             Ethernet0", "                     10.0.0.3             Ethernet0",
                "192.168.2.0/24       10.0.0.2             Ethernet0", "                     10.0.0.3             Ethernet0",
                "192.168.3.0/24       attached             Null0"]
        self.cef(*same)
        self.prepared(CORE, "--routes", "routes")
        for lines, wanted in (
            (same[:1] + same[2:], "refused routes/R1.cef line 7 ForwardingDiffers 192.168.1.0/24"),
            (same[:-1], "refused routes/R1.txt line 10 ForwardingDiffers 192.168.3.0/24"),
            (same + ["192.168.4.0/24       10.0.0.2             Ethernet0"], "refused routes/R1.cef line 12 ForwardingDiffers 192.168.4.0/24"),
            (same + [same[0].replace("10.0.0.2", "10.0.0.9")] + same, "refused routes/R1.cef line 12 PrefixTwice 192.168.1.0"),
            (same + ["192.168.4.0/24       somewhere"], "refused routes/R1.cef line 12 UnknownLine 192.168.4.0/24"),
        ):
            self.cef(*lines)
            self.write("raw/R1.cfg", CORE)
            self.assert_refused(3, [wanted], "raw", "out2", "--routes", "routes", out="out2")


if __name__ == "__main__":
    unittest.main()
