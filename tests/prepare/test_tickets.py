"""Tickets: what each line does to a configuration, by the rules of the covered commands, and what is refused."""
import difflib
import os
import unittest

import helpers

R1 = [
    "hostname R1",
    "interface GigabitEthernet0/0",
    " ip address 10.0.0.1 255.255.255.0",
    " ip address 10.0.5.1 255.255.255.0 secondary",
    " ip access-group 101 in",
    " ip nat inside",
    "!",
    "interface GigabitEthernet0/1",
    " ip address 10.0.1.1 255.255.255.0",
    " shutdown",
    "!",
    "interface GigabitEthernet0/10",
    " no ip address",
    "!",
    "object-group network HOSTS",
    " host 10.0.0.5",
    " host 10.0.0.6",
    "!",
    "object-group network ALONE",
    " host 10.0.0.7",
    "!",
    "ip nat inside source static 10.0.0.5 203.0.113.5",
    "ip nat inside source static tcp 10.0.0.6 80 203.0.113.6 8080 extendable",
    "ip route 10.1.0.0 255.255.0.0 10.0.0.2",
    "ip route 10.2.0.0 255.255.0.0 GigabitEthernet0/1 10.0.1.2 200 name BACK",
    "!",
    "access-list 101 permit tcp any host 10.0.0.5 eq www",
    "access-list 101 remark the rest",
    "access-list 101 deny ip any any",
    "!",
    "ip access-list extended L",
    " 10 permit ip object-group HOSTS any",
    " 20 permit icmp any any echo",
    " 30 deny ip any any",
    "!",
    "ip access-list standard S",
    " permit 10.0.0.0 0.0.0.255",
    "!",
    "end",
]
INTERFACE = "interface GigabitEthernet0/0"
LIST_101 = ["ip access-list extended 101", " 10 permit tcp any host 10.0.0.5 eq www", " remark the rest", " 20 deny ip any any"]

# What a ticket takes away from the configuration, and what it adds, in order.
CASES = [
    (["int gi0/0", " shut"], [], [" shutdown"]),
    (["int gi0/1", " no shut"], [" shutdown"], []),
    (["INTERFACE GIGABITETHERNET 0/1", "NO SHUTDOWN"], [" shutdown"], []),
    (["int g0/0", " ip access-g 102 in"], [" ip access-group 101 in"], [" ip access-group 102 in"]),
    (["int gi0/0", " ip access-g 102 out"], [], [" ip access-group 102 out"]),
    (["int gi0/0", " no ip access-group 101 in"], [" ip access-group 101 in"], []),
    (["int gi0/0", " ip addr 10.0.9.1 255.255.255.0"], [" ip address 10.0.0.1 255.255.255.0"], [" ip address 10.0.9.1 255.255.255.0"]),
    (["int gi0/0", " ip addr 10.0.9.1 255.255.255.0 sec"], [], [" ip address 10.0.9.1 255.255.255.0 secondary"]),
    (["int gi0/0", " no ip address 10.0.5.1 255.255.255.0 secondary"], [" ip address 10.0.5.1 255.255.255.0 secondary"], []),
    (["int gi0/1", " no ip address 10.0.1.1 255.255.255.0"], [" ip address 10.0.1.1 255.255.255.0"], [" no ip address"]),
    (["int gi0/0", " no ip addr"], [" ip address 10.0.0.1 255.255.255.0", " ip address 10.0.5.1 255.255.255.0 secondary"], [" no ip address"]),
    (["int gi0/10", " ip address 10.0.9.1 255.255.255.0"], [" no ip address"], [" ip address 10.0.9.1 255.255.255.0"]),
    (["int gi0/0", " ip nat out"], [" ip nat inside"], [" ip nat outside"]),
    (["int gi0/0", " no ip nat inside"], [" ip nat inside"], []),
    (["interface lo5", " ip address 10.9.9.9 255.255.255.255"], [], ["interface Loopback5", " ip address 10.9.9.9 255.255.255.255"]),
    (["int gi0/1.20", " ip address 10.9.9.9 255.255.255.0"], [], ["interface GigabitEthernet0/1.20", " ip address 10.9.9.9 255.255.255.0"]),
    (["hostn R7"], ["hostname R1"], ["hostname R7"]),
    (["ip route 10.3.0.0 255.255.0.0 gi0/1 10.0.1.2"], [], ["ip route 10.3.0.0 255.255.0.0 GigabitEthernet0/1 10.0.1.2"]),
    (["ip route 10.3.0.0 255.255.0.0 null0 5 tag 7 na X"], [], ["ip route 10.3.0.0 255.255.0.0 Null0 5 tag 7 name X"]),
    (["ip route 10.1.0.0 255.255.0.0 10.0.0.2 150"], ["ip route 10.1.0.0 255.255.0.0 10.0.0.2"], ["ip route 10.1.0.0 255.255.0.0 10.0.0.2 150"]),
    (["ip route 10.1.0.0 255.255.0.0 10.0.0.3"], [], ["ip route 10.1.0.0 255.255.0.0 10.0.0.3"]),
    (["no ip route 10.1.0.0 255.255.0.0 10.0.0.2"], ["ip route 10.1.0.0 255.255.0.0 10.0.0.2"], []),
    (["no ip route 10.2.0.0 255.255.0.0 gi0/1 10.0.1.2"], ["ip route 10.2.0.0 255.255.0.0 GigabitEthernet0/1 10.0.1.2 200 name BACK"], []),
    (["int gi0/0", "ip route 10.3.0.0 255.255.0.0 10.0.0.2"], [], ["ip route 10.3.0.0 255.255.0.0 10.0.0.2"]),
    (["int gi0/0", "no ip route 10.1.0.0 255.255.0.0 10.0.0.2"], ["ip route 10.1.0.0 255.255.0.0 10.0.0.2"], []),
    (["ip nat ins sou sta 10.0.0.9 203.0.113.9"], [], ["ip nat inside source static 10.0.0.9 203.0.113.9"]),
    (["int gi0/0", "ip nat inside source static 10.0.0.9 203.0.113.9"], [], ["ip nat inside source static 10.0.0.9 203.0.113.9"]),
    (["no ip nat inside source static tcp 10.0.0.6 80 203.0.113.6 8080"],
     ["ip nat inside source static tcp 10.0.0.6 80 203.0.113.6 8080 extendable"], []),
    (["ip nat outside source static 198.51.100.1 10.8.0.1"], [], ["ip nat outside source static 198.51.100.1 10.8.0.1"]),
    (["access-l 101 perm udp any any eq ntp"], R1[26:29], LIST_101 + [" 30 permit udp any any eq ntp"]),
    (["no access-list 101"], R1[26:29], []),
    (["access-list 7 permit 10.0.0.0 0.0.0.255 log"], [], ["ip access-list standard 7", " 10 permit 10.0.0.0 0.0.0.255 log"]),
    (["ip access-l ext L", "no 20"], [" 20 permit icmp any any echo"], []),
    (["ip access-list extended L", " 15 permit tcp any any est", " exit"], [], [" 15 permit tcp any any established"]),
    (["ip access-list extended L", " permit esp any any"], [], [" 40 permit esp any any"]),
    (["ip access-list extended L", " no permit icmp any any 8"], [" 20 permit icmp any any echo"], []),
    (["ip access-list extended L", " no 20 permit icmp any any echo"], [" 20 permit icmp any any echo"], []),
    (["ip access-list extended L", " 25 deny tcp any any rang 1 5", "no 30", "deny ip any any log"],
     [" 30 deny ip any any"], [" 25 deny tcp any any range 1 5", " 35 deny ip any any log"]),
    (["ip access-list resequence L 100 50"], [" 10 permit ip object-group HOSTS any", " 20 permit icmp any any echo", " 30 deny ip any any"],
     [" 100 permit ip object-group HOSTS any", " 150 permit icmp any any echo", " 200 deny ip any any"]),
    (["no ip access-list standard S"], ["ip access-list standard S", " permit 10.0.0.0 0.0.0.255"], []),
    (["ip access-list standard S", " 5 deny host 10.0.0.7"], [" permit 10.0.0.0 0.0.0.255"], [" 5 deny host 10.0.0.7", " 10 permit 10.0.0.0 0.0.0.255"]),
    (["ip access-list standard S", "remark last", "5 deny host 10.0.0.7"],
     [" permit 10.0.0.0 0.0.0.255"], [" 5 deny host 10.0.0.7", " 10 permit 10.0.0.0 0.0.0.255", " remark last"]),
    (["ip access-list extended NEW", "remark a new one", "permit tcp any gt 1023 any eq 22 443"],
     [], ["ip access-list extended NEW", " remark a new one", " 10 permit tcp any gt 1023 any eq 22 443"]),
    (["object-group network HOSTS", " host 10.0.0.9", " no host 10.0.0.5", " 10.7.0.0 /16"], [" host 10.0.0.5"], [" host 10.0.0.9", " 10.7.0.0 255.255.0.0"]),
    (["object-group service P", " tcp eq 80", "exit"], [], ["object-group service P", " tcp eq 80"]),
    (["no object-group network ALONE"], ["object-group network ALONE", " host 10.0.0.7"], []),
    # what networks are made of besides
    (["int ra gi0/0 - 1", " ip access-g 102 out"], [], [" ip access-group 102 out", " ip access-group 102 out"]),
    (["interface range gi0/0, gi0/10", " shut", "hostname R7"], ["hostname R1"], ["hostname R7", " shutdown", " shutdown"]),
    (["interface range vlan 10 - 11", " no shut"], [], ["interface Vlan10", "interface Vlan11"]),
    (["defa int gi0/0"], [" ip address 10.0.0.1 255.255.255.0", " ip address 10.0.5.1 255.255.255.0 secondary", " ip access-group 101 in", " ip nat inside"],
     [" no ip address"]),
    (["int gi0/0", "default interface gi0/1"], [" ip address 10.0.1.1 255.255.255.0"], [" no ip address"]),
    (["int gi0/1.20", " enc dot 20", " ip address 10.9.9.9 255.255.255.0"],
     [], ["interface GigabitEthernet0/1.20", " encapsulation dot1Q 20", " ip address 10.9.9.9 255.255.255.0"]),
    (["int gi0/1.20", " encapsulation dot1q 20 native", " encapsulation dot1Q 30"], [], ["interface GigabitEthernet0/1.20", " encapsulation dot1Q 30"]),
    (["int lo5", "no int lo5"], [], []),
    (["int gi0/1.5", " ip address 10.9.9.9 255.255.255.0", "ip route 10.8.0.0 255.255.0.0 gi0/1.5", "no interface gi0/1.5"], [], []),
    (["int gi0/10", " sw mo acc", " sw acc vl 20", " switchport access vlan 30"], [], [" switchport mode access", " switchport access vlan 30"]),
    (["int gi0/10", " switchport trunk allowed vlan 1-5", " no switchport trunk allowed vlan", " no switchport"], [], [" no switchport"]),
    (["int gi0/10", " no switchport", " switchport"], [], [" switchport"]),
    (["vlan 20", " name USERS", "vlan 30,40", "int gi0/10", " shut"], [], [" shutdown"]),
    (["int gi0/0", "vlan 20", " name USERS", "exit", "no vlan 7"], [], []),
    (["int gi0/0", " standby 7 ip 10.0.0.9", " standby 7 pri 110", " standby 7 priority 120", " standby 7 preempt"],
     [], [" standby 7 ip 10.0.0.9", " standby 7 priority 120", " standby 7 preempt"]),
    (["int gi0/0", " standby 7 ip 10.0.0.9", " standby 7 ip 10.0.0.8", " standby 7 ip 10.0.0.7 secondary", " no standby 7 ip 10.0.0.7 secondary"],
     [], [" standby 7 ip 10.0.0.8"]),
    (["int gi0/0", " vrrp 7 ip 10.0.0.9", " no vrrp 7 ip"], [], []),
    (["int gi0/0", " vrrp 7 address-family ipv4", "  address 10.0.0.9 primary", "  priority 110", "  priority 120", " exit-vrrp", " no ip nat inside"],
     [" ip nat inside"], [" vrrp 7 address-family ipv4", "  address 10.0.0.9 primary", "  priority 120"]),
    (["no access-list 101 permit tcp any any"], R1[26:29], []),
    (["no ip access-list extended NEW", "ip access-list extended NEW", " permit ip any any"], [], ["ip access-list extended NEW", " 10 permit ip any any"]),
    (["no ip access-list standard S", "ip access-list standard S", " permit any"], [" permit 10.0.0.0 0.0.0.255"], [" 10 permit any"]),
    (["access-list 102 permit tcp any any eq msrpc", "access-list 102 permit icmp any any traceroute", "access-list 102 permit sctp any any",
      "access-list 102 permit tcp any any neq 80 443"],
     [], ["ip access-list extended 102", " 10 permit tcp any any eq 135", " 20 permit icmp any any 30", " 30 permit 132 any any",
          " 40 permit tcp any any neq 80 443"]),
    (["ip prefix-list X seq 5 permit 10.0.0.0/8"], [], ["ip prefix-list X seq 5 permit 10.0.0.0/8"]),
    (["ip prefix-list X permit 10.0.0.0/8", "no ip prefix-list X"], [], []),
    (["route-map X", " match ip address 101", "route-map X permit 20", " set metric 5"],
     [], ["route-map X permit 10", " match ip address 101", "route-map X permit 20", " set metric 5"]),
    # what changes nothing, or nothing that the rules know
    (["int gi0/0", " ip ospf cost 7", " bandwidth 1000", " ip mtu 1400", " speed 100", " dup full", " nego auto", " delay 10", "system mtu 1998"], [], []),
    (["int gi0/0", " ipv6 address 2001:db8::1/64", "ipv6 unicast-routing", "ipv6 access-list X", " permit ipv6 any any", " sequence 20 deny ipv6 any any",
      "ipv6 route ::/0 2001:db8::2", "no ipv6 route ::/0 2001:db8::2"], [], []),
    (["ip access-list logging interval 10", "ip access-list log-update threshold 5", "access-list compiled", "no access-list compiled"], [], []),
    (["int gi0/0", " no shut"], [], []),
    (["int gi0/1", " shut"], [], []),
    (["access-list 101 permit tcp any 10.0.0.5 0.0.0.0 eq 80"], [], []),
    (["ip nat inside source static 10.0.0.5 203.0.113.5"], [], []),
    (["object-group network HOSTS", " host 10.0.0.5"], [], []),
    (["en", "conf t", "int gi0/0", " desc new", " exit", "logging host 10.0.0.9", "do sh ip int brief", "end", "wr", "copy run start", "exit"], [], []),
    (["banner motd #", "int gi0/0", " shutdown", "#", "! shutdown", "", "line vty 0 4", " transport input ssh", " no exec", "ntp server 10.0.0.9"], [], []),
    (["line con 0", " logging synchronous", "int gi0/0", "shut"], [], [" shutdown"]),
]

REFUSED = [
    (["int gi0/0", " ip policy route-map X"], 2, "NotCovered policy"),
    (["int gi0/0", " ip address dhcp"], 2, "NotCovered dhcp"),
    (["router ospf 1"], 1, "NotCovered router"),
    (["int gi0/0", "router ospf 1"], 2, "NotCovered router"),
    (["no ip routing"], 1, "NotCovered routing"),
    (["no ip access-list extended NEW"], 1, "NotThere NEW"),
    (["no ip access-list extended S"], 1, "NotThere S"),
    (["int gi0/0", " switchport private-vlan mapping 7"], 2, "NotCovered private-vlan"),
    (["int gi0/0", " encapsulation ppp"], 2, "NotCovered ppp"),
    (["int gi0/0", " no standby 7 ip"], 2, "NotThere standby 7 ip"),
    (["interface range gi0/0 - 99999"], 1, "BadWord 99999"),
    (["interface range gi0/0 - 1 , gi0/7"], 1, "UnknownInterface GigabitEthernet0/7"),
    (["default interface gi0/7.5"], 1, "UnknownInterface GigabitEthernet0/7.5"),
    (["default interface lo7"], 1, "NotThere Loopback7"),
    (["no interface lo7"], 1, "NotThere Loopback7"),
    (["int vlan 20", "no vlan 20"], 2, "NotCovered vlan"),
    (["vlan 20", " shutdown"], 2, "NotCovered shutdown"),
    (["vlan access-map X"], 1, "NotCovered access-map"),
    (["no ip prefix-list X"], 1, "NotThere X"),
    (["access-list 101 permit sctp any any eq 80"], 1, "UnknownCommand eq"),
    (["ip nat pool X 10.0.0.1 10.0.0.2 netmask 255.255.255.0"], 1, "NotCovered pool"),
    (["ip nat inside source list 1 interface gi0/1 overload"], 1, "NotCovered list"),
    (["ip nat inside source static tcp 10.0.0.9 80 interface gi0/1 80"], 1, "NotCovered interface"),
    (["ip nat inside source static 10.0.0.9 203.0.113.9 no-alias"], 1, "NotCovered no-alias"),
    (["ip route vrf A 10.0.0.0 255.0.0.0 10.0.0.1"], 1, "NotCovered vrf"),
    (["ip route 10.9.0.0 255.255.0.0 10.0.0.2 track 1"], 1, "NotCovered track"),
    (["ip route 10.9.0.0 255.255.0.0 dhcp"], 1, "NotCovered dhcp"),
    (["no interface gi0/0"], 1, "NotCovered interface"),
    (["access-list 101 permit ip any any fragments"], 1, "NotCovered fragments"),
    (["ip access-list extended L", " evaluate X"], 2, "NotCovered evaluate"),
    (["reload"], 1, "UnknownCommand reload"),
    (["end", "reload"], 2, "NotCovered reload"),
    (["int gi0/0", " ip acc 102 in"], 2, "Ambiguous acc (one of: access-group, accounting)"),
    (["ip rou 10.9.0.0 255.255.0.0 10.0.0.2"], 1, "Ambiguous rou (one of: route, route-cache, router, routing)"),
    (["int gi0/0", " s"], 2, None),
    (["access-list 101 permit icmp any any ec"], 1, "Ambiguous ec (one of: echo, echo-reply)"),
    (["int gi0/0", " shutdwon"], 2, "UnknownCommand shutdwon"),
    (["shut"], 1, "NotCovered shutdown"),
    (["R1(config)#int gi0/0"], 1, "UnknownCommand R1(config)#int"),
    (["int gi0/7"], 1, "UnknownInterface GigabitEthernet0/7"),
    (["int gi0/7.5"], 1, "UnknownInterface GigabitEthernet0/7.5"),
    (["int gi"], 1, "BadWord gi"),
    (["ip route 10.9.0.0 255.255.0.0 gi0/7 10.0.0.2"], 1, "UnknownInterface GigabitEthernet0/7"),
    (["ip route 10.9.0.0 255.255.0.0 lo7"], 1, "UnknownInterface Loopback7"),
    (["int gi0/0", " ip access-group 101"], 2, "MissingWord"),
    (["int gi0/0", " ip access-group 101 in x"], 2, "ExtraWord x"),
    (["int gi0/0", " ip address 10.0.0.1"], 2, "MissingWord"),
    (["int gi0/0", " ip address 10.0.0.1 0.0.0.255"], 2, "BadMask 0.0.0.255"),
    (["int gi0/0", " no ip access-group 102 in"], 2, "NotThere 102"),
    (["int gi0/0", " no ip access-group 101 out"], 2, "NotThere 101"),
    (["int gi0/0", " no ip nat outside"], 2, "NotThere outside"),
    (["int gi0/10", " no ip address"], 2, "NotThere address"),
    (["int gi0/0", " no ip address 10.0.0.1 255.255.255.0"], 2, "SecondaryLeft 10.0.5.1"),
    (["int gi0/0", " no ip address 10.0.0.9 255.255.255.0"], 2, "NotThere 10.0.0.9"),
    (["int gi0/10", " ip address 10.0.9.1 255.255.255.0 secondary"], 2, "NoPrimary 10.0.9.1"),
    (["int gi0/0", " ip address 10.0.5.1 255.255.255.0 secondary"], 2, "AddressTaken 10.0.5.1"),
    (["no ip route 10.1.0.0 255.255.0.0 10.0.0.9"], 1, "NotThere 10.1.0.0"),
    (["no ip route 10.2.0.0 255.255.0.0 gi0/1 10.0.1.2 7"], 1, "NotThere 10.2.0.0"),
    (["no ip route 10.1.0.0 255.255.0.0"], 1, "MissingWord"),
    (["ip route 10.1.0.1 255.255.0.0 10.0.0.2"], 1, "HostBits 10.1.0.1"),
    (["no access-list 102"], 1, "NotThere 102"),
    (["access-list 700 permit any"], 1, "BadListNumber 700"),
    (["ip access-list extended L", " no 15"], 2, "NotThere 15"),
    (["ip access-list extended L", " no permit tcp any any"], 2, "NotThere permit tcp any any"),
    (["ip access-list extended L", " 20 permit tcp any any"], 2, "SequenceTaken 20"),
    (["ip access-list extended L", " 25 permit icmp any any echo"], 2, "EntryTwice 20"),
    (["ip access-list standard L"], 1, "ListKindClash L"),
    (["ip access-list extended 7"], 1, "BadListNumber 7"),
    (["ip access-list resequence NONE 10 10"], 1, "NotThere NONE"),
    (["ip access-list resequence L 10"], 1, "MissingWord"),
    (["ip nat inside source static 10.0.0.5 203.0.113.9"], 1, "NatClash 10.0.0.5"),
    (["ip nat inside source static 10.0.0.9 203.0.113.5"], 1, "NatClash 203.0.113.5"),
    (["no ip nat inside source static 10.0.0.9 203.0.113.5"], 1, "NotThere 10.0.0.9 203.0.113.5"),
    (["no object-group network HOSTS"], 1, "GroupInUse HOSTS"),
    (["no object-group network NONE"], 1, "NotThere NONE"),
    (["object-group service HOSTS"], 1, "GroupKind HOSTS"),
    (["object-group network HOSTS", " no host 10.0.0.99"], 2, "NotThere host 10.0.0.99"),
    (["object-group network HOSTS", " host"], 2, "MissingWord"),
    (["int gi0/0", " shut", "banner motd #", "never closed"], 0, "BannerOpen"),
    ([" --More-- "], 1, "Paged --More--"),
]


class Tickets(helpers.Folders):
    """One ticket on one configuration."""

    def applied(self, ticket):
        """Status, error output, and what the configuration lost and gained, in order."""
        self.write("old/R1.cfg", R1)
        self.write("tickets/R1.txt", ticket)
        from preparing.command_line import PrepareWords
        from preparing.tickets import apply_one
        words = PrepareWords(self.path("old"), self.path("new"), tickets=self.path("tickets"))
        _, content, _ = apply_one(words, "R1.cfg")
        return content.decode().split("\n")[:-1]

    def test_cases(self):
        for ticket, gone, come in CASES:
            with self.subTest(ticket=ticket):
                new = self.applied(ticket)
                changes = [line for line in difflib.ndiff(R1, new) if line[0] in "+-"]
                self.assertEqual([line[2:] for line in changes if line[0] == "-"], gone)
                self.assertEqual([line[2:] for line in changes if line[0] == "+"], come)
                self.assertEqual(new[-1], "end")

    def test_refused(self):
        from preparing.faults import Refused
        for ticket, number, wanted in REFUSED:
            with self.subTest(ticket=ticket):
                with self.assertRaises(Refused) as caught:
                    self.applied(ticket)
                found = caught.exception.line()
                if wanted is None:
                    self.assertIn("line 2 Ambiguous s (one of: ", found)
                else:
                    self.assertEqual(found, "refused %s line %d %s" % (self.path("tickets/R1.txt"), number, wanted))

    def test_order_is_kept(self):
        new = self.applied(["ip access-list extended L", "no 10", "permit udp any any", "permit tcp any any", "int gi0/0", "ip access-group L in",
                            "ip access-group 101 in", "ip access-group L in"])
        self.assertEqual(new[new.index("ip access-list extended L") + 1:-5],
                         [" 20 permit icmp any any echo", " 30 deny ip any any", " 40 permit udp any any", " 50 permit tcp any any"])
        self.assertEqual([line for line in new if "access-group" in line], [" ip access-group L in"])

    def test_abbreviated_interfaces_of_the_text(self):
        self.write("old/R1.cfg", ["hostname R1", "interface Ethernet0/0", " ip address 10.0.0.1 255.255.255.0", "interface Embedded-Service-Engine0/0"])
        self.write("tickets/R1.txt", ["int e0/0", " shut"])
        self.assert_refused(3, ["refused tickets/R1.txt line 1 Ambiguous e0/0 (one of: Ethernet0/0, Embedded-Service-Engine0/0)"],
                            "--apply", "tickets", "old", "new", out="new")


class Folder(helpers.Folders):
    """Tickets of a folder."""

    def setUp(self):
        super().setUp()
        self.write("old/R1.cfg", ["hostname R1", "interface Ethernet0", " ip address 10.0.0.1 255.255.255.0"])
        self.write("old/R2.cfg", b"hostname R2\r\n! no ticket for it\r\n")
        self.write("tickets/R1.txt", b"int e0\r\n shut\r\n")

    def test_all(self):
        status, told = self.run_program("prepare", "--apply", "tickets", "old", "new")
        self.assertEqual(status, 0)
        self.assertEqual(told, "old/R1.cfg with tickets/R1.txt\n  1  opens  int e0: Ethernet0\n  2  shuts  shut: Ethernet0\nold/R2.cfg: no ticket\n")
        self.assertEqual(self.read("new/R1.cfg").split("\n")[-2], " shutdown")
        self.assertEqual(self.read("new/R2.cfg"), self.read("old/R2.cfg"))

    def test_no_secret_is_told(self):
        self.write("tickets/R1.txt", ["snmp-server community geheim RO", "no username anna", "username anna privilege 15 secret geheim",
                                      "line vty 0 4", " password geheim", "enable secret geheim", "int e0", " desc x"])
        status, told = self.run_program("prepare", "--apply", "tickets", "old", "new")
        self.assertEqual((status, "geheim" in told), (0, False))
        self.assertIn("  1  no effect  snmp-server ..: the rules say nothing of it\n  2  no effect  no username ..: ", told)

    def test_first_faults_of_all_tickets(self):
        self.write("tickets/R1.txt", ["shutdwon", "x"])
        self.write("tickets/R2.txt", ["int gi0"])
        self.assert_refused(3, ["refused tickets/R1.txt line 1 UnknownCommand shutdwon", "refused tickets/R2.txt line 1 UnknownInterface GigabitEthernet0"],
                            "--apply", "tickets", "old", "new", out="new")

    def test_tickets_of_no_device(self):
        self.write("tickets/R3.txt", ["int e0"])
        self.write("tickets/R1.cfg", ["int e0"])
        self.assert_refused(8, ["not found old/R3.cfg", "refused tickets/R1.cfg line 0 NotATicket"], "--apply", "tickets", "old", "new", out="new")

    def test_no_tickets(self):
        os.remove(self.path("tickets/R1.txt"))
        self.assert_refused(8, ["not found tickets/*.txt"], "--apply", "tickets", "old", "new", out="new")

    def test_list_that_is_not_there(self):
        self.write("tickets/R1.txt", ["int e0", " ip access-group 102 out"])
        status, told = self.run_program("prepare", "--apply", "tickets", "old", "new")
        self.assertEqual(status, 0)
        self.assertIn("list 102 at Ethernet0: it has no entry, so it passes everything", told)

    @helpers.needs_review
    def test_check(self):
        self.write("tickets/R1.txt", [
            "int e0", " no ip addr", "int lo1", " ip address 10.0.0.1 255.255.255.0", "int lo2", " ip address 10.0.0.2 255.255.255.0"])
        self.assert_refused(3, ["refused new/R1.cfg line 7 OverlapOnDevice 10.0.0.2"], "--apply", "tickets", "old", "new", "--check", out="new")


if __name__ == "__main__":
    unittest.main()
