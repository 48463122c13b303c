#!/usr/bin/env python3
"""Tells `doctor` small networks, each with the warnings that it must say of them, or that it must not, and with what stands behind these.
DIQENYU_DOCTOR names another program than the one that `./doctor` builds.

The last line is 'N passed, M failed'.
"""
import json
import os
import re
import subprocess
import sys
import tempfile

TOP = os.path.dirname(os.path.dirname(os.path.abspath(__file__)))

try:
    import jsonschema
    with open(os.path.join(TOP, "docs", "doctor-schema.json"), encoding="utf-8") as stream:
        VALIDATOR = jsonschema.Draft7Validator(json.load(stream))
except ImportError:
    VALIDATOR = None

R1 = """hostname R1
interface Ethernet0
 ip address 10.0.0.1 255.255.255.0
interface Ethernet1
 ip address 10.0.1.1 255.255.255.252
"""
R2 = """hostname R2
interface Ethernet0
 ip address 10.0.1.2 255.255.255.252
interface Ethernet1
 ip address 10.0.2.1 255.255.255.0
"""
R3 = "hostname R3\n"
AGAIN = R1 + "ip cef\n"
LINKS = "ingress R1 Ethernet0\np2p R1 Ethernet1 R2 Ethernet0\n"
ONE = "ingress R1 Ethernet0\n"


def net(r1=R1, r2=R2, links=LINKS):
    """One network of two routers."""
    return {"net/R1.cfg": r1, "net/R2.cfg": r2, "links": links}


def two(new_r1=R1, new_r2=R2, links=LINKS, old_r1=R1, old_r2=R2):
    """Two networks of two routers."""
    return {"old/R1.cfg": old_r1, "old/R2.cfg": old_r2, "new/R1.cfg": new_r1, "new/R2.cfg": new_r2, "links": links}


def alone(text, links=ONE):
    """One router, of this configuration behind its host name and two interfaces."""
    return {"net/R1.cfg": R1 + text, "links": links}


def at(section, line):
    """The first router, with a line more behind the address of an interface: Ethernet0 (0) or Ethernet1 (1)."""
    lines = R1.splitlines(True)
    lines.insert(3 + 2 * section, line + "\n")
    return {"net/R1.cfg": "".join(lines), "net/R2.cfg": R2, "links": LINKS}


# One router with a side of translation on each interface, and a default outside.
TRANSLATING = {"net/R1.cfg": R1.replace("255.255.255.0\n", "255.255.255.0\n ip nat inside\n").replace(
    "255.255.255.252\n", "255.255.255.252\n ip nat outside\n") + "ip route 0.0.0.0 0.0.0.0 10.0.1.2\n", "links": ONE}

# The paths that the doctor is told where a case says nothing else.
NET = ["net", "links"]
BOTH = ["old", "new", "links"]

# Each case: its name, its files, the words, and what the warnings must say, each as a pattern from the line's beginning on; nothing
# where nothing is to be said.
CLEAN = [
    ("two routers", net(), NET),
    ("two equal networks", two(), BOTH),
    ("a new interface that is linked", two(new_r1=R1 + "interface Ethernet2\n ip address 10.0.3.1 255.255.255.0\n",
                                           links=LINKS + "ingress R1 Ethernet2\n"), BOTH),
    ("a description of a command", at(0, " description shut the door"), NET),
    ("a service that is off", alone("no ip http server\nip cef\nno ip domain lookup\n"), NET),
    ("Null0 as an interface", alone("interface Null0\n no ip unreachables\n"), NET),
    ("a banner with commands in it", alone("banner motd #\nint Ethernet0\n shut\n#\n"), NET),
    ("hosts and any in a list", at(0, " ip access-group 1 in") | {"net/R2.cfg": R2} | {
        "net/R1.cfg": R1.replace("255.255.255.0\n", "255.255.255.0\n ip access-group 1 in\n", 1)
        + "access-list 1 permit 10.0.0.0 0.0.0.255\naccess-list 1 permit host 10.1.1.1\naccess-list 1 permit any\n"}, NET),
    ("loopbacks of one address each", net(R1 + "interface Loopback0\n ip address 10.9.9.1 255.255.255.255\n",
                                          R2 + "interface Loopback0\n ip address 10.9.9.2 255.255.255.255\n"), NET),
    ("a route to the neighbour", alone("ip route 10.7.0.0 255.255.0.0 10.0.1.2\n"), NET),
    ("a route by an interface alone to one neighbour", alone("ip route 10.7.0.0 255.255.0.0 Ethernet1\n"), NET),
    ("a route by a shut interface alone", alone(
        "interface Ethernet2\n ip address 10.6.0.1 255.255.255.0\n shutdown\nip route 10.7.0.0 255.255.0.0 Ethernet2\n"), NET),
    ("the last address of a subnet of two", alone(
        "interface Serial0\n ip address 10.6.0.0 255.255.255.254\nip route 10.7.0.0 255.255.0.0 10.6.0.1\n"), NET),
    ("an interface that is shut beside others", alone(
        "interface Ethernet2\n shutdown\ninterface Ethernet20\n ip address 10.6.0.1 255.255.255.0\n"
        "interface Ethernet2.10\n ip address 10.5.0.1 255.255.255.0\n shutdown\n"), NET),
    ("a default that floats", alone("ip route 0.0.0.0 0.0.0.0 Ethernet1 10.0.1.2\nip route 0.0.0.0 0.0.0.0 10.0.0.9 200\n"), NET),
    ("translation with both sides", {"net/R1.cfg": R1.replace("255.255.255.0\n", "255.255.255.0\n ip nat inside\n").replace(
        "255.255.255.252\n", "255.255.255.252\n ip nat outside\n") + "ip nat inside source static 10.0.0.5 192.0.2.5\n", "links": ONE}, NET),
    ("a hidden file", net() | {"net/.DS_Store": "\0", "net/.R1.cfg.swp": R1}, NET),
    ("lines in another order", two(new_r1=R1 + "ntp server 10.9.9.9\nip cef\n", old_r1=R1 + "ip cef\nntp server 10.9.9.9\n"), BOTH),
    ("a line twice in both folders", two(new_r1=AGAIN + "ip cef\n", old_r1=AGAIN + "ip cef\n"), BOTH),
    ("translation of a host behind a router inside", {"net/R1.cfg": R1.replace("255.255.255.0\n", "255.255.255.0\n ip nat inside\n").replace(
        "255.255.255.252\n", "255.255.255.252\n ip nat outside\n")
        + "ip route 10.4.0.0 255.255.0.0 10.0.0.9\nip nat inside source static 10.4.0.5 192.0.2.5\n", "links": ONE}, NET),
    ("a route that follows another one", alone("ip route 10.7.0.0 255.255.0.0 10.0.1.2\nip route 10.8.0.0 255.255.0.0 10.7.1.1\n"), NET),
]
TOLD = [
    # ---- lines that are passed over
    ("shutdown, abbreviated", at(0, " shut"), NET, [r"net/R1\.cfg:4: .*shutdown.*shut$"]),
    ("access-group, abbreviated", at(1, " ip access-g 102 out"), NET, [r"net/R1\.cfg:6: .*ip access-group.*ip access-g 102 out$"]),
    ("interface, abbreviated", alone("int GigabitEthernet0/1\n"), NET, [r"net/R1\.cfg:6: .*interface.*int GigabitEthernet0/1$"]),
    ("a pager's mark", alone("--More-- interface Ethernet2\n"), NET, [r"net/R1\.cfg:6: .*--More-- interface Ethernet2$"]),
    ("a prompt", alone("R1#show running-config\n"), NET, [r"net/R1\.cfg:6: .*R1#show running-config$"]),
    ("a prompt of configuration", alone("R1(config)#ip route 10.0.9.0 255.255.255.0 Null0\n"), NET, [r"net/R1\.cfg:6: .*ip route"]),
    ("a command in capitals", at(0, " SHUTDOWN"), NET, [r"net/R1\.cfg:4: .*shutdown.*SHUTDOWN$"]),
    ("no access-group", at(0, " no ip access-group 101 in"), NET, [r"net/R1\.cfg:4: .*no ip access-group 101 in$"]),
    ("no side of translation", at(0, " no ip nat inside"), NET, [r"net/R1\.cfg:4: .*no ip nat inside$"]),
    ("a default address", at(0, " default ip address"), NET, [r"net/R1\.cfg:4: .*default ip address$"]),
    ("ip route, abbreviated", alone("ip rou 10.7.0.0 255.255.0.0 10.0.1.2\n"), NET, [r"net/R1\.cfg:6: .*ip route.*ip rou 10\.7"]),
    ("access-list, abbreviated", alone("access-l 101 permit ip any any\n"), NET, [r"net/R1\.cfg:6: .*access-list.*access-l 101"]),
    ("a line of the new folder alone", two(new_r1=R1 + "ip helper 10.9.9.9\n"), BOTH, [r"new/R1\.cfg:6: .*ip helper 10\.9\.9\.9$"]),
    ("a line of the old folder alone", two(old_r2=R2 + "ip helper 10.9.9.9\n"), BOTH, [r"old/R2\.cfg:6: .*ip helper 10\.9\.9\.9$"]),
    ("a line of the new folder alone beside ones that no packet depends on", two(
        new_r1=R1 + "logging host 10.9.9.9\nline con 0\n exec-timeout 5 0\nip helper 10.9.9.9\n"), BOTH,
     [r"new/R1\.cfg:9: passed over, only in this folder: ip helper 10\.9\.9\.9$"]),
    ("a description below a router", two(new_r1=R1 + "ip dhcp pool A\n description B\n"), BOTH,
     [r"new/R1\.cfg:6: .*ip dhcp pool A$", r"new/R1\.cfg:7: .*description B$"]),
    ("the last of several lines", alone("ip cef\nno ip http server\nip rou 10.7.0.0 255.255.0.0 Null0\n"), NET, [r"net/R1\.cfg:8: .*ip rou"]),
    ("a second copy of a line in the new folder", two(new_r1=AGAIN + "ip cef\n", old_r1=AGAIN), BOTH,
     [r"new/R1\.cfg:7: passed over, only in this folder: ip cef$"]),
    ("a second copy of a line in the old folder", two(new_r1=AGAIN, old_r1=AGAIN + "ip cef\n"), BOTH,
     [r"old/R1\.cfg:7: passed over, only in this folder: ip cef$"]),
    ("two more copies of a line, and one in another section", two(
        new_r1=AGAIN + "ip cef\ninterface Ethernet0\n ip cef\nip cef\n", old_r1=AGAIN), BOTH,
     [r"new/R1\.cfg:7: passed over, only in this folder: ip cef$", r"new/R1\.cfg:9: passed over, only in this folder: ip cef$",
      r"new/R1\.cfg:10: passed over, only in this folder: ip cef$"]),
    # ---- files
    ("an empty folder", {"net/": "", "links": ONE}, NET, [r"net: no file whose name ends in \.cfg$"]),
    ("a folder of other names", {"net/R1.txt": R1, "links": ONE}, NET,
     [r"net: no file whose name ends in \.cfg$", r"net/R1\.txt: not read, since its name doesn't end in \.cfg$"]),
    ("a file of another name", net() | {"net/R3.conf": R1, "net/README": "R3\n"}, NET,
     [r"net/R3\.conf: not read, since its name doesn't end in \.cfg$", r"net/README: not read, since its name doesn't end in \.cfg$"]),
    ("a file of another name in the new folder", two() | {"new/R2.cfg.orig": R2}, BOTH,
     [r"new/R2\.cfg\.orig: not read, since its name doesn't end in \.cfg$"]),
    ("a device of the old folder alone", two() | {"old/R3.cfg": R3}, BOTH, [r"old/R3\.cfg: the other folder has no file of this name$"]),
    ("a device of the new folder alone", two() | {"new/R3.cfg": R3}, BOTH, [r"new/R3\.cfg: the other folder has no file of this name$"]),
    ("a file that was renamed", two() | {"old/R3.cfg": R3, "new/R3-new.cfg": R3}, BOTH,
     [r"old/R3\.cfg: the other folder has no file of this name$", r"new/R3-new\.cfg: the other folder has no file of this name$"]),
    ("two files of one hostname", net() | {"net/R1-copy.cfg": "hostname R1\n"}, NET, [r"net/R1\.cfg: refused hostname taken by net/R1-copy\.cfg$"]),
    ("three files of one hostname in the new folder", two() | {"new/R9.cfg": "hostname R1\n", "old/R9.cfg": R3, "old/R8.cfg": "hostname R8\n",
                                                               "new/R8.cfg": "hostname R1\n"}, BOTH,
     [r"new/R8\.cfg: refused hostname taken by new/R1\.cfg$", r"new/R9\.cfg: refused hostname taken by new/R1\.cfg$"]),
    # ---- refusals
    ("a command that isn't covered", alone("router ospf 1\n"), NET, [r"net/R1\.cfg:6: refused NotCovered router: router ospf 1$"]),
    ("an address that is none", at(0, " ip address 10.0.0.256 255.255.255.0 secondary"), NET, [r"net/R1\.cfg:4: refused BadWord 10\.0\.0\.256"]),
    ("a route that ends early", alone("ip route 10.7.0.0 255.255.0.0\n"), NET, [r"net/R1\.cfg:6: refused MissingWord"]),
    ("a word too many", alone("hostname R1 R2\n"), NET, [r"net/R1\.cfg:6: refused ExtraWord R2"]),
    ("a mask with holes", alone("ip route 10.7.0.0 255.0.255.0 10.0.1.2\n"), NET, [r"net/R1\.cfg:6: refused BadMask 255\.0\.255\.0"]),
    ("a prefix with host bits", alone("ip route 10.7.0.1 255.255.0.0 10.0.1.2\n"), NET, [r"net/R1\.cfg:6: refused HostBits 10\.7\.0\.1"]),
    ("a number of no list", alone("access-list 700 permit any\n"), NET, [r"net/R1\.cfg:6: refused BadListNumber 700"]),
    ("a list of both kinds", alone("ip access-list standard A\nip access-list extended A\n"), NET, [r"net/R1\.cfg:7: refused ListKindClash A"]),
    ("a sequence that is taken", alone("ip access-list extended A\n 10 permit ip any any\n 10 deny ip any any\n"), NET,
     [r"net/R1\.cfg:8: refused SequenceTaken 10"]),
    ("two translations of an address", alone("ip nat inside source static 10.0.0.5 192.0.2.5\nip nat inside source static 10.0.0.5 192.0.2.6\n"),
     NET, [r"net/R1\.cfg:7: refused NatClash 10\.0\.0\.5"]),
    ("no host name", {"net/R1.cfg": "!\n", "links": ONE}, NET, [r"net/R1\.cfg: refused NoHostname"]),
    ("overlapping interfaces", at(1, " ip address 10.0.0.129 255.255.255.128 secondary"), NET, [r"net/R1\.cfg:6: refused OverlapOnDevice"]),
    ("a route to no interface", alone("ip route 10.7.0.0 255.255.0.0 Ethernet9\n"), NET, [r"net/R1\.cfg:6: refused UnknownInterface Ethernet9"]),
    ("an open banner", alone("banner motd #hello\n"), NET, [r"net/R1\.cfg:6: refused BannerOpen"]),
    ("refusals of both folders", two(new_r1=R1 + "router ospf 1\n", old_r2=R2 + "vlan 10\nip vrf A\n"), BOTH,
     [r"old/R2\.cfg:7: refused NotCovered", r"new/R1\.cfg:6: refused NotCovered router"]),
    ("a link that is none", net(links=LINKS + "touch R1 Ethernet0\n"), NET, [r"links:3: refused BadWord touch"]),
    ("a link that ends early", net(links=LINKS + "p2p R1\n"), NET, [r"links:3: refused MissingWord"]),
    ("an end that is taken", net(links=LINKS + "p2p R1 Ethernet1 R2 Ethernet1\n"), NET, [r"links:3: refused EndTaken Ethernet1"]),
    ("no ingress", net(links="p2p R1 Ethernet1 R2 Ethernet0\n"), NET, [r"links: refused NoIngress"]),
    ("a device that isn't there", net(links=LINKS + "ingress R9 Ethernet0\n"), NET, [r"links:3: refused UnknownDevice R9"]),
    ("an address twice", net(r2=R2.replace("10.0.1.2", "10.0.1.1")), NET, [r"links:2: refused AddressTwice 10\.0\.1\.1"]),
    # ---- places
    ("an interface written short", {"net/R1.cfg": R1.replace("Ethernet0", "GigabitEthernet0/0"), "links": "ingress R1 Gi0/0\n"}, NET,
     [r"links:1: .*R1 Gi0/0.*GigabitEthernet0/0"]),
    ("an interface in other case", alone("", "ingress R1 ethernet0\n"), NET, [r"links:1: .*R1 ethernet0.*Ethernet0"]),
    ("an interface that nobody has", alone("", "ingress R1 Serial7\n"), NET, [r"links:1: .*R1 Serial7"]),
    ("an interface of the old network alone", two(old_r1=R1 + "interface Ethernet2\n", links=LINKS + "ingress R1 Ethernet2\n"), BOTH,
     [r"links:3: .*R1 Ethernet2"]),
    ("an end that is shut", at(1, " shutdown"), NET, [r"links:2: .*R1 Ethernet1"]),
    ("an end that the change shuts", two(new_r1=R1 + " shutdown\n"), BOTH, [r"links:2: .*R1 Ethernet1"]),
    ("an end without an address", alone("interface Ethernet2\n", ONE + "ingress R1 Ethernet2\n"), NET, [r"links:2: .*R1 Ethernet2"]),
    ("two ends without a common subnet", net(r2=R2.replace("10.0.1.2", "10.0.1.6")), NET, [r"links:2: .*R2 Ethernet0"]),
    ("a lan of two subnets", net(r2=R2.replace("10.0.1.2", "10.0.5.2"), links=LINKS.replace("p2p", "lan")), NET, [r"links:2: .*R2 Ethernet0"]),
    ("masks that differ", net(r2=R2.replace("255.255.255.252", "255.255.255.248")), NET, [r"links:2: .*R2 Ethernet0"]),
    ("a link that was forgotten", net(links=ONE), NET, [r".*R2 Ethernet0.*R1 Ethernet1"]),
    ("a next hop on a lan that no end has", net(R1 + "interface Ethernet2\n ip address 10.0.3.1 255.255.255.0\nip route 10.7.0.0 255.255.0.0 10.0.3.9\n",
                                                R2 + "interface Ethernet2\n ip address 10.0.3.2 255.255.255.0\n",
                                                LINKS + "lan R1 Ethernet2 R2 Ethernet2\n"), NET, [r"links:3: .*R1 Ethernet2.*10\.0\.3\.9"]),
    # ---- lists and routes
    ("a list that isn't there", at(0, " ip access-group 101 in"), NET, [r"net/R1\.cfg: .*101"]),
    ("a list without an entry", at(0, " ip access-group A in") | {"net/R1.cfg": R1.replace(
        "255.255.255.0\n", "255.255.255.0\n ip access-group A in\n", 1) + "ip access-list extended A\n"}, NET, [r"net/R1\.cfg: .*A"]),
    ("a list that nothing names", alone("access-list 101 permit ip any any\n"), NET, [r"net/R1\.cfg: .*101"]),
    ("a mask as a wildcard", alone("access-list 101 permit ip 10.0.0.0 255.255.255.0 any\n"), NET, [r"net/R1\.cfg: .*101.*255\.255\.255\.0"]),
    ("a next hop that nobody holds", alone("ip route 10.7.0.0 255.255.0.0 10.9.9.9\n"), NET, [r"net/R1\.cfg: .*10\.7\.0\.0.*10\.9\.9\.9"]),
    ("a next hop in the default", alone("ip route 0.0.0.0 0.0.0.0 10.0.1.2\nip route 10.7.0.0 255.255.0.0 10.9.9.9\n"), NET,
     [r"net/R1\.cfg: .*10\.7\.0\.0.*10\.9\.9\.9"]),
    ("a next hop in its own prefix", alone("ip route 10.7.0.0 255.255.0.0 10.7.9.9\nip route 10.7.0.0 255.255.0.0 10.0.1.2\n"), NET,
     [r"net/R1\.cfg: .*10\.7\.0\.0.*10\.7\.9\.9"]),
    ("the own address as next hop", alone("ip route 10.7.0.0 255.255.0.0 10.0.1.1\n"), NET, [r"net/R1\.cfg: .*10\.7\.0\.0.*10\.0\.1\.1"]),
    ("a next hop behind another interface", alone("ip route 10.7.0.0 255.255.0.0 Ethernet0 10.0.1.2\n"), NET,
     [r"net/R1\.cfg: .*10\.7\.0\.0.*Ethernet0.*10\.0\.1\.2|net/R1\.cfg: .*10\.7\.0\.0.*10\.0\.1\.2.*Ethernet0"]),
    ("two defaults of which none floats", alone("ip route 0.0.0.0 0.0.0.0 10.0.1.2\nip route 0.0.0.0 0.0.0.0 10.0.0.9 200\n"), NET,
     [r"net/R1\.cfg: .*0\.0\.0\.0.*10\.0\.1\.2"]),
    # ---- what a router does otherwise
    ("a next hop that is the broadcast address of its subnet", alone("ip route 10.7.0.0 255.255.0.0 10.0.0.255\n"), NET,
     [r"net/R1\.cfg: route 10\.7\.0\.0/16 by 10\.0\.0\.255: the next hop is a broadcast or multicast address, which no neighbour has$"]),
    ("a next hop that is multicast, behind an interface", alone("ip route 10.7.0.0 255.255.0.0 Ethernet0 224.0.0.5\n"), NET,
     [r"net/R1\.cfg: route 10\.7\.0\.0/16 by 224\.0\.0\.5: the next hop is a broadcast or multicast address, which no neighbour has$"]),
    ("a route by an interface alone over a lan", alone("ip route 10.7.0.0 255.255.0.0 Ethernet0\n"), NET,
     [r"net/R1\.cfg: route 10\.7\.0\.0/16 by interface Ethernet0 alone: any neighbour that answers for the destination takes the packet; "
      r"write the next hop beside it$"]),
    ("a route by an interface alone whose secondary subnet is a lan", alone(
        "interface Ethernet1\n ip address 10.6.0.1 255.255.255.0 secondary\nip route 10.7.0.0 255.255.0.0 Ethernet1\n"), NET,
     [r"net/R1\.cfg: route 10\.7\.0\.0/16 by interface Ethernet1 alone: "]),
    ("an interface that is shut above one that isn't", alone(
        "interface Ethernet2\n shutdown\ninterface Ethernet2.10\n ip address 10.6.0.1 255.255.255.0\n"), NET,
     [r"net/R1\.cfg: interface Ethernet2 is shut, and its subinterface Ethernet2\.10 isn't: a router takes that down too$"]),
    ("translation without an outside", {"net/R1.cfg": R1.replace("255.255.255.0\n", "255.255.255.0\n ip nat inside\n")
                                        + "ip nat inside source static 10.0.0.5 192.0.2.5\n", "links": ONE}, NET, [r"net/R1\.cfg: .*outside"]),
    ("a host inside that no interface inside faces", TRANSLATING | {"net/R1.cfg": TRANSLATING["net/R1.cfg"]
                                                                    + "ip nat inside source static tcp 10.4.0.5 80 192.0.2.5 80\n"
                                                                    + "ip nat inside source static tcp 10.4.0.5 443 192.0.2.5 443\n"}, NET,
     [r"net/R1\.cfg: address translation of 10\.4\.0\.5, to which no route leads out of an interface inside$"]),
    ("a host outside that no interface outside faces", TRANSLATING | {"net/R1.cfg": TRANSLATING["net/R1.cfg"]
                                                                      + "ip nat outside source static 10.0.0.9 10.77.0.9\n"}, NET,
     [r"net/R1\.cfg: address translation of 10\.0\.0\.9, to which no route leads out of an interface outside$"]),
    ("translation without an inside", {"net/R1.cfg": R1.replace("255.255.255.0\n", "255.255.255.0\n ip nat outside\n")
                                       + "ip nat inside source static 10.0.0.5 192.0.2.5\n", "links": ONE}, NET, [r"net/R1\.cfg: .*inside"]),
]
LISTED = """ip cef
no ip http server
interface Ethernet0
 description users
ip cef
no ip domain lookup
banner motd #
no ip cef
#
ip domain name example.net
"""
# What stands between the warnings and the last line.
BEHIND = [
    ("two links of which one is on Ethernet", net(
        R1 + "router ospf 1\n", R2 + "interface Serial0\n ip address 10.0.3.1 255.255.255.252\n",
        LINKS + "p2p R1 Serial0 R2 Serial0\n"), NET,
     ["limit: router ospf (1), first net/R1.cfg:6: refused; prepare brings it into what is read; GUIDE.md, section 15"]),
    ("links on Ethernet", net(R1 + "ip rou 10.9.0.0 255.255.0.0 Null0\n"), NET,
     ["limit: p2p on Ethernet (1), first links:2: a packet to an unused address of the subnet, as its first one, goes to and fro until it "
      "expires; GUIDE.md, section 7"]),
    ("a link on Ethernet of 31 bits", net(R1.replace("10.0.1.1 255.255.255.252", "10.0.1.2 255.255.255.254") + "ip rou a\n",
                                          R2.replace("10.0.1.2 255.255.255.252", "10.0.1.3 255.255.255.254")), NET, []),
    ("a serial link", net((R1 + "ip rou a\n").replace("Ethernet1", "Serial0"), R2.replace("Ethernet0", "Serial0"),
                          "ingress R1 Ethernet0\np2p R1 Serial0 R2 Serial0\n"), NET, []),
    ("a lan", net(R1 + "ip rou a\n", R2, LINKS.replace("p2p", "lan")), NET, []),
    ("links on Ethernet of the new table alone", two(new_r1=R1 + "ip cef\n") | {
        "links": LINKS.replace("p2p", "lan"), "newlinks": LINKS}, BOTH + ["newlinks"],
     ["limit: p2p on Ethernet (1), first newlinks:2: a packet to an unused address of the subnet, as its first one, goes to and fro until it "
      "expires; GUIDE.md, section 7"]),
    ("lines that no packet depends on", two(
        new_r1=at(0, " description users")["net/R1.cfg"] + "line con 0\n exec-timeout 5 0\nno logging console\nbanner motd #\nip route\n#\n",
        old_r2=R2 + "username a secret b\n"), BOTH,
     ["limit: lines of one folder alone that no packet depends on, as descriptions and logins (8), first old/R2.cfg:6: passed over, and not "
      "compared"]),
    ("what is refused, by how often", two(
        new_r1=R1 + " standby 1 ip 10.0.1.3\n", old_r1=R1 + "ip nat pool A 192.0.2.1 192.0.2.2 prefix-length 30\n",
        old_r2=R2 + " standby 7 ip 10.0.2.9\n"), BOTH,
     ["limit: standby (2), first old/R2.cfg:6: refused; prepare brings it into what is read; GUIDE.md, section 15",
      "limit: ip nat .. pool (1), first old/R1.cfg:6: refused, since it isn't in the model; GUIDE.md, section 14"]),
    ("no limit of what is wrong", net(R1 + "hostname R1 R2\n"), NET, []),
    ("no limits without a warning", net(), NET, []),
    ("limits without a warning, where all is asked for", net(), ["--all"] + NET,
     ["limit: p2p on Ethernet (1), first links:2: a packet to an unused address of the subnet, as its first one, goes to and fro until it "
      "expires; GUIDE.md, section 7"]),
    ("all lines that are passed over", alone(LISTED), ["--all"] + NET,
     ["passed over: banner (3), first net/R1.cfg:12", "passed over: ip cef (2), first net/R1.cfg:6", "passed over: no ip http (1), first net/R1.cfg:7",
      "passed over: description (1), first net/R1.cfg:9", "passed over: no ip domain (1), first net/R1.cfg:11",
      "passed over: ip domain (1), first net/R1.cfg:15", "net/R1.cfg:6: passed over: ip cef", "net/R1.cfg:7: passed over: no ip http server",
      "net/R1.cfg:9: passed over: description users", "net/R1.cfg:10: passed over: ip cef", "net/R1.cfg:11: passed over: no ip domain lookup",
      "net/R1.cfg:12: passed over: banner motd #", "net/R1.cfg:13: passed over: no ip cef", "net/R1.cfg:14: passed over: #",
      "net/R1.cfg:15: passed over: ip domain name example.net"]),
    ("all lines of both folders", two(new_r1=AGAIN, old_r1=AGAIN + "ntp server 10.9.9.9\n", links=LINKS.replace("p2p", "lan")), ["--all"] + BOTH,
     ["limit: lines of one folder alone that no packet depends on, as descriptions and logins (1), first old/R1.cfg:7: passed over, and not "
      "compared", "passed over: ip cef (2), first old/R1.cfg:6", "passed over: ntp (1), first old/R1.cfg:7", "old/R1.cfg:6: passed over: ip cef",
      "old/R1.cfg:7: passed over: ntp server 10.9.9.9", "new/R1.cfg:6: passed over: ip cef"]),
]
# The examples, each with what stands before the last line; no warning is to be said of them. On the campus it is a line of the change that
# isn't about forwarding.
EXAMPLES = [("campus", ["limit: lines of one folder alone that no packet depends on, as descriptions and logins (1), first "
                        "examples/campus/new/DC1.cfg:17: passed over, and not compared"]), ("edge-list", []), ("two-long-lists", [])]


def program():
    """How the doctor is called."""
    given = os.environ.get("DIQENYU_DOCTOR")
    return [os.path.abspath(given)] if given else [os.path.join(TOP, "doctor")]


def write_files(files, folder):
    """Writes the files of a case; a name that ends in a slash is a folder."""
    for name, text in files.items():
        path = os.path.join(folder, name)
        os.makedirs(os.path.dirname(path), exist_ok=True)
        if not name.endswith("/"):
            with open(path, "w", encoding="latin-1", newline="") as stream:
                stream.write(text)


def examine(words, folder):
    """The status, the warnings, and what stands between them and the last line, which counts them; nothing where it doesn't."""
    done = subprocess.run(program() + words, cwd=folder, stdin=subprocess.DEVNULL, stdout=subprocess.PIPE, stderr=subprocess.PIPE)
    lines = done.stdout.decode("latin-1").splitlines() + done.stderr.decode("latin-1").splitlines()
    last = re.fullmatch("warnings ([0-9]+)", lines[-1]) if lines else None
    if last is None or int(last.group(1)) >= len(lines):
        return done.returncode, lines, None
    return done.returncode, lines[:int(last.group(1))], lines[int(last.group(1)):-1]


def document(words, folder):
    """The status, and the document that the doctor writes of the same; None where it writes none."""
    done = subprocess.run(program() + ["--json"] + words if words[0] != "--all" else program() + ["--all", "--json"] + words[1:], cwd=folder,
                          stdin=subprocess.DEVNULL, stdout=subprocess.PIPE, stderr=subprocess.PIPE)
    return done.returncode, json.loads(done.stdout) if done.stdout else None


def place_of(found):
    """A place of a document as the text has it."""
    return found["file"] + (":%d" % found["line"] if "line" in found else "")


def says_the_same(told, status, warnings, behind, every):
    """Whether a document says what the text says: the warnings, the limits counted by their words, and the lines where all are asked for."""
    code, said = told
    if behind is None or said is None or code != status:
        return False
    if VALIDATOR is not None and list(VALIDATOR.iter_errors(said)):
        return False
    limits = [limit for limit in said["limits"] if warnings or every or limit["kind"] == "idle"]
    words = sorted(dict.fromkeys(limit["words"] for limit in limits), key=lambda one: -sum(limit["words"] == one for limit in limits))
    first = [next(limit for limit in limits if limit["words"] == one) for one in words]
    lines = ["limit: %s (%d), first %s: %s" % (one["words"], sum(limit["words"] == one["words"] for limit in limits), place_of(one), one["says"])
             for one in first]
    listed = ["%s: passed over: %s" % (place_of(line), line["text"]) for line in said["lines"]]
    counted = [line for line in behind if not line.startswith("passed over: ")]
    return [place_of(found) + ": " + found["says"] for found in said["warnings"]] == warnings and lines + listed == counted


def is_right(wanted, status, warnings, behind):
    """Whether these warnings are among those that are said, or none is where none is wanted. Behind them stand limits alone, where
    there is a warning, and else nothing."""
    if behind is None or status != (1 if warnings else 0):
        return False
    if not wanted:
        return not warnings and not behind
    return all(any(re.match(pattern, line) for line in warnings) for pattern in wanted) and all(line.startswith("limit: ") for line in behind)


def answers(scratch):
    """Each case with what is wanted, what was said, and whether it is right."""
    cases = [(name, files, words, []) for name, files, words in CLEAN] + TOLD + BEHIND
    for number, (name, files, words, wanted) in enumerate(cases):
        folder = os.path.join(scratch, str(number))
        write_files(files, folder)
        status, warnings, behind = examine(words, folder)
        right = behind == wanted if number >= len(CLEAN) + len(TOLD) else is_right(wanted, status, warnings, behind)
        yield name, wanted, right, [str(status)] + warnings + (behind or [])
        if behind is not None:
            same = says_the_same(document(words, folder), status, warnings, behind, words[0] == "--all")
            yield name + ", as a document", wanted, same, [str(status)] + warnings + behind
    for example, wanted in EXAMPLES:
        here = os.path.join("examples", example)
        status, warnings, behind = examine([os.path.join(here, name) for name in ("old", "new", "links")], TOP)
        yield here, wanted, status == 0 and warnings == [] and behind == wanted, [str(status)] + warnings + (behind or [])


def main():
    """Tries all cases; the status is 0 where all are right."""
    passed = failed = 0
    with tempfile.TemporaryDirectory() as scratch:
        for name, wanted, right, said in answers(scratch):
            if right:
                passed += 1
            else:
                failed += 1
                print("FAILED %s: wanted %s; status and lines:" % (name, " and ".join(wanted) or "nothing"), *said, sep="\n  ")
    print("%d passed, %d failed" % (passed, failed))
    return 1 if failed else 0


if __name__ == "__main__":
    sys.exit(main())
