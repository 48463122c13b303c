#!/usr/bin/python3
"""Tries `wire` on small networks and on the texts that devices give of their neighbours: each case with lines that it must write, or must not.

The tables of the examples' configurations are compared with the tables that are there; each difference stands here with its reason. The last
line is 'N passed, M failed'.
"""
from __future__ import annotations

import os
import subprocess
import sys
import tempfile
from typing import NamedTuple

TOP = os.path.dirname(os.path.dirname(os.path.abspath(__file__)))


class Case(NamedTuple):
    """A run: its files, its words, its status, lines that it must write, and texts that none of its lines may have."""

    name: str
    files: dict[str, str]
    words: list[str]
    status: int
    wanted: list[str]
    unwanted: list[str]


def config(host: str, *interfaces: str) -> dict[str, str]:
    """A configuration: of each interface its name, its addresses with masks and its other lines, between bars."""
    lines = ["hostname %s" % host]
    for text in interfaces:
        name, *rest = [part.strip() for part in text.split("|")]
        lines += ["interface %s" % name] + [" %s" % line for line in rest if line]
    return {"net/%s.cfg" % host: "\n".join(lines) + "\n"}


def ip(address: str, mask: str = "255.255.255.0") -> str:
    """An address command."""
    return "ip address %s %s" % (address, mask)


P30, P31 = "255.255.255.252", "255.255.255.254"
TWO = config("R1", "GigabitEthernet0/0|" + ip("10.0.12.1", P30)) | config("R2", "GigabitEthernet0/1|" + ip("10.0.12.2", P30))
NET = ["net"]
LINK = "lan R1 GigabitEthernet0/0 R2 GigabitEthernet0/1"
SEEN = ["! 10.0.12.0/30; neighbours", LINK]


def made(name: str, files: dict[str, str], wanted: list[str], unwanted: tuple[str, ...] = (), status: int = 0) -> Case:
    """A case of a table that is written."""
    return Case(name, files, NET, status, wanted, list(unwanted))


# ---- what subnets say
SUBNETS = [
    made("two ends on Ethernet", TWO, ["! 10.0.12.0/30", LINK, "! link table of net, written by wire: 2 devices, 1 links, 0 ingresses"]),
    made("two ends on serial lines", config("R1", "Serial0/0|" + ip("10.0.12.1", P30)) | config("R2", "Serial0/1|" + ip("10.0.12.2", P30)),
         ["p2p R1 Serial0/0 R2 Serial0/1"]),
    made("a serial line and Ethernet", config("R1", "Serial0/0|" + ip("10.0.12.1", P30)) | config("R2", "Ethernet0|" + ip("10.0.12.2", P30)),
         ["lan R1 Serial0/0 R2 Ethernet0"]),
    made("a tunnel", config("R1", "Tunnel1|" + ip("10.0.12.1", P30)) | config("R2", "Tunnel7|" + ip("10.0.12.2", P30)), ["p2p R1 Tunnel1 R2 Tunnel7"]),
    made("a subnet of 31 bits", config("R1", "Ethernet0|" + ip("10.0.12.0", P31)) | config("R2", "Ethernet0|" + ip("10.0.12.1", P31)),
         ["p2p R1 Ethernet0 R2 Ethernet0"]),
    made("three serial ends, as on frame relay", config("R1", "Serial0|" + ip("10.0.0.1")) | config("R2", "Serial0|" + ip("10.0.0.2"))
         | config("R3", "Serial0|" + ip("10.0.0.3")), ["lan R1 Serial0 R2 Serial0 R3 Serial0"]),
    made("numbers by their size", config("R10", "Ethernet2|" + ip("10.0.0.1")) | config("R9", "Ethernet10|" + ip("10.0.0.2")),
         ["lan R9 Ethernet10 R10 Ethernet2"]),
    made("an interface that is shut", config("R1", "Ethernet0|shutdown|" + ip("10.0.0.1")) | config("R2", "Ethernet0|" + ip("10.0.0.2")),
         ["ingress R2 Ethernet0"], ("R1 Ethernet0",)),
    made("a subinterface of one that is shut", config("R1", "Ethernet0|shutdown", "Ethernet0.10|" + ip("10.0.0.1"))
         | config("R2", "Ethernet0|" + ip("10.0.0.2")), ["ingress R2 Ethernet0"], ("R1 Ethernet0.10",)),
    made("a subnet that is secondary on both", config("R1", "Ethernet0|" + ip("10.1.0.1") + "|" + ip("10.0.0.1") + " secondary")
         | config("R2", "Ethernet0|" + ip("10.2.0.1") + "|" + ip("10.0.0.2") + " secondary"), ["! 10.0.0.0/24", "lan R1 Ethernet0 R2 Ethernet0"]),
    made("two subnets on one wire", config("R1", "Ethernet0|" + ip("10.1.0.1") + "|" + ip("10.2.0.1") + " secondary")
         | config("R2", "Ethernet0|" + ip("10.1.0.2")) | config("R3", "Ethernet0|" + ip("10.2.0.3")),
         ["! 10.1.0.0/24, 10.2.0.0/24", "lan R1 Ethernet0 R2 Ethernet0 R3 Ethernet0"]),
    made("masks that differ", config("R1", "Ethernet0|" + ip("10.0.0.1")) | config("R2", "Ethernet0|" + ip("10.0.0.2", "255.255.255.128")),
         ["10.0.0.0/25 lies in 10.0.0.0/24: R1 Ethernet0 and R2 Ethernet0 have different masks, and aren't joined",
          "! CONTRADICTION: 10.0.0.0/25 lies in 10.0.0.0/24: R1 Ethernet0 and R2 Ethernet0 have different masks, and aren't joined"], ("lan ",), 1),
    made("one address twice", config("R1", "Ethernet0|" + ip("10.0.0.1")) | config("R2", "Ethernet0|" + ip("10.0.0.1")),
         ["10.0.0.0/24: R1 Ethernet0 and R2 Ethernet0 have the address 10.0.0.1, so this subnet joins nothing: say with neighbours or by hand "
          "which of them are linked"], ("lan ",), 1),
    made("a loopback inside a wide subnet", config("R1", "Loopback0|" + ip("10.0.0.9", "255.255.255.255")) | config("R2", "Ethernet0|" + ip("10.0.0.1")),
         ["ingress R2 Ethernet0", "! ingress R1 Loopback0"], ("lies in",)),
]
# ---- where packets come in
EDGES = [
    made("an interface alone", config("R1", "Ethernet0|" + ip("10.1.0.1")), ["! 10.1.0.0/24: no other device is in this subnet", "ingress R1 Ethernet0"]),
    made("a loopback", config("R1", "Loopback0|" + ip("10.1.0.1", "255.255.255.255")),
         ["! 10.1.0.1/32: a loopback: no host is connected", "! ingress R1 Loopback0"]),
    made("a loopback with a wide mask", config("R1", "Loopback1|" + ip("10.1.0.1")), ["! ingress R1 Loopback1"]),
    made("management by its name", config("R1", "mgmt0|" + ip("10.1.0.1")),
         ["! 10.1.0.0/24: it looks like a management interface", "! ingress R1 mgmt0"]),
    made("management by its VRF", config("R1", "GigabitEthernet0|vrf forwarding Mgmt-intf|" + ip("10.1.0.1")), ["! ingress R1 GigabitEthernet0"]),
    made("management by its description", config("R1", "FastEthernet1|description OOB network|" + ip("10.1.0.1")), ["! ingress R1 FastEthernet1"]),
    made("a tunnel alone", config("R1", "Tunnel0|" + ip("10.1.0.1", P30)), ["! ingress R1 Tunnel0"]),
    made("hosts behind a virtual address", config("R1", "Vlan10|" + ip("10.1.0.2") + "|standby 10 ip 10.1.0.1")
         | config("R2", "Vlan10|" + ip("10.1.0.3") + "|standby 10 ip 10.1.0.1"),
         ["lan R1 Vlan10 R2 Vlan10", "! 10.1.0.0/24: hosts use its virtual address", "ingress R1 Vlan10", "ingress R2 Vlan10"]),
    made("a VLAN with room for hosts", config("R1", "Vlan10|" + ip("10.1.0.2")) | config("R2", "Vlan10|" + ip("10.1.0.3")),
         ["! 10.1.0.0/24: hosts may be in this subnet beside the routers", "! ingress R1 Vlan10"]),
    made("a VLAN of two routers", config("R1", "Vlan10|" + ip("10.1.0.1", P30)) | config("R2", "Vlan10|" + ip("10.1.0.2", P30)),
         ["lan R1 Vlan10 R2 Vlan10"], ("ingress R1",)),
]

CDP_15 = """-------------------------
Device ID: %s
Entry address(es):
  IP address: 10.0.12.2
Platform: cisco ISR4331/K9,  Capabilities: %s
Interface: %s,  Port ID (outgoing port): %s
Holdtime : 137 sec

Version :
Cisco IOS Software [Everest], ISR Software (X86_64_LINUX_IOSD-UNIVERSALK9-M), Version 16.6.4, RELEASE SOFTWARE (fc3)
Technical Support: http://www.cisco.com/techsupport

advertisement version: 2
Duplex: full
Management address(es):
  IP address: 10.0.12.2

"""
CDP_NEXUS = """----------------------------------------
Device ID:%s(FOX1234ABCD)
System Name: %s

Interface address(es):
    IPv4 Address: 10.0.12.2
Platform: N9K-C93180YC-EX, Capabilities: Router Switch IGMP Filtering Supports-STP-Dispute
Interface: %s, Port ID (outgoing port): %s
Holdtime: 155 sec

Version:
Cisco Nexus Operating System (NX-OS) Software, Version 9.3(5)

Advertisement Version: 2
Native VLAN: 1
Duplex: full
"""
LLDP = """------------------------------------------------
Local Intf: %s
Chassis id: 0c1a.2b3c.4d00
Port id: %s
Port Description: %s
System Name: %s

System Description:
Cisco IOS Software, C2960 Software (C2960-LANBASEK9-M), Version 15.0(2)SE11, RELEASE SOFTWARE (fc3)

Time remaining: 98 seconds
System Capabilities: B,R
Enabled Capabilities: R
Management Addresses:
    IP: 10.0.12.2
Auto Negotiation - supported, enabled
Vlan ID: - not advertised

Total entries displayed: 1
"""
LLDP_NEXUS = """Chassis id: 0c1a.2b3c.4d00
Port id: %s
Local Port id: %s
Port Description: to R1
System Name: %s
System Description: Cisco Nexus Operating System (NX-OS) Software
Time remaining: 110 seconds
System Capabilities: B, R
Enabled Capabilities: B, R
Management Address: 10.0.12.2
Vlan ID: not advertised

Total entries displayed: 1
"""


def cdp(device: str = "R2", local: str = "GigabitEthernet0/0", port: str = "GigabitEthernet0/1", kinds: str = "Router Source-Route-Bridge") -> str:
    """An entry as IOS shows it."""
    return CDP_15 % (device, kinds, local, port)


def seen(name: str, text: str, wanted: list[str], unwanted: tuple[str, ...] = (), status: int = 0, files: dict[str, str] | None = None) -> Case:
    """A case with what R1 says of its neighbours."""
    return Case(name, (TWO if files is None else files) | {"seen/R1.txt": text}, NET + ["--neighbors", "seen"], status, wanted, list(unwanted))


CHANNEL = config("R1", "GigabitEthernet0/3|channel-group 1 mode active", "Port-channel1|" + ip("10.0.13.1", P30)) | config(
    "R2", "GigabitEthernet0/4|channel-group 7 mode active", "Port-channel7|" + ip("10.0.13.2", P30))
SUBINTERFACES = config("R1", "GigabitEthernet0/0", "GigabitEthernet0/0.10|" + ip("10.1.0.1"), "GigabitEthernet0/0.20|" + ip("10.2.0.1")) | config(
    "R2", "GigabitEthernet0/1", "GigabitEthernet0/1.10|" + ip("10.1.0.2"), "GigabitEthernet0/1.20|" + ip("10.2.0.2"))
SWITCHED = config("R1", "GigabitEthernet1/0/1|switchport mode trunk", "Vlan10|" + ip("10.1.0.2")) | config(
    "R2", "GigabitEthernet1/0/2|switchport mode trunk", "Vlan10|" + ip("10.1.0.3"))
APART = config("R1", "GigabitEthernet0/0|" + ip("10.0.12.1", P30)) | config("R2", "GigabitEthernet0/1|" + ip("10.0.99.2", P30))
# One subnet at two places, with other addresses: R1 and R2, R3 and R4.
TWICE = (config("R1", "Ethernet0|" + ip("192.168.1.1")) | config("R2", "Ethernet0|" + ip("192.168.1.2"))
         | config("R3", "Ethernet0|" + ip("192.168.1.3")) | config("R4", "Ethernet0|" + ip("192.168.1.4")))
SAME = (config("R1", "Ethernet0|" + ip("192.168.1.1")) | config("R2", "Ethernet0|" + ip("192.168.1.2"))
        | config("R3", "Ethernet0|" + ip("192.168.1.1")) | config("R4", "Ethernet0|" + ip("192.168.1.2")))

CDP_CASES = [
    seen("an entry of IOS 15", cdp(), SEEN),
    seen("a domain behind the name", cdp("R2.example.net"), SEEN),
    seen("a name in small letters", cdp("r2"), SEEN),
    seen("a serial number behind the name", cdp("R2(FTX1234)"), SEEN),
    seen("an entry of IOS 12.4", """-------------------------
Device ID: R2
Entry address(es):
  IP address: 10.0.12.2
Platform: Cisco 2811,  Capabilities: Router Switch IGMP
Interface: GigabitEthernet0/0,  Port ID (outgoing port): GigabitEthernet0/1
Holdtime : 161 sec

Version :
Cisco IOS Software, 2800 Software (C2800NM-ADVENTERPRISEK9-M), Version 12.4(15)T1, RELEASE SOFTWARE (fc2)

advertisement version: 2
VTP Management Domain: ''
""", SEEN),
    seen("an entry of NX-OS", CDP_NEXUS % ("R2.example.net", "R2", "GigabitEthernet0/0", "GigabitEthernet0/1"), SEEN),
    seen("between a prompt and another", "R1#show cdp neighbors detail\n" + cdp() + "\nTotal cdp entries displayed : 1\nR1#\n", SEEN),
    seen("carriage returns", cdp().replace("\n", "\r\n"), SEEN),
    seen("a name on the next line", cdp().replace("Device ID: R2", "Device ID:\nR2"), SEEN),
    seen("a port on the next line", cdp().replace("port): GigabitEthernet0/1", "port):\nGigabitEthernet0/1"), SEEN),
    seen("an entry twice", cdp() + cdp(), SEEN),
    seen("two entries", cdp() + cdp("SW1", "GigabitEthernet0/0", "FastEthernet0/1", "Switch IGMP"), SEEN),
    seen("a short name of the interface", cdp(local="Gi0/0", port="Gig 0/1"), SEEN),
    seen("a phone", cdp() + cdp("SEP001122334455", "GigabitEthernet0/0", "Port 1", "Host Phone Two-port Mac Relay"), SEEN, ("SEP",)),
    seen("a switch of another team", cdp("SW1", port="FastEthernet0/1", kinds="Switch IGMP"), ["! 10.0.12.0/30", LINK], ("SW1",)),
    seen("a switch that routes", cdp("SW1", port="FastEthernet0/1", kinds="Router Switch IGMP"), ["! 10.0.12.0/30", LINK], ("SW1",)),
    seen("a router that no configuration has", cdp("R9", port="Ethernet0", kinds="Router"),
         ["seen/R1.txt line 2: R9 is behind R1 GigabitEthernet0/0, and no configuration has this name"], status=1),
    seen("an interface that R1 hasn't", cdp(local="GigabitEthernet7/7"), ["seen/R1.txt line 2: R1 has no interface GigabitEthernet7/7"], status=1),
    seen("an interface that R2 hasn't", cdp(port="GigabitEthernet7/7"), ["seen/R1.txt line 2: R2 has no interface GigabitEthernet7/7"], status=1),
    seen("a neighbour in another subnet", cdp(), [
        "! neighbours", LINK, "seen/R1.txt line 2: R1 GigabitEthernet0/0 and R2 GigabitEthernet0/1 are neighbours, and their subnets don't meet: "
        "10.0.12.1/30 and 10.0.99.2/30"], status=1, files=APART),
    seen("members of channels", cdp(local="GigabitEthernet0/3", port="GigabitEthernet0/4"), [
        "! 10.0.13.0/30; neighbours", "lan R1 Port-channel1 R2 Port-channel7"], files=CHANNEL),
    seen("subinterfaces", cdp(), ["! 10.1.0.0/24; neighbours", "lan R1 GigabitEthernet0/0.10 R2 GigabitEthernet0/1.10", "! 10.2.0.0/24; neighbours",
                                  "lan R1 GigabitEthernet0/0.20 R2 GigabitEthernet0/1.20"], files=SUBINTERFACES),
    seen("VLANs over switch ports", cdp(local="GigabitEthernet1/0/1", port="GigabitEthernet1/0/2"),
         ["! 10.1.0.0/24; neighbours", "lan R1 Vlan10 R2 Vlan10"], files=SWITCHED),
    seen("one subnet at two places", cdp(local="Ethernet0", port="Ethernet0"),
         ["lan R1 Ethernet0 R2 Ethernet0", "lan R3 Ethernet0 R4 Ethernet0"], ("lan R1 Ethernet0 R2 Ethernet0 R3",),
         files=TWICE | {"seen/R2.txt": cdp("R1", "Ethernet0", "Ethernet0"), "seen/R3.txt": cdp("R4", "Ethernet0", "Ethernet0")}),
    seen("one subnet with the same addresses at two places", cdp(local="Ethernet0", port="Ethernet0"),
         ["lan R1 Ethernet0 R2 Ethernet0", "lan R3 Ethernet0 R4 Ethernet0"], ("lan R1 Ethernet0 R2 Ethernet0 R3",), 1,
         SAME | {"seen/R3.txt": cdp("R4", "Ethernet0", "Ethernet0")}),
]
LLDP_CASES = [
    seen("LLDP with short names", LLDP % ("Gi0/0", "Gi0/1", "GigabitEthernet0/1", "R2.example.net"), SEEN),
    seen("LLDP with the port in its description", LLDP % ("Gi0/0", "0c1a.2b3c.4d01", "GigabitEthernet0/1", "R2"), SEEN),
    seen("LLDP of NX-OS", LLDP_NEXUS % ("GigabitEthernet0/1", "Gi0/0", "R2.example.net"), SEEN),
    seen("LLDP with the name on the next line", LLDP.replace("Name: %s", "Name:\n%s") % ("Gi0/0", "Gi0/1", "-", "R2"), SEEN),
    seen("LLDP of a switch", LLDP.replace("B,R", "B") % ("Gi0/0", "Fa0/1", "FastEthernet0/1", "SW1"), ["! 10.0.12.0/30", LINK], ("SW1",)),
    seen("LLDP of a router that no configuration has", LLDP.replace("B,R", "R") % ("Gi0/0", "Fa0/1", "FastEthernet0/1", "R9"),
         ["seen/R1.txt line 6: R9 is behind R1 GigabitEthernet0/0, and no configuration has this name"], status=1),
    seen("CDP and LLDP of one neighbour", cdp() + "R1#show lldp neighbors detail\n" + LLDP % ("Gi0/0", "Gi0/1", "-", "R2"), SEEN),
    seen("LLDP and then CDP", LLDP % ("Gi0/0", "Gi0/1", "-", "R2") + "R1#show cdp neighbors detail\n" + cdp(), SEEN),
]
HSRP_NET = config("R1", "GigabitEthernet0/0|" + ip("10.0.12.1", P30), "Vlan10|" + ip("10.1.0.2"), "Vlan20|" + ip("10.2.0.2"),
                  "TenGigabitEthernet1/0/1.4000|" + ip("10.3.0.2")) | config("R2", "GigabitEthernet0/1|" + ip("10.0.12.2", P30))
STANDBY = """                     P indicates configured to preempt.
                     |
Interface   Grp  Pri P State   Active          Standby         Virtual IP
"""


def groups(name: str, text: str, wanted: list[str]) -> Case:
    """A case with the groups of R1: the lines of the file of active sides."""
    return Case(name, HSRP_NET | {"seen/R1.txt": text}, NET + ["--neighbors", "seen", "--active", "active"], 0, wanted, [])


GROUP_CASES = [
    groups("HSRP, active", STANDBY + "Vl10        10   110 P Active  local           10.1.0.3        10.1.0.1\n", ["active: R1 Vlan10 standby 10"]),
    groups("HSRP, standby", STANDBY + "Vl10        10   90    Standby 10.1.0.3        local           10.1.0.1\n", ["active:"]),
    groups("HSRP of IOS 12.4", STANDBY.replace("Pri P State  ", "Prio P State  ")
           + "Vl10        10   110  P Active   local           10.1.0.3        10.1.0.1\n", ["active: R1 Vlan10 standby 10"]),
    groups("HSRP of NX-OS", "                     P indicates configured to preempt.\n                     |\n"
           "Interface   Grp Prio P State    Active addr      Standby addr     Group addr\n"
           "Vlan20      20  110  P Active   local            10.2.0.3         10.2.0.1        (conf)\n", ["active: R1 Vlan20 standby 20"]),
    groups("HSRP with a long name", STANDBY + "TenGigabitEthernet1/0/1.4000\n            4    110 P Active  local           unknown         10.3.0.1\n",
           ["active: R1 TenGigabitEthernet1/0/1.4000 standby 4"]),
    groups("HSRP of several groups", STANDBY + "Vl10        10   110 P Active  local           10.1.0.3        10.1.0.1\n"
           "Vl20        20   90    Standby 10.2.0.3        local           10.2.0.1\nTe1/0/1.4000 4   110 P Active  local   unknown 10.3.0.1\n",
           ["active: R1 TenGigabitEthernet1/0/1.4000 standby 4|R1 Vlan10 standby 10"]),
    groups("VRRP", "Interface          Grp Pri Time  Own Pre State   Master addr     Group addr\n"
           "Vl10               1   110 3570       Y  Master  10.1.0.2        10.1.0.1\n"
           "Vl20               2   90  3648       Y  Backup  10.2.0.3        10.2.0.1\n", ["active: R1 Vlan10 vrrp 1"]),
    groups("VRRP of version 3", "  Interface          Grp  A-F Pri  Time Own Pre State   Master addr/Group addr\n"
           "  Vl10                 1 IPv4 110     0  N   Y  MASTER  10.1.0.2(local) 10.1.0.1\n", ["active: R1 Vlan10 vrrp 1"]),
    groups("GLBP", "Interface   Grp  Fwd Pri State    Address         Active router   Standby router\n"
           "Vl10        10   -   110 Active   10.1.0.1        local           10.1.0.3\n"
           "Vl10        10   1   -   Listen   0007.b400.0a01  10.1.0.3        -\n"
           "Vl20        20   -   90  Standby  10.2.0.1        10.2.0.3        local\n"
           "Vl20        20   1   -   Active   0007.b400.1401  local           -\n", ["active: R1 Vlan10 glbp 10"]),
    groups("all of them behind one another", "R1#show standby brief\n" + STANDBY
           + "Vl10        10   110 P Active  local           10.1.0.3        10.1.0.1\nR1#show vrrp brief\n"
           "Interface          Grp Pri Time  Own Pre State   Master addr     Group addr\n"
           "Vl20               2   110 3570       Y  Master  10.2.0.2        10.2.0.1\nR1#show cdp neighbors detail\n" + cdp() + "R1#\n",
           ["active: R1 Vlan10 standby 10|R1 Vlan20 vrrp 2", LINK]),
]


def checked(name: str, links: str, told: list[str], files: dict[str, str] | None = None, neighbors: str = "") -> Case:
    """A case of a table that is checked, with all lines that are told."""
    words = NET + ["--check", "links"] + (["--neighbors", "seen"] if neighbors else [])
    every = (TWO if files is None else files) | {"links": links} | ({"seen/R1.txt": neighbors} if neighbors else {})
    return Case(name, every, words, 1 if told else 0, told + ["differences %d" % len(told)], [])


ENTRY = config("R1", "GigabitEthernet0/0|" + ip("10.0.12.1", P30), "Vlan1|" + ip("10.1.0.1")) | config(
    "R2", "GigabitEthernet0/1|" + ip("10.0.12.2", P30), "GigabitEthernet0/2|" + ip("10.0.23.1", P30)) | config("R3", "Ethernet0|" + ip("10.0.23.2", P30))
GOOD = "ingress R1 Vlan1\np2p R1 GigabitEthernet0/0 R2 GigabitEthernet0/1\nlan R2 GigabitEthernet0/2 R3 Ethernet0\n"
CHECKS = [
    checked("a table that agrees", GOOD, [], ENTRY),
    checked("a device that isn't there", GOOD.replace("R3", "R33"), [
        "links line 3: no configuration has the device R33; one is R3",
        "links: missing at line 3: R3 Ethernet0 (10.0.23.0/30)"], ENTRY),
    checked("a short name", GOOD.replace("R1 GigabitEthernet0/0", "R1 Gi0/0"), [
        "links line 2: R1 has no interface Gi0/0; one is GigabitEthernet0/0",
        "links: missing at line 2: R1 GigabitEthernet0/0 (10.0.12.0/30)"], ENTRY),
    checked("a link that is missing", GOOD.replace("lan R2 GigabitEthernet0/2 R3 Ethernet0\n", ""), [
        "links: missing: lan R2 GigabitEthernet0/2 R3 Ethernet0 (10.0.23.0/30)"], ENTRY),
    checked("a link that nothing supports", "ingress R1 Vlan1\np2p R1 GigabitEthernet0/0 R3 Ethernet0\np2p R2 GigabitEthernet0/1 R2 GigabitEthernet0/2\n", [
        "links line 2: R3 Ethernet0 has no subnet in common with another end: 10.0.23.2/30, and 10.0.12.1/30",
        "links line 3: R2 GigabitEthernet0/2 has no subnet in common with another end: 10.0.23.1/30, and 10.0.12.2/30",
        "links: lines 2, 3 are one link: lan R1 GigabitEthernet0/0 R2 GigabitEthernet0/1 (10.0.12.0/30)",
        "links: lines 2, 3 are one link: lan R2 GigabitEthernet0/2 R3 Ethernet0 (10.0.23.0/30)"], ENTRY),
    checked("an edge that is no ingress", GOOD.replace("R1 Vlan1", "R2 GigabitEthernet0/1"), [
        "links: no ingress: R1 Vlan1 (10.1.0.0/24: no other device is in this subnet)"], ENTRY),
    checked("an ingress that is shut", GOOD + "ingress R3 Ethernet9\n", [
        "links line 4: R3 Ethernet9 is shut or has no address, so nothing passes there"],
        ENTRY | config("R3", "Ethernet0|" + ip("10.0.23.2", P30), "Ethernet9|shutdown|" + ip("10.9.0.1"))),
    checked("a table that agrees with neighbours", GOOD, [], ENTRY, cdp()),
    checked("a neighbour that the line doesn't have", GOOD.replace(" R2 GigabitEthernet0/1", " R3 Ethernet1"), [
        "links line 2: R3 Ethernet1 has no subnet in common with another end: 10.0.99.1/30, and 10.0.12.1/30",
        "links line 2: seen/R1.txt line 2 says that R2 GigabitEthernet0/1 is behind R1 GigabitEthernet0/0",
        "links: missing at line 2: R2 GigabitEthernet0/1 (10.0.12.0/30; neighbours)",
        "links: no ingress: R3 Ethernet1 (10.0.99.0/30: no other device is in this subnet)"],
        ENTRY | config("R3", "Ethernet0|" + ip("10.0.23.2", P30), "Ethernet1|" + ip("10.0.99.1", P30)), cdp()),
]
REFUSALS = [
    Case("no folder", {}, NET, 8, ["not found net"], []),
    Case("no configuration", {"net/a.txt": ""}, NET, 8, ["not found net/*.cfg"], []),
    Case("no hostname", {"net/R1.cfg": "interface Ethernet0\n"}, NET, 3, ["refused net/R1.cfg line 0 NoHostname"], []),
    Case("a mask with holes", config("R1", "Ethernet0|" + ip("10.0.0.1", "255.0.255.0")), NET, 3, ["refused net/R1.cfg line 3 BadMask 255.0.255.0"], []),
    Case("a hostname twice", TWO | {"net/R3.cfg": "hostname R1\n"}, NET, 3, ["refused net/R3.cfg hostname taken by net/R1.cfg"], []),
    Case("neighbours of no device", TWO | {"seen/R7.txt": cdp()}, NET + ["--neighbors", "seen"], 3, ["refused seen/R7.txt line 0 UnknownDevice R7"], []),
    Case("a file without neighbours", TWO | {"seen/R1.txt": "R1#show version\n"}, NET + ["--neighbors", "seen"], 3,
         ["refused seen/R1.txt line 0 NoNeighbors"], []),
    Case("a pager's mark", TWO | {"seen/R1.txt": cdp() + " --More-- \n"}, NET + ["--neighbors", "seen"], 3, ["refused seen/R1.txt line 18 Paged --More--"], []),
    Case("a word that is no kind", TWO | {"links": "line R1 A R2 B\n"}, NET + ["--check", "links"], 3, ["refused links line 1 BadWord line"], []),
    Case("an end that is taken", TWO | {"links": "ingress R1 A\np2p R1 A R2 B\nlan R1 A R2 C\n"}, NET + ["--check", "links"], 3,
         ["refused links line 3 EndTaken A"], []),
    Case("a table without an ingress", TWO | {"links": "p2p R1 A R2 B\n"}, NET + ["--check", "links"], 3, ["refused links line 0 NoIngress"], []),
    Case("half an end", TWO | {"links": "p2p R1 A R2\n"}, NET + ["--check", "links"], 3, ["refused links line 1 MissingWord"], []),
    Case("no words", {}, [], 2, ["usage:"], []),
    Case("a word too many", TWO, NET + ["more"], 2, ["usage:"], []),
    Case("who is active without neighbours", TWO, NET + ["--active", "active"], 2, ["usage:"], []),
    Case("a file that is there", HSRP_NET | {"seen/R1.txt": cdp(), "active": ""}, NET + ["--neighbors", "seen", "--active", "active"], 6,
         ["cannot write active: File exists"], ["lan "]),
]
CASES = SUBNETS + EDGES + CDP_CASES + LLDP_CASES + GROUP_CASES + CHECKS + REFUSALS

# ---- the examples: what is told of each table beside the configurations, and why. An edge that isn't an ingress there is one at which the
# example doesn't look.
NOT_LOOKED_AT = "no other device is in this subnet)"
EXPLAINED = {
    "examples/campus-edge-down/links": {
        "line 5: CORE1 GigabitEthernet0/0 is shut or has no address, so nothing passes there": "the example's old network has these links down",
        "line 6: CORE2 GigabitEthernet0/0 is shut or has no address, so nothing passes there": "the example's old network has these links down",
    },
    "examples/traces/edge/links": {
        "line 1: R3 Ethernet0 is shut or has no address, so nothing passes there": "the trace shows a place that is closed",
    },
    "examples/traps/spelling/links-short": {"line 1: R1 has no interface Gi0/0; one is GigabitEthernet0/0": "the trap is this name"},
}


def run(words: list[str], folder: str) -> tuple[int, list[str]]:
    """The status of a run and the lines of both its outputs."""
    done = subprocess.run([os.path.join(TOP, "wire")] + words, cwd=folder, stdin=subprocess.DEVNULL, stdout=subprocess.PIPE, stderr=subprocess.PIPE)
    return done.returncode, (done.stdout + done.stderr).decode("latin-1").splitlines()


def faults_of(case: Case, folder: str) -> list[str]:
    """What is wrong with a case."""
    for name, text in case.files.items():
        path = os.path.join(folder, name)
        os.makedirs(os.path.dirname(path), exist_ok=True)
        with open(path, "w", encoding="latin-1", newline="") as stream:
            stream.write(text)
    status, lines = run(case.words, folder)
    if os.path.exists(os.path.join(folder, "active")) and "active" not in case.files:
        with open(os.path.join(folder, "active"), encoding="latin-1") as stream:
            lines.append("active: %s" % "|".join(stream.read().splitlines()) if os.path.getsize(stream.name) else "active:")
    faults = [] if status == case.status else ["status %d, wanted %d" % (status, case.status)]
    faults += ["no line %s" % line for line in case.wanted if line not in lines]
    faults += ["a line with %s" % text for text in case.unwanted if any(text in line for line in lines)]
    if case in CHECKS and len(lines) != len(case.wanted):
        faults.append("other lines too")
    return faults + (["the lines are:"] + lines if faults else [])


def examples() -> list[tuple[str, list[str]]]:
    """The tables of the examples with what is wrong with each."""
    results = []
    for place, _, names in sorted(os.walk(os.path.join(TOP, "examples"))):
        for name in sorted(names):
            net = next((net for net in ("old", "net") if os.path.isdir(os.path.join(place, net))), None)
            if name not in ("links", "links-lan", "links-short") or net is None or not any(
                    file.endswith(".cfg") for file in os.listdir(os.path.join(place, net))):
                continue
            path = os.path.relpath(os.path.join(place, name), TOP)
            status, lines = run([os.path.join(os.path.dirname(path), net), "--check", path], TOP)
            told = [line[len(path) + 1:].strip() for line in lines[:-1]]
            left = [line for line in told if line not in EXPLAINED.get(path, {}) and not (line.startswith("no ingress: ") and line.endswith(NOT_LOOKED_AT))]
            left += ["never told: %s" % line for line in EXPLAINED.get(path, {}) if line not in told]
            results.append((path, left))
    return results


def large(folder: str) -> list[str]:
    """A network of 1,000 devices with 33 interfaces each within five seconds, of processor time."""
    os.makedirs(os.path.join(folder, "net"))
    for device in range(1000):
        lines = ["hostname N%d" % device]
        for port in range(33):
            # Sixteen ports have a link to the next device, sixteen one to the device before, and the last one is alone.
            first = device if port < 16 else (device - 1) % 1000
            number = 16 * first + port % 16 if port < 32 else 20000 + device
            lines += ["interface GigabitEthernet0/%d" % port, " ip address 10.%d.%d.%d 255.255.255.252" % (
                number >> 14 & 255, number >> 6 & 255, (number & 63) * 4 + (1 if port < 16 else 2))]
        with open(os.path.join(folder, "net", "N%d.cfg" % device), "w", encoding="ascii") as stream:
            stream.write("\n".join(lines) + "\n")
    before = os.times()
    status, lines = run(NET, folder)
    after = os.times()
    seconds = after.children_user + after.children_system - before.children_user - before.children_system
    print("1,000 devices with 33,000 interfaces: %d lines in %.1f s of processor time" % (len(lines), seconds))
    return [] if status == 0 and len([line for line in lines if line.startswith("lan ")]) == 16000 else ["status %d, %d lines" % (status, len(lines))]


def main() -> int:
    """Tries all cases; the status is 0 where all are right."""
    results = []
    with tempfile.TemporaryDirectory() as scratch:
        for number, case in enumerate(CASES):
            folder = os.path.join(scratch, str(number))
            os.makedirs(folder)
            results.append((case.name, faults_of(case, folder)))
        results += examples()
        if "--large" in sys.argv[1:]:
            results.append(("a large network", large(os.path.join(scratch, "large"))))
    for name, faults in results:
        if faults:
            print("FAILED %s:" % name, *faults, sep="\n  ")
    failed = sum(1 for _, faults in results if faults)
    print("%d passed, %d failed" % (len(results) - failed, failed))
    return 1 if failed else 0


if __name__ == "__main__":
    sys.exit(main())
