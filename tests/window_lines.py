#!/usr/bin/env python3
"""Tries what the window says of each changed line: small changes of a small network one by one, with what each line does and why by hand, and
the laws on random changes of random networks, where tests/rules.py says of single headers what they depend on.

DIQENYU_REVIEW, DIQENYU_VIEW, DIQENYU_DOCTOR and DIQENYU_ROLLOUT name other programs than those of the launchers; WINDOW_LAWS says how many
random networks, WINDOW_LAWS_FROM the first one's seed (1).
"""
import itertools
import json
import os
import random
import shutil
import signal
import subprocess
import sys
import tempfile
import time
import unittest
from types import SimpleNamespace

TOP = os.path.dirname(os.path.dirname(os.path.abspath(__file__)))
sys.dont_write_bytecode = True
sys.path[:0] = [os.path.join(TOP, "tests"), os.path.join(TOP, "windowing")]

import hunks  # noqa: E402
import jobs  # noqa: E402
import kind_rules  # noqa: E402
import kinds  # noqa: E402
import rendering  # noqa: E402
import rules  # noqa: E402
from causes import Cause, Causes, Unfaithful, header_of, parts_of  # noqa: E402
from comparing import found_in  # noqa: E402
from cubes import Headers, union  # noqa: E402
from lines import OwnPlaces, find_causes  # noqa: E402
from programs import command_of  # noqa: E402


def kind_of(old, new):
    """The kind of outcomes as the report writes them; which interfaces lie on one lan isn't asked."""
    return kind_rules.kind_of(*(kinds.side_of(tuple(text.split(" | "))) for text in (old, new)), {})


LAWS = int(os.environ.get("WINDOW_LAWS", "200"))
FIRST_LAW = int(os.environ.get("WINDOW_LAWS_FROM", "1"))

NET = {
    "R1": """hostname R1
interface Ethernet0
 ip address 10.1.0.1 255.255.255.0
 ip access-group IN in
interface Ethernet1
 ip address 10.0.12.1 255.255.255.252
ip access-list extended IN
 10 permit tcp any any eq 80
 20 permit udp any any eq 53
 30 permit tcp any 10.2.0.0 0.0.0.255 eq 22
 40 deny ip any any
ip route 0.0.0.0 0.0.0.0 10.0.12.2
ip route 10.9.0.0 255.255.0.0 Null0
""",
    "R2": """hostname R2
interface Ethernet0
 ip address 10.0.12.2 255.255.255.252
 ip nat inside
interface Ethernet1
 ip address 203.0.113.1 255.255.255.248
 ip nat outside
interface Ethernet2
 ip address 10.2.0.1 255.255.255.0
 ip access-group SERVERS out
interface Ethernet3
 description spare
 shutdown
ip access-list extended SERVERS
 10 permit tcp any host 10.2.0.9 eq 80
 20 deny ip any any log
ip access-list extended UNUSED
 10 permit ip any any
ip nat inside source static 10.1.0.9 203.0.113.5
ip route 0.0.0.0 0.0.0.0 203.0.113.6
ip route 10.1.0.0 255.255.255.0 10.0.12.1
""",
    "links": """p2p R1 Ethernet1 R2 Ethernet0
ingress R1 Ethernet0
ingress R2 Ethernet1
""",
}

# Stands for a `rollout` that knows variants: each is a comparison with a copy of the network.
VARIANTS = """#!%(python)s
import os, subprocess, sys, tempfile
words = sys.argv[1:]
if words[:1] != ["variants"]:
    sys.stderr.write("usage:\\n  audit NET\\n  variants NET LINKS VARIANTS\\n")
    sys.exit(2)
net, links, text = words[1:4]
open(%(log)r, "a").write(text + "\\n")
def host(path):
    return next(line.split()[1] for line in open(path) if line.startswith("hostname "))
files = {host(os.path.join(net, name)): name for name in os.listdir(net)}
variants = []
for number, line in enumerate(open(text), 1):
    kind, word = line.split()
    if kind == "variant":
        variants.append((word, {}))
    else:
        variants[-1][1][files[host(word)]] = word, number
told, status = "", 0
for name, changes in variants:
    with tempfile.TemporaryDirectory() as folder:
        for file in os.listdir(net):
            os.symlink(os.path.realpath(changes[file][0] if file in changes else os.path.join(net, file)), os.path.join(folder, file))
        done = subprocess.run([*%(review)s, "compare", net, folder, links], capture_output=True, text=True)
        if done.returncode > 1:
            path, _, rest = done.stderr.partition(" line ")
            file = os.path.basename(path)
            if file in changes:
                sys.stderr.write("refused %%s line %%s" %% (changes[file][0], rest))
            else:
                sys.stderr.write("refused %%s line %%d AddressTwice" %% (text, max(number for _, number in changes.values())))
            sys.exit(done.returncode)
        told += "variant %%s %%s\\n" %% (name, done.stdout.splitlines()[-1]) + (done.stdout if done.returncode else "")
        status |= done.returncode
sys.stdout.write(told + "variants %%d\\n" %% len(variants))
sys.exit(status)
"""


def case(name, expected, causes, *edits):
    """A change: its name, what is told of each line, what the rows of the report come of, and the texts that are replaced. A device that begins
    with `both ` is changed in the old network too; a text of None makes a new one."""
    return name, expected, causes, edits


CASES = (
    # ---- entries
    case("an entry is added", ["R1.cfg:9 + 15 permit tcp any any eq 443 [list IN] | does"], {"by 1"},
         ("R1", " 20 permit udp", " 15 permit tcp any any eq 443\n 20 permit udp")),
    case("an entry is removed", ["R1.cfg:9 - 20 permit udp any any eq 53 [list IN] | does"], {"by 1"}, ("R1", " 20 permit udp any any eq 53\n", "")),
    case("an entry is replaced", ["R1.cfg:9 - 20 permit udp any any eq 53; R1.cfg:9 + 20 permit udp any any eq 123 [list IN] | does"], {"by 1"},
         ("R1", "eq 53", "eq 123")),
    case("an entry moves", ["R1.cfg:11 - 40 deny ip any any; R1.cfg:10 + 25 deny ip any any [list IN] | does"], {"by 1"},
         ("R1", " 40 deny ip any any\n", ""), ("R1", " 30 permit", " 25 deny ip any any\n 30 permit")),
    case("an entry shadows a later one", ["R1.cfg:8 + 5 deny tcp any 10.2.0.0 0.0.0.255 [list IN] | does"], {"by 1"},
         ("R1", " 10 permit", " 5 deny tcp any 10.2.0.0 0.0.0.255\n 10 permit")),
    case("an entry shadows another new one", [
        "R1.cfg:8 + 5 permit tcp any any eq 8080 [list IN] | does",
        "R1.cfg:11 + 25 permit tcp any host 10.2.0.7 eq 8080 [list IN] | idle: `permit tcp any host 10.2.0.7 eq 8080` decides no packet, "
        "behind `permit tcp any any eq 8080` (R1.cfg:8)"], {"by 1"},
         ("R1", " 10 permit", " 5 permit tcp any any eq 8080\n 10 permit"), ("R1", " 30 permit", " 25 permit tcp any host 10.2.0.7 eq 8080\n 30 permit")),
    case("a permit behind deny ip any any", ["R1.cfg:12 + 50 permit tcp any any eq 25 [list IN] | idle: `permit tcp any any eq 25` decides no packet, "
                                             "behind `deny ip any any` (R1.cfg:11)"], set(),
         ("R1", " 40 deny ip any any\n", " 40 deny ip any any\n 50 permit tcp any any eq 25\n")),
    case("a denial before the end", ["R1.cfg:11 + 35 deny tcp any any [list IN] | idle: the list passes the same packets without `deny tcp any any`, "
                                     "beside `permit tcp any any eq 80` (R1.cfg:8), `permit tcp any 10.2.0.0 0.0.0.255 eq 22` (R1.cfg:10)"], set(),
         ("R1", " 40 deny", " 35 deny tcp any any\n 40 deny")),
    case("a port by its name", ["R1.cfg:8 - 10 permit tcp any any eq 80; R1.cfg:8 + 10 permit tcp any any eq www [list IN] | idle: "
                                "both entries match the same packets"], set(), ("R1", "any any eq 80", "any any eq www")),
    case("an entry logs", ["R1.cfg:8 - 10 permit tcp any any eq 80; R1.cfg:8 + 10 permit tcp any any eq 80 log [list IN] | idle: "
                           "both entries match the same packets"], set(), ("R1", "any any eq 80", "any any eq 80 log")),
    case("entries are numbered anew", [], set(),
         ("R1", " 10 permit", " 100 permit"), ("R1", " 20 permit", " 200 permit"), ("R1", " 30 permit", " 300 permit"), ("R1", " 40 deny", " 400 deny")),
    case("a numbered list is written as a named one", [], set(),
         ("both R2", "ip access-list extended UNUSED\n 10 permit ip any any\n", "access-list 150 permit tcp any any\naccess-list 150 permit udp any any\n"),
         ("R2", "access-list 150 permit tcp any any\naccess-list 150 permit udp any any\n",
          "ip access-list extended 150\n permit tcp any any\n permit udp any any\n")),
    case("packets to a multicast address alone", ["R1.cfg:11 + 35 permit ip any host 224.0.0.5 [list IN] | idle: `permit ip any host 224.0.0.5` decides "
                                                  "packets to multicast or broadcast addresses alone: the model drops these, a router may take them "
                                                  "itself (multicast)"], set(), ("R1", " 40 deny", " 35 permit ip any host 224.0.0.5\n 40 deny")),
    case("OSPF is taken out", ["R1.cfg:11 - 35 permit ospf any host 224.0.0.6 [list IN] | idle: `permit ospf any host 224.0.0.6` decides packets to "
                               "multicast or broadcast addresses alone: the model drops these, a router may take them itself (OSPF, multicast)"], set(),
         ("both R1", " 40 deny", " 35 permit ospf any host 224.0.0.6\n 40 deny"), ("R1", " 35 permit ospf any host 224.0.0.6\n", "")),
    case("OSPF to any address is taken out", ["R1.cfg:11 - 35 permit ospf any any [list IN] | does | packets to multicast or broadcast addresses meet it too, "
                                              "of which the model says nothing: a router may take them itself (OSPF)"], {"by 1"},
         ("both R1", " 40 deny", " 35 permit ospf any any\n 40 deny"), ("R1", " 35 permit ospf any any\n", "")),
    case("DHCP is taken out", ["R1.cfg:11 - 35 permit udp any any eq bootps [list IN] | does | packets to multicast or broadcast addresses meet it too, of "
                               "which the model says nothing: a router may take them itself (DHCP)"], {"by 1"},
         ("both R1", " 40 deny", " 35 permit udp any any eq bootps\n 40 deny"), ("R1", " 35 permit udp any any eq bootps\n", "")),
    case("a remark", ["R1.cfg:8 + remark web [list IN] | quiet: a remark"], set(), ("R1", " 10 permit", " remark web\n 10 permit")),
    # ---- where lists stand
    case("a list that no interface names", ["R2.cfg:18 - 10 permit ip any any; R2.cfg:18 + 10 permit tcp any any [list UNUSED] | idle: "
                                            "no interface names list UNUSED"], set(), ("R2", "10 permit ip any any", "10 permit tcp any any")),
    case("a new list that no interface names", ["R2.cfg:20 + permit ip any any [list FRESH] | idle: no interface names list FRESH"], set(),
         ("R2", "ip nat inside source", "ip access-list extended FRESH\n permit ip any any\nip nat inside source")),
    case("what names the list is passed over", [
        "R2.cfg:21 + permit ip any any [list FRESH] | idle: no interface names list FRESH; what names it is passed over: `ip access-grp FRESH in` (R2.cfg:8)",
        "R2.cfg:8 + ip access-grp FRESH in [Ethernet1] | idle: passed over"], set(),
         ("R2", " ip nat outside\n", " ip nat outside\n ip access-grp FRESH in\n"),
         ("R2", "ip nat inside source", "ip access-list extended FRESH\n permit ip any any\nip nat inside source")),
    case("an abbreviated command", [
        "R1.cfg:4 - ip access-group IN in [Ethernet0] | does", "R1.cfg:4 + ip acc IN in [Ethernet0] | idle: passed over, looks like "
        "ip access-group"], {"by 1"}, ("R1", "ip access-group IN in", "ip acc IN in")),
    case("a list of an interface that is shut", ["R2.cfg:19 - 10 permit ip any any; R2.cfg:19 + 10 permit tcp any any [list UNUSED] | idle: "
                                                 "list UNUSED is on no interface that is up: Ethernet3 is shut"], set(),
         ("both R2", " description spare\n", " description spare\n ip access-group UNUSED in\n"), ("R2", "10 permit ip any any", "10 permit tcp any any")),
    case("a list is taken off", ["R2.cfg:10 - ip access-group SERVERS out [Ethernet2] | does"], {"by 1"}, ("R2", " ip access-group SERVERS out\n", "")),
    case("another list is put on", ["R2.cfg:10 - ip access-group SERVERS out; R2.cfg:10 + ip access-group UNUSED out [Ethernet2] | does"], {"by 1"},
         ("R2", " ip access-group SERVERS out", " ip access-group UNUSED out")),
    case("a list that isn't there", ["R2.cfg:8 + ip access-group NOLIST in [Ethernet1] | idle: list NOLIST has no entry in the new network, so it passes "
                                     "every packet"], set(), ("R2", " ip nat outside\n", " ip nat outside\n ip access-group NOLIST in\n")),
    case("a list on an interface that is shut", ["R2.cfg:13 + ip access-group UNUSED in [Ethernet3] | idle: Ethernet3 is shut"], set(),
         ("R2", " shutdown\n", " ip access-group UNUSED in\n shutdown\n")),
    case("a new interface with a list", [
        "R2.cfg:13 + ip address 10.3.0.1 255.255.255.0 [Ethernet3] | does", "R2.cfg:13 - shutdown [Ethernet3] | does",
        "R2.cfg:14 + ip access-group SERVERS out [Ethernet3] | does"], {"by 1 2", "by 1 2 3"},
         ("R2", " description spare\n shutdown\n", " description spare\n ip address 10.3.0.1 255.255.255.0\n ip access-group SERVERS out\n")),
    # ---- interfaces
    case("an interface is shut", ["R2.cfg:9 + shutdown [Ethernet2] | does"], {"by 1"}, ("R2", "interface Ethernet2\n", "interface Ethernet2\n shutdown\n")),
    case("an interface without an address is up", ["R2.cfg:13 - shutdown [Ethernet3] | idle: Ethernet3 has no address"], set(), ("R2", " shutdown\n", "")),
    case("an address on an interface that is shut", ["R2.cfg:13 + ip address 10.3.0.1 255.255.255.0 [Ethernet3] | idle: Ethernet3 is shut"], set(),
         ("R2", " description spare\n", " description spare\n ip address 10.3.0.1 255.255.255.0\n")),
    case("no shutdown of what is up", ["R2.cfg:9 + no shutdown [Ethernet2] | idle: it says what is so already"], set(),
         ("R2", "interface Ethernet2\n", "interface Ethernet2\n no shutdown\n")),
    case("a secondary address", ["R2.cfg:10 + ip address 10.2.1.1 255.255.255.0 secondary [Ethernet2] | does"], {"by 1"},
         ("R2", " ip address 10.2.0.1 255.255.255.0\n", " ip address 10.2.0.1 255.255.255.0\n ip address 10.2.1.1 255.255.255.0 secondary\n")),
    case("a subnet is numbered anew", ["R2.cfg:9 - ip address 10.2.0.1 255.255.255.0; R2.cfg:9 + ip address 10.2.5.1 255.255.255.0 [Ethernet2] | does"],
         {"by 1"}, ("R2", " ip address 10.2.0.1 255.255.255.0\n", " ip address 10.2.5.1 255.255.255.0\n")),
    case("a mask", ["R2.cfg:9 - ip address 10.2.0.1 255.255.255.0; R2.cfg:9 + ip address 10.2.0.1 255.255.255.128 [Ethernet2] | does"], {"by 1"},
         ("R2", " ip address 10.2.0.1 255.255.255.0\n", " ip address 10.2.0.1 255.255.255.128\n")),
    case("an interface that was shut is gone", [
        "R2.cfg:11 - interface Ethernet3 [Ethernet3] | idle: Ethernet3 is shut", "R2.cfg:13 - shutdown [Ethernet3] | idle: Ethernet3 has no address",
        "R2.cfg:12 - description spare [Ethernet3] | quiet: passed over"], set(), ("R2", "interface Ethernet3\n description spare\n shutdown\n", "")),
    case("a subnet moves to another interface, refused one by one", [
        "R2.cfg:9 - ip address 10.2.0.1 255.255.255.0 [Ethernet2], together with R2.cfg:12 + ip address 10.2.0.1 255.255.255.0 [Ethernet3] | does",
        "R2.cfg:13 - shutdown [Ethernet3] | does"], {"by 1 2"},
         ("R2", " ip address 10.2.0.1 255.255.255.0\n ip access-group SERVERS out\n", " ip access-group SERVERS out\n"),
         ("R2", " description spare\n shutdown\n", " description spare\n ip address 10.2.0.1 255.255.255.0\n")),
    case("a description", ["R2.cfg:12 - description spare; R2.cfg:12 + description spare port [Ethernet3] | quiet: passed over"], set(),
         ("R2", "description spare", "description spare port")),
    # ---- routes
    case("a route is added", ["R2.cfg:21 + ip route 10.8.0.0 255.255.0.0 Null0 | does"], {"by 1"},
         ("R2", "ip route 10.1", "ip route 10.8.0.0 255.255.0.0 Null0\nip route 10.1")),
    case("a route is removed", ["R2.cfg:21 - ip route 10.1.0.0 255.255.255.0 10.0.12.1 | does"], {"by 1"},
         ("R2", "ip route 10.1.0.0 255.255.255.0 10.0.12.1\n", "")),
    case("a next hop within the provider's subnet", [
        "R2.cfg:20 - ip route 0.0.0.0 0.0.0.0 203.0.113.6; R2.cfg:20 + ip route 0.0.0.0 0.0.0.0 203.0.113.4 | idle: outcomes don't name the next hop: R2 sends "
        "203.0.113.77 by `Ethernet1 next 203.0.113.6` without it, by `Ethernet1 next 203.0.113.4` with it"], set(), ("R2", "203.0.113.6\n", "203.0.113.4\n")),
    case("a backup", ["R2.cfg:21 + ip route 0.0.0.0 0.0.0.0 10.0.12.1 250 | backup: R2 sends 203.0.113.77 by `Ethernet1 next 203.0.113.6` with and without "
                      "it. A backup of distance 250: `./sweep compare` shows what it does when a link fails"], set(),
         ("R2", "ip route 10.1", "ip route 0.0.0.0 0.0.0.0 10.0.12.1 250\nip route 10.1")),
    case("the name of a route", ["R2.cfg:20 - ip route 0.0.0.0 0.0.0.0 203.0.113.6; R2.cfg:20 + ip route 0.0.0.0 0.0.0.0 203.0.113.6 name ISP | idle: the "
                                 "routes differ in their names or tags alone"], set(), ("R2", "203.0.113.6\n", "203.0.113.6 name ISP\n")),
    case("routes in another order", [], set(),
         ("R2", "ip route 0.0.0.0 0.0.0.0 203.0.113.6\nip route 10.1.0.0 255.255.255.0 10.0.12.1\n",
          "ip route 10.1.0.0 255.255.255.0 10.0.12.1\nip route 0.0.0.0 0.0.0.0 203.0.113.6\n")),
    case("a route within another one", ["R1.cfg:13 + ip route 10.9.1.0 255.255.255.0 Null0 | idle: R1 sends 10.9.1.5 by `discard` with and without it"], set(),
         ("R1", "ip route 10.9", "ip route 10.9.1.0 255.255.255.0 Null0\nip route 10.9")),
    case("a route by the device itself", ["R2.cfg:21 + ip route 10.77.0.0 255.255.0.0 10.0.12.2 | idle: the next hop is the device itself, so it is never "
                                          "valid"], set(), ("R2", "ip route 10.1", "ip route 10.77.0.0 255.255.0.0 10.0.12.2\nip route 10.1")),
    # ---- translation
    case("a rule for another host", ["R2.cfg:19 - ip nat inside source static 10.1.0.9 203.0.113.5; R2.cfg:19 + ip nat inside source static 10.1.0.10 "
                                     "203.0.113.5 | does"], {"by 1"}, ("R2", "static 10.1.0.9 203", "static 10.1.0.10 203")),
    case("a rule for a port", ["R2.cfg:19 + ip nat inside source static tcp 10.2.0.9 80 203.0.113.4 80 | does"], {"by 1"},
         ("R2", "ip nat inside source", "ip nat inside source static tcp 10.2.0.9 80 203.0.113.4 80\nip nat inside source")),
    case("an outer rule", ["R2.cfg:19 + ip nat outside source static 203.0.113.6 10.8.0.6 | does"], {"by 1"},
         ("R2", "ip nat inside source", "ip nat outside source static 203.0.113.6 10.8.0.6\nip nat inside source")),
    case("a side is taken off", ["R2.cfg:7 - ip nat outside [Ethernet1] | does"], {"by 1"}, ("R2", " ip nat outside\n", "")),
    case("a rule without a side outside", ["R2.cfg:18 - ip nat inside source static 10.1.0.9 203.0.113.5; R2.cfg:18 + ip nat inside source static 10.1.0.10 "
                                           "203.0.113.5 | idle: no interface of R2 that is up is `ip nat outside`"], set(),
         ("both R2", " ip nat outside\n", ""), ("R2", "static 10.1.0.9", "static 10.1.0.10")),
    case("a side where no rule is", ["R1.cfg:5 + ip nat inside [Ethernet0] | idle: R1 has no rule of translation"], set(),
         ("R1", " ip access-group IN in\n", " ip access-group IN in\n ip nat inside\n")),
    # ---- devices and links
    case("a hostname", [
        "R2.cfg:1 - hostname R2 | does", "R2.cfg:1 + hostname R9 | does",
        "old-links:1 - p2p R1 Ethernet1 R2 Ethernet0; new-links:1 + p2p R1 Ethernet1 R9 Ethernet0 | does"], {"by 1", "by 2", "by 2 3"},
         ("R2", "hostname R2", "hostname R9"), ("links", "R2 Ethernet0", "R9 Ethernet0"), ("links", "R2 Ethernet1", "R9 Ethernet1")),
    case("a device on no link", ["R3.cfg:1 + hostname R3 | idle: no packet that enters at an ingress ends otherwise without this device"], set(),
         ("R3", None, "hostname R3\ninterface Ethernet0\n ip address 10.0.12.9 255.255.255.252\n")),
    case("a link is gone", ["old-links:1 - p2p R1 Ethernet1 R2 Ethernet0 | does"], {"by 1"}, ("links", "p2p R1 Ethernet1 R2 Ethernet0\n", "")),
    case("a link becomes a lan", ["old-links:1 - p2p R1 Ethernet1 R2 Ethernet0; new-links:1 + lan R1 Ethernet1 R2 Ethernet0 | does"], {"by 1"},
         ("links", "p2p R1", "lan R1")),
    # ---- several lines
    case("two lines are needed for some packets", [
        "R1.cfg:9 + 15 permit tcp any any eq 443 [list IN] | does", "R2.cfg:16 + 15 permit tcp any host 10.2.0.9 eq 443 [list SERVERS] | does"],
         {"by 1", "by 2", "by 1 2"}, ("R1", " 20 permit udp", " 15 permit tcp any any eq 443\n 20 permit udp"),
         ("R2", " 20 deny", " 15 permit tcp any host 10.2.0.9 eq 443\n 20 deny")),
    case("its packets end behind", [
        "R1.cfg:11 + 35 permit tcp any host 10.2.0.9 eq 8080 [list IN] | idle: R1 treats some packets otherwise, but they end alike: tcp 10.1.0.7 -> "
        "10.2.0.9:8080 from R1 Ethernet0 is dropped at R2 by list SERVERS, `20 deny ip any any log` (R2.cfg:16)"], set(),
         ("R1", " 40 deny", " 35 permit tcp any host 10.2.0.9 eq 8080\n 40 deny")),
    case("its packets end before", [
        "R2.cfg:16 + 15 permit udp any host 10.2.0.9 eq 514 [list SERVERS] | idle: it does something to packets that come in at R2, but to none that enters "
        "at an ingress: udp 10.1.0.7 -> 10.2.0.9:514 from R1 Ethernet0 is dropped at R1 by list IN, `40 deny ip any any` (R1.cfg:11)"], set(),
         ("both links", "ingress R2 Ethernet1\n", ""), ("R2", " 20 deny", " 15 permit udp any host 10.2.0.9 eq 514\n 20 deny")),
    case("two lines cancel each other", [
        "R1.cfg:13 - ip route 10.9.0.0 255.255.0.0 Null0 | beside", "R1.cfg:13 + ip route 10.9.0.0 255.255.128.0 Null0 | holds back",
        "R1.cfg:14 + ip route 10.9.128.0 255.255.128.0 Null0 | holds back"], set(),
         ("R1", "ip route 10.9.0.0 255.255.0.0 Null0\n", "ip route 10.9.0.0 255.255.128.0 Null0\nip route 10.9.128.0 255.255.128.0 Null0\n")),
    case("either of two would do it", [
        "R2.cfg:6 - ip address 203.0.113.1 255.255.255.248 [Ethernet1] | beside", "R2.cfg:6 + shutdown [Ethernet1] | beside",
        "R2.cfg:7 - ip nat outside [Ethernet1] | beside"], {"any 1 2"},
         ("R2", " ip address 203.0.113.1 255.255.255.248\n ip nat outside\n", " shutdown\n")),
    case("only two together, of two in each list", [
        "R1.cfg:9 + 15 permit tcp any host 10.2.0.9 eq 443 [list IN] | does",
        "R1.cfg:12 + 35 permit tcp 10.0.0.0 0.255.255.255 host 10.2.0.9 eq 443 [list IN] | idle: `permit tcp 10.0.0.0 0.255.255.255 host 10.2.0.9 eq 443` "
        "decides no packet, behind `permit tcp any host 10.2.0.9 eq 443` (R1.cfg:9)",
        "R2.cfg:16 + 15 permit tcp any host 10.2.0.9 eq 443 [list SERVERS] | does",
        "R2.cfg:17 + 16 permit tcp 10.0.0.0 0.255.255.255 host 10.2.0.9 eq 443 [list SERVERS] | beside"], {"by 1 3", "all 1 2", "by 3", "any 3 4"},
         ("R1", " 20 permit udp", " 15 permit tcp any host 10.2.0.9 eq 443\n 20 permit udp"),
         ("R1", " 40 deny", " 35 permit tcp 10.0.0.0 0.255.255.255 host 10.2.0.9 eq 443\n 40 deny"),
         ("R2", " 20 deny", " 15 permit tcp any host 10.2.0.9 eq 443\n 16 permit tcp 10.0.0.0 0.255.255.255 host 10.2.0.9 eq 443\n 20 deny")),
    case("one line on two devices", ["R1.cfg:14 + ip route 10.60.0.0 255.255.0.0 Null0, and alike on R2 | does"], {"by 1"},
         ("R1", "255.255.0.0 Null0\n", "255.255.0.0 Null0\nip route 10.60.0.0 255.255.0.0 Null0\n"),
         ("R2", "ip route 10.1", "ip route 10.60.0.0 255.255.0.0 Null0\nip route 10.1")),
    case("one line on interfaces of one name, of other subnets", ["R1.cfg:6 + shutdown [Ethernet1] | does", "R2.cfg:6 + shutdown [Ethernet1] | does"],
         {"by 1", "by 2", "any 1 2"},
         ("R1", "interface Ethernet1\n", "interface Ethernet1\n shutdown\n"), ("R2", "interface Ethernet1\n", "interface Ethernet1\n shutdown\n")),
    case("2,000 entries are one hunk", [
        "R1.cfg:11 + permit tcp any host 10.2.0.0 eq 81; R1.cfg:12 + permit tcp any host 10.2.0.1 eq 81 and 1998 more [list IN] "
        "| does"], {"by 1"},
         ("R1", " 40 deny", "".join(" permit tcp any host 10.2.%d.%d eq 81\n" % (number // 200, number % 200) for number in range(2000)) + " deny")),
    case("200 routes by one next hop are one hunk", ["R2.cfg:21 + ip route 10.50.0.0 255.255.255.0 10.0.12.1; R2.cfg:22 + ip route 10.50.1.0 255.255.255.0 "
                                                     "10.0.12.1 and 198 more | does"], {"by 1"},
         ("R2", "ip route 10.1.0.0", "".join("ip route 10.50.%d.0 255.255.255.0 10.0.12.1\n" % number for number in range(200)) + "ip route 10.1.0.0")),
)


class Scratch(unittest.TestCase):
    """A folder with the two networks of a change."""

    def setUp(self):
        scratch = tempfile.TemporaryDirectory(prefix="diqenyu-test-")
        self.addCleanup(scratch.cleanup)
        self.scratch = scratch.name

    def path(self, *names):
        return os.path.join(self.scratch, *names)

    def write_networks(self, edits):
        """Writes the network before and after these edits; the link tables."""
        sides = {"old": dict(NET), "new": dict(NET)}
        for device, text, other in edits:
            for side in ("old", "new") if device.startswith("both ") else ("new",):
                known = sides[side]
                name = device.replace("both ", "")
                self.assertTrue(text is None or text in known[name], (name, text))
                known[name] = other if text is None else known[name].replace(text, other, 1)
        for side, texts in sides.items():
            shutil.rmtree(self.path(side), ignore_errors=True)
            os.mkdir(self.path(side))
            for name, text in texts.items():
                with open(self.path(side + "-links") if name == "links" else self.path(side, name + ".cfg"), "w", encoding="utf-8") as stream:
                    stream.write(text)
        same = sides["old"]["links"] == sides["new"]["links"]
        return [self.path("old-links")] + ([] if same else [self.path("new-links")])

    def causes(self, tables, places=OwnPlaces(), folders=None):
        """What each line does, and the report; None where the comparison is refused."""
        old, new = folders or (self.path("old"), self.path("new"))
        with open(self.path("report"), "wb") as output:
            status = subprocess.run([*command_of("review"), "compare", old, new, *tables], stdout=output, stderr=subprocess.DEVNULL,
                                    check=False).returncode
        if status > 1:
            return None, None
        work = tempfile.mkdtemp(dir=self.scratch)
        report = found_in(self.path("report"))
        return find_causes(old, new, tables, report, work, places), report


def verdict(causes, line):
    """What is said of a line, in a word and with its reason."""
    idle = {one.line: ("backup: " if one.backup else "quiet: " if one.quiet else "idle: ") + one.reason for one in causes.idle}
    if line.number in idle:
        return idle[line.number]
    if any(one.line == line.number for one in causes.beside):
        return "beside"
    return ("holds back" if line.number in causes.holds_back else "does") + (" | " + causes.notes[line.number] if line.number in causes.notes else "")


def answers_of(causes, report):
    """What the parts of a report come of, with lines counted from 1."""
    answered = causes.of(parts_of(report, lambda old, new: ""))
    return {" ".join([cause.how, *(str(line + 1) for line in cause.lines)]) for _, cause in answered}


class Cases(Scratch):
    """The table of changes."""

    def test_cases(self):
        for name, expected, wanted, edits in CASES:
            with self.subTest(name):
                causes, report = self.causes(self.write_networks(edits))
                self.assertIsNotNone(causes)
                self.assertEqual(["%s | %s" % (line.said(), verdict(causes, line)) for line in causes.lines], expected)
                self.assertEqual(answers_of(causes, report), wanted)


class Tickets(Scratch):
    """Five tickets: the file `lines` of each has by hand what each line does, and what the groups of each kind come of."""

    def test_tickets(self):
        here = os.path.join(TOP, "examples", "tickets")
        for ticket in ("database", "second-uplink", "voice", "server-moves", "wan-retired"):
            with self.subTest(ticket):
                links = [os.path.join(here, "links")]
                tables = links + [path for path in [os.path.join(here, ticket, "newlinks")] if os.path.exists(path)]
                causes, report = self.causes(tables, folders=(os.path.join(here, "old"), os.path.join(here, ticket, "new")))
                told = ["%d %s | %s" % (line.number + 1, line.said(), verdict(causes, line)) for line in causes.lines]
                answered = causes.of(parts_of(report, kind_of))
                groups = {" ".join([part.kind, cause.how, *(str(line + 1) for line in cause.lines)]) for part, cause in answered}
                with open(os.path.join(here, ticket, "lines"), encoding="utf-8") as stream:
                    self.assertEqual(told + sorted(groups), stream.read().splitlines())


class Prepared(Scratch):
    """Lines of prepared texts are told as those of the engineer's own files, with the numbers of the device."""

    def test_places(self):
        class Places:
            def place(self, path, line):
                return SimpleNamespace(path="own-R1.cfg", line=109, entry=15) if line == 9 else None

            def written(self, path, line):
                return " permit tcp any any eq 443"

            def shown(self, path, line):
                return "own-%s:%d" % (os.path.basename(path), 100 + line)

        tables = self.write_networks([("both R1", " 10 permit", " 10000 permit"), ("both R1", " 20 permit", " 20000 permit"),
                                      ("both R1", " 30 permit", " 30000 permit"), ("both R1", " 40 deny", " 40000 deny"),
                                      ("R1", " 20000 permit", " 15000 permit tcp any any eq 443\n 20000 permit")])
        causes, _ = self.causes(tables, places=Places())
        self.assertEqual([line.said() for line in causes.lines], ["own-R1.cfg:109 + 15 permit tcp any any eq 443 [list IN]"])


class Laws(Scratch):
    """The laws, on random changes of random networks."""

    def test_laws(self):
        count = dict.fromkeys(("networks", "lines", "one", "by", "any", "all", "rest"), 0)
        for seed in range(FIRST_LAW, FIRST_LAW + LAWS):
            subprocess.run([sys.executable, "tests/random_networks.py", self.scratch, str(seed)], cwd=TOP, check=True)
            tables = [self.path("links")] + ([self.path("newlinks")] if seed % 3 == 0 else [])
            causes, report = self.causes(tables)
            if causes is None:
                continue
            with self.subTest(seed):
                effects = causes.search.effects
                count["networks"] += 1
                count["lines"] += len(effects)
                self.assertTrue(effects or not report.rows)
                if len(effects) == 1:
                    count["one"] += 1
                    self.assertEqual(effects[0].by, report)
                parts = parts_of(report, lambda old, new: "")
                answered = causes.of(parts)
                self.check_parts(parts, answered)
                for part, cause in answered:
                    count[cause.how] += 1
                for part, cause in answered[:3]:
                    self.check_header(causes, part, cause)
                for line in {cause.lines[0] for _, cause in answered[:2]}:
                    self.check_rest(causes, report, line)
                    count["rest"] += 1
        self.assertGreater(count["networks"], LAWS * 0.8)
        self.assertGreater(count["one"], LAWS * 0.05)
        self.assertGreater(count["by"], LAWS)
        self.assertGreater(count["any"], LAWS * 0.02)
        self.assertGreater(count["rest"], LAWS * 0.5)

    def check_parts(self, parts, answered):
        """The cut parts are disjoint and together the parts."""
        pieces = {}
        for part, _ in answered:
            pieces.setdefault((part.ingress, part.old, part.new), []).append(part.headers)
        for part in parts:
            mine = pieces.pop((part.ingress, part.old, part.new))
            self.assertEqual(union(mine), part.headers)
            self.assertEqual(sum(headers.size() for headers in mine), part.headers.size())
        self.assertEqual(pieces, {})

    def check_rest(self, causes, report, line):
        """What the change does without a line: what it does with it, but where the line does something; there the old outcome is that of the
        report, or the new one where the report has no row, and the new outcome is the one without the line."""
        wanted = {}

        def put(ingress, old, new, headers):
            if headers and old != new:
                alike = wanted.setdefault(ingress, {})
                alike[old, new] = alike.get((old, new), Headers.none()) | headers

        by = causes.search.effects[line].by
        for ingress, places in report.places.items():
            for (old, new), headers in places.items():
                put(ingress, old, new, headers - by.at(ingress))
        for ingress, places in by.places.items():
            for (without, new), headers in places.items():
                for (old, _), some in report.places.get(ingress, {}).items():
                    put(ingress, old, without, headers & some)
                put(ingress, new, without, headers - report.at(ingress))
        self.assertEqual(causes.without([line]).places, wanted)

    def check_header(self, causes, part, cause):
        """What the rules say of one header of a part, in the networks without lines and with lines alone."""
        header, place = rules.header_of(header_of(part.headers.boxes()[-1])), tuple(part.ingress.split(" "))
        networks, effects = causes.search.networks, causes.search.effects

        def outcome(network):
            with open(network.links, encoding="utf-8") as stream:
                return rules.label_text(rules.Network(rules.load(network.folder), stream.read()).label(place, header, 255))

        def without(lines):
            return outcome(networks.without(causes.hunks_of(lines)))

        new = outcome(networks.new())
        self.assertEqual((outcome(networks.old()), new), (" | ".join(part.old), " | ".join(part.new)))
        needed = tuple(line for line in range(len(effects)) if without([line]) != new)
        enough = tuple(line for line in range(len(effects)) if effects[line].alone is not None and outcome(networks.alone(effects[line].unit)) == new)
        if needed:
            self.assertEqual(cause, Cause("by", needed))
        elif enough:
            self.assertEqual(cause, Cause("any", enough))
        else:
            self.assertEqual(cause.how, "all")
            self.assertNotEqual(without(cause.lines), new)
            for line in cause.lines:
                self.assertEqual(without(set(cause.lines) - {line}), new)


class Runs(Scratch):
    """How the comparisons are made, and what is told where they can't be."""

    def write(self, name, text, mode=0o644):
        with open(self.path(name), "w", encoding="utf-8") as stream:
            stream.write(text)
        os.chmod(self.path(name), mode)
        return self.path(name)

    def forget(self):
        for known in (jobs.command, jobs.bounded):
            known.cache_clear()

    def with_program(self, name, text):
        """A stand-in for a program in all calls of this test."""
        variable = "DIQENYU_" + name.upper()
        before = os.environ.get(variable)
        os.environ[variable] = self.write(name, text, 0o755)
        self.addCleanup(self.forget)
        self.addCleanup(lambda: os.environ.pop(variable) if before is None else os.environ.update({variable: before}))
        self.forget()

    def test_variants(self):
        """Variants in one run give what comparisons one by one do, also where some of them are refused."""
        edits = [edits for name, _, _, edits in CASES if name in (
            "two lines are needed for some packets", "a subnet moves to another interface, refused one by one", "a hostname", "a device on no link")]
        wanted = []
        for stand_in in (False, True):
            if stand_in:
                self.with_program("rollout", VARIANTS % {"python": sys.executable, "review": json.dumps(list(command_of("review"))),
                                                         "log": self.path("asked")})
            for some in edits:
                causes, report = self.causes(self.write_networks(some))
                told = [(line.said(), verdict(causes, line)) for line in causes.lines], answers_of(causes, report)
                wanted.append(told) if not stand_in else self.assertEqual(told, wanted.pop(0))
        with open(self.path("asked"), encoding="utf-8") as stream:
            self.assertGreater(len(stream.read().split()), 2)

    def test_variants_that_are_too_many(self):
        """What `rollout variants` doesn't take is compared one by one."""
        edits = next(edits for name, _, _, edits in CASES if name == "two lines are needed for some packets")
        text = "#!/bin/bash\nif [ $# = 0 ]; then printf 'usage:\\n  variants NET LINKS VARIANTS\\n' >&2; exit 2; fi\n"
        self.with_program("rollout", text + "echo asked >>%s\nexit 5\n" % self.path("asked"))
        causes, report = self.causes(self.write_networks(edits))
        self.assertEqual(answers_of(causes, report), {"by 1", "by 2", "by 1 2"})
        self.assertTrue(os.path.exists(self.path("asked")))

    def test_reading_that_is_wrong(self):
        """Where a network that is written here isn't that of the folder, nothing is told of lines."""
        tables = self.write_networks([("R1", "eq 53", "eq 123")])
        real = rendering.device_lines
        self.addCleanup(lambda: setattr(rendering, "device_lines", real))
        rendering.device_lines = lambda *words: [line for line in real(*words) if "access-group" not in line[0]]
        with self.assertRaises(Unfaithful):
            self.causes(tables)

    def window(self, *words):
        done = subprocess.run(["./window", self.path("old"), self.path("new"), *words], cwd=TOP, stdin=subprocess.DEVNULL, stdout=subprocess.PIPE,
                              stderr=subprocess.PIPE, check=False)
        return done.returncode, done.stdout.decode(), done.stderr.decode()

    def test_job_that_dies(self):
        """A job that is killed is told with its status, and nothing is written."""
        tables = self.write_networks([("R1", "eq 53", "eq 123")])
        self.with_program("review", "#!/bin/bash\ncase $2 in */network-*) kill -9 $$;; esac\nexec %s \"$@\"\n" % " ".join(command_of("review")))
        self.assertEqual(self.window(*tables), (137, "", "review: status 137\n"))
        status, told, errors = self.window(*tables, "--no-lines")
        self.assertEqual((status, errors), (1, ""))
        self.assertNotIn("lines:", told)

    def test_progress(self):
        """A terminal is told how far the jobs are where they take longer than two seconds, and a file never is."""
        tables = self.write_networks([("R1", "eq 53", "eq 123")])
        self.with_program("review", "#!/bin/bash\ncase $2 in */network-*) sleep 4;; esac\nexec %s \"$@\"\n" % " ".join(command_of("review")))
        for wanted in (False, True):
            mine, theirs = os.openpty()
            running = subprocess.Popen(["./window", self.path("old"), self.path("new"), *tables], cwd=TOP, stdin=subprocess.DEVNULL,
                                       stdout=subprocess.DEVNULL, stderr=theirs if wanted else subprocess.PIPE)
            errors = running.communicate()[1]
            os.close(theirs)
            if wanted:
                errors = os.read(mine, 100000)
            os.close(mine)
            self.assertEqual(running.returncode, 1)
            self.assertEqual(b"window: looking at each changed line: " in errors, wanted)

    def test_interrupted(self):
        """Where the window is ended, so are its jobs, and nothing stays of them."""
        tables = self.write_networks([("R1", "eq 53", "eq 123")])
        begun, temporary = self.path("begun"), self.path("temporary")
        os.mkdir(temporary)
        self.with_program("review", "#!/bin/bash\ncase $2 in */network-*) echo $$ >>%s; exec sleep 60;; esac\nexec %s \"$@\"\n"
                          % (begun, " ".join(command_of("review"))))
        running = subprocess.Popen(["./window", self.path("old"), self.path("new"), *tables], cwd=TOP, stdin=subprocess.DEVNULL,
                                   stdout=subprocess.PIPE, stderr=subprocess.PIPE,
                                   env=dict(os.environ, TMPDIR=temporary))
        end = time.monotonic() + 60
        while not os.path.exists(begun) and time.monotonic() < end:
            time.sleep(0.05)
        running.send_signal(signal.SIGTERM)
        output, errors = running.communicate(timeout=50)
        self.assertEqual((running.returncode, output, errors), (130, b"", b"window: interrupted\n"))
        self.assertEqual(os.listdir(temporary), [])
        with open(begun, encoding="utf-8") as stream:
            for number in stream.read().split():
                self.assertFalse(os.path.exists("/proc/" + number))

    def test_texts_of_the_window(self):
        tables = self.write_networks([("R1", " 40 deny ip any any\n", " 40 deny ip any any\n 50 permit tcp any any eq 25\n")])
        status, told, errors = self.window(*tables)
        self.assertEqual((status, errors), (1, ""))
        self.assertIn("\nwithout effect: R1.cfg:12 + 50 permit tcp any any eq 25 [list IN]\n"
                      "    `permit tcp any any eq 25` decides no packet, behind `deny ip any any` (R1.cfg:11)\n", told)

    def test_rest_of_the_verdict(self):
        """Without the line that closes, what another one opens at both ingresses stays, and what the line holds back opens too: names and shells."""
        tables = self.write_networks([("R2", " ip access-group SERVERS out\n", ""),
                                      ("R1", " 10 permit", " 5 deny ip any host 10.2.0.9\n 10 permit")])
        with open(self.path("expect"), "w", encoding="utf-8") as stream:
            stream.write("may opens any\n")
        status, told, errors = self.window(*tables, "--expect", self.path("expect"))
        self.assertEqual((status, errors), (1, ""))
        self.assertIn("\nAll of it comes of R1.cfg:8 + 5 deny ip any host 10.2.0.9 [list IN]. Without it the change still does the rest: opens 2, "
                      "and something else instead: opens 1.\n", told)

    def test_folders_that_are_equal(self):
        tables = self.write_networks([])
        _, told, errors = self.window(*tables)
        self.assertEqual(errors, "")
        self.assertIn("\npackets: nothing changes: both folders have the same 2 files, byte for byte", told)
        self.assertNotIn("without effect", told)


class Least(unittest.TestCase):
    """A set of lines of which none can be left out, whatever taking back other sets does."""

    def test_least(self):
        draw = random.Random(6)
        for _ in range(300):
            changing = {frozenset(some) for count in range(6) for some in itertools.combinations(range(5), count) if draw.random() < 0.3}
            changing = (changing - {frozenset()}) | {frozenset(range(5))}
            causes = Causes(SimpleNamespace(effects=[None] * 5), [])
            causes.outcome = lambda lines, ingress, header: "drop" if lines in changing else "exit R1 Ethernet1"
            found = causes.least("R1 Ethernet0", "")
            self.assertIn(found, changing)
            self.assertFalse([line for line in found if found - {line} in changing])


class Needed(Scratch):
    """What is taken back besides, by what a refusal names: its line, else its word, else its device, else all."""

    def test_needed(self):
        tables = self.write_networks([("R1", " 20 permit udp", " 15 permit tcp any any eq 443\n 20 permit udp"), ("R1", "Null0\n", "Null0 7\n"),
                                      ("R2", "ip route 10.1", "ip route 10.8.0.0 255.255.0.0 Null0\nip route 10.1")])
        work = self.path("work")
        os.mkdir(work)
        networks = rendering.networks_of(rendering.folders_of(self.path("old"), self.path("new")), tables, {}, work)
        entry, route, other = (next(hunk.number for hunk in networks.change.hunks if hunk.section.startswith(section))
                               for section in ("list IN", "route 10.9", "route 10.8"))
        none = frozenset()
        lines = [words for words, _ in networks.device_lines("R1", none)]
        place = "refused %s/%s line %d " % (networks.new().folder, networks.files["R1"], lines.index(" 20 permit tcp any any eq 443") + 1)
        self.assertEqual(networks.needed(none, place + "OverlapOnDevice 10.99.0.1"), {entry})
        self.assertEqual(networks.needed(frozenset([entry]), place + "BadWord Null0"), {route})
        self.assertEqual(networks.needed(frozenset([entry]), place + "OverlapOnDevice 10.99.0.1"), {route})
        self.assertEqual(networks.needed(frozenset([entry, route]), place + "OverlapOnDevice 10.99.0.1"), {other})
        self.assertEqual(networks.needed(none, "refused %s line 1 AddressTwice 10.8.0.0" % networks.new().links), {other})


class Hunks(Scratch):
    """How many hunks a change has."""

    def count(self, finer, *edits):
        self.write_networks(edits)
        devices = [{name: hunks.read_device(self.path(side, name + ".cfg")) for name in ("R1", "R2")} for side in ("old", "new")]
        return len(hunks.change_of(*devices, [self.path("old-links")], finer).hunks)

    def test_each_other_entry(self):
        """2,000 changed entries, each other one of its list, are at most 16 hunks, and with --finer each is one."""
        entries = [" permit tcp any host 10.2.%d.%d eq 81\n" % (number // 200, number % 200) for number in range(4000)]
        other = [entry.replace("81", "8%d" % (1 + number % 2)) for number, entry in enumerate(entries)]
        edits = ("both R1", " 40 deny", "".join(entries) + " deny"), ("R1", "".join(entries), "".join(other))
        self.assertEqual(self.count(False, *edits), 16)
        self.assertEqual(self.count(True, *edits), 2000)

    def test_long_run(self):
        """A run of 300 entries in the place of 300 others is one hunk, and with --finer each is one."""
        old, new = ("".join(" permit tcp any host %s.%d.%d eq 81\n" % (net, number // 200, number % 200) for number in range(300))
                    for net in ("10.2", "10.3"))
        edits = ("both R1", " 40 deny", old + " deny"), ("R1", old, new)
        self.assertEqual(self.count(False, *edits), 1)
        self.assertEqual(self.count(True, *edits), 600)

    def test_routes_that_differ(self):
        """200 routes, each by another next hop."""
        routes = "".join("ip route 10.50.%d.0 255.255.255.0 10.0.12.%d\n" % (number, number) for number in range(200))
        edits = ("R2", "ip route 10.1.0.0", routes + "ip route 10.1.0.0"),
        self.assertLessEqual(self.count(False, *edits), 16)
        self.assertEqual(self.count(True, *edits), 200)


if __name__ == "__main__":
    unittest.main(warnings="ignore")
