#!/usr/bin/env python3
"""Writes a folder of three configurations with small random access lists, of which many entries can go.

    random_lists.py FOLDER SEED LISTS
"""
import os
import random
import sys

ADDRESSES = ["any", "any", "host 10.0.0.1", "10.0.0.0 0.0.0.255", "10.0.0.0 0.0.0.127", "10.0.0.128 0.0.0.127", "10.0.0.0 0.0.1.255"]
ADDRESSES += ["10.0.0.0 0.0.255.0", "10.0.0.1 0.0.0.254", "0.0.0.0 127.255.255.255", "128.0.0.0 127.255.255.255", "10.0.0.0 0.255.255.255"]
PORTS = ["", "", " eq 80", " eq domain 443", " neq 80", " gt 1023", " lt 1024", " range 80 90", " lt 80", " gt 65535", " lt 0", " range 0 65535"]
FLAGS = ["", "", " established", " syn", " match-all +syn -ack", " match-any +fin -psh", " match-any +ack +rst"]
TYPES = ["", "", " echo", " echo-reply", " 3 1", " unreachable"]


class Maker:
    def __init__(self, seed):
        self.random = random.Random(seed)

    def pick(self, *items):
        return self.random.choice(items)

    def source(self):
        return self.random.choice(ADDRESSES)

    def extended(self):
        protocol = self.pick("ip", "ip", "tcp", "tcp", "udp", "icmp", "50")
        line = self.pick("permit", "permit", "deny") + " " + protocol + " " + self.source()
        if protocol in ("tcp", "udp"):
            line += self.random.choice(PORTS)
        line += " " + self.source()
        if protocol in ("tcp", "udp"):
            line += self.random.choice(PORTS)
        if protocol == "tcp":
            line += self.random.choice(FLAGS)
        if protocol == "icmp":
            line += self.random.choice(TYPES)
        return line

    def entry(self, extended):
        return self.extended() if extended else self.pick("permit", "deny") + " " + self.source()

    def list(self, number):
        """The lines of a list with a name or a number of its own."""
        kind = self.pick("named", "named", "numbered", "standard")
        extended = kind != "standard"
        entries = [self.entry(extended) for _ in range(self.pick(1, 2, 3, 4, 5, 6))]
        if self.random.random() < 0.1:
            entries = []
        if self.random.random() < 0.4 and extended:
            entries.append(self.pick("permit", "deny", "deny") + " ip any any")
        if kind == "named":
            # Written in any order: what counts are the sequence numbers.
            numbers = self.random.sample(range(1, 100), len(entries))
            lines = [" %d %s" % pair for pair in zip(numbers, entries)]
            return ["ip access-list extended L%d" % number] + self.pick([], [" remark of list %d" % number]) + lines
        head = "access-list %d " % (number + (100 if extended else 0))
        return [head + entry for entry in entries] or [head + "remark nothing yet"]


def main():
    folder, seed, lists = sys.argv[1], sys.argv[2], int(sys.argv[3])
    os.makedirs(folder, exist_ok=True)
    maker = Maker(seed)
    for file in range(3):
        lines = ["hostname R%d" % file]
        for number in range(1 + file, 1 + lists, 3):
            lines += maker.list(number)
        with open(os.path.join(folder, "R%d.cfg" % file), "w") as out:
            out.write("\n".join(lines) + "\n")


main()
