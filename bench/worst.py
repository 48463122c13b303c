#!/usr/bin/env python3
"""Writes the texts that need the most memory for their bytes: a folder of configurations of 64 MiB, twice, and a link table.

    worst.py FOLDER KIND [MEBIBYTES]

KIND is what stands in line after line: interfaces, addresses (interfaces with one each), secondary (addresses of one interface), standard
or extended (entries of a list), ports (entries with ten ports each), lists, remarks, routes, hosts (routes to hosts), rules (of
translation), banner, passed or blank. Four files of MEBIBYTES / 4 each (16) are the most that a folder may have; the first file of
FOLDER/new has an interface more.
"""
import os
import sys


def dotted(first, n):
    return "%d.%d.%d.%d" % (first, n >> 16 & 255, n >> 8 & 255, n & 255)


# The lines in front, and the line of each number.
KINDS = {
    "interfaces": ("", lambda n: "interface %x\n" % n),
    "addresses": ("", lambda n: "interface %x\n ip address %s 255.255.255.255\n" % (n, dotted(10, n))),
    "secondary": ("interface E0\n", lambda n: " ip address %s 255.255.255.255 secondary\n" % dotted(10, n)),
    "standard": ("ip access-list standard a\n", lambda n: " permit any\n"),
    "extended": ("ip access-list extended a\n", lambda n: " permit 1 any any\n"),
    "ports": ("ip access-list extended a\n", lambda n: " permit 6 any eq 1 2 3 4 5 6 7 8 9 0 any eq 1 2 3 4 5 6 7 8 9 0\n"),
    "lists": ("", lambda n: "ip access-list standard a%x\n" % n),
    "remarks": ("ip access-list standard a\n", lambda n: " remark\n"),
    "routes": ("", lambda n: "ip route 0.0.0.0 0.0.0.0 %s\n" % dotted(1, n)),
    "hosts": ("", lambda n: "ip route %s 255.255.255.255 Null0\n" % dotted(1, n)),
    "rules": ("", lambda n: "ip nat inside source static %s %s\n" % (dotted(1, n), dotted(2, n))),
    "banner": ("banner motd #\n", lambda n: "\n"),
    "passed": ("", lambda n: "x\n"),
    "blank": ("", lambda n: "\n"),
}


def text(device, kind, size, more):
    """A configuration of at most so many bytes."""
    front, line = KINDS[kind]
    end = "#\n" if kind == "banner" else ""
    last = "interface added\n ip address 9.9.9.9 255.255.255.0\n" if more else ""
    entrance = "interface E0\n ip address 9.9.8.1 255.255.255.0\n ip access-group a in\n"
    lines = ["hostname R%d\n" % device, entrance, front]
    room = size - sum(map(len, lines)) - len(end) - len(last)
    if line(0) == line(1):
        lines.append(line(0) * (room // len(line(0))))
        room = 0
    n = 0
    while n < 1 << 24:
        it = line(n)
        room -= len(it)
        if room < 0:
            break
        lines.append(it)
        n += 1
    return "".join(lines) + end + last


def main():
    folder, kind = sys.argv[1:3]
    size = int(float(sys.argv[3] if len(sys.argv) > 3 else 64) * 2**20) // 4
    for version in ("old", "new"):
        os.makedirs(f"{folder}/{version}", exist_ok=True)
    for device in range(4):
        old = text(device, kind, size, False)
        for version, it in (("old", old), ("new", text(device, kind, size, True) if device == 0 else old)):
            with open(f"{folder}/{version}/R{device}.cfg", "w") as file:
                file.write(it)
    with open(f"{folder}/links", "w") as file:
        file.write("ingress R0 E0\n")


main()
