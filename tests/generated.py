#!/usr/bin/env python3
"""Writes the two networks that `gen NUMBER SIZE` compares, as files: a second opinion on how they are made.

    generated.py FOLDER NUMBER SIZE

It writes the folders `old` and `new`, the table `links`, and in the file `expected` the report on them, which follows from
how they are made. It shares no code with the program.
"""
import os
import sys


def draws(number):
    state = number
    while True:
        state = (state * 6364136223846793005 + 1442695040888963407) % 2**64
        yield 1 + (state // 2**33) % 60000


def device(version, size, j, ports):
    lines = ["hostname R%d" % j]
    if j > 1:
        lines += ["interface Ethernet0", " ip address 10.2.%d.2 255.255.255.252" % (j - 1)]
    if j < size:
        lines += ["interface Ethernet1", " ip address 10.2.%d.1 255.255.255.252" % j]
    lines += ["interface Ethernet2", " ip address 10.1.%d.1 255.255.255.0" % j]
    if j == 1:
        lines.append(" ip access-group 101 in")
    for i in range(1, size + 1):
        if i != j:
            lines.append("ip route 10.1.%d.0 255.255.255.0 10.2.%d.%d" % ((i, j - 1, 1) if i < j else (i, j, 2)))
    if j == 1:
        lines.append("ip access-list extended 101")
        for k, (p, _) in enumerate(ports, 1):
            lines.append(" %d permit tcp any 10.1.%d.0 0.0.0.255 eq %d" % (10 * k, k, p))
        if version == "new":
            for k, (_, q) in enumerate(ports, 1):
                lines.append(" %d permit udp any host 10.1.%d.9 eq %d" % (10 * (size + k), k, q))
    return lines


def report(size, ports):
    lines = ["ingress R1 Ethernet2 rows %d" % size]
    for j, (_, q) in enumerate(ports, 1):
        lines += ["dst 10.1.%d.9 src * proto 17 dport %d sport * flags *" % (j, q), "old drop", "new exit R%d Ethernet2" % j]
    return lines + ["ingress R%d Ethernet2 rows 0" % size, "affected %d" % size]


def write(path, lines):
    with open(path, "w") as file:
        file.write("".join(line + "\n" for line in lines))


def main():
    folder, number, size = sys.argv[1], int(sys.argv[2]), int(sys.argv[3])
    drawn = draws(number)
    ports = [(next(drawn), next(drawn)) for _ in range(size)]
    for version in ("old", "new"):
        os.makedirs(os.path.join(folder, version), exist_ok=True)
        for j in range(1, size + 1):
            write(os.path.join(folder, version, "R%d.cfg" % j), device(version, size, j, ports))
    links = ["p2p R%d Ethernet1 R%d Ethernet0" % (j, j + 1) for j in range(1, size)]
    write(os.path.join(folder, "links"), links + ["ingress R1 Ethernet2", "ingress R%d Ethernet2" % size])
    write(os.path.join(folder, "expected"), report(size, ports))


if __name__ == "__main__":
    main()
