#!/usr/bin/env python3
"""Writes a change window over a fabric that networks.py made: in the file `questions` what is asked, for the most part from leaf 1, and in
`steps` what changes: with `lists` a route or a list at one leaf after the other that no packet of a question meets, with `hops` one
of the equal next hops of leaf 1, which goes and comes back.

    rollout.py FOLDER LEAVES STEPS [lists|hops]
"""
import os
import sys


def asked(count):
    return (
        ["reach Leaf1 Ethernet0 to Leaf%d Ethernet0 dst 10.1.%d.7" % (leaf, leaf) for leaf in range(2, count + 1)]
        + ["isolate Leaf1 Ethernet0 to Leaf%d Ethernet0 dst 10.1.1.7" % leaf for leaf in range(2, count // 5 + 2)]
        + ["noloop Leaf%d Ethernet0 dst 10.1.0.0/16" % leaf for leaf in range(1, 2 * count // 5 + 1)]
    )


def with_list(text, step):
    """The configuration of a leaf with a route or a list for addresses that no leaf has."""
    if step % 2:
        return text + "ip route 192.168.%d.0 255.255.255.0 Null0\n" % step
    text = text.replace("interface Ethernet0\n", "interface Ethernet0\n ip access-group 101 in\n", 1)
    return text + "access-list 101 deny tcp any 192.168.%d.0 0.0.0.255 eq 23\naccess-list 101 permit ip any any\n" % step


def without_hop(text, step):
    """The configuration of leaf 1 without the first of its equal routes, or as it was."""
    first = next(line for line in text.splitlines() if line.startswith("ip route"))
    return text.replace(first + "\n", "", 1) if step % 2 else text


def main():
    folder, count, steps, kind = sys.argv[1], int(sys.argv[2]), int(sys.argv[3]), (sys.argv[4:] or ["lists"])[0]
    os.makedirs(os.path.join(folder, "changes"), exist_ok=True)
    lines = []
    for step in range(1, steps + 1):
        leaf = "Leaf%d" % (step % count + 1 if kind == "lists" else 1)
        with open(os.path.join(folder, "old", leaf + ".cfg")) as file:
            text = file.read()
        path = os.path.join(folder, "changes", "%d.cfg" % step)
        with open(path, "w") as file:
            file.write(with_list(text, step) if kind == "lists" else without_hop(text, step))
        lines.append("change %s\n" % path)
    for name, text in (("steps", "".join(lines)), ("questions", "".join(line + "\n" for line in asked(count)))):
        with open(os.path.join(folder, name), "w") as file:
            file.write(text)


if __name__ == "__main__":
    main()
