#!/usr/bin/env python3
"""Prepares a folder that networks.py made for a review of edits: of its link table the ingresses are thinned out, and edits are written,
a text of each kind:

    none      no edit, so that the review is opened alone
    away      routes at leaves, or at the devices that there are, for addresses that no packet reaches there
    route     a route at a leaf to a subnet of another leaf, and away again
    entry     an entry in the list of a leaf, and away again
    spine     a route at a spine, and away again

    edits.py FOLDER INGRESSES EDITS
"""
import os
import re
import sys


def configurations(folder):
    path = os.path.join(folder, "old")
    texts = {}
    for name in sorted(os.listdir(path)):
        with open(os.path.join(path, name)) as file:
            texts[name[: -len(".cfg")]] = file.read()
    return texts


def thin(folder, count):
    """Leaves so many ingresses, evenly spread, of the link table; where it has fewer, those of other leaves are added."""
    path = os.path.join(folder, "links")
    with open(path) as file:
        lines = file.read().splitlines()
    links = [line for line in lines if not line.startswith("ingress ")]
    devices = [name for name in configurations(folder) if name.startswith("Leaf")]
    there = ["ingress %s Ethernet0" % name for name in devices] or [line for line in lines if line.startswith("ingress ")]
    step = max(1, len(there) // count)
    with open(path, "w") as file:
        file.write("".join(line + "\n" for line in links + there[::step][:count]))


def there_and_back(count, lines):
    """Each line and what takes it back, in turn, so many in all."""
    both = [side for line, back in lines for side in (line, back)]
    return [both[i % len(both)] for i in range(count)]


def route_of(device, words):
    return ("route %s %s" % (device, words), "no-route %s %s" % (device, words))


def first_list(text):
    found = re.search(r"^access-list (\S+) ", text, re.M)
    return found.group(1) if found else None


def kinds(texts, count):
    devices = list(texts)
    leaves = [name for name in devices if name.startswith("Leaf")] or devices
    spines = [name for name in devices if name.startswith("Spine")]
    chosen = leaves[:: max(1, len(leaves) // 10)][:10]
    subnets = re.findall(r"^ip route (\S+ \S+) ", texts[(spines or chosen)[0]], re.M)
    subnet = subnets[-1] if subnets else "10.9.9.0 255.255.255.0"
    host = subnet.split()[0].rsplit(".", 1)[0] + ".128 255.255.255.128"
    lists = [(name, first_list(texts[name])) for name in chosen]
    entries = [
        ("entry %s %s 2147483647 deny tcp any any eq 9" % one, "no-entry %s %s 2147483647" % one) for one in lists if one[1]
    ]
    return {
        "none": [],
        "away": there_and_back(count, [route_of(name, "192.168.%d.0 255.255.255.0 Null0" % i) for i, name in enumerate(chosen)]),
        "route": there_and_back(count, [route_of(name, host + " Null0") for name in chosen]),
        "entry": there_and_back(count, entries) if entries else [],
        "spine": there_and_back(count, [route_of(spines[0], host + " Null0")]) if spines else [],
    }


def main():
    folder, ingresses, count = sys.argv[1], int(sys.argv[2]), int(sys.argv[3])
    thin(folder, ingresses)
    for kind, lines in kinds(configurations(folder), count).items():
        with open(os.path.join(folder, kind), "w") as file:
            file.write("".join(line + "\n" for line in lines))


if __name__ == "__main__":
    main()
