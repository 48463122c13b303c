#!/usr/bin/env python3
"""Writes a change window over a random network: in the file `edits` single edits of it, in `steps` changed configurations that
replace one another, with the files in `changes/`, and in `held` questions that hold before all of them.

    random_windows.py FOLDER SEED

FOLDER is what random_networks.py wrote. Some steps bring the old configuration of a device back, some edits take back what an
earlier one did, and a list may lose its last entry.
"""
import os
import sys

import random_networks
import rules


def sections_of(text):
    """The lines of a configuration, each global command with those of its section."""
    sections = []
    for line in text.splitlines():
        if line.startswith(" "):
            sections[-1].append(line)
        else:
            sections.append([line])
    return sections


def text_of(sections):
    return "".join(line + "\n" for section in sections for line in section)


def steps(maker, old):
    """Some changed configurations, one after the other."""
    now = dict(old)
    written = []
    for _ in range(maker.pick(1, 2, 3, 4, 6)):
        name = maker.random.choice(list(old))
        sections = [section[:] for section in sections_of(now[name])]
        maker.change(sections)
        now[name] = old[name] if now[name] != old[name] and maker.chance(0.4) else text_of(sections)
        written.append(now[name])
    return written


def held(maker, network, places):
    """Questions that the network meets: of each the kind that does."""
    found = []
    for _ in range(12):
        words = maker.question(places).split()
        others = {"reach": "isolate", "isolate": "reach"}
        for kind in (words[0], others.get(words[0])):
            if kind and rules.least_breaking(network, [kind] + words[1:], 255) is None:
                found.append(" ".join([kind] + words[1:]))
                break
    return found[: maker.pick(2, 4, 6)]


def route_words(maker, device):
    """A route that is there, or any."""
    if device.routes and maker.chance(0.5):
        (prefix, length), name, next_hop, distance = maker.random.choice(device.routes)
        exits = [word for word in (name, rules.dotted(next_hop) if next_hop is not None else None) if word is not None]
        return " ".join([rules.dotted(prefix), rules.dotted(rules.first_bits(length))] + (exits or ["Null0"]) + [str(distance)])
    return maker.route(list(device.interfaces))[len("ip route "):]


def edit(maker, device):
    """An edit that isn't refused."""
    kind = maker.pick("entry", "entry", "no-entry", "route", "no-route")
    lists = [name for name, (_, entries) in device.lists.items() if kind == "entry" or entries]
    if kind == "no-route" and device.routes:
        (prefix, length), name, next_hop, distance = maker.random.choice(device.routes)
        exits = [word for word in (name, rules.dotted(next_hop) if next_hop is not None else None) if word is not None]
        return " ".join(["no-route", device.name, rules.dotted(prefix), rules.dotted(rules.first_bits(length))] + (exits or ["Null0"]) + [str(distance)])
    if kind in ("route", "no-route") or not lists:
        return "route %s %s" % (device.name, route_words(maker, device))
    name = maker.random.choice(lists)
    extended, entries = device.lists[name]
    if kind == "no-entry":
        return "no-entry %s %s %d" % (device.name, name, maker.random.choice(list(entries)))
    sequence = maker.random.choice([number for number in range(1, 60) if number not in entries])
    words = maker.entry() if extended else "%s %s" % (maker.pick("permit", "deny"), maker.source())
    return "entry %s %s %d %s" % (device.name, name, sequence, words)


def edits(maker, devices):
    lines = []
    for _ in range(maker.pick(1, 3, 5, 8)):
        device = maker.random.choice(devices)
        lines.append(edit(maker, device))
        rules.edit(device, lines[-1].split())
        if maker.chance(0.1):
            lines.append("! as it was")
    return lines


def main():
    folder, seed = sys.argv[1], int(sys.argv[2])
    maker = random_networks.Maker(seed + 1000003)
    old = {name[:-4]: open(os.path.join(folder, "old", name)).read() for name in sorted(os.listdir(os.path.join(folder, "old")))}
    devices = rules.load(os.path.join(folder, "old"))
    maker.addresses = [rules.dotted(address) for device in devices for interface in device.interfaces.values() for address, _ in interface.subnets()]
    places = ["%s %s" % (device.name, name) for device in devices for name in device.interfaces]
    network = rules.Network(devices, open(os.path.join(folder, "links")).read())
    random_networks.write_lines(folder, "held", held(maker, network, places))
    changes = os.path.join(folder, "changes")
    os.makedirs(changes, exist_ok=True)
    paths = []
    for number, text in enumerate(steps(maker, old), 1):
        paths.append(os.path.join(changes, "%d.cfg" % number))
        with open(paths[-1], "w") as file:
            file.write(text)
    random_networks.write_lines(folder, "steps", ["change " + path for path in paths])
    random_networks.write_lines(folder, "edits", edits(maker, rules.load(os.path.join(folder, "old"))))


if __name__ == "__main__":
    main()
