#!/usr/bin/env python3
"""Writes variants of the first network of a folder that networks.py made, each of one device, and thins out the ingresses of its link table:
in the file `variants` so many, of which every third sends a subnet at a spine to nowhere, every third one at a leaf, and every third
loses an interface of a spine.

    variants.py FOLDER INGRESSES VARIANTS
"""
import os
import re
import sys

import edits


def without_route(text, number):
    """The text with a route to nowhere in the place of its route of this number."""
    routes = re.findall(r"^ip route .*$", text, re.M)
    route = routes[number % len(routes)]
    return text.replace(route + "\n", " ".join(route.split()[:4] + ["Null0"]) + "\n", 1)


def without_interface(text, number):
    """The text with one interface shut."""
    interfaces = re.findall(r"^interface .*$", text, re.M)
    interface = interfaces[number % len(interfaces)]
    return text.replace(interface + "\n", interface + "\n shutdown\n", 1)


def by_number(names):
    return sorted(names, key=lambda name: int(re.sub(r"\D", "", name)))


def variant(texts, entered, number):
    """The text of a device in the variant of this number."""
    spines = by_number(name for name in texts if name.startswith("Spine"))
    spine = number % len(spines)
    # Of a spine that has a share of the subnets this is one that it is sent packets for.
    own = spine + len(spines) * (number + 1)
    if number % 3 == 0:
        return without_route(texts[spines[spine]], own)
    if number % 3 == 1:
        return without_route(texts[entered[number % len(entered)]], 7 * number)
    return without_interface(texts[spines[spine]], own)


def main():
    folder, ingresses, count = sys.argv[1], int(sys.argv[2]), int(sys.argv[3])
    edits.thin(folder, ingresses)
    texts = edits.configurations(folder)
    with open(os.path.join(folder, "links")) as lines:
        entered = [line.split()[1] for line in lines if line.startswith("ingress ")]
    os.makedirs(os.path.join(folder, "changes"), exist_ok=True)
    with open(os.path.join(folder, "variants"), "w") as lines:
        for number in range(count):
            text = variant(texts, entered, number)
            path = os.path.join(folder, "changes", "%d.cfg" % number)
            with open(path, "w") as file:
                file.write(text)
            lines.write("variant v%d\nchange %s\n" % (number, path))


if __name__ == "__main__":
    main()
