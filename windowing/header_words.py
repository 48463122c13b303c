#!/usr/bin/env python3
"""Words for the numbers of headers and questions: `tcp`, `https`, and places of the network for their addresses.

    header_words.py HEADER FOLDER ...     prints HEADER in numbers; a place `DC1:Vlan30` is the address of its interface in these folders

A word that isn't known stays in a question, where `review` refuses it; of a header it is told, with status 2.
"""
from __future__ import annotations

import os
import re
import sys

sys.path.insert(0, os.path.dirname(os.path.dirname(os.path.abspath(__file__))))

from preparing import names  # noqa: E402
from preparing.addresses import address_of, dotted, mask_of  # noqa: E402
from preparing.blocks import blocks_of  # noqa: E402
from preparing.entries import FLAGS, ICMP, PROTOCOLS, TCP, UDP  # noqa: E402
from preparing.facts import interfaces_of  # noqa: E402
from preparing.faults import Fault  # noqa: E402
from preparing.texts import read_lines  # noqa: E402

# IANA: service names that access lists of IOS have not.
SERVICES = {"dns": 53, "http": 80, "https": 443, "imaps": 993, "ldap": 389, "ldaps": 636, "mysql": 3306, "ntp": 123, "radius": 1812,
            "rdp": 3389, "sip": 5060, "smb": 445, "snmp": 161, "ssh": 22, "submission": 587}
PORTS = {**SERVICES, **UDP, **names.UDP, **TCP, **names.TCP}
PROTOCOL_NUMBERS = {**PROTOCOLS, **names.PROTOCOLS}
FLAG_BITS = dict(fin=1, syn=2, rst=4, psh=8, ack=16, urg=32)
HOSTNAME = re.compile(rb"^hostname[ \t]+(\S+)", re.MULTILINE)


class Unknown(Exception):
    """A word that stands for nothing here."""


class Places:
    """The addresses of interfaces, looked up in folders of configurations when they are asked for."""

    def __init__(self, folders: list[str]):
        self.folders, self.devices = folders, {}  # type: ignore[var-annotated]

    def subnet(self, device: str, interface: str) -> tuple[int, int] | None:
        """The primary address of an interface with its length, in the first folder that has one."""
        for folder in self.folders:
            path = self.files(folder).get(device)
            if path is not None:
                try:
                    found = interfaces_of(blocks_of(read_lines(path))).get(interface)
                except Fault:
                    continue
                if found is not None and found.primary:
                    return found.primary
        return None

    def files(self, folder: str) -> dict[str, str]:
        """The configurations of a folder by their hostnames."""
        if folder not in self.devices:
            self.devices[folder] = {}
            for name in sorted(os.listdir(folder)) if os.path.isdir(folder) else []:
                if name.endswith(".cfg") and os.path.isfile(os.path.join(folder, name)):
                    with open(os.path.join(folder, name), "rb") as stream:
                        for found in HOSTNAME.findall(stream.read()):
                            self.devices[folder][found.decode("utf-8", "surrogateescape")] = os.path.join(folder, name)
        return self.devices[folder]


def protocol_of(word: str) -> str:
    """The number of a protocol."""
    return str(PROTOCOL_NUMBERS.get(word, word))


def port_of(word: str, protocol: str) -> str:
    """The number of a port, by its name; for ICMP, type and code as the source port holds them."""
    if protocol == "1":
        known = ICMP.get(word) or names.ICMP.get(word)
        return str(known[0] * 256 + (known[1] if len(known) > 1 else 0)) if known else word
    if protocol == "17" and word in {**UDP, **names.UDP}:
        return str({**UDP, **names.UDP}[word])
    return str(PORTS.get(word, word))


def address_word(word: str, places: Places) -> str:
    """An address, or that of a place."""
    if address_of(word) is not None:
        return word
    device, _, interface = word.partition(":")
    found = places.subnet(device, interface)
    if found is None:
        raise Unknown(word)
    return dotted(found[0])


def flags_word(word: str) -> str:
    """The byte of flags, as a number or as their names: `syn+ack`; `-` for none."""
    if word == "-":
        return "0"
    if word.isdigit():
        return word
    if not all(one in FLAGS for one in word.split("+")):
        raise Unknown(word)
    return str(sum(FLAG_BITS[one] for one in set(word.split("+"))))


def number_word(word: str) -> str:
    """A number that has to stand there."""
    if not word.isdigit():
        raise Unknown(word)
    return word


def header_of(header: str, places: Places) -> str:
    """A header in numbers: destination, source, protocol, destination port, source port, flags."""
    words = header.split(",")
    if len(words) != 6:
        raise Unknown(header)
    protocol = number_word(protocol_of(words[2]))
    destination = words[3] if protocol != "1" else words[3] if words[3].isdigit() else "0"
    return ",".join([address_word(words[0], places), address_word(words[1], places), protocol, number_word(port_of(destination, protocol)),
                     number_word(port_of(words[4], protocol)), flags_word(words[5])])


def question_of(line: str, places: Places) -> str:
    """A line of questions in numbers; `here` and `there` are the subnets of the first and of the second place."""
    words = line.split()
    if not words or words[0] not in ("reach", "isolate", "noloop"):
        return line
    first = 3 if words[0] == "noloop" else 6
    named = {"here": words[1:3], "there": words[4:6] if first == 6 else []}
    fields = words[first:]
    protocol = next((protocol_of(value) for name, value in zip(fields[::2], fields[1::2]) if name == "proto"), "")
    for k in range(1, len(fields), 2):
        name, value = fields[k - 1], fields[k]
        if name == "proto":
            fields[k] = protocol_of(value)
        elif name in ("dport", "sport"):
            fields[k] = port_of(value, protocol)
        elif name in ("dst", "src") and len(named.get(value, [])) == 2:
            found = places.subnet(*named[value])
            fields[k] = value if found is None else "%s/%d" % (dotted(found[0] & mask_of(found[1])), found[1])
    return " ".join(words[:first] + fields)


def questions_of(content: bytes, places: Places) -> bytes:
    """A file of questions in numbers; the same bytes where no line has a word."""
    lines = content.decode("utf-8", "surrogateescape").split("\n")
    found = [question_of(line, places) for line in lines]
    if all(one.split() == other.split() for one, other in zip(found, lines)):
        return content
    return "\n".join(found).encode("utf-8", "surrogateescape")


def main() -> int:
    """Prints a header in numbers."""
    try:
        print(header_of(sys.argv[1], Places(sys.argv[2:])))
    except Unknown as unknown:
        print("view: %s isn't known in the header %s" % (unknown, sys.argv[1]), file=sys.stderr)
        return 2
    return 0


if __name__ == "__main__":
    sys.exit(main())
