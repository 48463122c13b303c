"""Reads the output of `show ip route` as routes. What isn't understood, and a table that isn't whole, is refused with its line."""
import os
import re
from dataclasses import dataclass, field, replace
from typing import Optional

import textfsm  # type: ignore[import]

from .addresses import address_of, dotted, holds, length_of, mask_of, natural_length
from .faults import Refused
from .texts import read_lines

TEMPLATES = os.path.join(os.path.dirname(os.path.abspath(__file__)), "templates")

# The codes of the legend: the first one of a line, and those that may stand behind it. What a flag behind them says of a route
# (that it is replicated from another table, or that its next hop is overridden) is in no text here, so such a route is refused.
CODES = set("L C S R M B D O I E U i o P H l a".split())
SUBCODES = {
    "O": {"IA", "N1", "N2", "E1", "E2"},
    "D": {"EX"},
    "i": {"L1", "L2", "ia", "su"},
    "U": set(),
}
FLAGS = {"+", "%", "&", "p"}
# Where textfsm would divide a line of its own accord.
DIVIDING = re.compile("[\x0b\x0c\r\x1c-\x1e]")


@dataclass(frozen=True)
class Route:
    """One way of a route, as the table has it: without a next hop it is directly connected; a next hop alone is looked up again.
    A candidate, with a star, may be the network through which the gateway of last resort came."""

    prefix: int
    length: int
    code: str
    distance: int
    hop: int
    interface: str
    line: int
    candidate: bool = False

    def text(self):
        """The prefix with its length."""
        return "%s/%d" % (dotted(self.prefix), self.length)


@dataclass
class Table:
    """A table of routes; the gateway is the next hop of last resort, and `default` the network through which it came."""

    path: str
    routes: list = field(default_factory=list)
    gateway: Optional[int] = None
    default: Optional[int] = None
    gateway_line: int = 0
    name: Optional[str] = None


def parsed(template, path):
    """The records of a text by a template: a dictionary for each line that says something."""
    lines = read_lines(path)
    for line in lines:
        if DIVIDING.search(line.text):
            raise line.refused("ControlCharacter", "0x%02x" % ord(DIVIDING.search(line.text).group()))
    with open(os.path.join(TEMPLATES, template), encoding="ascii") as file:
        machine = textfsm.TextFSM(file)
    text = "".join("%d|%s\n" % (line.number, line.text) for line in lines)
    try:
        rows = machine.ParseText(text)
    except textfsm.TextFSMError as error:
        number = int(re.search(r"Input Line: (\d+)\|", str(error)).group(1))
        words = lines[number - 1].words()
        raise Refused(path, number, "UnknownLine", words[0] if words else "") from None
    names = [name.lower() for name in machine.header]
    return [dict(zip(names, row)) for row in rows]


class Reader:
    """Puts the lines of one file together: headers, routes with further ways, wrapped lines."""

    def __init__(self, path):
        self.path = path
        self.tables = []
        self.headers = []
        self.prefixes = set()
        self.open_entry = None
        self.wrapped = None
        self.row = None

    def refused(self, kind, word=""):
        """The refusal of the line that is read."""
        return Refused(self.path, int(self.row["line"]), kind, word)

    def address(self, word):
        """The address of a word of the line."""
        address = address_of(word)
        if address is None:
            raise self.refused("BadWord", word)
        return address

    def length(self, word):
        """A length, written with a stroke or as a mask; None where none is written."""
        if word == "":
            return None
        if word[0] == "/":
            if int(word[1:]) > 32:
                raise self.refused("BadMask", word)
            return int(word[1:])
        length = length_of(self.address(word.strip()))
        if length is None:
            raise self.refused("BadMask", word.strip())
        return length

    def read(self, rows):
        """The tables of the file."""
        for self.row in rows:
            if self.wrapped is not None and not self.is_interface_alone():
                raise self.refused("InterfaceMissing")
            if self.row["table"]:
                self.begin(self.row["table"])
            elif self.row["unset"] or self.row["gateway"]:
                self.read_gateway()
            elif self.row["major"]:
                self.read_header()
            elif self.is_interface_alone():
                self.read_interface_alone()
            else:
                self.read_way()
        if self.wrapped is not None:
            raise self.refused("InterfaceMissing")
        self.end()
        return self.tables

    def is_interface_alone(self):
        """Whether the line is an interface alone, the rest of the line above."""
        return bool(self.row["interface"]) and not (self.row["code"] or self.row["hop"] or self.row["direct"] or self.row["summary"])

    def begin(self, name):
        """Begins a table; one without a name begins at its gateway."""
        self.end()
        self.tables.append(Table(self.path, name=name))

    def end(self):
        """Ends a table: an entry without a way, or headers whose count is another, mean that lines are missing."""
        if self.open_entry is not None and not self.open_entry["ways"]:
            raise Refused(self.path, self.open_entry["line"], "WayMissing", self.open_entry["text"])
        if self.tables:
            check_counts(self.path, self.tables[-1], self.headers)
        self.headers, self.open_entry, self.prefixes = [], None, set()

    def read_gateway(self):
        """The gateway of last resort, with which a table begins."""
        if not self.tables or self.tables[-1].gateway_line or self.tables[-1].routes:
            self.begin(None)
        table = self.tables[-1]
        table.gateway_line = int(self.row["line"])
        if self.row["gateway"]:
            table.gateway, table.default = self.address(self.row["gateway"]), self.address(self.row["default"])

    def read_header(self):
        """The line above the subnets of a network."""
        major, length = self.address(self.row["major"]), self.length(self.row["majorlength"])
        natural = natural_length(major)
        if natural is None or major & ~mask_of(natural):
            raise self.refused("BadWord", self.row["major"])
        variably = bool(self.row["masks"])
        if not variably and length is None:
            raise self.refused("BadMask", self.row["major"])
        self.close_entry()
        self.headers.append({
            "line": int(self.row["line"]), "network": major, "natural": natural, "length": None if variably else length,
            "subnets": int(self.row["subnets"]), "masks": int(self.row["masks"]) if variably else 1,
        })

    def close_entry(self):
        """Ends an entry, which has to have a way."""
        if self.open_entry is not None and not self.open_entry["ways"]:
            raise Refused(self.path, self.open_entry["line"], "WayMissing", self.open_entry["text"])
        self.open_entry = None

    def prefix_length(self, prefix):
        """The length of a prefix that is written without one: that of its header, or else by its class."""
        natural = natural_length(prefix)
        if natural is None:
            raise self.refused("BadWord", self.row["prefix"])
        for header in reversed(self.headers):
            if holds(header["network"], header["natural"], prefix):
                if header["length"] is None:
                    raise self.refused("LengthMissing", self.row["prefix"])
                return header["length"]
        return natural

    def read_code(self):
        """The first code of the line, with the one behind it."""
        first, *rest = self.row["code"].replace("*", " ").split()
        if first not in CODES:
            raise self.refused("UnknownCode", first)
        for word in rest:
            if word in FLAGS:
                raise self.refused("NotCovered", word)
            if word not in SUBCODES.get(first, ()):
                raise self.refused("UnknownCode", word)
        return " ".join([first] + rest)

    def open(self):
        """Begins the entry of a prefix."""
        self.close_entry()
        if not self.tables:
            raise self.refused("UnknownLine", self.row["code"])
        prefix, length = self.address(self.row["prefix"]), self.length(self.row["length"])
        if length is None:
            length = self.prefix_length(prefix)
        if prefix & ~mask_of(length):
            raise self.refused("HostBits", self.row["prefix"])
        if (prefix, length) in self.prefixes:
            raise self.refused("PrefixTwice", self.row["prefix"])
        self.prefixes.add((prefix, length))
        self.open_entry = {
            "prefix": prefix, "length": length, "code": self.read_code(), "line": int(self.row["line"]), "ways": 0,
            "text": self.row["prefix"], "candidate": "*" in self.row["code"],
        }

    def read_way(self):
        """A route, or a further way of it."""
        if self.row["code"]:
            self.open()
            if not (self.row["hop"] or self.row["direct"] or self.row["summary"]):
                return
        if self.open_entry is None:
            raise self.refused("PrefixMissing", self.row["hop"] or self.row["interface"])
        entry = self.open_entry
        entry["ways"] += 1
        hop = self.address(self.row["hop"]) if self.row["hop"] else None
        distance = int(self.row["distance"]) if self.row["distance"] else None
        if distance is not None and not 1 <= distance <= 254:
            raise self.refused("BadWord", self.row["distance"])
        if self.row["interface"] == "Null0" or self.row["summary"]:
            hop = None
        interface = self.row["interface"] or None
        if interface is None and (self.row["comma"] or hop is None):
            self.wrapped = entry
        elif self.row["comma"]:
            raise self.refused("ExtraWord", ",")
        route = Route(
            entry["prefix"], entry["length"], entry["code"], distance, hop, interface, int(self.row["line"]), entry["candidate"])
        self.check(route)
        self.tables[-1].routes.append(route)

    def check(self, route):
        """All ways of one prefix stand in one entry, with one distance."""
        if route.hop == 0 and self.wrapped is None:
            raise self.refused("BadWord", "0.0.0.0")
        others = [other for other in self.tables[-1].routes[-1:] if (other.prefix, other.length) == (route.prefix, route.length)]
        if others and others[0].distance is not None and route.distance not in (None, others[0].distance):
            raise self.refused("BadWord", str(route.distance))

    def read_interface_alone(self):
        """Gives the interface to the way of the line above."""
        if self.wrapped is None:
            raise self.refused("UnknownLine", self.row["interface"])
        last = self.tables[-1].routes.pop()
        hop = None if self.row["interface"] == "Null0" else last.hop
        self.tables[-1].routes.append(replace(last, hop=hop, interface=self.row["interface"]))
        self.wrapped = None


def check_counts(path, table, headers):
    """What the headers count is there: a table that was cut, or of which a part was asked, isn't taken for the whole."""
    by_network = {}
    for prefix, length in {(route.prefix, route.length) for route in table.routes}:
        natural = natural_length(prefix)
        if natural is not None and length >= natural:
            by_network.setdefault(prefix & mask_of(natural), set()).add((prefix, length))
    for header in headers:
        inside = by_network.get(header["network"], set())
        if len(inside) != header["subnets"]:
            raise Refused(path, header["line"], "SubnetsMissing", "%d of %d" % (len(inside), header["subnets"]))
        if len({length for _, length in inside}) != header["masks"]:
            raise Refused(path, header["line"], "SubnetsMissing", "masks")


def default_ways(table):
    """The ways of the network by which the gateway of last resort came. It has a star, unlike a longer prefix with the same address."""
    return [route for route in table.routes if route.prefix == table.default and (route.candidate or (table.default, route.length) == (0, 0))]


def check_gateway(table):
    """The gateway of last resort is a way of the network that it names, and a default route has one."""
    path, line = table.path, table.gateway_line
    defaults = [route for route in table.routes if (route.prefix, route.length) == (0, 0)]
    if table.gateway is None:
        if defaults:
            raise Refused(path, defaults[0].line, "GatewayDiffers", "0.0.0.0/0")
        return
    ways = default_ways(table)
    if not any((route.hop or 0) == table.gateway for route in ways):
        raise Refused(path, line, "GatewayDiffers", dotted(table.gateway))
    if table.default != 0 and any(way.distance is None for way in ways):
        raise Refused(path, line, "NotCovered", dotted(table.default))
    if table.default == 0 and not defaults:
        raise Refused(path, line, "GatewayDiffers", dotted(table.default))


def read_routes(path, vrf=None):
    """The table of a file: that of the VRF, or the global one."""
    reader = Reader(path)
    tables = reader.read(parsed("show_ip_route.textfsm", path))
    chosen = [table for table in tables if table.name == vrf]
    if not chosen:
        raise Refused(path, 0, "NoTable", vrf or "")
    if len(chosen) > 1:
        raise Refused(path, chosen[1].gateway_line, "TableTwice", vrf or "")
    table = chosen[0]
    if not table.gateway_line:
        raise Refused(path, 0, "NoTable", vrf or "")
    check_gateway(table)
    if table.gateway is not None and table.default != 0:
        # The ways of the network by which the gateway came are those of the default route.
        table.routes += [replace(way, prefix=0, length=0) for way in default_ways(table)]
    return table
