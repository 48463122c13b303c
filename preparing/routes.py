"""Routes as they stand: what a table of routes says takes the place of the routing protocols and the static routes of a text."""
import os

from .addresses import dotted, holds, mask_of
from .blocks import Block
from .facts import interfaces_of, is_static, static_of
from .faults import Refused
from .texts import Line

# The distances of summaries, which a table doesn't print (IOS: the discard routes of EIGRP and OSPF).
SUMMARY_DISTANCE = {"D": 5, "O": 110, "O IA": 110}
FROM_INTERFACES = ("C", "L")


def route_text(route, distance):
    """A route of the table as a line of a configuration."""
    words = ["ip", "route", dotted(route.prefix), dotted(mask_of(route.length))]
    words += [route.interface] if route.interface else []
    words += [dotted(route.hop)] if route.hop is not None else []
    return " ".join(words + ([str(distance)] if distance != 1 else []))


def gives(static, route):
    """Whether a static route of the text is this one of the table."""
    same_prefix = (static.prefix, static.length) == (route.prefix, route.length)
    if "dhcp" in static.line.words():
        return same_prefix and route.distance == static.distance
    return same_prefix and (static.interface, static.hop) == (route.interface, route.hop)


def by_prefix(routes):
    """Routes of a text or of a table by their prefixes: there may be thousands."""
    found = {}
    for route in routes:
        found.setdefault((route.prefix, route.length), []).append(route)
    return found


class Replacement:
    """The routes of one device."""

    def __init__(self, device, table, keep_static, told):
        self.device, self.table, self.keep_static, self.told = device, table, keep_static, told
        self.name = os.path.basename(table.path)
        self.interfaces = interfaces_of(device.blocks)
        self.statics = by_prefix(static_of(block.head) for block in device.blocks if is_static(block))
        self.table_statics = by_prefix(route for route in table.routes if route.code == "S")
        self.check_interfaces()

    def check_interfaces(self):
        """Each interface of the table is in the text, and some route of the table is that of an interface of the text."""
        for route in self.table.routes:
            if route.interface not in (None, "Null0") and route.interface not in self.interfaces:
                raise Refused(self.table.path, route.line, "UnknownInterface", route.interface)
        own = [route for route in self.table.routes if route.code in FROM_INTERFACES]
        if own and not any(self.is_by_interface(route) for route in own):
            raise Refused(self.table.path, own[0].line, "OtherDevice", self.device.name)
        if not own and any(interface.subnets() and not interface.shut for interface in self.interfaces.values()):
            raise Refused(self.table.path, 0, "NoConnected", self.device.name)

    def is_by_interface(self, route):
        """Whether a connected or local route is that of an address of its interface."""
        interface = self.interfaces.get(route.interface)
        if interface is None:
            return False
        return any(route.prefix == (address if route.length == 32 else address & mask_of(length)) and route.length in (length, 32)
                   for address, length in interface.subnets())

    def statics_of(self, route):
        """The static routes of the text that are this one of the table."""
        return [static for static in self.statics.get((route.prefix, route.length), []) if gives(static, route)]

    def distance(self, route):
        """The distance of a route of the table; the table has none for a route without next hop."""
        if route.distance is not None:
            return route.distance
        if route.code == "S":
            return next((static.distance for static in self.statics_of(route)), 1)
        if route.interface == "Null0" and route.code in SUMMARY_DISTANCE:
            return SUMMARY_DISTANCE[route.code]
        raise Refused(self.table.path, route.line, "DistanceMissing", route.code)

    def put(self):
        """Replaces the routes of the text."""
        blocks, place = [], None
        for block in self.device.blocks:
            if self.leave_out(block):
                place = len(blocks) if place is None else place
                # What stands below a line that goes, goes too; comments stay.
                blocks += [Block(None, block.comments())] if block.comments() else []
            else:
                blocks.append(block)
        if place is None:
            ends = [k for k, block in enumerate(blocks) if block.words() == ["end"]]
            place = ends[-1] if ends else len(blocks)
        blocks[place:place] = self.new_blocks()
        self.device.blocks = blocks
        self.tell_interfaces()

    def leave_out(self, block):
        """Whether the table takes the place of a block."""
        words = block.words()
        if words[:1] == ["router"]:
            self.told.block(block, "replaced", "%s has the routes" % self.name)
            return True
        if words[:2] == ["ip", "default-network"]:
            self.told.block(block, "replaced", "%s has the gateway of last resort" % self.name)
            return True
        if not is_static(block):
            return False
        static = static_of(block.head)
        there = any(gives(static, route) for route in self.table_statics.get((static.prefix, static.length), []))
        if self.keep_static:
            if not there:
                self.told.block(block, "kept", "it isn't in %s: it floats, or is not installed" % self.name)
            return False
        if there:
            self.told.block(block, "replaced", "%s has it" % self.name)
        else:
            self.told.block(block, "left out", "it isn't in %s: it floats, or is not installed; a new one is kept by --keep-static" % self.name)
        return True

    def new_blocks(self):
        """The lines of the table's routes, and what is told of them."""
        blocks, kept = [], 0
        for route in self.table.routes:
            if route.code in FROM_INTERFACES:
                continue
            if self.keep_static and route.code == "S" and route.length == 0 and self.table.default:
                # A default route by the network of a static route, which a ticket may change: no static route says that.
                raise Refused(self.table.path, self.table.gateway_line, "NotCovered", dotted(self.table.default))
            in_text = route.code == "S" and self.statics_of(route) != []
            if self.keep_static and route.code == "S":
                kept += in_text
                if not in_text:
                    self.tell(route, "left out", "no static route of the text gives it, and those of the text are kept")
                continue
            if route.code == "S" and not in_text:
                self.tell(route, "added", "no static route of the text gives it; to use the text's own, give --keep-static")
            if route.interface in self.interfaces and self.interfaces[route.interface].shut:
                self.tell(route, "added", "its interface is shut in the text, so it is never used")
            text = route_text(route, self.distance(route))
            blocks.append(Block(Line(text, self.table.path, route.line)))
        self.told.row(0, 0, "added", "%d routes" % len(blocks), "those of %s, unchanged" % self.name)
        if kept:
            self.told.row(0, 0, "kept", "%d static routes" % kept, "they are in the text and in %s" % self.name)
        return blocks

    def tell(self, route, what, reason):
        """Tells what becomes of a route of the table."""
        self.told.row(0, 0, what, "%s line %d, %s" % (self.name, route.line, route.text()), reason)

    def tell_interfaces(self):
        """Tells where the interfaces of the text and the connected routes of the table aren't the same."""
        own = [route for route in self.table.routes if route.code in FROM_INTERFACES]
        for route in own:
            if not self.is_by_interface(route) and not self.is_within(route):
                self.tell(route, "left out", "no address of %s in the text gives it" % route.interface)
        up = {route.interface for route in own}
        for name, interface in self.interfaces.items():
            if interface.subnets() and not interface.shut and name not in up:
                self.told.row(0, 0, "differs", name,
                              "it is up in the text, and %s has no connected route of it: it is taken as up; write shutdown if it is down" % self.name)
            if interface.shut and name in up:
                self.told.row(0, 0, "differs", name, "it is shut in the text, and %s has a connected route of it: it is taken as shut" % self.name)

    def is_within(self, route):
        """Whether a route of one host, as that of the other end of a line, is within a subnet of its interface."""
        interface = self.interfaces[route.interface]
        return route.length == 32 and any(holds(address & mask_of(length), length, route.prefix) for address, length in interface.subnets())
