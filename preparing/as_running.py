"""What a router does with its text and the verifier's rules don't, written into the text: `prepare --as-written` leaves it out.

A static route by next hop alone whose own prefix holds its next hop, as a default does, is used while an interface reaches the next
hop, and a router doesn't resolve it by itself or by another route of its prefix (IOS: ip route, recursive static routes). By the
rules any valid route of that prefix would do. Written with the interface of the connected subnet, it is valid while that is up. A
subinterface is down where its main interface is (IOS: shutdown).
"""
import os

from .addresses import holds, mask_of
from .facts import interfaces_of, is_interface, is_static, static_of
from .faults import Refused


def leads_to_itself(static):
    """Whether a static route is by next hop alone, and its own prefix holds the next hop."""
    return static.interface is None and static.hop is not None and static.vrf is None and holds(static.prefix, static.length, static.hop)


def connected(interfaces, hop):
    """The interface of the connected subnet that holds a next hop: of one that is up, if there is one, and then of the longest subnet.
    None where no subnet does."""
    found = [(not interface.shut, length, name) for name, interface in interfaces.items() for address, length in interface.subnets()
             if holds(address & mask_of(length), length, hop)]
    return max(found, key=lambda one: one[:2])[2] if found else None


def statics_of(blocks):
    """The static routes, each with its block; a line that isn't understood is the verifier's to refuse."""
    found = []
    for block in blocks:
        if is_static(block):
            try:
                found.append((block, static_of(block.head)))
            except Refused:
                continue
    return found


def tell(told, line, what, reason):
    """Tells what becomes of a line; one that comes of a table is told with the table's name."""
    if told is None:
        return
    if line.path == told.path:
        told.line(line, what, reason)
    else:
        told.row(0, 0, what, "%s line %d, %s" % (os.path.basename(line.path), line.number, line.text), reason)


class Exits:
    """The static routes of a device that would lead to themselves, and the interfaces by which a router uses them."""

    def __init__(self, blocks):
        self.statics = statics_of(blocks)
        self.meant = [(block, static) for block, static in self.statics if leads_to_itself(static)]
        if not self.meant:
            return
        self.interfaces = interfaces_of(blocks)
        self.own = {address for interface in self.interfaces.values() for address, _ in interface.subnets()}
        self.by_prefix, self.bound = {}, {}
        for block, static in self.statics:
            if static.vrf is None:
                self.by_prefix.setdefault((static.prefix, static.length), []).append((block, static))

    def other_way(self, static, interface):
        """A static route that still leads to the next hop where the interface is down: of a longer prefix than the route's own, since
        those of that prefix hold no next hop of it, and not out of this interface."""
        for length in range(static.length + 1, 33):
            for block, other in self.by_prefix.get((static.hop & mask_of(length), length), []):
                if interface not in (other.interface, self.bound.get(id(block))):
                    return other
        return None

    def write(self, told):
        """Writes the interfaces, into routes of long prefixes first, since those may hold the next hops of others; gives how many."""
        for block, static in sorted(self.meant, key=lambda pair: -pair[1].length):
            way = connected(self.interfaces, static.hop)
            if way is None or static.hop in self.own:
                continue
            other = self.other_way(static, way)
            if other is not None:
                tell(told, block.head, "kept", "%s leads to its next hop too if %s is down" % (" ".join(other.line.words()[2:]), way))
                continue
            tell(told, block.head, "replaced", "out of %s: a router uses it only while that interface is up" % way)
            words = block.words()
            block.head = block.head.again(" ".join(words[:4] + [way] + words[4:]))
            self.bound[id(block)] = way
        return len(self.bound)


def write_exits(blocks, told=None):
    """Writes the interface of the connected subnet into the static routes that would lead to themselves; gives how many."""
    exits = Exits(blocks)
    return exits.write(told) if exits.meant else 0


def main_of(name):
    """The main interface of a subinterface, or None."""
    main, dot, _ = name.partition(".")
    return main if dot else None


def shut_below(blocks, told=None):
    """Writes the `shutdown` of main interfaces into their subinterfaces; gives how many."""
    interfaces = interfaces_of(blocks)
    last = {block.words()[1]: block for block in blocks if is_interface(block)}
    written = 0
    for name, interface in interfaces.items():
        main = interfaces.get(main_of(name))
        if main is None or not main.shut or interface.shut:
            continue
        block = last[name]
        cause = next((line for line in shut_lines(blocks, main.name)), block.head)
        block.body.insert(len(block.body) - block.trailing(), cause.again(" shutdown"))
        written += 1
        tell(told, block.head, "added", "shutdown, as %s is shut" % main.name)
    return written


def shut_lines(blocks, name):
    """The lines `shutdown` of an interface."""
    for block in blocks:
        if is_interface(block) and block.words()[1] == name:
            yield from (line for line in block.inner() if line.words() == ["shutdown"])


def write_as_running(device, told):
    """Writes both into the text of a device."""
    write_exits(device.blocks, told)
    shut_below(device.blocks, told)
