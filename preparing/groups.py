"""Object groups: what a network group and a service group hold, in the order of their lines, with the groups within them."""
from dataclasses import dataclass, field

from .addresses import address_of, endpoint_words, fewest_prefixes, length_of, mask_of
from .texts import Line

KINDS = ("network", "service")
# More entries than the verifier reads of one file, and more groups one within the other than anyone writes.
MOST_ENTRIES = 1000000
DEEPEST = 100
# The protocols of a service group that take ports; the others stand alone, and icmp may have a type.
WITH_PORTS = ("tcp", "udp", "tcp-udp", "6", "17")
PROTOCOLS = ("ahp", "eigrp", "esp", "gre", "icmp", "igmp", "ip", "ipinip", "nos", "ospf", "pcp", "pim")


@dataclass(frozen=True)
class Service:
    """One service: a protocol, a test of the source port, one of the destination port, and what stands behind the destination."""

    protocol: str
    source: tuple = ()
    destination: tuple = ()
    rest: tuple = ()


@dataclass
class Group:
    """A group, by its kind and its lines."""

    name: str
    kind: str
    line: Line
    members: list = field(default_factory=list)


def is_group(block):
    """Whether a block is a group that an access list of IPv4 may name."""
    words = block.words() if block.command() == "object-group" else []
    return len(words) > 1 and words[1] in KINDS


def groups_of(blocks):
    """The groups of a configuration, by their names."""
    groups = {}
    for block in blocks:
        if not is_group(block):
            continue
        words = block.words()
        if len(words) < 3:
            raise block.head.refused("MissingWord")
        if len(words) > 3:
            raise block.head.refused("ExtraWord", words[3])
        group = groups.setdefault(words[2], Group(words[2], words[1], block.head))
        if group.kind != words[1]:
            raise block.head.refused("GroupKind", words[2])
        group.members += [line for line in block.inner() if line.words()[0] != "description"]
    return groups


class Groups:
    """Looks groups up, and gives what they hold."""

    def __init__(self, blocks):
        self.groups = groups_of(blocks)
        self.used = set()

    def find(self, line, name, kind):
        """A group of a kind that a line names."""
        if name not in self.groups:
            raise line.refused("UnknownGroup", name)
        group = self.groups[name]
        if group.kind != kind:
            raise line.refused("GroupKind", name)
        if not group.members:
            raise line.refused("EmptyGroup", name)
        self.used.add(name)
        return group

    def networks(self, line, name, above=()):
        """What a network group holds, each as the words of an access list."""
        return self.members(line, name, "network", network_words, above)

    def services(self, line, name, above=()):
        """What a service group holds."""
        return self.members(line, name, "service", service_of, above)

    def members(self, line, name, kind, meaning, above):
        """What the lines of a group mean, in order; `above` are the groups that hold this one."""
        group, found = self.find(line, name, kind), []
        if name in above:
            raise line.refused("GroupInItself", name)
        if len(above) == DEEPEST:
            raise line.refused("GroupTooDeep", name)
        for member in group.members:
            words = member.words()
            if words[0] == "group-object":
                if len(words) != 2:
                    raise member.refused("MissingWord" if len(words) < 2 else "ExtraWord", words[-1] if len(words) > 2 else "")
                found += self.members(member, words[1], kind, meaning, above + (name,))
            else:
                found += meaning(member)
            if len(found) > MOST_ENTRIES:
                raise member.refused("TooManyEntries", name)
        return found


def an_address(line, words, place):
    """The address at a place of a line."""
    if len(words) <= place:
        raise line.refused("MissingWord")
    address = address_of(words[place])
    if address is None:
        raise line.refused("BadWord", words[place])
    return address


def network_words(line):
    """What a line of a network group holds: a host, a subnet with its mask or length, a range, or any."""
    words = line.words()
    if words[0] == "any":
        length, found = 1, [["any"]]
    elif words[0] == "host":
        length, found = 2, [endpoint_words(an_address(line, words, 1), 32)]
    elif words[0] == "range":
        low, high = an_address(line, words, 1), an_address(line, words, 2)
        if low > high:
            raise line.refused("BadWord", words[2])
        length, found = 3, [endpoint_words(*prefix) for prefix in fewest_prefixes(low, high)]
    else:
        length, found = 2, [subnet_words(line, words)]
    if len(words) > length:
        raise line.refused("ExtraWord", words[length])
    return found


def subnet_words(line, words):
    """A subnet, with a mask or a stroke and a length behind it."""
    address = an_address(line, words, 0)
    if len(words) > 1 and words[1].startswith("/") and words[1][1:] in map(str, range(33)):
        length = int(words[1][1:])
    else:
        length = length_of(an_address(line, words, 1))
    if length is None:
        raise line.refused("BadMask", words[1])
    if address & ~mask_of(length):
        raise line.refused("HostBits", words[0])
    return endpoint_words(address, length)


def port_test(line, words):
    """The test of a port that words begin with, and the words behind it. A port alone is meant as `eq`."""
    if not words:
        raise line.refused("MissingWord")
    if words[0] in ("eq", "gt", "lt", "neq"):
        count = 2
    else:
        count = 3 if words[0] == "range" else 1
    if len(words) < count:
        raise line.refused("MissingWord")
    test = tuple(words[:count]) if count > 1 else ("eq", words[0])
    return test, words[count:]


def service_of(line):
    """What a line of a service group holds: one service, or two for `tcp-udp`."""
    words = line.words()
    protocol, rest = words[0], words[1:]
    if protocol in WITH_PORTS:
        source = destination = ()
        if rest[:1] == ["source"]:
            source, rest = port_test(line, rest[1:])
        if rest:
            destination, rest = port_test(line, rest)
        if rest:
            raise line.refused("ExtraWord", rest[0])
        protocols = ("tcp", "udp") if protocol == "tcp-udp" else (protocol,)
        return [Service(one, source, destination) for one in protocols]
    if protocol not in PROTOCOLS and protocol not in map(str, range(1, 256)):
        raise line.refused("BadWord", protocol)
    most = 2 if protocol in ("icmp", "1") else 0
    if len(rest) > most:
        raise line.refused("ExtraWord", rest[most])
    return [Service(protocol, rest=tuple(rest))]
