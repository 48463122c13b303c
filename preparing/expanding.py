"""Access lists with object groups, and with `neq` of several ports: each such entry becomes entries without, in the same order.

All numbers of such a list are multiplied by one power of ten, so that the number of an entry, divided by it, is the number of the
entry of the device that it comes from.
"""
from dataclasses import dataclass

from .addresses import address_of, is_number
from .blocks import Block
from .entries import TCP, UDP
from .groups import MOST_ENTRIES, Groups, Service, is_group
from .names import TCP as OTHER_TCP
from .names import UDP as OTHER_UDP
from .texts import Line

GREATEST = 2147483647
USUAL_FACTOR = 1000
PORT_WORDS = ("eq", "neq", "gt", "lt", "range")
GREATEST_PORT = 65535
PORT_NAMES = {"tcp": {**TCP, **OTHER_TCP}, "udp": {**UDP, **OTHER_UDP}}
PORT_NAMES.update({"6": PORT_NAMES["tcp"], "17": PORT_NAMES["udp"]})
# What may stand behind the destination's port test, so that a list of ports ends there.
TRAILING = ("ack", "dscp", "established", "fin", "fragments", "log", "log-input", "match-all", "match-any", "option", "precedence",
            "psh", "reflect", "rst", "syn", "time-range", "tos", "ttl", "urg")


@dataclass
class Item:
    """A line of a list: a remark, or an entry with its number."""

    line: Line
    words: list
    sequence: int


def list_name(block):
    """The name of the extended list to which a block's lines belong, or None."""
    words = block.words()
    if block.command() == "access-list" and len(words) > 2:
        return words[1]
    if block.command() == "ip" and words[:3] == ["ip", "access-list", "extended"] and len(words) > 3:
        return words[3]
    return None


def entry_lines(block):
    """The lines of a block that are items of its list, each with its words."""
    if block.words()[0] == "access-list":
        if is_number(block.words()[2]):
            raise block.head.refused("BadWord", block.words()[2])
        return [(block.head, block.words()[2:])]
    return [(line, line.words()) for line in block.inner()]


def items_of(blocks):
    """The items of each list, in the order of the text, with the numbers that the device gives them."""
    lists, greatest = {}, {}
    for block in blocks:
        name = list_name(block)
        if name is None:
            continue
        items = lists.setdefault(name, [])
        for line, words in entry_lines(block):
            items.append(item_of(line, words, greatest.get(name, 0)))
            greatest[name] = max(greatest.get(name, 0), items[-1].sequence or 0)
    return lists


def item_of(line, words, greatest):
    """The item of a line, behind those that come before it, whose greatest number is given."""
    number = None
    if is_number(words[0]):
        number, words = int(words[0]), words[1:]
    if not words:
        raise line.refused("MissingWord")
    if words[0] == "remark":
        return Item(line, words, None)
    if number is not None and not 1 <= number <= GREATEST:
        raise line.refused("BadWord", str(number))
    return Item(line, words, number or greatest + 10)


def names_groups(item):
    """Whether an entry names a group."""
    return "object-group" in item.words and item.words[0] != "remark"


def port_number(protocol, word):
    """The number of a port of a protocol, or None where the word is none."""
    return int(word) if is_number(word) and int(word) <= GREATEST_PORT else PORT_NAMES.get(protocol, {}).get(word)


def spares_ports(item):
    """Whether an entry has a `neq` of several ports."""
    words = item.words
    if "neq" not in words or words[0] == "remark":
        return False
    return any(words[k] == "neq" and all(port_number(words[1], word) is not None for word in words[k + 1:k + 3])
               for k in range(len(words) - 2))


def has_parts(item):
    """Whether an entry becomes several."""
    return names_groups(item) or spares_ports(item)


def all_but(ports):
    """The tests that together hold at all ports but these: the ranges between them."""
    tests, low = [], 0
    for port in sorted(set(ports)) + [GREATEST_PORT + 1]:
        if low < port:
            tests.append(["range", str(low), str(port - 1)])
        low = port + 1
    return tests


class Expansion:
    """An entry with groups or with several ports that are spared, divided into its parts."""

    def __init__(self, item, groups):
        self.item, self.groups = item, groups
        self.rest = item.words[1:]

    def refused(self, kind, word=""):
        """The refusal of the entry's line."""
        return self.item.line.refused(kind, word)

    def take(self):
        """The next word."""
        if not self.rest:
            raise self.refused("MissingWord")
        return self.rest.pop(0)

    def services(self):
        """The services of the entry's first part: those of a group, or its protocol."""
        word = self.take()
        if word == "object-group":
            return self.groups.services(self.item.line, self.take())
        return [Service(word)]

    def endpoints(self):
        """What an address part stands for."""
        word = self.take()
        if word == "object-group":
            return self.groups.networks(self.item.line, self.take())
        if word == "any":
            return [["any"]]
        return [[word, self.take()]]

    def ports(self, protocol):
        """The port tests that the words which the rest begins with stand for: one, or the ranges between the ports that are spared."""
        if self.rest[:1] == [] or self.rest[0] not in PORT_WORDS:
            return [[]]
        words = [self.take()]
        most = {"range": 2, "eq": 10, "neq": 10}.get(words[0], 1)
        while self.rest and len(words) <= most and self.is_port(self.rest[0]):
            words.append(self.rest.pop(0))
        numbers = [port_number(protocol, word) for word in words[1:]]
        return all_but(numbers) if words[0] == "neq" and len(words) > 2 and None not in numbers else [words]

    def is_port(self, word):
        """Whether a word may be a port."""
        return word not in TRAILING + ("any", "host", "object-group") and address_of(word) is None

    def entries(self):
        """The entries, each as its words: services first, then sources, then destinations, in the order of the groups."""
        grouped, protocol = self.rest[:1] == ["object-group"], (self.rest or [""])[0]
        services = self.services()
        sources, source_ports = self.endpoints(), self.ports(protocol)
        destinations, destination_ports = self.endpoints(), self.ports(protocol)
        if grouped and (source_ports[0] or destination_ports[0]):
            raise self.refused("ExtraWord", (source_ports[0] or destination_ports[0])[0])
        if "object-group" in self.rest:
            raise self.refused("ExtraWord", "object-group")
        count = len(services) * len(sources) * len(destinations) * len(source_ports) * len(destination_ports)
        if count > MOST_ENTRIES:
            raise self.refused("TooManyEntries", str(count))
        action = [self.item.words[0]]
        return [
            action + [service.protocol] + source + list(service.source or source_test) + destination
            + list(service.destination or destination_test) + list(service.rest) + self.rest
            for service in services for source in sources for source_test in source_ports
            for destination in destinations for destination_test in destination_ports
        ]


def expand_list(items, groups):
    """The entries of each item, and the factor of their numbers. A remark is its own only line."""
    expanded = [Expansion(item, groups).entries() if has_parts(item) else [item.words] for item in items]
    most = max(len(entries) for entries in expanded)
    greatest = max(item.sequence or 0 for item in items)
    # A thousand where that fits, so that an entry keeps its numbers when its groups grow.
    factor = USUAL_FACTOR if (greatest + 1) * USUAL_FACTOR <= GREATEST else 10
    while factor < most:
        factor *= 10
    for item in items:
        if item.sequence and item.sequence * factor + most > GREATEST:
            raise item.line.refused("NumberTooGreat", str(item.sequence))
    return expanded, factor


def new_block(name, head, items, factor_and_entries, told):
    """The list as a section without groups, with the place of its own line if it is a section, each entry with the number that the device
    has."""
    expanded, factor = factor_and_entries
    reason = "as the list has groups" if any(map(names_groups, items)) else "as an entry spares several ports"
    block = Block(head.again("ip access-list extended %s" % name))
    for item, entries in zip(items, expanded):
        if item.sequence is None:
            if item.line.words() != item.words:
                told.line(item.line, "replaced", "it stands in the section of list %s, %s" % (name, reason))
            block.body.append(item.line.again(" " + " ".join(item.words)))
            continue
        if has_parts(item):
            text = " ".join(item.words)
            block.body.append(item.line.again(" remark entry %d: %s" % (item.sequence, text), item.sequence))
            told.line(item.line, "expanded", "%d entries of list %s from number %d on, by its %s"
                      % (len(entries), name, item.sequence * factor, "groups" if names_groups(item) else "ports"))
        elif " ".join(item.line.words()) != "%d %s" % (item.sequence * factor, " ".join(item.words)):
            told.line(item.line, "replaced", "its number in list %s is %d, %s" % (name, item.sequence * factor, reason))
        for k, words in enumerate(entries):
            block.body.append(item.line.again(" %d %s" % (item.sequence * factor + k, " ".join(words)), item.sequence))
    return block


def check_names(blocks, lists):
    """A list of another kind, or an entry of a kind that isn't known here, may not name a group."""
    for block in blocks:
        if block.words()[:2] != ["ip", "access-list"] or list_name(block) in lists:
            continue
        for line in block.lines():
            words = line.words() if "object-group" in line.text else []
            if words[1:2] != ["remark"] and "object-group" in words[:4]:
                raise line.refused("NotCovered", "object-group")


def expand_groups(device, told):
    """Expands the groups of all lists of a device. What is left of the groups goes, since no line names them."""
    if not any("object-group" in line.text or "neq" in line.text for block in device.blocks for line in block.lines()):
        return
    groups = Groups(device.blocks)
    lists = {name: items for name, items in items_of(device.blocks).items() if any(map(has_parts, items))}
    check_names(device.blocks, lists)
    for name, items in lists.items():
        if is_number(name) and not (100 <= int(name) <= 199 or 2000 <= int(name) <= 2699):
            first = next(item for item in items if has_parts(item))
            raise first.line.refused("NotCovered", "object-group" if names_groups(first) else "neq")
    heads = {list_name(block): block.head for block in reversed(device.blocks)}
    new = {name: new_block(name, heads[name], items, expand_list(items, groups), told) for name, items in lists.items()}
    blocks = []
    for block in device.blocks:
        name = list_name(block)
        if name in new:
            kept = block.comments()
            for line in block.inner() if block.words()[0] == "access-list" else []:
                told.line(line, "left out", "the command above it has no section")
            if new[name] is not None:
                blocks.append(new[name])
                new[name] = None
            elif block.words()[0] == "ip":
                told.line(block.head, "left out", "what stands below it is in the section of line %d" % heads[name].number)
            blocks += [Block(None, kept)] if kept else []
        elif is_group(block):
            use = "its entries are written out" if block.words()[2] in groups.used else "no entry names it"
            told.block(block, "left out", use)
            blocks += [Block(None, block.comments())] if block.comments() else []
        else:
            blocks.append(block)
    device.blocks = blocks
