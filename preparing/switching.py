"""What carries no routed packet: switch ports and the members of port channels. They are left out, and told."""
import re

from .blocks import Block
from .facts import is_interface


def sections_of(blocks):
    """The blocks of each interface, by its name."""
    sections = {}
    for block in blocks:
        if is_interface(block):
            sections.setdefault(block.words()[1], []).append(block)
    return sections


def commands_of(sections):
    """All commands of an interface, in order."""
    return [line for block in sections for line in block.inner()]


def without(blocks, left_out):
    """The blocks without those that are left out, whose comments stay."""
    kept, gone = [], set(map(id, left_out))
    for block in blocks:
        if id(block) in gone:
            kept += [Block(None, block.comments())] if block.comments() else []
        else:
            kept.append(block)
    return kept


def leave_out_ports(device, told):
    """Leaves out switch ports and members of port channels. One that has an address or a list is refused: what it does to packets
    would be lost."""
    for block in device.blocks:
        if block.words()[:2] == ["vlan", "filter"]:
            raise block.head.refused("NotCovered", "filter")
    sections, left_out = sections_of(device.blocks), []
    for name, blocks in sections.items():
        lines = commands_of(blocks)
        member = first_of(lines, ["channel-group"])
        switch = first_of(lines, ["switchport"])
        if member is not None:
            check_member(member, lines, sections)
            left_out += blocks
            tell(told, blocks, "it is a member of %s" % channel_of(member))
        elif switch is not None and not any(line.words() == ["no", "switchport"] for line in lines):
            check_port(switch, lines)
            left_out += blocks
            tell(told, blocks, "it is a switch port without address")
        elif switch is not None:
            drop_lines(blocks, ["switchport"], told, "it is no switch port: no switchport")
    device.blocks = without(device.blocks, left_out)


def first_of(lines, words):
    """The first line that begins with the words, or None."""
    return next((line for line in lines if line.words()[:len(words)] == words), None)


def tell(told, blocks, reason):
    """Tells that the sections of an interface are left out."""
    for block in blocks:
        told.block(block, "left out", reason)


def channel_of(line):
    """The interface that the member of a port channel stands behind."""
    words = line.words()
    if len(words) < 2:
        raise line.refused("MissingWord")
    return "Port-channel%s" % words[1]


def check_port(switch, lines):
    """A switch port has no address and no list."""
    address = first_of(lines, ["ip", "address"])
    if address is not None:
        raise address.refused("SwitchportAddress", switch.words()[0])
    refuse_list(lines)


def check_member(member, lines, sections):
    """A member has no address and no list, and its port channel is there."""
    address = first_of(lines, ["ip", "address"])
    if address is not None:
        raise address.refused("MemberAddress", member.words()[0])
    refuse_list(lines)
    if not any(re.fullmatch(re.escape(channel_of(member)), name, re.IGNORECASE) for name in sections):
        raise member.refused("UnknownInterface", channel_of(member))


def refuse_list(lines):
    """A list at a switch port tries packets that are routed elsewhere."""
    for words in (["ip", "access-group"], ["mac", "access-group"]):
        line = first_of(lines, words)
        if line is not None:
            raise line.refused("NotCovered", "access-group")


def drop_lines(blocks, words, told, reason):
    """Leaves out the lines of sections that begin with the words."""
    for block in blocks:
        for line in [line for line in block.inner() if line.words()[:len(words)] == words]:
            told.line(line, "left out", reason)
            block.body.remove(line)
