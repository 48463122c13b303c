"""Virtual addresses of HSRP, VRRP and GLBP: the device that is active for a group gets them as secondary addresses.

A file says who is active, one line for each group: `DEVICE INTERFACE standby|vrrp|glbp GROUP`.
"""
from dataclasses import dataclass, field

from .addresses import address_of, dotted, holds, is_number, mask_of
from .facts import interfaces_of
from .faults import Refused
from .switching import commands_of, sections_of
from .texts import Line, is_indented, read_lines, says_something

PROTOCOLS = ("standby", "vrrp", "glbp")


@dataclass
class Group:
    """A group of one interface, with its lines and the virtual addresses that they say."""

    device: str
    interface: str
    protocol: str
    number: str
    lines: list = field(default_factory=list)
    addresses: list = field(default_factory=list)

    def key(self):
        """What names the group."""
        return self.device, self.interface, self.protocol, self.number


def depth_of(text):
    """How far a line is indented."""
    return len(text) - len(text.lstrip(" \t")) if is_indented(text) else 0


def groups_of(device):
    """The groups of a device by interface, protocol and number."""
    groups = {}
    for name, blocks in sections_of(device.blocks).items():
        above = None
        for line in commands_of(blocks):
            words = line.words()
            if above is not None and depth_of(line.text) > above[0]:
                take_nested(above[1], line)
                continue
            above = None
            if words[0] in PROTOCOLS:
                group = take(groups, device.name, name, line)
                if words[2:3] == ["address-family"]:
                    above = depth_of(line.text), group
    return groups


def take(groups, device, interface, line):
    """Takes a line of a group; a line without a number is of group 0, as IOS has it, and may be about all groups."""
    words = line.words()
    number, rest = (words[1], words[2:]) if len(words) > 1 and is_number(words[1]) else ("0", words[1:])
    key = device, interface, words[0], number
    group = groups.setdefault(key, Group(*key))
    group.lines.append(line)
    # `standby 1 ip` alone learns the address of the others.
    if rest[:1] == ["ip"] and len(rest) > 1:
        take_address(group, line, rest[1])
    return group


def take_nested(group, line):
    """Takes a line below `vrrp N address-family ipv4`."""
    group.lines.append(line)
    words = line.words()
    # An address with colons is one of IPv6, of which no rule speaks.
    if words[0] == "address" and ":" not in line.text:
        if len(words) < 2:
            raise line.refused("MissingWord")
        take_address(group, line, words[1])


def take_address(group, line, word):
    """Takes a virtual address with its line."""
    if address_of(word) is None:
        raise line.refused("BadWord", word)
    group.addresses.append((address_of(word), line))


def read_active(path):
    """The groups that the file says to be active, each with its line."""
    active = {}
    for line in read_lines(path):
        if not says_something(line):
            continue
        words = line.words()
        if len(words) != 4:
            raise line.refused("MissingWord" if len(words) < 4 else "ExtraWord", words[4] if len(words) > 4 else "")
        if words[2] not in PROTOCOLS or not is_number(words[3]):
            raise line.refused("BadWord", words[2] if words[2] not in PROTOCOLS else words[3])
        if tuple(words) in active:
            raise line.refused("ActiveTwice", words[3])
        active[tuple(words)] = line
    return active


def check_active(groups, active):
    """Each group of the file is there, and each virtual address has exactly one active device."""
    with_addresses = {key for key, group in groups.items() if group.addresses}
    for key, line in active.items():
        if key not in groups:
            raise line.refused("UnknownGroup", " ".join(key))
    holders = {}
    for key in active:
        if not groups[key].addresses:
            raise active[key].refused("AddressMissing", key[3])
        for address, _ in groups[key].addresses:
            other = holders.setdefault((key[2], key[3], address), key)
            if other != key:
                raise active[key].refused("ActiveTwice", dotted(address))
    for key in sorted(with_addresses):
        for address, line in groups[key].addresses:
            if (key[2], key[3], address) not in holders:
                raise line.refused("NoActive", dotted(address))


def place_addresses(device, groups, active, told):
    """Leaves out the lines of the groups, and gives the active interfaces their addresses."""
    sections = sections_of(device.blocks)
    interfaces = interfaces_of(device.blocks)
    for key, group in groups.items():
        if key[0] != device.name:
            continue
        blocks = sections[group.interface]
        for block in blocks:
            block.body = [line for line in block.body if line not in group.lines]
        chosen = key in active
        for line in group.lines:
            told.line(line, "left out", "this device is %sactive for group %s" % ("" if chosen else "not ", group.number)
                      if group.addresses else "it says no virtual address")
        if chosen:
            for address, line in group.addresses:
                give_address(interfaces[group.interface], blocks[-1], address, line, told)


def give_address(interface, block, address, line, told):
    """A secondary address, with the length of the subnet that holds it."""
    if any(own == address for own, _ in interface.subnets()):
        told.line(line, "kept", "%s is an address of %s already" % (dotted(address), interface.name))
        return
    lengths = [length for own, length in interface.subnets() if holds(own & mask_of(length), length, address)]
    if not lengths:
        raise line.refused("NoSubnet", dotted(address))
    text = " ip address %s %s secondary" % (dotted(address), dotted(mask_of(max(lengths))))
    block.body.insert(len(block.body) - block.trailing(), Line(text, line.path, line.number))
    told.line(line, "added", "%s gets %s as a secondary address" % (interface.name, dotted(address)))


def tell_only(device, told):
    """Tells the groups where no file says who is active: the verifier will refuse them."""
    for group in groups_of(device).values():
        for line in group.lines:
            told.line(line, "kept", "the verifier refuses it; --active FILE says which device is active")


def activate(devices, tolds, path):
    """Places the virtual addresses of all devices as the file says."""
    active = read_active(path)
    groups = {}
    for device in devices:
        groups.update(groups_of(device))
    unknown = sorted({key[0] for key in active} - {device.name for device in devices})
    if unknown:
        raise Refused(path, next(line.number for key, line in active.items() if key[0] == unknown[0]), "UnknownDevice", unknown[0])
    check_active(groups, active)
    for device, told in zip(devices, tolds):
        place_addresses(device, groups, active, told)
