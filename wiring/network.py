"""What the configurations of a folder say of links: devices with their interfaces and the subnets of these."""
from __future__ import annotations

import os
from dataclasses import dataclass, field

from preparing.addresses import dotted, mask_of
from preparing.blocks import Block, blocks_of
from preparing.facts import hostname_of, is_interface, read_interface
from preparing.facts import Interface as Read
from preparing.faults import SameHostname, each
from preparing.texts import files_of, read_lines

from .names import in_order, main_of, parts_of

VIRTUAL_ADDRESSES = ("standby", "vrrp", "glbp")


@dataclass(frozen=True, order=True)
class Subnet:
    """A prefix: its first address and its length in bits, 0 to 32."""

    prefix: int
    length: int

    def text(self) -> str:
        """`10.0.0.0/24`"""
        return "%s/%d" % (dotted(self.prefix), self.length)


@dataclass
class Port:
    """An interface that is up and has addresses: each with its subnet, the primary one first."""

    device: str
    name: str
    addresses: list[tuple[int, Subnet]]
    has_group: bool = False
    vrf: str = ""
    description: str = ""

    def end(self) -> tuple[str, str]:
        """The end as a link table writes it."""
        return self.device, self.name

    def subnets(self) -> list[Subnet]:
        """The subnets of the addresses, in order."""
        return [subnet for _, subnet in self.addresses]

    def key(self) -> tuple:
        """By device and interface, numbers by their size."""
        return in_order(self.device), in_order(self.name)


@dataclass
class Device:
    """A device: its file, its ports by name, the names of all interfaces, and what carries what: members of channels, switch ports."""

    name: str
    path: str
    ports: dict[str, Port] = field(default_factory=dict)
    interfaces: list[str] = field(default_factory=list)
    channels: dict[str, str] = field(default_factory=dict)
    switched: set[str] = field(default_factory=set)

    def carried_by(self, name: str) -> list[Port]:
        """The ports whose packets a physical interface carries: its own, its subinterfaces', those of its channel, or the VLANs' of a
        switch port."""
        if name in self.channels:
            name = next((other for other in self.interfaces if parts_of(other) == ("port-channel", self.channels[name])), name)
        own = [port for port in self.ports.values() if main_of(port.name) == name]
        if own or name not in self.switched:
            return own
        return [port for port in self.ports.values() if port.name.lower().startswith("vlan")]


def read_device(path: str) -> Device:
    """The device of a configuration."""
    blocks = blocks_of(read_lines(path))
    device = Device(hostname_of(path, blocks), path)
    read: dict[str, Read] = {}
    for block in blocks:
        if is_interface(block) and block.words()[1] != "Null0":
            name = block.words()[1]
            read_interface(read.setdefault(name, Read(name)), block)
            take_section(device, name, block)
    for name, interface in read.items():
        port = device.ports.setdefault(name, Port(device.name, name, []))
        port.addresses = [(address, Subnet(address & mask_of(length), length)) for address, length in interface.subnets()]
        shut = interface.shut or main_of(name) in read and read[main_of(name)].shut
        if shut or not port.addresses:
            del device.ports[name]
    device.interfaces = list(read)
    return device


def take_section(device: Device, name: str, block: Block) -> None:
    """Takes what a section says besides addresses."""
    port = device.ports.setdefault(name, Port(device.name, name, []))
    for line in block.inner():
        words = line.words()
        if words[0] == "channel-group" and len(words) > 1:
            device.channels[name] = words[1]
        elif words[0] == "switchport":
            device.switched.add(name)
        elif words[:2] == ["no", "switchport"]:
            device.switched.discard(name)
        elif words[0] in VIRTUAL_ADDRESSES:
            port.has_group = True
        elif words[:2] in (["vrf", "forwarding"], ["vrf", "member"]) or words[:3] == ["ip", "vrf", "forwarding"]:
            port.vrf = words[-1]
        elif words[0] == "description":
            port.description = " ".join(words[1:])


def read_network(folder: str) -> dict[str, Device]:
    """The devices of a folder by their hostnames, in the order of their files.

    Raises Faults with the first cause of each file, and SameHostname.
    """
    names, _ = files_of(folder, ".cfg")
    devices: dict[str, Device] = {}
    for device in each([os.path.join(folder, name) for name in names], read_device):
        if device.name in devices:
            raise SameHostname(device.path, devices[device.name].path)
        devices[device.name] = device
    return devices


def ports_of(devices: dict[str, Device]) -> list[Port]:
    """All ports, in the order of devices and interfaces."""
    return sorted((port for device in devices.values() for port in device.ports.values()), key=Port.key)
