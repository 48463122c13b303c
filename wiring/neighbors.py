"""What devices say of their neighbours, and which of them is active for a virtual address: a file `R1.txt` for each device."""
from __future__ import annotations

import os
from dataclasses import dataclass, field
from typing import Iterator

import textfsm  # type: ignore[import]

from preparing.faults import Refused
from preparing.texts import Line, files_of, read_lines

from .names import device_name, whole_name
from .network import Device

TEMPLATES = os.path.join(os.path.dirname(os.path.abspath(__file__)), "templates")
GROUPS = (("standby", "show_standby_brief.textfsm"), ("vrrp", "show_vrrp_brief.textfsm"), ("glbp", "show_glbp_brief.textfsm"))
NEIGHBORS = (("cdp", "show_cdp_neighbors_detail.textfsm"), ("lldp", "show_lldp_neighbors_detail.textfsm"))
# What a neighbour is that is no router: its ports carry other devices' packets, or none.
OTHER_KINDS = ("switch", "phone", "bridge", "trans-bridge", "access point", "wlan")


@dataclass(frozen=True)
class Sight:
    """A neighbour that a device tells of: the device, its interface, the other device and its interface, by whole names.

    `other` is None where the neighbour is none of the network's devices, and its interface then as it is shown.
    """

    device: str
    interface: str
    other: str | None
    port: str
    shown: str
    place: str

    def both(self) -> tuple[tuple[str, str], tuple[str, str]]:
        """The two ends, the lesser one first, so that a link that both devices tell of is one."""
        ends = sorted([(self.device, self.interface), (self.other or "", self.port)])
        return ends[0], ends[1]


@dataclass
class Seen:
    """All that the files say: neighbours, the active sides of groups as `prepare --active` reads them, and what can't be."""

    sights: list[Sight] = field(default_factory=list)
    active: list[str] = field(default_factory=list)
    contradictions: list[str] = field(default_factory=list)

    def of(self, device: str, interface: str) -> list[Sight]:
        """The neighbours behind an interface."""
        return [sight for sight in self.sights if (sight.device, sight.interface) == (device, interface)]


def rows_of(template: str, lines: list[Line]) -> list[dict[str, str]]:
    """The records of a text by a template."""
    with open(os.path.join(TEMPLATES, template), encoding="ascii") as file:
        machine = textfsm.TextFSM(file)
    text = "".join("%d|%s\n" % (line.number, line.text.replace("\x0b", " ").replace("\x0c", " ")) for line in lines)
    return [dict(zip((name.lower() for name in machine.header), row)) for row in machine.ParseText(text)]


def read_neighbors(folder: str, devices: dict[str, Device]) -> Seen:
    """What the files of a folder say, each `NAME.txt` for the device of the hostname NAME or of the configuration NAME.cfg.

    Raises Refused for a file of no device (UnknownDevice) and for one in which no neighbour and no group is told (NoNeighbors).
    """
    seen = Seen()
    by_file = {os.path.splitext(os.path.basename(device.path))[0]: device for device in devices.values()}
    for name in files_of(folder, ".txt")[0]:
        stem, path = name[:-len(".txt")], os.path.join(folder, name)
        device = by_file.get(stem) or devices.get(stem)
        if device is None:
            raise Refused(path, 0, "UnknownDevice", stem)
        read_file(path, device, devices, seen)
    seen.sights = sorted(set(seen.sights), key=lambda sight: (sight.device, sight.interface, sight.shown, sight.port))
    return seen


def read_file(path: str, device: Device, devices: dict[str, Device], seen: Seen) -> None:
    """Takes what one file says."""
    lines = read_lines(path)
    before = len(seen.sights) + len(seen.active)
    groups = False
    for protocol, template in NEIGHBORS:
        for row in rows_of(template, lines):
            take_neighbor(row, "%s line %s" % (path, row["number"]), device, devices, seen)
            groups = True
    for protocol, template in GROUPS:
        for row in rows_of(template, lines):
            groups = True
            take_group(row, protocol, "%s line %s" % (path, row["number"]), device, seen)
    if not groups and before == len(seen.sights) + len(seen.active):
        raise Refused(path, 0, "NoNeighbors")


def take_neighbor(row: dict[str, str], place: str, device: Device, devices: dict[str, Device], seen: Seen) -> None:
    """Takes an entry of a neighbour; a name that no configuration has is told."""
    local = whole_name(row["interface"], device.interfaces) if row["interface"] else None
    if local is None:
        if row["interface"]:
            seen.contradictions.append("%s: %s has no interface %s" % (place, device.name, row["interface"]))
        return
    shown, other = row["neighbor"], device_name(row["neighbor"], list(devices))
    if other is None:
        seen.sights.append(Sight(device.name, local, None, row["port"], shown, place))
        if is_router(row.get("capabilities", "")):
            seen.contradictions.append("%s: %s is behind %s %s, and no configuration has this name" % (place, shown, device.name, local))
        return
    port = next((found for found in port_names(row, devices[other]) if found), None)
    if port is None:
        seen.contradictions.append("%s: %s has no interface %s" % (place, other, row["port"]))
        return
    seen.sights.append(Sight(device.name, local, other, port, shown, place))


def port_names(row: dict[str, str], other: Device) -> Iterator[str | None]:
    """The other device's interface by the port's name and by its description, of which LLDP gives the one or the other."""
    for word in (row["port"], row.get("description", "")):
        yield whole_name(word, other.interfaces) if word else None


def is_router(capabilities: str) -> bool:
    """Whether a neighbour is a router and nothing else that would explain that it has no configuration here."""
    said = capabilities.lower()
    return ("router" in said or said.replace(",", " ").split() == ["r"]) and not any(kind in said for kind in OTHER_KINDS)


def take_group(row: dict[str, str], protocol: str, place: str, device: Device, seen: Seen) -> None:
    """Takes a row of a group, where the device is active there."""
    name = whole_name(row["interface"], device.interfaces)
    if name is None:
        seen.contradictions.append("%s: %s has no interface %s" % (place, device.name, row["interface"]))
    elif row["state"].lower() in ("active", "master"):
        line = "%s %s %s %s" % (device.name, name, protocol, row["group"])
        if line not in seen.active:
            seen.active.append(line)
