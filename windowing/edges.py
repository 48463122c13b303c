"""Interfaces where packets could come in and that are no ingress, so that no report says what the change does to these packets."""
from __future__ import annotations

import re
from typing import Iterable, NamedTuple

from kinds import outcome_of
from networks import Device, Interface, Network

# Interfaces that no host is at.
_INSIDE = re.compile(r"(Loopback|Null|Tunnel)", re.IGNORECASE)


class Found(NamedTuple):
    """An edge that is no ingress, with its addresses, and why it is told; "" where the change has nothing to do with it."""

    place: str
    addresses: tuple[str, ...]
    why: str


def _ups(networks: Iterable[Network]) -> dict[str, Interface]:
    """The interfaces that are up and addressed in some network, by their place; of two the newer one."""
    return {"%s %s" % (device.name, interface.name): interface for network in networks for device in network.devices.values()
            for interface in device.interfaces.values() if interface.is_up and not _INSIDE.match(interface.name)}


def edges_of(old: Network, new: Network) -> dict[str, Interface]:
    """Where packets could come in: interfaces that are up and addressed, in the old or the new network, and on no segment; and ends of
    a lan of which another end is an ingress, since hosts are there."""
    linked, hosts = old.links.linked() | new.links.linked(), set()
    ingresses = {*old.links.ingresses, *new.links.ingresses}
    for lan in old.links.lans + new.links.lans:
        if ingresses & set(lan):
            hosts |= set(lan)
    ups = _ups((old, new))
    return {place: interface for place, interface in ups.items() if place not in linked or place in hosts or place in ingresses}


def _meaning(device: Device | None) -> list[str]:
    """The lines of a device that may say something."""
    lines = [line.rstrip() for line in device.text.split("\n")] if device else []
    return [line for line in lines if line and not line.lstrip().startswith("!")]


def touched(old: Network, new: Network) -> set[str]:
    """The names of devices whose configuration differs."""
    found = set()
    for name in {**old.devices, **new.devices}:
        before, after = old.devices.get(name), new.devices.get(name)
        if not (before and after and before.text == after.text) and _meaning(before) != _meaning(after):
            found.add(name)
    return found


def not_looked_at(old: Network, new: Network, outcomes: Iterable[str]) -> tuple[list[Found], int]:
    """The edges that are no ingress, and how many edges there are, ingresses among them. Those come first with which the change has to
    do: they lie on a device that it touches, or packets that it treats differently, with these outcomes, leave there."""
    edges, ingresses = edges_of(old, new), {*old.links.ingresses, *new.links.ingresses}
    changed = touched(old, new)
    ends = {outcome_of(text).place for text in outcomes}
    found = []
    for place, interface in edges.items():
        if place not in ingresses:
            device = place.split(" ")[0]
            why = "on a device that the change touches" if device in changed else "where packets that change leave" if place in ends else ""
            found.append(Found(place, tuple(address.text() for address in interface.addresses), why))
    return sorted(found, key=lambda edge: not edge.why), len(edges)
