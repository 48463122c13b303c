"""The second opinion (`tests/rules.py`) with the steps of a device in a wrong order, to find packets that tell the orders apart."""
import os
import sys
from typing import Optional

from filters import LIST_FIRST, PLAIN_FIRST, TRANSLATION_FIRST
from headers import Packet
from networks import Network, configuration, link_table

sys.path.insert(0, os.path.dirname(os.path.dirname(os.path.abspath(__file__))))
import rules  # noqa: E402


class TranslationFirst(rules.Network):
    """The input list sees what translation from outside wrote."""

    def moves(self, place, headers):
        device, interface = self.devices.get(place[0]), self.interface(place)
        if interface is None or interface.side != "outside":
            return super().moves(place, headers)
        name = interface.lists.pop("in", None)
        try:
            if not device.passes(name, device.from_outside(headers)):
                return [("drop",)]
            return super().moves(place, headers)
        finally:
            if name is not None:
                interface.lists["in"] = name


class ListFirst(rules.Network):
    """The output list sees what wasn't translated from inside yet."""

    def leave(self, device, interface, headers, hop):
        lists = device.interfaces[hop[0]].lists if hop is not None else {}
        name = lists.pop("out", None)
        try:
            if not device.passes(name, headers):
                return ("lost",)
            return super().leave(device, interface, headers, hop)
        finally:
            if name is not None:
                lists["out"] = name


class PlainFirst(rules.Device):
    """Plain rules are tried before port rules."""

    def written(self, headers, sides, address, port):
        for rule in self.rules:
            if rule[0] is None and headers.equals(address, rule[sides[0]]):
                return rule[sides[1]], None
        return super().written(headers, sides, address, port)


def second_opinion(network: Network, order: str = "") -> rules.Network:
    """The network for `tests/rules.py`, perhaps with a wrong order."""
    device = PlainFirst if order == PLAIN_FIRST else rules.Device
    kind = {TRANSLATION_FIRST: TranslationFirst, LIST_FIRST: ListFirst}.get(order, rules.Network)
    return kind([device(configuration(router)) for router in network.routers.values()], link_table(network))


def deciding(network: Network, stack: Network, order: str, drawn: list[Packet], most: Optional[int] = None) -> list[Packet]:
    """The packets of which the two networks, the other one with this order, make something else; so many at most."""
    one, other = second_opinion(network), second_opinion(stack, order)
    found: list[Packet] = []
    for packet in drawn:
        asked = packet.place, rules.header_of(packet.header.word()), packet.ttl
        if not set(one.label(*asked)) & set(other.label(*asked)):
            found.append(packet)
            if len(found) == most:
                break
    return found
