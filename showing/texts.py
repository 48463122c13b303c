"""Texts of a document as people read them."""
from __future__ import annotations

import os
import re
import unicodedata
from typing import Any

# Categories of characters that show nothing, or turn the order of others: controls, formats, surrogates, unassigned, separators.
UNSEEN = {"Cc", "Cf", "Cs", "Co", "Cn", "Zl", "Zp"}
_PLAIN = re.compile(r"[\x20-\x7e]*")

# How devices shorten the names of interfaces.
SHORT = (("TenGigabitEthernet", "Te"), ("HundredGigE", "Hu"), ("FortyGigabitEthernet", "Fo"), ("TwentyFiveGigE", "Twe"),
         ("GigabitEthernet", "Gi"), ("FastEthernet", "Fa"), ("Ethernet", "Et"), ("Port-channel", "Po"), ("Loopback", "Lo"),
         ("Serial", "Se"), ("Tunnel", "Tu"), ("Vlan", "Vl"))


def shown(text: str) -> str:
    """A text of bytes, where the character U+00XX is the byte XX, as UTF-8. What is none or shows nothing, stands as `\\xff`, `\\u202e`."""
    if _PLAIN.fullmatch(text):
        return text
    decoded = text.encode("latin-1").decode("utf-8", "backslashreplace")
    return "".join(one if unicodedata.category(one) not in UNSEEN else one.encode("unicode_escape").decode() for one in decoded)


def all_shown(value: Any) -> Any:
    """A document with each of its texts as people read it. Names of members stay, and so do groups, of which there may be very many."""
    if isinstance(value, str):
        return shown(value)
    if isinstance(value, list):
        return [all_shown(one) for one in value]
    if isinstance(value, dict):
        return {name: one if name == "groups" else all_shown(one) for name, one in value.items()}
    return value


def short(interface: str) -> str:
    """`Gi0/1` of `GigabitEthernet0/1`."""
    for name, letters in SHORT:
        if interface.startswith(name) and interface[len(name):len(name) + 1].isdigit():
            return letters + interface[len(name):]
    return interface


def short_place(place: dict[str, Any]) -> str:
    """`R1 Gi0/1` of a place of the document."""
    return "%s %s" % (place["device"], short(place["interface"]))


def full_place(place: dict[str, Any]) -> str:
    """`R1 GigabitEthernet0/1` of a place of the document."""
    return "%s %s" % (place["device"], place["interface"])


def counted(number: int, one: str, several: str) -> str:
    """A number with its noun."""
    return "%s %s" % (format(number, ","), one if number == 1 else several)


def bytes_text(text: str) -> str:
    """A word of the command line as a document has texts: the character U+00XX for the byte XX."""
    return os.fsencode(text).decode("latin-1")
