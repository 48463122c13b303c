"""Names of interfaces and devices as commands show them, and as configurations write them."""
from __future__ import annotations

import re

KIND = re.compile(r"([A-Za-z][A-Za-z-]*?)\s*([0-9].*)?$")
# Short forms that are no beginning of the whole word.
SPECIAL = {"po": "port-channel", "te": "tengigabitethernet", "twe": "twentyfivegige", "fo": "fortygigabitethernet", "hu": "hundredgige",
           "tw": "twogigabitethernet", "fi": "fivegigabitethernet", "et": "ethernet", "mg": "mgmt"}
# Kinds of interfaces whose two ends are a link by themselves.
POINT_TO_POINT = ("async", "atm", "bri", "cellular", "dialer", "hssi", "mfr", "multilink", "pos", "serial", "tunnel", "virtual-template",
                  "virtual-ppp", "vasileft", "vasiright")
MANAGEMENT = re.compile(r"mgmt|management|oob|out-of-band", re.IGNORECASE)


def parts_of(name: str) -> tuple[str, str]:
    """The kind of an interface's name in small letters, and its numbers: `Gi0/1.10` is `gi` and `0/1.10`."""
    found = KIND.match(name.strip())
    return (found.group(1).lower(), found.group(2) or "") if found else (name.lower(), "")


def is_short_for(short: str, whole: str) -> bool:
    """Whether a name that a command shows is that of an interface: the same numbers, and a beginning of the same kind."""
    kind, numbers = parts_of(short)
    whole_kind, whole_numbers = parts_of(whole)
    return numbers == whole_numbers and (whole_kind.startswith(kind) or SPECIAL.get(kind) == whole_kind)


def whole_name(shown: str, names: list[str]) -> str | None:
    """The one of these names that a command shows so: the very name, or the only one that it is short for; else None."""
    if shown in names:
        return shown
    same = [name for name in names if name.lower() == shown.lower()] or [name for name in names if is_short_for(shown, name)]
    return same[0] if len(same) == 1 else None


def device_name(shown: str, hostnames: list[str]) -> str | None:
    """The hostname that a neighbour's name means: the very name, or without its domain and serial number, in any case; else None."""
    bare = re.sub(r"\(.*\)$", "", shown.strip())
    for name in (bare, bare.split(".")[0]):
        same = [host for host in hostnames if host == name] or [host for host in hostnames if host.lower() == name.lower()]
        if len(same) == 1:
            return same[0]
    return None


def is_point_to_point(name: str) -> bool:
    """Whether an interface of this kind has one other end."""
    return parts_of(name)[0] in POINT_TO_POINT


def main_of(name: str) -> str:
    """The name of the main interface of a subinterface, or the name itself."""
    return name.partition(".")[0]


def in_order(name: str) -> list[tuple[int, int, str]]:
    """A key by which names stand in order, numbers by their size: `Gi0/2` before `Gi0/10`."""
    return [(0, int(part), "") if part.isdigit() else (1, 0, part) for part in re.findall(r"[0-9]+|[^0-9]+", name)]
