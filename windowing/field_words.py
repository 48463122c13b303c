"""Sets of headers in the words of engineers: one vocabulary for texts, documents and expectations."""
from __future__ import annotations

from functools import lru_cache
from typing import Iterable, Mapping, NamedTuple, Sequence

import cubes
from cubes import ALL_FIELDS, Box, Headers, Values, dotted

PROTOCOLS = {1: "icmp", 2: "igmp", 4: "ipinip", 6: "tcp", 17: "udp", 47: "gre", 50: "esp", 51: "ahp", 88: "eigrp", 89: "ospf", 103: "pim"}
# The names of `view`, which are those of access lists, and two more that everybody writes.
TCP_PORTS = {
    7: "echo", 9: "discard", 13: "daytime", 19: "chargen", 20: "ftp-data", 21: "ftp", 22: "ssh", 23: "telnet", 25: "smtp", 37: "time",
    43: "whois", 49: "tacacs", 53: "domain", 70: "gopher", 79: "finger", 80: "www", 101: "hostname", 109: "pop2", 110: "pop3",
    111: "sunrpc", 113: "ident", 119: "nntp", 179: "bgp", 194: "irc", 443: "https", 512: "exec", 513: "login", 514: "cmd", 515: "lpd",
    517: "talk", 540: "uucp", 543: "klogin", 544: "kshell"}
UDP_PORTS = {
    7: "echo", 9: "discard", 37: "time", 42: "nameserver", 49: "tacacs", 53: "domain", 67: "bootps", 68: "bootpc", 69: "tftp",
    111: "sunrpc", 123: "ntp", 137: "netbios-ns", 138: "netbios-dgm", 139: "netbios-ss", 161: "snmp", 162: "snmptrap", 177: "xdmcp",
    434: "mobile-ip", 443: "https", 500: "isakmp", 512: "biff", 513: "who", 514: "syslog", 517: "talk", 520: "rip", 4500: "non500-isakmp"}
ICMP_TYPES = {
    0: "echo-reply", 3: "unreachable", 4: "source-quench", 5: "redirect", 8: "echo", 9: "router-advertisement",
    10: "router-solicitation", 11: "time-exceeded", 12: "parameter-problem", 13: "timestamp-request", 14: "timestamp-reply",
    17: "mask-request", 18: "mask-reply", 30: "traceroute"}
ICMP_CODES = {768: "net-unreachable", 769: "host-unreachable", 770: "protocol-unreachable", 771: "port-unreachable", 772: "packet-too-big",
              781: "administratively-prohibited", 2816: "ttl-exceeded"}
ESTABLISHED = Values.of_texts(("***1****", "*****1**"), 8)
FLAG_NAMES = ((32, "urg"), (16, "ack"), (8, "psh"), (4, "rst"), (2, "syn"), (1, "fin"))
TCP, UDP, ICMP = (Values.of_text(text, 8) for text in ("6", "17", "1"))
# More ranges than these are no words.
MOST_RANGES = 256
# A set of so many addresses may be told as all but some.
HALF = 1 << 31


def listed(items: Sequence[str], most: int) -> str:
    """The first ones, and how many more there are."""
    if len(items) > most + 1:
        return "%s and %d more" % (", ".join(items[:most]), len(items) - most)
    return ", ".join(items)


# ---- addresses


def _prefix_text(level: int, prefix: int) -> str:
    return ("%s/%d" % (dotted(prefix), level) if level < 32 else dotted(prefix)) if level else "any"


def _half(level: int, prefix: int, high: int) -> tuple[int, int]:
    return level + 1, prefix | high << 31 - level


@lru_cache(maxsize=None)
def _block(level: int, prefix: int) -> Values:
    return Values.of_text(_prefix_text(level, prefix) if level else "*", 32)


@lru_cache(maxsize=None)
def _prefixes(values: Values, level: int = 0, prefix: int = 0) -> tuple[str, ...]:
    """The prefixes that make up the part of a set within one."""
    block = _block(level, prefix)
    here = values & block
    if not here:
        return ()
    if here == block:
        return (_prefix_text(level, prefix),)
    return _prefixes(here, *_half(level, prefix, 0)) + _prefixes(here, *_half(level, prefix, 1))


@lru_cache(maxsize=None)
def _cover(values: Values, level: int = 0, prefix: int = 0) -> tuple[tuple[str, tuple[str, ...]], ...]:
    """The part of a set within a prefix, as prefixes of which some have exceptions, in few words."""
    block = _block(level, prefix)
    here = values & block
    if not here or here == block:
        return tuple((text, ()) for text in _prefixes(here, level, prefix))
    plain = _cover(here, *_half(level, prefix, 0)) + _cover(here, *_half(level, prefix, 1))
    words = sum(1 + len(but) for _, but in plain)
    if level >= 8 and words > 2:
        rest = _prefixes(block - here, level, prefix)
        if 1 + len(rest) < words:
            return ((_prefix_text(level, prefix), rest),)
    return plain


def _masked(values: Values, most: int) -> str:
    """A set of addresses that has bits open in the middle, by its patterns."""
    texts = []
    for mask, bits in values.patterns():
        free = 0xFFFFFFFF & ~mask
        if not free & free + 1:
            texts.append(_prefix_text(32 - free.bit_length(), bits))
            continue
        whole = all(free >> shift & 255 in (0, 255) for shift in (24, 16, 8, 0))
        octets = ".".join("*" if free >> shift & 255 else str(bits >> shift & 255) for shift in (24, 16, 8, 0))
        texts.append(octets if whole else "%s %s" % (dotted(bits), dotted(free)))
    return listed(texts, most)


def addresses(values: Values, most: int = 4) -> str:
    """A set of addresses: prefixes, some with exceptions; or all but some, where that is shorter; or an address with its wildcard."""
    if values.is_all():
        return "any"
    if values.ranges(MOST_RANGES) is None:
        return _masked(values, most)
    found, other = _cover(values), _cover(~values)
    # (so many more words that open bits in the middle are easier to read)
    if 4 * len(values.patterns()) < min(sum(1 + len(but) for _, but in some) for some in (found, other)):
        return _masked(values, most)
    if len(other) < len(found) and values.size() >= HALF:
        return "all but " + listed(_largest_first(other), most)
    return listed(_largest_first(found) if len(found) > most + 1 else [text + _but(but) for text, but in found], most)


def address_texts(values: Values) -> list[str]:
    """A set of addresses as disjoint texts of a report's rows: prefixes, or patterns where there are far fewer of these; `*` for all."""
    if values.is_all():
        return ["*"]
    patterns = values.texts()
    if values.ranges(MOST_RANGES) is None:
        return patterns
    prefixes = list(_prefixes(values))
    return patterns if 4 * len(patterns) < len(prefixes) else prefixes


def _largest_first(cover: Iterable[tuple[str, tuple[str, ...]]]) -> list[str]:
    """Prefixes with their exceptions, the largest ones first."""
    return [text + _but(but) for text, but in sorted(cover, key=lambda pair: int(pair[0].partition("/")[2] or 32))]


def _but(but: Sequence[str]) -> str:
    return " (but %s)" % listed(but, 3) if but else ""


# ---- services


def _numbers(values: Values, names: Mapping[int, str], most: int = 6) -> str:
    """A set of numbers as ranges, those alone with their names; or all but some, where that is shorter."""
    def one(low: int, high: int) -> str:
        if low < high:
            return "%d-%d" % (low, high)
        return "%d (%s)" % (low, names[low]) if low in names else str(low)

    def text(pairs: list[tuple[int, int]]) -> str:
        return listed([one(low, high) for low, high in pairs], most)

    here, rest = values.ranges(MOST_RANGES), (~values).ranges(MOST_RANGES)
    if here is None:
        return listed(values.texts(), 2)
    if rest is not None and len(rest) < len(here):
        return "all but " + text(rest)
    return text(here)


def protocols(values: Values) -> str:
    """A set of protocols by their names."""
    def text(some: Values) -> str:
        names: list[str] = []
        for low, high in some.ranges() or []:
            names += ["%d-%d" % (low, high)] if high - low > 3 else [PROTOCOLS.get(at, str(at)) for at in range(low, high + 1)]
        return listed(names, 6)

    rest = ~values
    if values.is_all():
        return "any"
    if len(rest.ranges() or []) < len(values.ranges() or []) or rest.size() < 4:
        return "all but " + text(rest)
    return text(values)


def flags_words(values: Values) -> str:
    """A set of TCP flags: `established` where ACK or RST is set."""
    if values.is_all():
        return ""
    if values == ESTABLISHED:
        return "established"
    if values == ~ESTABLISHED:
        return "not established"
    texts = []
    for mask, bits in values.patterns():
        names = [name if bits & bit else "no " + name for bit, name in FLAG_NAMES if mask & bit]
        # (the two bits before URG are written as they stand)
        texts.append(" ".join(names) if mask < 64 else cubes.pattern_text(cubes.Pattern(mask, bits), 8))
    return "flags " + listed(texts, 3)


def icmp_words(values: Values) -> str:
    """A set of ICMP messages, each a type times 256 plus a code, by their names."""
    if values.is_all():
        return ""
    if values.ranges(MOST_RANGES) is None:
        return listed(values.texts(), 2)
    texts = []
    for low, high in values.ranges() or []:
        while low <= high:
            kind = low >> 8
            if low & 255 == 0 and high >= low | 255:
                texts.append(ICMP_TYPES.get(kind, "type %d" % kind))
                low += 256
            else:
                last = min(high, low | 255)
                texts += [_icmp_code(low, last)]
                low = last + 1
    rest = ~values
    if len(texts) > 4 and len(rest.ranges() or []) < 4:
        return "all but " + icmp_words(rest)
    return listed(texts, 5)


def _icmp_code(low: int, high: int) -> str:
    if low == high:
        return ICMP_CODES.get(low, "type %d code %d" % (low >> 8, low & 255))
    return "type %d codes %d-%d" % (low >> 8, low & 255, high & 255)


def service(box: Box) -> str:
    """The protocol of a box with its ports, messages and flags; `any` for everything."""
    words = [protocols(box.protocol)]
    names = TCP_PORTS if box.protocol == TCP else UDP_PORTS if box.protocol == UDP else {}
    if words == ["any"] and not (box.destination_port.is_all() and box.source_port.is_all() and box.flags.is_all()):
        words = ["any protocol"]
    if not box.destination_port.is_all():
        words.append(_numbers(box.destination_port, names) if names else "dport " + _numbers(box.destination_port, names))
    if not box.source_port.is_all():
        words.append(icmp_words(box.source_port) if box.protocol == ICMP else "from port " + _numbers(box.source_port, names))
    return " ".join(words + [text for text in [flags_words(box.flags)] if text])


def services(boxes: Iterable[Box], most: int = 4) -> str:
    """What is there, or all but what isn't, whichever is shorter; of boxes of one source and destination."""
    opened = Headers.of_boxes(box._replace(source=ALL_FIELDS[1], destination=ALL_FIELDS[0]) for box in boxes)
    here = by_protocol(opened.boxes())
    rest = by_protocol((~opened).boxes())
    if not rest:
        return "any"
    if len("; ".join(rest)) + len("all but ") < len("; ".join(here)):
        return "all but " + _joined(rest, most)
    return _joined(here, most)


def by_protocol(boxes: Iterable[Box]) -> list[str]:
    """The words of boxes, in order; those that say the same but for the protocol stand alone."""
    return sorted(map(service, boxes))


def _joined(texts: Sequence[str], most: int) -> str:
    if len(texts) > most + 1:
        return "%s and %d more" % ("; ".join(texts[:most]), len(texts) - most)
    return "; ".join(texts)


# ---- an example

# Where a set of addresses is larger than this, a host of the documentation's prefixes stands for the Internet.
LARGE = 1 << 24
STRANGERS = tuple(cubes.address_of(text) for text in ("203.0.113.20", "198.51.100.20", "192.0.2.20", "8.8.8.8"))


def host_of(values: Values, strangers: Sequence[int] = STRANGERS, hosts: Sequence[int] = (20, 10, 5, 2, 1)) -> int:
    """An address that may be a host's: in the largest block of the set, neither its first nor its last address where there are others."""
    if values.size() > LARGE:
        for address in strangers:
            if address in values:
                return address
    mask, bits = min(values.patterns(), key=lambda pattern: (pattern.mask.bit_count(), pattern.bits))
    free = 0xFFFFFFFF & ~mask
    for wish in hosts:
        if wish & ~free == 0:
            return bits | wish
    return bits


def value_of(values: Values, wishes: Sequence[int], least: int = 0) -> int:
    """The first wish that is in a set, else its least value from `least` on, else its least one."""
    for wish in wishes:
        if wish in values:
            return wish
    width = values.width
    above = values & Values.of_range(least, (1 << width) - 1, width)
    return (above or values).patterns()[0].bits


class Wishes(NamedTuple):
    """What an example of a protocol should have, the first wish first; and which protocols come before it."""

    rank: int
    destination_ports: Sequence[int]
    source_ports: Sequence[int]
    flags: Sequence[int]


WISHES = {
    6: Wishes(0, (443, 80, 22, 53, 25), (49152,), (2, 16, 18)),
    17: Wishes(1, (53, 123, 16400), (49152,), (0,)),
    1: Wishes(2, (0,), (0x800, 0), (0,)),
}
Header = tuple  # six numbers in the order of a report


def example(headers: Headers) -> Header:
    """A header of the set that looks like a packet: of a host, of TCP with SYN where that is in it, then of UDP or an ICMP echo, from a
    port above 1024."""
    found = []
    for box in headers.boxes():
        protocol = value_of(box.protocol, (6, 17, 1), 1)
        wishes = WISHES.get(protocol, Wishes(3, (0,), (0,), (0,)))
        ports = protocol in (6, 17)
        dport = value_of(box.destination_port, wishes.destination_ports, 1 if ports else 0)
        sport = value_of(box.source_port, wishes.source_ports, 1025 if ports else 0)
        flags = value_of(box.flags, wishes.flags)
        rank = (wishes.rank, protocol == 6 and flags != 2, ports and sport < 1025, -box.size())
        hosts = (host_of(box.destination, STRANGERS[1:], (10, 20, 5, 2, 1)), host_of(box.source))
        found.append((rank, (*hosts, protocol, dport, sport, flags)))
    return min(found)[1]


def packet(header: Header) -> str:
    """A header in words: `tcp 10.1.0.20:49152 -> 10.2.0.20:443 syn`."""
    destination, source, protocol, dport, sport, flags = header
    name = PROTOCOLS.get(protocol, "protocol %d" % protocol)
    if protocol in (6, 17):
        text = "%s %s:%d -> %s:%d" % (name, dotted(source), sport, dotted(destination), dport)
        names = " ".join(word for bit, word in FLAG_NAMES if protocol == 6 and flags & bit)
        return text + (" " + names if names else "")
    message = " " + icmp_words(Values.of_range(sport, sport, 16)) if protocol == 1 else ""
    if protocol == 1 and sport & 255 == 0 and sport >> 8 in ICMP_TYPES:
        message = " " + ICMP_TYPES[sport >> 8]
    return "%s%s %s -> %s" % (name, message, dotted(source), dotted(destination))


def header_of(text: str) -> Header:
    """A header as `ask` writes it: `dst 10.0.0.1 src 10.0.0.2 proto 6 dport 80 sport 5000 flags 2`."""
    words = text.split(" ")[1::2]
    return (*map(cubes.address_of, words[:2]), *map(int, words[2:]))


def header_text(header: Header) -> str:
    """A header as `trace` takes it."""
    destination, source, *others = header
    return ",".join([dotted(destination), dotted(source), *map(str, others)])
