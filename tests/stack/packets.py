"""Packets as bytes: made of a header, and read back where they come out.

Behind the transport header each packet has eight bytes of its own: the run's mark and the packet's number. The identification of IP is the
number's lower half. No router changes them, and a message of ICMP about a packet quotes them.
"""
import struct
from typing import NamedTuple, Optional

from headers import Header

ETHERNET = 14
IP = 20
MARK = 4
TCP, UDP, ICMP = 6, 17, 1
EXPIRED = 11
UNREACHABLE = 3


def checksum(data: bytes) -> int:
    """The checksum of RFC 1071."""
    if len(data) % 2:
        data += b"\0"
    total = sum(struct.unpack(f"!{len(data) // 2}H", data))
    while total >> 16:
        total = (total & 0xFFFF) + (total >> 16)
    return ~total & 0xFFFF


def transport(header: Header, payload: bytes) -> bytes:
    """The transport header with its checksum, and the payload."""
    pseudo = struct.pack("!IIBB", header.src, header.dst, 0, header.proto)
    if header.proto == TCP:
        def segment(total: int) -> bytes:
            return struct.pack("!HHIIBBHHH", header.sport, header.dport, 1, 1, 5 << 4, header.flags, 1024, total, 0) + payload
    elif header.proto == UDP:
        def segment(total: int) -> bytes:
            return struct.pack("!HHHH", header.sport, header.dport, 8 + len(payload), total) + payload
    elif header.proto == ICMP:
        pseudo = b""

        def segment(total: int) -> bytes:
            return struct.pack("!BBHI", header.sport >> 8, header.sport & 255, total, 0) + payload
    else:
        # (Translation mends the checksums of UDP-Lite and ICMPv6, which stand in the first eight bytes.)
        return bytes(8) + payload
    whole = segment(0)
    return segment(checksum((pseudo + struct.pack("!H", len(whole)) if pseudo else b"") + whole))


def frame(header: Header, ttl: int, mark: bytes, number: int, to: bytes, by: bytes) -> bytes:
    """The packet in an Ethernet frame.

    Args:
        ttl: 1 to 255.
        mark: the run's four bytes.
        number: the packet's, below 2^32.
        to, by: hardware addresses of six bytes.
    """
    body = transport(header, mark + struct.pack("!I", number))
    fields = (0x45, 0, IP + len(body), number & 0xFFFF, 0x4000, ttl, header.proto)
    start = struct.pack("!BBHHHBB", *fields)
    addresses = struct.pack("!II", header.src, header.dst)
    return to + by + b"\x08\x00" + start + struct.pack("!H", checksum(start + b"\0\0" + addresses)) + addresses + body


class Seen(NamedTuple):
    """A packet that was caught: `about` is the type and code of ICMP where it is a router's message about the packet."""

    number: int
    header: Header
    about: Optional[tuple[int, int]]


def header_at(data: bytes, at: int) -> tuple[Header, int]:
    """The header of the IP packet that begins at this byte, and where its payload begins."""
    length, protocol = (data[at] & 15) * 4, data[at + 9]
    src, dst = struct.unpack_from("!II", data, at + 12)
    here = at + length
    if protocol == TCP:
        sport, dport = struct.unpack_from("!HH", data, here)
        return Header(dst, src, protocol, dport, sport, data[here + 13]), here + (data[here + 12] >> 4) * 4
    if protocol == UDP:
        sport, dport = struct.unpack_from("!HH", data, here)
        return Header(dst, src, protocol, dport, sport, 0), here + 8
    if protocol == ICMP:
        return Header(dst, src, protocol, 0, data[here] << 8 | data[here + 1], 0), here + 8
    return Header(dst, src, protocol, 0, 0, 0), here + 8


def read(data: bytes, mark: bytes) -> Optional[Seen]:
    """What a frame of IP says, or None where it bears no packet of the run."""
    try:
        header, payload = header_at(data, ETHERNET)
        if data[payload:payload + MARK] == mark:
            return Seen(struct.unpack_from("!I", data, payload + MARK)[0], header, None)
        if header.proto != ICMP:
            return None
        quoted, inner = header_at(data, payload)
        if data[inner:inner + MARK] != mark:
            return None
        return Seen(struct.unpack_from("!I", data, inner + MARK)[0], quoted, (header.sport >> 8, header.sport & 255))
    except (IndexError, struct.error):
        return None
