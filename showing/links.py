"""A link table, read for a picture: which places it wires, and how."""
from __future__ import annotations

from typing import Iterator, Sequence

from showing.picture import Wiring

# How many places a line of each kind has, at least and at most.
PLACES = {"p2p": (2, 2), "lan": (2, 1 << 30), "ingress": (1, 1)}
# A table of more bytes than this isn't read (docs/REFUSALS.md).
MOST_BYTES = 16_777_216
# Of a refused word so many bytes are told.
MOST_WORD = 64
# What stands between the words of a line.
BLANKS = b" \t\r"


class Refused(Exception):
    """A line that no link table has: its number, the kind, and the word, which may be none (docs/REFUSALS.md)."""

    def __init__(self, line: int, kind: str, word: bytes = b"") -> None:
        super().__init__(line, kind, word)
        self.line, self.kind, self.word = line, kind, word[:MOST_WORD]


class Unread(Exception):
    """The table can't be read: a status, and the words before its path."""

    def __init__(self, status: int, told: str) -> None:
        super().__init__(status, told)
        self.status, self.told = status, told


def content_of(path: str) -> bytes:
    """The bytes of a table. Unread where there are none, as the proved programs tell it."""
    try:
        with open(path, "rb") as stream:
            content = stream.read(MOST_BYTES + 1)
    except (FileNotFoundError, NotADirectoryError):
        raise Unread(8, "not found") from None
    except OSError:
        raise Unread(4, "cannot read") from None
    if len(content) > MOST_BYTES:
        raise Unread(5, "too long")
    return content


def wiring_of(content: bytes) -> Wiring:
    """The segments of a table and the devices that it names, as texts of bytes. Refused where a line can't stand there."""
    segments: list[tuple[tuple[str, ...], bool]] = []
    devices: dict[str, None] = {}
    taken: tuple[set[tuple[bytes, bytes]], set[tuple[bytes, bytes]]] = set(), set()
    ingresses = 0
    for number, words in lines_of(content):
        kind = words[0].decode("latin-1")
        if kind not in PLACES:
            raise Refused(number, "BadWord", words[0])
        places = places_of(number, kind, words[1:], taken[kind == "ingress"])
        texts = tuple("%s %s" % (device.decode("latin-1"), interface.decode("latin-1")) for device, interface in places)
        devices.update((device.decode("latin-1"), None) for device, _ in places)
        if kind == "ingress":
            ingresses += 1
        else:
            segments.append((texts, kind == "lan"))
    if not ingresses:
        raise Refused(0, "NoIngress")
    return Wiring(segments, list(devices))


def lines_of(content: bytes) -> Iterator[tuple[int, list[bytes]]]:
    """The words of each line that says something, with its number."""
    for number, line in enumerate(content.split(b"\n"), 1):
        words = line.translate(bytes.maketrans(BLANKS, b" " * len(BLANKS))).split(b" ")
        words = [word for word in words if word]
        if words and not words[0].startswith(b"!"):
            yield number, words


def places_of(number: int, kind: str, words: Sequence[bytes], taken: set[tuple[bytes, bytes]]) -> list[tuple[bytes, bytes]]:
    """The places of a line, which are taken from now on."""
    least, most = PLACES[kind]
    places: list[tuple[bytes, bytes]] = []
    for at in range(0, len(words), 2):
        if len(places) == most:
            raise Refused(number, "BadWord", words[at])
        if at + 1 == len(words):
            raise Refused(number, "MissingWord")
        place = words[at], words[at + 1]
        if place in taken:
            raise Refused(number, "EndTaken", words[at + 1])
        taken.add(place)
        places.append(place)
    if len(places) < least:
        raise Refused(number, "MissingWord")
    return places
