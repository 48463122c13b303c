"""Exact sets of headers, of which the rows of reports are made.

`Values` is a set of one field's values, `Headers` a set of headers of all six fields. Both are reduced decision diagrams, and there is one
object for each set: `==` and `is` say whether two sets are equal, and sets are keys of dictionaries. A `Box` is a product of six `Values`:
what a person reads of a set of headers is its boxes.

The fields are those of a report's rows, in their order and as wide as there: `dst` and `src` of 32 bits, `proto` of 8, `dport` and `sport`
of 16 and `flags` of 8. For ICMP `sport` holds type * 256 + code.
"""
from __future__ import annotations

import re
from functools import lru_cache, reduce
from typing import Callable, Iterable, Iterator, NamedTuple, Sequence

FIELDS = ("dst", "src", "proto", "dport", "sport", "flags")
WIDTHS = (32, 32, 8, 16, 16, 8)
OFFSETS = tuple(sum(WIDTHS[:field]) for field in range(6))
WIDTH = sum(WIDTHS)

# ---- nodes: 0 is the empty set and 1 the whole one; any other node asks for the bit of its level, 0 the first one of a field or a header.

_BOTTOM = 255
_NODES: list[tuple[int, int, int]] = [(_BOTTOM, 0, 0), (_BOTTOM, 1, 1)]
_NUMBERS: dict[tuple[int, int, int], int] = {}


def _node(level: int, low: int, high: int) -> int:
    if low == high:
        return low
    key = (level, low, high)
    number = _NUMBERS.get(key)
    if number is None:
        number = _NUMBERS[key] = len(_NODES)
        _NODES.append(key)
    return number


def _pairs(a: int, b: int) -> tuple[int, int, int, int, int]:
    """The first level at which one of two nodes asks, and what each leads to there."""
    i, a0, a1 = _NODES[a]
    j, b0, b1 = _NODES[b]
    if i < j:
        return i, a0, a1, b, b
    if j < i:
        return j, a, a, b0, b1
    return i, a0, a1, b0, b1


@lru_cache(maxsize=None)
def _both(a: int, b: int) -> int:
    if a == 0 or b == 0:
        return 0
    if a == 1 or a == b:
        return b
    if b == 1:
        return a
    level, a0, a1, b0, b1 = _pairs(a, b)
    return _node(level, _both(a0, b0), _both(a1, b1))


@lru_cache(maxsize=None)
def _either(a: int, b: int) -> int:
    if a == 1 or b == 1:
        return 1
    if a == 0 or a == b:
        return b
    if b == 0:
        return a
    level, a0, a1, b0, b1 = _pairs(a, b)
    return _node(level, _either(a0, b0), _either(a1, b1))


@lru_cache(maxsize=None)
def _without(a: int, b: int) -> int:
    if a == 0 or b == 1 or a == b:
        return 0
    if b == 0:
        return a
    level, a0, a1, b0, b1 = _pairs(a, b)
    return _node(level, _without(a0, b0), _without(a1, b1))


@lru_cache(maxsize=None)
def _count(node: int, width: int) -> int:
    if node < 2:
        return node << width
    _, low, high = _NODES[node]
    return (_count(low, width) + _count(high, width)) >> 1


def _union(nodes: Sequence[int]) -> int:
    """The union of many, in halves: what is near each other in order is mostly alike."""
    if len(nodes) < 3:
        return reduce(_either, nodes, 0)
    middle = len(nodes) // 2
    return _either(_union(nodes[:middle]), _union(nodes[middle:]))


# ---- one field


class Pattern(NamedTuple):
    """Values of which the bits of `mask` are those of `bits`, and all others are open. `bits` has no bit outside `mask`."""

    mask: int
    bits: int


def address_of(text: str) -> int:
    """The number of a dotted address."""
    first, second, third, fourth = text.split(".")
    return int(first) << 24 | int(second) << 16 | int(third) << 8 | int(fourth)


def dotted(value: int) -> str:
    """The address with this number."""
    return "%d.%d.%d.%d" % (value >> 24, value >> 16 & 255, value >> 8 & 255, value & 255)


def pattern_of(text: str, width: int) -> Pattern:
    """What a field of a row says: `*`, a number, an address, a prefix, or a digit 0, 1 or * for each bit. ValueError for other texts."""
    full = (1 << width) - 1
    if text == "*":
        return Pattern(0, 0)
    if "." in text:
        address, _, length = text.partition("/")
        mask = full ^ full >> int(length or 32)
        return Pattern(mask, address_of(address) & mask)
    if len(text) == width and not text.strip("01*"):
        return Pattern(int(re.sub("[01]", "1", text).replace("*", "0"), 2), int(text.replace("*", "0"), 2))
    if int(text) > full:
        raise ValueError(text)
    return Pattern(full, int(text))


def pattern_text(pattern: Pattern, width: int) -> str:
    """How a row writes it."""
    free = (1 << width) - 1 & ~pattern.mask
    if not pattern.mask:
        return "*"
    if width == 32 and not free & free + 1:
        return dotted(pattern.bits) + ("/%d" % (32 - free.bit_length()) if free else "")
    if not free:
        return str(pattern.bits)
    return "".join(str(pattern.bits >> bit & 1) if pattern.mask >> bit & 1 else "*" for bit in reversed(range(width)))


@lru_cache(maxsize=None)
def _node_of_pattern(pattern: Pattern, width: int) -> int:
    node = 1
    for bit in range(width):
        if pattern.mask >> bit & 1:
            node = _node(width - 1 - bit, 0, node) if pattern.bits >> bit & 1 else _node(width - 1 - bit, node, 0)
    return node


class Values:
    """A set of values of one field, `width` bits wide. Sets of different widths have nothing to do with each other."""

    __slots__ = ("node", "width")
    _known: dict[tuple[int, int], Values] = {}
    node: int
    width: int

    def __new__(cls, node: int, width: int) -> Values:
        found = cls._known.get((node, width))
        if found is None:
            found = object.__new__(cls)
            found.node, found.width = node, width
            cls._known[node, width] = found
        return found

    @staticmethod
    def all(width: int) -> Values:
        return Values(1, width)

    @staticmethod
    def none(width: int) -> Values:
        return Values(0, width)

    @staticmethod
    @lru_cache(maxsize=None)
    def of_text(text: str, width: int) -> Values:
        """What a field of a row says."""
        return Values(_node_of_pattern(pattern_of(text, width), width), width)

    @staticmethod
    def of_texts(texts: Iterable[str], width: int) -> Values:
        """What at least one of these texts says."""
        return Values(_union([Values.of_text(text, width).node for text in texts]), width)

    @staticmethod
    def of_patterns(patterns: Iterable[Pattern], width: int) -> Values:
        return Values(_union([_node_of_pattern(pattern, width) for pattern in patterns]), width)

    @staticmethod
    def of_range(low: int, high: int, width: int) -> Values:
        """The values from `low` to `high`, both among them."""
        patterns, full = [], (1 << width) - 1
        while low <= high:
            free = min(low & -low if low else full + 1, 1 << (high - low + 1).bit_length() - 1) - 1
            patterns.append(Pattern(full & ~free, low))
            low += free + 1
        return Values.of_patterns(patterns, width)

    def __and__(self, other: Values) -> Values:
        return Values(_both(self.node, other.node), self.width)

    def __or__(self, other: Values) -> Values:
        return Values(_either(self.node, other.node), self.width)

    def __sub__(self, other: Values) -> Values:
        return Values(_without(self.node, other.node), self.width)

    def __invert__(self) -> Values:
        return Values(_without(1, self.node), self.width)

    def __bool__(self) -> bool:
        return self.node != 0

    def __le__(self, other: Values) -> bool:
        """Whether it is a part of the other set."""
        return _without(self.node, other.node) == 0

    def __contains__(self, value: int) -> bool:
        node = self.node
        while node > 1:
            level, low, high = _NODES[node]
            node = high if value >> self.width - 1 - level & 1 else low
        return node == 1

    def is_all(self) -> bool:
        return self.node == 1

    def size(self) -> int:
        """How many values it has."""
        return _count(self.node, self.width)

    def patterns(self) -> list[Pattern]:
        """Disjoint patterns that make up the set, in the order of a report."""
        return list(_patterns(self.node, self.width))

    def texts(self) -> list[str]:
        """The same as a row writes them."""
        return [pattern_text(pattern, self.width) for pattern in self.patterns()]

    def ranges(self, most: int = 4096) -> list[tuple[int, int]] | None:
        """The set as ranges in order, as few as there can be; None where these are more than `most`."""
        found: list[tuple[int, int]] = []
        for low, high in _blocks(self.node, self.width):
            if found and found[-1][1] + 1 == low:
                found[-1] = (found[-1][0], high)
            elif len(found) == most:
                return None
            else:
                found.append((low, high))
        return found

    def __reduce__(self) -> tuple[Callable[..., Values], tuple[object, ...]]:
        return Values.of_patterns, (self.patterns(), self.width)

    def __repr__(self) -> str:
        return "Values(%s)" % (" ".join(self.texts()[:4]) or "none")


@lru_cache(maxsize=None)
def _patterns(node: int, width: int) -> tuple[Pattern, ...]:
    if node < 2:
        return (Pattern(0, 0),) * node
    level, low, high = _NODES[node]
    bit = 1 << width - 1 - level
    return (tuple(Pattern(one.mask | bit, one.bits) for one in _patterns(low, width))
            + tuple(Pattern(one.mask | bit, one.bits | bit) for one in _patterns(high, width)))


def _blocks(node: int, width: int, level: int = 0, start: int = 0) -> Iterator[tuple[int, int]]:
    """The set as ranges in order, some of which touch."""
    if node == 0:
        return
    if node == 1:
        yield start, start + (1 << width - level) - 1
        return
    here, low, high = _NODES[node]
    low, high = (node, node) if here > level else (low, high)
    yield from _blocks(low, width, level + 1, start)
    yield from _blocks(high, width, level + 1, start | 1 << width - 1 - level)


# ---- products of fields


class Box(NamedTuple):
    """All headers whose fields have these values."""

    protocol: Values
    source: Values
    destination: Values
    source_port: Values
    destination_port: Values
    flags: Values

    @staticmethod
    def of_fields(fields: Sequence[Values]) -> Box:
        """Of the six fields in the order of a report."""
        destination, source, protocol, destination_port, source_port, flags = fields
        return Box(protocol, source, destination, source_port, destination_port, flags)

    @staticmethod
    def of_texts(texts: Sequence[str]) -> Box:
        """Of the texts of the six fields in the order of a report, as a row has them."""
        return Box.of_fields([Values.of_text(text, width) for text, width in zip(texts, WIDTHS)])

    def fields(self) -> tuple[Values, ...]:
        """The six fields in the order of a report."""
        return self.destination, self.source, self.protocol, self.destination_port, self.source_port, self.flags

    def is_empty(self) -> bool:
        return not all(self)

    def size(self) -> int:
        """How many headers it has."""
        return reduce(lambda count, values: count * values.size(), self, 1)

    def meet(self, other: Box) -> Box:
        """What is in both."""
        return Box(*(mine & theirs for mine, theirs in zip(self, other)))

    def subtract(self, other: Box) -> list[Box]:
        """Disjoint boxes: what is in this one and not in the other."""
        if self.meet(other).is_empty():
            return [] if self.is_empty() else [self]
        parts, left = [], list(self)
        for field, theirs in enumerate(other):
            outside = left[field] - theirs
            if outside:
                parts.append(Box._make([*left[:field], outside, *left[field + 1:]]))
            left[field] &= theirs
        return parts

    def holds(self, header: Sequence[int]) -> bool:
        """Whether the header, six numbers in the order of a report, is in it."""
        return all(value in values for value, values in zip(header, self.fields()))


Fields = tuple[Values, ...]  # the six in the order of a report
ALL_FIELDS: Fields = tuple(Values.all(width) for width in WIDTHS)


def joined(boxes: Iterable[Fields]) -> list[Fields]:
    """The same headers in fewer boxes: those that differ in one field alone become one, again and again. Disjoint boxes stay so."""
    found, quiet, turn = list(dict.fromkeys(boxes)), 0, 0
    order = (1, 0, 4, 3, 5, 2)
    while quiet < len(order):
        field, turn = order[turn % len(order)], turn + 1
        alike: dict[tuple[Fields, Fields], list[int]] = {}
        for box in found:
            alike.setdefault((box[:field], box[field + 1:]), []).append(box[field].node)
        quiet = quiet + 1 if len(alike) == len(found) else 0
        found = [(*before, Values(_union(nodes), WIDTHS[field]), *behind) for (before, behind), nodes in alike.items()]
    return found


# ---- sets of headers


@lru_cache(maxsize=None)
def _above(values: int, offset: int, rest: int) -> int:
    """The headers with a field of these values, from the level `offset` on, and then with a rest."""
    if values < 2:
        return rest if values else 0
    level, low, high = _NODES[values]
    return _node(offset + level, _above(low, offset, rest), _above(high, offset, rest))


def _node_of_boxes(boxes: Sequence[Fields], field: int = 0) -> int:
    """The union of boxes, of which the fields before this one are left out."""
    if field == len(WIDTHS):
        return 1 if boxes else 0
    rests: dict[Values, list[Fields]] = {}
    for box in boxes:
        rests.setdefault(box[field], []).append(box)
    behind: dict[int, list[int]] = {}
    for values, some in rests.items():
        behind.setdefault(_node_of_boxes(some, field + 1), []).append(values.node)
    return _union([_above(_union(values), OFFSETS[field], rest) for rest, values in behind.items()])


@lru_cache(maxsize=None)
def _divided(node: int, field: int) -> tuple[tuple[int, int], ...]:
    """What may stand behind a field, each once, with the field's values that lead there."""
    level, low, high = _NODES[node]
    if level >= OFFSETS[field] + WIDTHS[field]:
        return ((node, 1),) if node else ()
    lows, highs = dict(_divided(low, field)), dict(_divided(high, field))
    return tuple((rest, _node(level - OFFSETS[field], lows.get(rest, 0), highs.get(rest, 0))) for rest in {**lows, **highs})


def _boxes_of(node: int, field: int = 0) -> list[Fields]:
    if field == len(WIDTHS):
        return [()]
    return [(Values(values, WIDTHS[field]), *behind) for rest, values in _divided(node, field) for behind in _boxes_of(rest, field + 1)]


class Headers:
    """A set of headers. There is one object for each set."""

    __slots__ = ("node", "_boxes")
    _known: dict[int, Headers] = {}
    node: int
    _boxes: list[Box] | None

    def __new__(cls, node: int) -> Headers:
        found = cls._known.get(node)
        if found is None:
            found = cls._known[node] = object.__new__(cls)
            found.node, found._boxes = node, None
        return found

    @staticmethod
    def all() -> Headers:
        return Headers(1)

    @staticmethod
    def none() -> Headers:
        return Headers(0)

    @staticmethod
    def of_cube(text: str) -> Headers:
        """What the first line of a row says: `dst 10.0.0.0/24 src * proto 6 dport 80 sport * flags *`. ValueError for other lines."""
        words = text.split()
        if tuple(words[::2]) != FIELDS or len(words) != 12:
            raise ValueError(text)
        return Headers.of_box(Box.of_texts(words[1::2]))

    @staticmethod
    def of_box(box: Box) -> Headers:
        return Headers.of_boxes([box])

    @staticmethod
    def of_boxes(boxes: Iterable[Box]) -> Headers:
        """What is in at least one of the boxes."""
        return Headers(_node_of_boxes(joined(box.fields() for box in boxes if not box.is_empty())))

    @staticmethod
    def of_rows(rows: Iterable[Sequence[str]]) -> Headers:
        """What at least one of the rows says, each the texts of the six fields in the order of a report, and whatever stands behind. Many
        rows are one set in a few passes: those that differ in the source alone come together first."""
        sources: dict[tuple[str, ...], list[str]] = {}
        for destination, source, protocol, destination_port, source_port, flags, *_ in rows:
            sources.setdefault((destination, protocol, destination_port, source_port, flags), []).append(source)
        known: dict[tuple[str, ...], Values] = {}
        boxes = []
        for (destination, *others), texts in sources.items():
            key = tuple(texts)
            values = known.get(key)
            if values is None:
                values = known[key] = Values.of_texts(texts, 32)
            boxes.append((Values.of_text(destination, 32), values, *map(Values.of_text, others, WIDTHS[2:])))
        return Headers(_node_of_boxes(joined(boxes)))

    @staticmethod
    def where(**fields: Values) -> Headers:
        """All headers of which these fields, by their names in a Box, have these values: `Headers.where(source=values)`."""
        return Headers.of_box(Box.of_fields(ALL_FIELDS)._replace(**fields))

    def __and__(self, other: Headers) -> Headers:
        return Headers(_both(self.node, other.node))

    def __or__(self, other: Headers) -> Headers:
        return Headers(_either(self.node, other.node))

    def __sub__(self, other: Headers) -> Headers:
        return Headers(_without(self.node, other.node))

    def __invert__(self) -> Headers:
        return Headers(_without(1, self.node))

    def __bool__(self) -> bool:
        return self.node != 0

    def __le__(self, other: Headers) -> bool:
        """Whether it is a part of the other set."""
        return _without(self.node, other.node) == 0

    def holds(self, header: Sequence[int]) -> bool:
        """Whether the header, six numbers in the order of a report, is in it."""
        bits = reduce(lambda before, field: before << field[1] | field[0], zip(header, WIDTHS), 0)
        node = self.node
        while node > 1:
            level, low, high = _NODES[node]
            node = high if bits >> WIDTH - 1 - level & 1 else low
        return node == 1

    def size(self) -> int:
        """How many headers it has."""
        return _count(self.node, WIDTH)

    def boxes(self) -> list[Box]:
        """Disjoint boxes that make up the set, few but not always the fewest; the same ones in each run."""
        if self._boxes is None:
            self._boxes = [Box.of_fields(fields) for fields in joined(_boxes_of(self.node))]
        return list(self._boxes)

    def __reduce__(self) -> tuple[Callable[..., Headers], tuple[object, ...]]:
        return Headers.of_boxes, (self.boxes(),)

    def __repr__(self) -> str:
        return "Headers(%d in %d boxes)" % (self.size(), len(self.boxes()))


def union(sets: Iterable[Headers]) -> Headers:
    """What is in at least one of the sets."""
    return Headers(_union([headers.node for headers in sets]))


# ---- reports


class Section(NamedTuple):
    """The rows of one ingress. A row is eight texts: those of the six fields in the order of a report, the old outcomes and the new
    ones."""

    ingress: str
    rows: list[tuple[str, ...]]


_ROW = re.compile(r"^dst (\S+) src (\S+) proto (\S+) dport (\S+) sport (\S+) flags (\S+)\nold (.*)\nnew (.*)$", re.MULTILINE)
_INGRESS = re.compile(r"^ingress (.*) rows ([0-9]+)$", re.MULTILINE)


def sections(report: str) -> list[Section]:
    """The ingresses of a report, each with its rows, in its order. ValueError for a text that isn't a whole report."""
    heads = list(_INGRESS.finditer(report))
    ends = [head.start() for head in heads[1:]] + [len(report)]
    found = [Section(head.group(1), _ROW.findall(report, head.end(), end)) for head, end in zip(heads, ends)]
    whole = all(len(section.rows) == int(head.group(2)) for head, section in zip(heads, found))
    if not whole or not report.endswith("affected %d\n" % sum(len(section.rows) for section in found)):
        raise ValueError("no whole report")
    return found


def by_outcome(rows: Iterable[Sequence[str]]) -> dict[tuple[str, str], Headers]:
    """The headers of rows for each pair of old and new outcomes, in the order in which these come."""
    alike: dict[tuple[str, str], list[Sequence[str]]] = {}
    for row in rows:
        alike.setdefault((row[6], row[7]), []).append(row)
    return {outcomes: Headers.of_rows(some) for outcomes, some in alike.items()}
