"""The network as a picture: places by `dot -Tplain` of Graphviz, drawn by the page's template."""
from __future__ import annotations

import shutil
import subprocess
from collections import defaultdict
from dataclasses import dataclass, field
from typing import Iterable, NamedTuple, Sequence

from showing.hops import Table

# Up to so many devices all are drawn; of more those on a way, changed or with a finding; and so many at most.
ALL_DEVICES, MOST_DEVICES = 60, 160
# Seconds that the layout may take.
PATIENCE = 20
# Pixels of an inch.
SCALE = 62.0


class Wiring(NamedTuple):
    """How the new network is wired: each segment with its places `R1 Ethernet0`, whether it is a lan, and the devices without a link."""

    segments: list[tuple[tuple[str, ...], bool]]
    devices: list[str]


class Box(NamedTuple):
    """A device, a lan or several devices that aren't drawn, at its middle, in pixels. `finds` are numbers of findings."""

    name: str
    kind: str
    x: float
    y: float
    width: float
    height: float
    changed: bool
    ingress: bool


class Way(NamedTuple):
    """The way of one finding: paths of what both networks do, of today's and of the planned one, and marks where it ends."""

    finding: int
    paths: list[tuple[str, str]]
    marks: list[tuple[str, str, float, float]]


@dataclass
class Picture:
    """What the template draws; `none` says why there is nothing."""

    width: float = 0
    height: float = 0
    boxes: list[Box] = field(default_factory=list)
    wires: list[str] = field(default_factory=list)
    ways: list[Way] = field(default_factory=list)
    none: str = ""


class Walk(NamedTuple):
    """A finding's ways: the places of the links of each side, and the devices where it ends there with a sign."""

    finding: int
    today: list[tuple[str, str]]
    planned: list[tuple[str, str]]
    ends: list[tuple[str, str, str]]


class Graph:
    """Devices as nodes 0 .., then lans, then boxes of devices that aren't drawn; edges between numbers."""

    def __init__(self, wiring: Wiring, wanted: set[str]) -> None:
        names = list(dict.fromkeys([*wiring.devices, *(place.split(" ")[0] for ends, _ in wiring.segments for place in ends)]))
        drawn = names if len(names) <= ALL_DEVICES else [name for name in names if name in wanted]
        self.names = list(drawn)
        self.kinds = ["device"] * len(drawn)
        self.number = {name: at for at, name in enumerate(drawn)}
        self.edges: dict[tuple[int, int], None] = {}
        self.steps: dict[str, list[int]] = {}  # a place that is linked: its node, and behind it that of its lan
        self.fold(wiring, [name for name in names if name not in self.number])
        for ends, is_lan in wiring.segments:
            self.add(ends, is_lan)

    def fold(self, wiring: Wiring, rest: Sequence[str]) -> None:
        """One box for devices that aren't drawn and hang together."""
        near: dict[str, set[str]] = defaultdict(set)
        left = set(rest)
        for ends, _ in wiring.segments:
            inside = [name for name in dict.fromkeys(place.split(" ")[0] for place in ends) if name in left]
            for name in inside[1:]:
                near[inside[0]].add(name)
                near[name].add(inside[0])
        for name in rest:
            if name not in left:
                continue
            left.discard(name)
            stack, count = [name], 0
            while stack:
                one = stack.pop()
                count += 1
                self.number[one] = len(self.names)
                stack += [other for other in near[one] if other in left]
                left -= near[one]
            self.names.append("%d more" % count if count > 1 else "1 more")
            self.kinds.append("rest")

    def add(self, ends: Sequence[str], is_lan: bool) -> None:
        """The edges of a segment: one of two devices, or one from each device to the lan."""
        nodes = [self.number[place.split(" ")[0]] for place in ends]
        if len(set(nodes)) == 1:
            return
        hub = None
        if is_lan and len(set(nodes)) > 2:
            hub = len(self.names)
            self.names.append("lan")
            self.kinds.append("lan")
        for node in nodes[1:] if hub is None else nodes:
            other = nodes[0] if hub is None else hub
            if node != other:
                self.edges[min(node, other), max(node, other)] = None
        for place, node in zip(ends, nodes):
            self.steps[place] = [node] if hub is None else [node, hub]

    def between(self, out: str, into: str) -> list[int]:
        """The nodes of a step from a place to another one."""
        first, last = self.steps.get(out, []), self.steps.get(into, [])
        if not first or not last:
            return []
        return [*first, *last[:1]] if first[1:] == last[1:] else []


def layout(graph: Graph) -> list[list[str]]:
    """The lines of `dot -Tplain`, as words. Nodes are numbers, so no name is a word of dot's."""
    lines = ["graph G {", "graph [ranksep=0.55 nodesep=0.28]", "node [shape=box fixedsize=true height=0.34]"]
    for at, (name, kind) in enumerate(zip(graph.names, graph.kinds)):
        lines.append("%d [width=%.2f%s]" % (at, width_of(name, kind) / SCALE, " height=0.26" if kind == "lan" else ""))
    lines += ["%d -- %d" % edge for edge in ordered(graph)] + ["}"]
    done = subprocess.run(["dot", "-Tplain"], input="\n".join(lines).encode(), stdout=subprocess.PIPE, stderr=subprocess.DEVNULL,
                          timeout=PATIENCE, check=True)
    return [line.split() for line in done.stdout.decode().replace("\\\n", "").split("\n")]


def width_of(name: str, kind: str) -> float:
    """The width of a box in pixels, as wide as its name."""
    return 34.0 if kind == "lan" else max(54.0, 7.3 * min(len(name), 24) + 22)


def ordered(graph: Graph) -> list[tuple[int, int]]:
    """The edges from the middle of the network outwards, so that it stands on top."""
    near: dict[int, list[int]] = defaultdict(list)
    for one, other in graph.edges:
        near[one].append(other)
        near[other].append(one)
    depth: dict[int, int] = {}
    for root in sorted(near, key=lambda node: (-len(near[node]), node)):
        queue = [] if root in depth else [root]
        depth.setdefault(root, 0)
        for node in queue:
            for other in near[node]:
                if other not in depth:
                    depth[other] = depth[node] + 1
                    queue.append(other)
    return [(one, other) if depth[one] <= depth[other] else (other, one) for one, other in graph.edges]


def path_of(points: Sequence[tuple[float, float]]) -> str:
    """A spline as a path of SVG."""
    texts = ["%.1f,%.1f" % point for point in points]
    return "M%s C%s" % (texts[0], " ".join(texts[1:]))


@dataclass
class Drawing:
    """What dot said, in pixels."""

    graph: Graph
    width: float = 0
    height: float = 0
    places: dict[int, tuple[float, float, float, float]] = field(default_factory=dict)
    splines: dict[tuple[int, int], list[tuple[float, float]]] = field(default_factory=dict)

    def read(self, lines: Iterable[Sequence[str]]) -> None:
        """Takes the lines of `dot -Tplain`, in inches from below."""
        for words in lines:
            if words[:1] == ["graph"]:
                self.width, self.height = float(words[2]) * SCALE + 24, float(words[3]) * SCALE + 24
            elif words[:1] == ["node"]:
                x, y, width, height = map(float, words[2:6])
                self.places[int(words[1])] = (*self.point(x, y), width * SCALE, height * SCALE)
            elif words[:1] == ["edge"]:
                numbers = list(map(float, words[4:4 + 2 * int(words[3])]))
                self.splines[int(words[1]), int(words[2])] = [self.point(x, y) for x, y in zip(numbers[::2], numbers[1::2])]

    def point(self, x: float, y: float) -> tuple[float, float]:
        """A point in pixels from above."""
        return x * SCALE + 12, self.height - 12 - y * SCALE

    def steps(self, links: Iterable[tuple[str, str]]) -> list[tuple[int, int]]:
        """The edges that a way takes, each from a node to the next."""
        found: list[tuple[int, int]] = []
        for out, into in links:
            nodes = self.graph.between(out, into)
            found += [(one, other) for one, other in zip(nodes, nodes[1:]) if one != other]
        return list(dict.fromkeys(found))

    def path(self, step: tuple[int, int]) -> str:
        """The path of a step, in its direction."""
        points = self.splines.get(step) or list(reversed(self.splines.get((step[1], step[0]), [])))
        return path_of(points) if points else ""

    def way(self, walk: Walk) -> Way:
        """The way of a finding."""
        today, planned = self.steps(walk.today), self.steps(walk.planned)
        some = [("both" if step in planned else "old", step) for step in today] + [("new", step) for step in planned if step not in today]
        paths = [(side, self.path(step)) for side, step in some]
        marks = []
        for at, (side, device, sign) in enumerate(walk.ends):
            place = self.places.get(self.graph.number.get(device, -1))
            if place:
                right = 1 if side == "new" else -1
                marks.append((side, sign, place[0] + right * (place[2] / 2), place[1] + place[3] / 2))
        return Way(walk.finding, [(side, path) for side, path in paths if path], marks)


def ends_of(table: Table) -> list[tuple[str, str, str]]:
    """Where the ways of a table of hops end, each side's devices with a sign: a packet goes round, is dropped, or arrives."""
    found = []
    for side, hops in (("old", table.today), ("new", table.planned)):
        for hop in hops:
            if hop.lost or hop.arrives:
                round_again = any(text.startswith("\u21bb") for text in hop.ends)
                found.append((side, hop.device, "\u21bb" if round_again else "\u2715" if hop.lost else "\u25cf"))
    return list(dict.fromkeys(found))


def picture_of(wiring: Wiring, changed: set[str], ingresses: set[str], found: set[str], walks: Sequence[Walk]) -> Picture:
    """The picture. `found` are the devices with a finding; without Graphviz, or where it takes too long, it says why there is none."""
    if not shutil.which("dot"):
        return Picture(none="No picture: Graphviz isn't installed on the machine that made this page (Debian: graphviz).")
    if not wiring.segments and not wiring.devices:
        return Picture(none="No picture: the link table has no device.")
    on_way = {place.split(" ")[0] for walk in walks for links in (walk.today, walk.planned) for link in links for place in link}
    graph = Graph(wiring, changed | found | on_way)
    if sum(kind == "device" for kind in graph.kinds) > MOST_DEVICES:
        return Picture(none="No picture: more than %d devices have a part in the change." % MOST_DEVICES)
    drawing = Drawing(graph)
    try:
        drawing.read(layout(graph))
    except (subprocess.SubprocessError, OSError, ValueError):
        return Picture(none="No picture: Graphviz gave none within %d s." % PATIENCE)
    boxes = [Box(name, kind, *drawing.places[at], kind == "device" and name in changed, kind == "device" and name in ingresses)
             for at, (name, kind) in enumerate(zip(graph.names, graph.kinds)) if at in drawing.places]
    wires = [path_of(points) for points in drawing.splines.values()]
    return Picture(drawing.width, drawing.height, boxes, wires, [drawing.way(walk) for walk in walks])
