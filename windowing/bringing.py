"""Brings what the words name to what the proved programs read: folders as devices show them, tickets, tables of routes, revisions.

What is read as it stands stays where it is. Where a file needs it, both folders are prepared in the folder of the run, and every place
in them is known as one of the engineer's own files.
"""
from __future__ import annotations

import gc
import os
import re
import sys
from collections import Counter
from dataclasses import dataclass, field, replace
from functools import partial
from typing import Any, Callable, Container, Iterable

from header_words import Places, questions_of
from origin import Origins
from prepared import Prepared, Unseen, hidden_lines, prepared_of
from programs import TOP, Stop
from revisions import Repository, Revision, WorkingTree
from words import READ_FILES, Words

sys.path.insert(0, TOP)

from preparing import marks, plain, preparation, tickets  # noqa: E402
from preparing.command_line import PrepareWords  # noqa: E402
from preparing.faults import Fault, Faults, NotFound  # noqa: E402
from preparing.list_editing import list_of  # noqa: E402
from preparing.list_users import LIST_CHANGES, users_of  # noqa: E402
from preparing.outputs import check_free, write_folder  # noqa: E402
from preparing.processes import for_each  # noqa: E402
from preparing.texts import files_of, read_bytes, says_something  # noqa: E402
from preparing.told import Told, without_secrets  # noqa: E402
from preparing.waivers import Waiver, check_used, read_waivers  # noqa: E402

# Where Debian puts the package that reads tables of routes; this program runs without it.
PACKAGES = "/usr/lib/python3/dist-packages"
# Static routes that the verifier refuses by one of these words: where the change leaves them alone, the table says them.
REFUSED_IN_ROUTES = re.compile(r"^ip route .*\b(?:dhcp|multicast|permanent|track)\b", re.MULTILINE)
STATIC = re.compile(r"^ip route .*", re.MULTILINE)
TICKET_ROUTE = re.compile(r"^\s*(?:no\s+)?ip\s+ro", re.MULTILINE | re.IGNORECASE)
NAMES_LISTS = re.compile(r"distribute-list|route-map|access-class")


@dataclass
class Side:
    """One of the two networks: its folder, and what stands beside it. `prepared` is where its texts are written."""

    configs: str
    tickets: str | None
    routes: str | None
    active: str | None
    prepared: str
    texts: dict[str, bytes] = field(default_factory=dict)
    devices: dict[str, Prepared] = field(default_factory=dict)
    same: set[str] = field(default_factory=set)


@dataclass
class Brought:
    """What the programs are given: the words with the paths of what was brought in, and how these are called. `told` are lines for the
    text behind its title, `last` those at its end, `warnings` what `prepare` left out or can't follow and a change touches, `table` all
    that was prepared, `tables` the link tables that were found."""

    words: Words
    origins: Origins
    title: str = ""
    told: list[str] = field(default_factory=list)
    last: list[str] = field(default_factory=list)
    warnings: list[str] = field(default_factory=list)
    table: list[str] = field(default_factory=list)
    sides: tuple[Side, ...] = ()
    tables: dict[str, str] = field(default_factory=dict)

    def own(self, stop: Stop) -> Stop:
        """The end of a run, with the engineer's own places in what it tells."""
        told = self.origins.rewritten(stop.told.decode("utf-8", "surrogateescape"))
        return Stop(stop.status, told.encode("utf-8", "surrogateescape"))

    def own_path(self, path: str, number: int) -> str:
        """The engineer's own file that has a line of a text that was read."""
        place, text = self.origins.place(path, number), self.origins.texts.get(path)
        return place.path if place is not None else self.origins.called(text.own if text is not None else path)

    def keep(self, folder: str) -> None:
        """Writes the prepared texts and the table, all or nothing."""
        files = []
        for name, path in (("old", self.words.old), ("new", self.words.new)):
            texts = [file for file in sorted(os.listdir(path)) if file.endswith(".cfg")]
            files += [(os.path.join(name, file), read_bytes(os.path.join(path, file))) for file in texts]
        table = "".join(line + "\n" for line in self.table or ["nothing was changed"])
        files.append(("table", table.encode("utf-8", "surrogateescape")))
        files += [("links-of-" + name, text.encode("utf-8", "surrogateescape")) for name, text in self.tables.items()]
        answered(lambda: write_folder(folder, files))


def answered(work: Callable[[], Any]) -> Any:
    """What the work gives; a fault ends the run with its line and status."""
    try:
        return work()
    except Fault as fault:
        raise Stop(fault.status, (fault.line() + "\n").encode("utf-8", "surrogateescape")) from None
    except Faults as several:
        told = "".join(fault.line() + "\n" for fault in several.faults)
        raise Stop(several.faults[0].status, told.encode("utf-8", "surrogateescape")) from None


# ---- revisions


def from_revisions(words: Words, folder: str) -> tuple[Words, tuple[Side, Side], dict[str, str]]:
    """The words and the sides with what the revisions have laid out, and what these files are called."""
    assert words.git is not None
    repository = Repository(words.git)
    old = Revision(repository, words.revisions[0], os.path.join(folder, "revision", "old"))
    new: Revision | WorkingTree = WorkingTree(repository)
    if words.revisions[1:]:
        new = Revision(repository, words.revisions[1], os.path.join(folder, "revision", "new"))
    changed: dict[str, Any] = {"links": old.file(words.links)}
    if words.newlinks is None and read_bytes(new.file(words.links)) != read_bytes(changed["links"]):
        changed["newlinks"] = new.file(words.links)
    for name in READ_FILES:
        path = getattr(words, name, None)
        if isinstance(path, str) and not os.path.isabs(path):
            changed[name] = new.file(path)
    sides = []
    versions: list[tuple[str, Revision | WorkingTree]] = [("old", old), ("new", new)]
    for version, revision in versions:
        tickets_there = words.tickets is not None and version == "new"
        sides.append(Side(
            (old if tickets_there else revision).folder(words.old), new.folder(words.tickets) if tickets_there and words.tickets else None,
            revision.folder(words.routes, True) if words.routes else None,
            revision.file(words.active) if words.active else None, os.path.join(folder, version)))
    return replace(words, old=sides[0].configs, new=sides[1].configs, **changed), (sides[0], sides[1]), {**old.names, **new.names}


def sides_of(words: Words, folder: str) -> tuple[Side, Side]:
    """The sides of folders that are named."""
    return (Side(words.old, None, words.routes, words.active, os.path.join(folder, "old")),
            Side(words.new, words.tickets, words.routes, words.active, os.path.join(folder, "new")))


# ---- what has to be prepared


def read_side(side: Side) -> None:
    """Reads the files of a side as they are. A file that can't be read is left to the program that tells it."""
    files, _ = files_of(side.configs, ".cfg")
    side.texts = {file: read_bytes(os.path.join(side.configs, file)) for file in files if os.path.isfile(os.path.join(side.configs, file))}


def stems_with_tickets(side: Side) -> set[str]:
    """The devices of a side that have a ticket."""
    if side.tickets is None:
        return set()
    stems = tickets.check_tickets(PrepareWords(side.configs, "", tickets=side.tickets), list(side.texts))
    return {stem for stem in (tickets.stem_of(name, stems) for name in os.listdir(side.tickets) if name.endswith(".txt")) if stem}


def needs(words: Words, side: Side, waived: Iterable[str], other: Side | None = None, of_other: Container[str] = ()) -> set[str]:
    """The files of a side that have to be read whole. Where another side is known already, files that are the same are as there."""
    if side.routes or side.active or words.vrf:
        return set(side.texts)
    ticketed = {stem + ".cfg" for stem in stems_with_tickets(side)}
    names, texts = set(waived), side.texts
    same = {file for file in texts if other is not None and other.texts.get(file) == texts[file]}
    files = [file for file in texts if file not in same and file not in ticketed]
    looked = for_each(files, lambda file: needs_text(texts[file].decode("latin-1"), words.as_written, names), sum(map(len, texts.values())))
    return ticketed | {file for file, needed in zip(files, looked) if needed} | {file for file in same if file in of_other}


def needs_text(text: str, as_written: bool, waived: set[str]) -> bool:
    """Whether a text is changed, or has a line that may be waived."""
    return not plain.is_plain(text, as_written) or not waived.isdisjoint(plain.HOSTNAME.findall(text))


def by_table(old: Side, new: Side) -> frozenset[str]:
    """The files whose static routes are refused and that the change leaves alone: there the table says them."""
    found = set()
    for file, content in old.texts.items():
        text, other = content.decode("latin-1"), new.texts.get(file, b"").decode("latin-1")
        if REFUSED_IN_ROUTES.search(text) and STATIC.findall(text) == STATIC.findall(other) and not tickets_change_routes(new, file):
            found.add(file)
    return frozenset(found)


def tickets_change_routes(side: Side, file: str) -> bool:
    """Whether a ticket of a device has a line of static routes."""
    if side.tickets is None:
        return False
    paths = tickets.tickets_of(side.tickets, file[:-len(".cfg")], {one[:-len(".cfg")] for one in side.texts})
    return any(TICKET_ROUTE.search(read_bytes(path).decode("latin-1")) for path in paths)


# ---- preparing


def reader_of(side: Side) -> Callable[[str, str], Any]:
    """What reads a device of a side: with its tickets applied, where it has some."""
    stems = {file[:-len(".cfg")] for file in side.texts}

    def read(folder: str, file: str) -> Any:
        """The device, with its lines as they are before anything is prepared."""
        device = preparation.read_device(folder, file)
        device.tickets = []
        if side.tickets is not None:
            paths = tickets.tickets_of(side.tickets, device.stem(), stems)
            device.tickets = [(path, Told("%s with %s" % (device.path, path))) for path in paths]
            device.blocks = tickets.apply_tickets(device.blocks, paths, [told for _, told in device.tickets])
            device.name = preparation.hostname_of(device.path, device.blocks)
        device.raw = list(device.blocks)
        device.lines = preparation.lines_of(device.blocks)
        device.hidden = hidden_lines(device)
        return device

    return read


def prepare_side(words: Words, side: Side, files: list[str], tables: frozenset[str], waivers: dict[str, list[Waiver]]) -> None:
    """Prepares these files of a side."""
    asked = PrepareWords(side.configs, side.prepared, side.routes, words.vrf, side.active, keep_static=side.routes is not None,
                         as_written=words.as_written, by_table=tables)
    wanted = partial(prepared_of, with_table=words.keep is not None, with_statics=words.routes is not None)
    devices = preparation.prepared(asked, files, waivers, reader_of(side), wanted) if files else []
    side.devices = {device.file: device for device in devices}


def same_files(old: Side, new: Side, files: set[str]) -> set[str]:
    """The files of the new side that are made of the same bytes as those of the old one, with the same table, so that what is prepared
    is the same. Where it is said who is active, other devices have a part in it."""
    if old.active or new.active:
        return set()
    ticketed = {stem + ".cfg" for stem in stems_with_tickets(new)} if new.tickets else set()
    return {file for file in files if file in old.devices and file not in ticketed and old.texts[file] == new.texts[file]
            and (new.routes is None or old.routes == new.routes)}


def write_side(side: Side, origins: Origins, other: Side) -> None:
    """Writes the prepared texts of a side, and links the files that stay; tells the origins."""
    os.makedirs(side.prepared)
    for name in sorted(os.listdir(side.configs)):
        path, target = os.path.join(side.configs, name), os.path.join(side.prepared, name)
        device = side.devices.get(name)
        moved = {}
        if device is None and name in side.same:
            device, moved = other.devices[name], {os.path.join(other.configs, name): path}
        if device is None:
            os.symlink(os.path.abspath(path), target)
            origins.add(target, path, None, None)
            continue
        with open(target, "wb") as stream:
            stream.write(device.content)
        origins.add(target, path, device.table, device.sources, moved)


# ---- what is told


def only_here(here: list[Unseen], there: list[Unseen]) -> list[Unseen]:
    """The lines of one folder that the other hasn't, or has less often."""
    count = Counter(one.text for one in there)
    found = []
    for one in here:
        if count[one.text] > 0:
            count[one.text] -= 1
        else:
            found.append(one)
    return found


def left_out_warnings(old: Side, new: Side) -> list[str]:
    """What only one of the networks has and no program sees."""
    told = []
    for file in sorted(set(old.devices) | set(new.devices)):
        if file in new.same:
            continue
        lines = [side.devices[file].unseen if file in side.devices else [] for side in (old, new)]
        for here, there in (lines, lines[::-1]):
            told += ["%s:%d: left out, only in this folder: %s" % (one.path, one.number, without_secrets(one.text))
                     for one in only_here(here, there)]
    return told


def items_of(blocks: list[Any]) -> dict[str, list[str]]:
    """The lines of each list, by its name."""
    found: dict[str, list[str]] = {}
    for block in blocks:
        name = (list_of(block) or (None, None))[1]
        if name is not None:
            found.setdefault(name, []).extend(" ".join(line.words()) for line in block.lines() if says_something(line))
    return found


def list_warnings(old: Side, new: Side) -> list[str]:
    """The lines of the new network that name a list which the change edits, for what isn't in the model."""
    told = []
    for file, content in new.texts.items():
        before = old.texts.get(file)
        if new.tickets is not None or before is None or before == content or not NAMES_LISTS.search(content.decode("latin-1")):
            continue
        blocks = [preparation.read_device(side.configs, file).blocks for side in (old, new)]
        lists = [items_of(one) for one in blocks]
        for line, kind, name in users_of(blocks[1]):
            if kind == "access-list" and lists[0].get(name) != lists[1].get(name):
                text = without_secrets(" ".join(line.words()))
                told.append("%s:%d: not followed: %s: %s" % (line.path, line.number, text, LIST_CHANGES % name))
    return told


def redistribution_warnings(old: Side, new: Side) -> list[str]:
    """The static routes that only one network has, on a device that hands them on to a protocol which doesn't react here."""
    told = []
    for file, device in new.devices.items():
        handed = device.handed
        if handed is None or new.routes is None or file not in old.devices:
            continue
        statics = (old.devices[file].statics, device.statics)
        for here, there in (statics, statics[::-1]):
            told += ["%s:%d: known to %s alone, though line %d is `%s`: %s" % (
                one.path, one.number, device.name, handed.number, handed.text, one.text) for one in only_here(here, there)]
    return told


def title_of(words: Words) -> str:
    """What is compared, where the change has no title of its own."""
    if words.git:
        names = ["%s:%s" % (revision, words.old) for revision in words.revisions]
        names += [os.path.join(words.git, words.old)] if len(names) == 1 else []
        return "%s with %s of %s" % (names[0], words.tickets, names[1].split(":")[0]) if words.tickets else " -> ".join(names)
    return "%s with %s" % (words.old, words.tickets) if words.tickets else "%s -> %s" % (words.old, words.new)


def prepared_line(words: Words, sides: tuple[Side, Side]) -> str:
    """How much was prepared, and where the table of it stands."""
    devices = [device for side in sides for device in side.devices.values()]
    counts = [device.changed for device in devices]
    count, files = sum(counts), sum(map(bool, counts))
    table = "told in %s" % os.path.join(words.keep, "table") if words.keep else "--keep FOLDER keeps the texts and the table"
    return "prepared: %d line%s of %d file%s; %s" % (count, "" if count == 1 else "s", files, "" if files == 1 else "s", table)


def table_of(sides: tuple[Side, Side]) -> list[str]:
    """The table of all that was prepared."""
    return [line for side in sides for _, device in sorted(side.devices.items()) if device.told for line in device.told.split("\n")]


# ---- all of it


def with_packages() -> None:
    """Makes the package that reads tables of routes known."""
    if PACKAGES not in sys.path:
        sys.path.append(PACKAGES)
    try:
        import textfsm  # type: ignore[import]  # noqa: F401
    except ModuleNotFoundError:
        raise Stop(70, b"window: Debian's package python3-textfsm is missing\n") from None


def bring(words: Words, folder: str) -> Brought:
    """Brings in what the words name. Texts are written in `folder`, which goes with the run."""
    if words.keep:
        answered(lambda: check_free(words.keep))
    names: dict[str, str] = {}
    # (millions of small values live until the end: looking for garbage among them takes most of the time)
    gc.disable()
    title = words.title or title_of(words)
    if words.git:
        words, sides, names = from_revisions(words, folder)
    else:
        sides = sides_of(words, folder)
    try:
        return replace(answered(lambda: bring_sides(words, sides, names)), title=title)
    except Stop as stop:
        raise Brought(words, Origins(names=names)).own(stop) from None


def bring_sides(words: Words, sides: tuple[Side, Side], names: dict[str, str]) -> Brought:
    """Prepares both sides where one of them needs it."""
    old, new = sides
    waivers = read_waivers(words.waivers) if words.waivers else {}
    for side in sides:
        if not os.path.isdir(side.configs):
            raise NotFound(side.configs)
        read_side(side)
    wanted = [needs(words, old, waivers)]
    wanted.append(needs(words, new, waivers, old, wanted[0]))
    origins = Origins(names=names)
    brought = Brought(words, origins, sides=sides)
    if any(wanted):
        prepare_both(words, sides, wanted, waivers)
        for side, other in ((old, new), (new, old)):
            write_side(side, origins, other)
        brought.words = replace(words, old=old.prepared, new=new.prepared)
        brought.table = [line if line.startswith(" ") else origins.rewritten(line) for line in table_of(sides)]
        brought.last.append(prepared_line(words, sides))
        brought.warnings = left_out_warnings(old, new) + [line for device in new.devices.values() for line in device.not_followed]
        brought.warnings += redistribution_warnings(old, new)
    for name in ("questions", "questions_new"):
        path = getattr(words, name, None)
        if path:
            target = numbered_questions(path, brought, os.path.join(os.path.dirname(old.prepared), name))
            brought.words = replace(brought.words, **{name: target})
    brought.warnings += list_warnings(old, new)
    brought.warnings = [origins.rewritten(line) for line in brought.warnings]
    check_used(waivers)
    brought.told += marks.marks_told([brought.words.old, brought.words.new])
    if not words.links:
        find_tables(brought, os.path.dirname(old.prepared))
    return brought


def find_tables(brought: Brought, folder: str) -> None:
    """Finds the link table of each network in its configurations, where none is named; one is used for both where they are equal."""
    with_packages()
    from wiring.neighbors import Seen
    from wiring.network import read_network
    from wiring.segments import find_wiring
    from wiring.table import table_lines

    texts: list[str] = []
    for name, path in (("old", brought.words.old), ("new", brought.words.new)):
        devices = read_network(path)
        wiring = find_wiring(devices, Seen())
        sure = sum(not edge.proposed for edge in wiring.edges)
        lines = table_lines(wiring, devices, name)
        texts.append("".join(line + "\n" for line in lines[1:]))
        brought.tables[name] = "".join(line + "\n" for line in lines)
        brought.told.append("links of %s: none was named, so wire found %d links and %d ingresses; --keep FOLDER keeps the table" % (
            name, len(wiring.segments), sure))
        brought.told += ["links of %s: %s" % (name, told) for told in wiring.contradictions]
    same = texts[0] == texts[1]
    for name in ("old",) if same else ("old", "new"):
        with open(os.path.join(folder, "links-of-" + name), "w", encoding="utf-8", errors="surrogateescape") as stream:
            stream.write(brought.tables[name])
    for name in ("old", "new"):
        brought.origins.call(os.path.join(folder, "links-of-" + name), "links-of-" + name)
    brought.words = replace(brought.words, links=os.path.join(folder, "links-of-old"),
                            newlinks=None if same else os.path.join(folder, "links-of-new"))
    if same:
        brought.told[:] = [told.replace("links of old:", "links:", 1) for told in brought.told if not told.startswith("links of new:")]


def numbered_questions(path: str, brought: Brought, target: str) -> str:
    """The file of questions, or `target` with numbers for their words, which is called as that file."""
    if not os.path.isfile(path):
        return path
    content = read_bytes(path)
    found = questions_of(content, Places([brought.words.new, brought.words.old]))
    if found == content:
        return path
    with open(target, "wb") as stream:
        stream.write(found)
    brought.origins.call(target, brought.origins.called(path))
    return target


def prepare_both(words: Words, sides: tuple[Side, Side], wanted: list[set[str]], waivers: dict[str, list[Waiver]]) -> None:
    """Prepares the files of both sides; the faults of both are told together."""
    old, new = sides
    tables: frozenset[str] = frozenset()
    if words.routes:
        with_packages()
        tables = by_table(old, new)
    faults: list[Fault] = []

    def work(side: Side, files: set[str]) -> None:
        """Prepares one side."""
        try:
            prepare_side(words, side, sorted(files, key=os.fsencode), tables, waivers)
        except Faults as several:
            faults.extend(several.faults)

    work(old, wanted[0])
    new.same = same_files(old, new, wanted[1])
    work(new, wanted[1] - new.same)
    if faults:
        raise Faults(faults)
