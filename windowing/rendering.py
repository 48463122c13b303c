"""Networks in canonical text: the new network without some hunks of a change, from none to all.

A device that the change doesn't touch is the engineer's own file. One that it touches is written anew from what was read of it, so a hunk
that is taken back is the old lines in the place of the new ones. Without any hunk taken back this is the new network, and with all of them
the old one: the comparison with both says so in each run.
"""
from __future__ import annotations

import os
import re
from dataclasses import dataclass, field
from typing import Callable, Container, Iterable, NamedTuple

from hunks import LINKS, Change, Device, Entry, Hunk, Own, Slot, change_of, read_device

Owned = list[tuple[str, "int | None"]]  # the lines of a text, each with the hunk that it is of


class Network(NamedTuple):
    """A network as the programs take it: a folder and a link table. Where it was written here, `devices` are the files of the devices that
    the change touches, in the same order in all of its networks; equal devices and equal tables are the same files."""

    folder: str
    links: str
    devices: tuple[str, ...] = ()


Owner = Callable[[str, int], "Own | None"]  # what the engineer's own file has of a line that is read with another number


def nobody(path: str, line: int) -> Own | None:
    """Nothing was prepared."""
    return None


def as_own(entry: Entry, own: Own | None, both: Container[str]) -> Entry:
    """An entry that is told as the engineer's own line, with its number on the device. A line that `both` networks have says nothing of
    what its groups hold now: then the entry's own words are told."""
    if own is None:
        return entry
    words = entry.words if own.words in both else own.words
    return entry._replace(own=own, line=entry.line._replace(words="%d %s" % (own.number, words)))


def entries_text(kind: str, key: str, entries: Owned) -> Owned:
    """An access list, numbered anew; a list without an entry is none."""
    if not entries:
        return []
    head = [("ip access-list %s %s" % (kind, key), entries[0][1])]
    return head + [(" %d %s" % (10 * number, words), hunk) for number, (words, hunk) in enumerate(entries, 1)]


def device_lines(name: str, slots: Iterable[Slot], taken: frozenset[int]) -> Owned:
    """A device's canonical lines without the hunks `taken`."""
    chosen = [(slot.section, [(words, slot.hunk) for words in (slot.old if slot.hunk in taken else slot.new)]) for slot in slots]
    found: Owned = [("hostname " + name, None)]
    present = ""
    for section, lines in chosen:
        if section[0] == "interface" and section[2] == "":
            present = section[1] if lines else ""
            found += lines
        elif section[0] == "interface" and section[1] == present:
            found += [(" " + words, hunk) for words, hunk in lines]
    lists: dict[tuple[str, ...], Owned] = {}
    for section, lines in chosen:
        if section[0] == "list":
            lists.setdefault(section, []).extend(lines)
    for section, lines in lists.items():
        found += entries_text(section[2], section[1], lines)
    return found + [line for section, lines in chosen if section[0] in ("route", "translation") for line in lines]


@dataclass
class Networks:
    """Writes the networks of a change below the folder `work`, each once. `same` are the files of the devices that it doesn't touch;
    `owner` says what the engineer's own files have of entries."""

    change: Change
    same: list[str]
    work: str
    owner: Owner = nobody
    written: dict[frozenset[int], Network] = field(default_factory=dict)
    states: dict[tuple[str, frozenset[int]], str] = field(default_factory=dict)

    def __post_init__(self) -> None:
        self.names = sorted(self.change.slots)
        self.files = {name: "changed-%d.cfg" % number for number, name in enumerate(self.names)}
        self.touched: dict[str, frozenset[int]] = {
            name: frozenset(slot.hunk for slot in slots if slot.hunk is not None) for name, slots in self.change.slots.items()}
        self.everything = frozenset(range(len(self.change.hunks)))

    def read(self, path: str) -> Device:
        """A device that the change doesn't touch, with the entries of its lists as the engineer's own."""
        device = read_device(path)
        for access_list in device.lists.values():
            access_list.entries = [as_own(entry, self.owner(entry.line.path, entry.line.number), ()) for entry in access_list.entries]
        return device

    def new(self) -> Network:
        return self.without(frozenset())

    def old(self) -> Network:
        return self.without(self.everything)

    def alone(self, hunks: frozenset[int]) -> Network:
        """The old network with these hunks alone."""
        return self.without(self.everything - hunks)

    def without(self, taken: frozenset[int]) -> Network:
        """The new network without these hunks."""
        if taken not in self.written:
            self.written[taken] = self.write(taken)
        return self.written[taken]

    def write(self, taken: frozenset[int]) -> Network:
        folder = os.path.join(self.work, "network-%d" % len(self.written))
        os.mkdir(folder)
        for number, path in enumerate(self.same):
            os.symlink(os.path.abspath(path), os.path.join(folder, "same-%d.cfg" % number))
        devices = tuple(self.device_file(name, taken) for name in self.names)
        for name, path in zip(self.names, devices):
            os.symlink(path, os.path.join(folder, self.files[name]))
        return Network(folder, self.link_file(taken), devices)

    def link_file(self, taken: frozenset[int]) -> str:
        """The link table without these hunks, written once for all networks in which it is the same."""
        return self.state(LINKS, taken & frozenset(slot.hunk for slot in self.change.links if slot.hunk is not None))

    def state(self, name: str, mine: frozenset[int]) -> str:
        """The file of a device, or of the link table, without these hunks of it."""
        if (name, mine) not in self.states:
            path = os.path.join(self.work, "part-%d" % len(self.states))
            lines = self.table_lines(mine) if name == LINKS else self.device_lines(name[:-len(".cfg")], mine)
            write_text(path, lines)
            self.states[name, mine] = path
        return self.states[name, mine]

    def device_file(self, name: str, taken: frozenset[int]) -> str:
        """The file of a device without these hunks, written once for all networks in which it is the same."""
        return self.state(name + ".cfg", taken & self.touched[name])

    def device_lines(self, name: str, taken: frozenset[int]) -> Owned:
        return device_lines(name, self.change.slots[name], taken)

    def link_lines(self, taken: frozenset[int]) -> Owned:
        return [(words, slot.hunk) for slot in self.change.links for words in (slot.old if slot.hunk in taken else slot.new)]

    def table_lines(self, taken: frozenset[int]) -> Owned:
        """The whole table, with the lines that say where packets enter."""
        return self.link_lines(taken) + [(line, None) for line in self.change.ingresses]

    def needed(self, taken: frozenset[int], refusal: str) -> frozenset[int]:
        """What has to be taken back besides, where the network without `taken` is refused in these words: the hunk of the refused line;
        else those of its device that say the word; else all of the device; else those anywhere that say it; else all."""
        match = re.match(r"refused .*?([^/]+) line ([0-9]+) (\S+)(?: (.*))?$", refusal)
        rest = [hunk for hunk in self.change.hunks if hunk.number not in taken]
        word = (match[4] or "") if match else ""
        choices: list[list[Hunk]] = []
        name = next((name for name, file in self.files.items() if match and file == match[1]), None)
        if match and name is not None:
            lines, number = self.device_lines(name, taken), int(match[2])
            owner = lines[number - 1][1] if 0 < number <= len(lines) else None
            mine = [hunk for hunk in rest if hunk.device == name]
            choices += [[hunk for hunk in mine if hunk.number == owner], saying(word, mine), mine]
        elif match:
            lines = self.link_lines(taken)
            owner = lines[int(match[2]) - 1][1] if 0 < int(match[2]) <= len(lines) else None
            choices.append([hunk for hunk in rest if hunk.number == owner])
        choices += [saying(word, rest), rest]
        return frozenset(hunk.number for hunk in next((choice for choice in choices if choice), []))


def saying(word: str, hunks: Iterable[Hunk]) -> list[Hunk]:
    """The hunks with a line that has the word."""
    return [hunk for hunk in hunks if word and any(word in line.words.split() for line in hunk.lines())]


def write_text(path: str, lines: Owned) -> None:
    with open(path, "w", encoding="utf-8", errors="surrogateescape", newline="\n") as stream:
        stream.write("".join(words + "\n" for words, _ in lines))


# ---- the folders of a change


class Folders(NamedTuple):
    """The configurations of both networks: by their paths those that are the same, byte for byte, in both, and those that aren't."""

    same: list[str]
    old: list[str]
    new: list[str]


def configurations(folder: str) -> list[str]:
    """The names of the configurations of a folder, in order (docs/GUIDE.md, section 1)."""
    return sorted(name for name in os.listdir(folder) if name.endswith(".cfg") and not name.startswith("."))


def content(path: str) -> bytes:
    with open(path, "rb") as stream:
        return stream.read()


def folders_of(old: str, new: str) -> Folders:
    """Which configurations the change touches."""
    names = configurations(old), configurations(new)
    both = set(names[0]) & set(names[1])
    same = {name for name in both if content(os.path.join(old, name)) == content(os.path.join(new, name))}
    return Folders([os.path.join(new, name) for name in names[1] if name in same],
                   *([os.path.join(folder, name) for name in some if name not in same] for folder, some in zip((old, new), names)))


def own_lines(devices: Iterable[Device], owner: Owner) -> dict[tuple[str, str], set[str]]:
    """By device and list the words of the engineer's own lines of entries that are read with other numbers."""
    found: dict[tuple[str, str], set[str]] = {}
    for device in devices:
        for key, access_list in device.lists.items():
            owners = [owner(entry.line.path, entry.line.number) for entry in access_list.entries]
            found[device.name, key] = {own.words for own in owners if own is not None}
    return found


def networks_of(folders: Folders, tables: list[str], passed: dict[str, set[int]], work: str, finer: bool = False,
                owner: Owner = nobody) -> Networks:
    """The networks of a change, of which `passed` says by its path which lines of a configuration are passed over, and `owner` what the
    engineer's own file has of an entry that has another number there."""
    old, new = ([read_device(path, passed.get(path, ())) for path in paths] for paths in (folders.old, folders.new))
    lines = own_lines(old, owner), own_lines(new, owner)
    for device in old + new:
        for key, access_list in device.lists.items():
            both = lines[0].get((device.name, key), set()) & lines[1].get((device.name, key), set())
            access_list.entries = [as_own(entry, owner(entry.line.path, entry.line.number), both) for entry in access_list.entries]
            # (what `prepare` writes above the entries of a line is no remark of the engineer's)
            access_list.remarks = [line for line in access_list.remarks if owner(line.path, line.number) is None]
    before, after = ({device.name: device for device in devices} for devices in (old, new))
    return Networks(change_of(before, after, tables, finer), folders.same, work, owner)
