"""Failures of links and devices, and the configurations of the network on the day of a failure.

A failure is ` shutdown` in the section of each interface that fails, behind all that its last section says. Texts are bytes that are
read as latin-1, so that each byte is a character and is written as it was.
"""
import os
import re

VERSIONS = ("old", "new")


def words_of(line):
    """The words of a line: blanks, tabs and carriage returns stand between them."""
    return [word for word in re.split("[ \t\r]+", line) if word]


def is_skipped(words):
    """Whether a line of these words is blank or a comment."""
    return not words or words[0].startswith("!")


def closing_of(line):
    """The delimiter of a banner that this line opens and doesn't close, or None."""
    text = re.split("[ \t\r]+", line.strip(" \t\r"), maxsplit=2)[2]
    delimiter = "^C" if text.startswith("^C") else text[0]
    return None if delimiter in text[len(delimiter):] else delimiter


class Configuration:
    """What a failure needs of a configuration: its hostname, and for each interface the line behind its last section."""

    def __init__(self, text):
        self.lines = text.split("\n")
        self.hostname = None
        self.ends = {}
        section, delimiter = None, None
        for number, line in enumerate(self.lines, 1):
            words = words_of(line)
            if delimiter is not None:
                delimiter = None if delimiter in line else delimiter
            elif is_skipped(words):
                continue
            elif line[0] in " \t":
                if section is not None:
                    self.ends[section] = number
            else:
                section = self.read_global(words, number)
                delimiter = closing_of(line) if words[0] == "banner" else None

    def read_global(self, words, number):
        """Reads a command outside of sections; gives the interface whose section it opens, or None."""
        if words[0] == "hostname":
            self.hostname = words[1]
        if words[0] != "interface" or words[1] == "Null0":
            return None
        self.ends[words[1]] = number
        return words[1]

    def shut(self, interfaces):
        """The text with these interfaces shut down."""
        lines = list(self.lines)
        for number in sorted((self.ends[interface] for interface in interfaces), reverse=True):
            lines.insert(number, " shutdown")
        return "\n".join(lines)


class Failure:
    """A link, an end of a lan or a device: its name, and for each version the interfaces that go down, by file."""

    def __init__(self, name, changes):
        self.name = name
        self.changes = changes

    def is_possible(self):
        return any(self.changes.values())


class Devices:
    """The devices of the networks: for each version the file and the configuration of each hostname. `below` says whether subinterfaces
    go down with their main interface."""

    def __init__(self, folders, below=True):
        self.below = below
        self.by_name = {version: {} for version in folders}
        for version, files in folders.items():
            for file in sorted(files):
                configuration = Configuration(files[file])
                self.by_name[version][configuration.hostname] = (file, configuration)

    def names(self):
        return sorted({name for devices in self.by_name.values() for name in devices})

    def without_section(self, places):
        """The files, with version and interface, that have the device of a place and no section of its interface."""
        for device, interface in places:
            for version, devices in self.by_name.items():
                if device in devices and interface not in devices[device][1].ends:
                    yield version, devices[device][0], interface

    def changes(self, places):
        """For each version the interfaces of these places, by file, as far as there are sections of them, and those below them."""
        changes = {version: {} for version in self.by_name}
        for device, interface in places:
            for version, devices in self.by_name.items():
                if device in devices and interface in devices[device][1].ends:
                    shut = changes[version].setdefault(devices[device][0], [])
                    more = [name for name in devices[device][1].ends if self.below and name.startswith(interface + ".")]
                    shut += [name for name in [interface] + more if name not in shut]
        return changes

    def interfaces(self, device):
        """All places of a device."""
        found = {}
        for devices in self.by_name.values():
            if device in devices:
                found.update((interface, None) for interface in devices[device][1].ends)
        return [(device, interface) for interface in found]


def links_of(text):
    """The lines of a link table: each its kind and its ends."""
    for line in text.split("\n"):
        words = words_of(line)
        if not is_skipped(words):
            yield words[0], list(zip(words[1::2], words[2::2]))


def single_failures(devices, table):
    """All links, then all devices, in the order of the table; devices that it doesn't name are the last ones."""
    failures, named = [], {}
    for kind, ends in links_of(table):
        named.update((device, None) for device, _ in ends)
        if kind == "p2p":
            failures.append(Failure("link " + " ".join(word for end in ends for word in end), devices.changes(ends)))
        elif kind == "lan":
            failures += [Failure("end %s %s" % end, devices.changes([end])) for end in ends]
    for device in list(named) + [name for name in devices.names() if name not in named]:
        failures.append(Failure("device " + device, devices.changes(devices.interfaces(device))))
    return failures


def missing_sections(devices, table):
    """What the ends of the table's links want of the configurations and don't find, each once, in the order of the table."""
    found = {}
    for kind, ends in links_of(table):
        if kind != "ingress":
            found.update((missing, None) for missing in devices.without_section(ends))
    return list(found)


def shut_places(changes):
    return {(version, file, name) for version, files in changes.items() for file, names in files.items() for name in names}


def pairs_of(failures, numbers):
    """Each two of these failures, but those where one of the two takes all down that the other does."""
    shut = {number: shut_places(failures[number].changes) for number in numbers}
    for position, first in enumerate(numbers):
        for second in numbers[position + 1:]:
            if not shut[first] <= shut[second] and not shut[second] <= shut[first]:
                yield first, second


def both(first, second):
    """The changes of two failures on one day."""
    changes = {version: dict(files) for version, files in first.items()}
    for version, files in second.items():
        for file, names in files.items():
            earlier = changes[version].get(file, [])
            changes[version][file] = earlier + [name for name in names if name not in earlier]
    return changes


def write_failed(source, target, changes):
    """Makes the folder of a network on the day of a failure: changed configurations are written, the others are links."""
    os.makedirs(target)
    for file in sorted(os.listdir(source)):
        path = os.path.join(source, file)
        if file in changes:
            with open(path, encoding="latin-1", newline="") as stream:
                text = Configuration(stream.read()).shut(changes[file])
            with open(os.path.join(target, file), "w", encoding="latin-1", newline="") as stream:
                stream.write(text)
        elif file.endswith(".cfg"):
            os.symlink(os.path.abspath(path), os.path.join(target, file))
