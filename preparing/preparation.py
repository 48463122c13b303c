"""Prepares the configurations of a folder: `prepare CONFIGS OUT`."""
import os
from dataclasses import dataclass, field
from typing import Any, Optional

from .as_running import write_as_running
from .blocks import blocks_of, lines_of
from .checking import refusals, tell_unproved
from .clearing import cut_prompts, empty_lists, leave_out_others
from .expanding import expand_groups
from .facts import hostname_of
from .faults import Fault, Faults, NotFound, SameHostname, each
from .gateways import activate, tell_only
from .marks import date_of, mark_routes
from .numbering import number_names
from .outputs import check_free, write_folder
from .processes import for_each
from .routes import Replacement
from .switching import leave_out_ports
from .texts import files_of, read_lines, to_bytes
from .told import Told
from .vrfs import choose
from .waivers import check_used, read_waivers, waive


@dataclass
class Device:
    """A configuration on its way from its file to the profile. `table` is the path of the table that has its routes; `tickets` are those
    that were applied, each with its table of rows; `waived` are the lines of the waivers that were needed. `lines` are the lines as they
    were before anything was prepared, of the blocks `raw`, and `hidden` the places among them whose meaning stands elsewhere in what is
    prepared, or that have none."""

    file: str
    path: str
    told: Told
    blocks: list = field(default_factory=list)
    name: str = ""
    table: Optional[str] = None
    tickets: list = field(default_factory=list)
    waived: list = field(default_factory=list)
    raw: list = field(default_factory=list)
    lines: list = field(default_factory=list)
    hidden: set = field(default_factory=set)

    def stem(self):
        """The name of the file without its ending."""
        return self.file[:-len(".cfg")]


def read_device(folder, file):
    """A configuration as it is."""
    path, notes = os.path.join(folder, file), []
    device = Device(file, path, Told(path, path=path))
    device.blocks = blocks_of(read_lines(path, notes))
    device.name = hostname_of(path, device.blocks)
    device.told.title = "%s, %s" % (path, device.name)
    for number, text, reason in notes:
        device.told.row(number, number, "left out", text, reason)
    return device


def bring_in(device, vrf):
    """Brings a configuration in, as far as that needs no other file."""
    told = device.told
    cut_prompts(device, told)
    empty_lists(device, told)
    leave_out_ports(device, told)
    choose(device, vrf, told)
    leave_out_others(device, told)
    expand_groups(device, told)
    number_names(device, told)
    return device


def read_table(folder, file, vrf):
    """The table of routes of a configuration, compared with a second source where there is one."""
    # (what reads tables needs a package that the rest doesn't)
    from . import cef
    from .route_tables import read_routes
    stem = os.path.join(folder, file[:-len(".cfg")])
    table = read_routes(stem + ".txt", vrf)
    if os.path.exists(stem + ".cef"):
        cef.compare(stem + ".cef", table)
    return table


def check_hostnames(devices):
    """No two configurations have one hostname; of each its path and its name are given."""
    taken = {}
    for path, name in devices:
        other = taken.setdefault(name, path)
        if other != path:
            raise SameHostname(path, other)


@dataclass
class FileResult:
    """What became of a file: the path and the hostname of its device, what was wanted of it, the lines of the waivers that it needed; or
    the step that failed, counted from 0, with its faults."""

    path: str
    name: str = ""
    wanted: Any = None
    waived: list = field(default_factory=list)
    step: Optional[int] = None
    faults: list = field(default_factory=list)

    def failed(self, step, faults):
        """The same, with a step that failed."""
        self.wanted, self.step, self.faults = None, step, faults
        return self


def read_both(words, file, read):
    """A device, brought in, and its table of routes, if there is one. The faults of both are raised together."""
    work = [lambda: bring_in(read(words.configs, file), words.vrf)]
    work += [lambda: read_table(words.routes, file, words.vrf)] if words.routes is not None else []
    device, *tables = each(work, lambda one: one())
    return device, tables[0] if tables else None


def steps_of(words, waivers):
    """What is done to a device that was read, with its table of routes, step by step."""
    def settle_routes(device, table):
        """Puts the routes of the table in, if there is one."""
        if table is not None:
            put_routes(device, table, words.keep_static and device.file not in words.by_table)

    def run(device, _):
        """Writes what the router does otherwise than its text."""
        if not words.as_written:
            write_as_running(device, device.told)

    def let_out(device, _):
        """Leaves out what waivers let be left out."""
        if device.name in waivers:
            device.waived = [waiver.line.number for waiver in waive(device, waivers[device.name])]

    return [settle_routes, run, let_out]


def tell_unsettled(words):
    """The step that tells what the verifier will refuse for want of a file: groups of virtual addresses, and protocols."""
    def step(device, table):
        """Tells it of one device."""
        if words.active is None:
            tell_only(device, device.told)
        if table is None:
            tell_protocols(device)

    return step


def prepare_one(words, file, read, steps, wanted):
    """Prepares a file as far as that needs no other one."""
    result, number = FileResult(os.path.join(words.configs, file)), 0
    try:
        device, table = read_both(words, file, read)
        result.name = device.name
        for number, step in enumerate(steps, 1):
            step(device, table)
        result.wanted, result.waived = wanted(device), device.waived
        return result
    except Fault as fault:
        return result.failed(number, [fault])
    except Faults as several:
        return result.failed(number, several.faults)


def check_prepared(results):
    """Raises the faults of the first step that failed for some file, those of all files together. Once all files are read, no two may have
    one hostname."""
    first = min((result.step for result in results if result.step is not None), default=None)
    if first != 0:
        check_hostnames([(result.path, result.name) for result in results])
    if first is not None:
        faults = [fault for result in results if result.step == first for fault in result.faults]
        raise Faults({fault.line(): fault for fault in faults}.values())


def size_of(folder, files):
    """The bytes of files, in all; one that isn't there is left to those who read it."""
    paths = [os.path.join(folder, file) for file in files]
    return sum(os.path.getsize(path) for path in paths if os.path.isfile(path))


def prepared(words, files, waivers, read=read_device, wanted=lambda device: device):
    """The devices of these files as they are written: everything is done here, and nothing is written yet. `read` gives the device of a
    folder and a file; `wanted` takes from a device what is asked of it, since many files are prepared by several processes."""
    if words.routes is not None and not os.path.isdir(words.routes):
        raise NotFound(words.routes)
    steps = [tell_unsettled(words), *steps_of(words, waivers)]
    if words.active is None:
        results = for_each(files, lambda file: prepare_one(words, file, read, steps, wanted), size_of(words.configs, files))
        check_prepared(results)
    else:
        results = prepared_together(words, files, read, steps, wanted)
    used = {number for result in results for number in result.waived}
    for waiver in (one for several in waivers.values() for one in several):
        waiver.used = waiver.used or waiver.line.number in used
    return [result.wanted for result in results]


def prepared_together(words, files, read, steps, wanted):
    """The same, where addresses that several devices share are placed by a file that says who is active."""
    read_ones = each(files, lambda file: read_both(words, file, read))
    devices = [device for device, _ in read_ones]
    check_hostnames([(device.path, device.name) for device in devices])
    activate(devices, [device.told for device in devices], words.active)
    for step in steps:
        each(read_ones, lambda pair, step=step: step(*pair))
    return [FileResult(device.path, device.name, wanted(device), device.waived) for device in devices]


def put_routes(device, table, keep_static):
    """Puts the routes of a table into a configuration, which bears a mark then."""
    tell_redistribution(device)
    Replacement(device, table, keep_static, device.told).put()
    device.table = table.path
    mark_routes(device, date_of(table.path))


def tell_redistribution(device):
    """Tells the static routes that a protocol hands on: one that a change adds or takes away is known to the device alone."""
    for block in device.blocks:
        if block.command() == "router":
            for line in block.inner():
                if line.words()[:2] == ["redistribute", "static"]:
                    device.told.line(line, "note", "a static route that changes is known to this device alone: protocols don't react")


def tell_protocols(device):
    """Tells the routing protocols where no table has their routes: the verifier will refuse them."""
    for block in device.blocks:
        if block.command() == "router":
            device.told.block(block, "kept", "the verifier refuses it; with --routes FOLDER its routes take its place")


@dataclass
class Written:
    """What is written of a device, what is told of it, and what the verifier still refuses, where that was asked."""

    file: str
    content: bytes
    told: list
    refusals: list


def faults_of(path, lines):
    """What the verifier refuses in a text, or why it doesn't answer."""
    try:
        return refusals(path, lines)
    except Fault as fault:
        return [fault]


def prepare(words):
    """Prepares and writes; gives the lines that tell what was done."""
    check_free(words.out)
    files, others = files_of(words.configs, ".cfg")
    waivers = read_waivers(words.waivers) if words.waivers is not None else {}

    def written(device):
        """What is written of a device."""
        lines = lines_of(device.blocks)
        return Written(device.file, to_bytes(lines), device.told.lines(), faults_of(device.path, lines) if words.check else [])

    devices = prepared(words, files, waivers, wanted=written)
    check_used(waivers)
    if words.check:
        tell_unproved()
    refused = {fault.line(): fault for device in devices for fault in device.refusals}
    if refused:
        raise Faults(refused.values())
    write_folder(words.out, [(device.file, device.content) for device in devices])
    told = [line for device in devices for line in device.told]
    told += ["%s: not read, its name doesn't end in .cfg" % os.path.join(words.configs, name) for name in others]
    return told + ["%s: not read, no configuration has its name" % path for path in tables_of_nobody(words, files)]


def tables_of_nobody(words, files):
    """The files among the tables of routes that belong to no configuration."""
    if words.routes is None:
        return []
    wanted = {file[:-len(".cfg")] + ending for file in files for ending in (".txt", ".cef")}
    return [os.path.join(words.routes, name) for name in sorted(os.listdir(words.routes), key=os.fsencode) if name not in wanted]
