"""A link table against what subnets and neighbours say: links that are missing, that nothing supports, ends that don't meet, edges."""
from __future__ import annotations

from difflib import get_close_matches

from .names import whole_name
from .neighbors import Seen
from .network import Device, Port
from .segments import Segment, Wiring, addresses
from .table import Row


def port_at(devices: dict[str, Device], end: tuple[str, str]) -> Port | None:
    """The port at an end, if it is up and has an address."""
    return devices[end[0]].ports.get(end[1]) if end[0] in devices else None


def name_faults(row: Row, devices: dict[str, Device]) -> list[str]:
    """Ends whose device or interface no configuration has, with the nearest name."""
    faults = []
    for device, interface in row.ends:
        if device not in devices:
            near = get_close_matches(device, list(devices), 1)
            faults.append("no configuration has the device %s%s" % (device, "; one is %s" % near[0] if near else ""))
        elif interface not in devices[device].interfaces:
            names = devices[device].interfaces
            near = [whole_name(interface, names) or ""] if whole_name(interface, names) else get_close_matches(interface, names, 1)
            faults.append("%s has no interface %s%s" % (device, interface, "; one is %s" % near[0] if near else ""))
        elif interface not in devices[device].ports:
            faults.append("%s %s is shut or has no address, so nothing passes there" % (device, interface))
    return faults


def row_faults(row: Row, devices: dict[str, Device], found: dict[tuple[str, str], Segment], seen: Seen) -> list[str]:
    """What is wrong with a line, by names, subnets and neighbours."""
    faults = name_faults(row, devices)
    ports = [port for port in (port_at(devices, end) for end in row.ends) if port is not None]
    if row.kind == "ingress" or faults and len(ports) < 2:
        return faults
    first = ports[0]
    for port in ports[1:]:
        if not set(port.subnets()) & {subnet for other in ports if other is not port for subnet in other.subnets()}:
            faults.append("%s %s has no subnet in common with another end: %s, and %s" % (port.end() + (addresses(port), addresses(first))))
    ends = {port.end() for port in ports}
    for port in ports:
        segment = found.get(port.end())
        apart = sorted(ends - {other.end() for other in segment.ports}) if segment else sorted(ends - {port.end()})
        if apart and not faults:
            faults.append("nothing links %s %s with %s" % (port.end() + (", ".join("%s %s" % end for end in apart),)))
    return faults + neighbor_faults(row, ports, devices, seen)


def neighbor_faults(row: Row, ports: list[Port], devices: dict[str, Device], seen: Seen) -> list[str]:
    """Neighbours of the network behind an end that the line doesn't have."""
    names = {device for device, _ in row.ends}
    faults = []
    for sight in seen.sights:
        for port in ports:
            here = sight.device == port.device and port in devices[sight.device].carried_by(sight.interface)
            if here and sight.other not in names | {None}:
                shared = [other for other in devices[str(sight.other)].carried_by(sight.port) if set(other.subnets()) & set(port.subnets())]
                if shared:
                    faults.append("%s says that %s %s is behind %s %s" % ((sight.place, sight.other, sight.port) + port.end()))
    return faults


def missing_links(rows: list[Row], wiring: Wiring) -> list[str]:
    """Links that subnets or neighbours show and the table doesn't have, or has in part."""
    line_of = {end: row for row in rows if row.kind != "ingress" for end in row.ends}
    told = []
    for segment in wiring.segments:
        rows_here = {id(line_of[port.end()]) for port in segment.ports if port.end() in line_of}
        absent = [port for port in segment.ports if port.end() not in line_of]
        if not rows_here:
            told.append("missing: %s (%s)" % (segment.line(), segment.why))
        elif absent:
            first = min(line_of[port.end()].line.number for port in segment.ports if port.end() in line_of)
            told.append("missing at line %d: %s (%s)" % (first, ", ".join("%s %s" % port.end() for port in absent), segment.why))
        elif len(rows_here) > 1:
            numbers = sorted({line_of[port.end()].line.number for port in segment.ports})
            told.append("lines %s are one link: %s (%s)" % (", ".join(map(str, numbers)), segment.line(), segment.why))
    return told


def missing_edges(rows: list[Row], wiring: Wiring) -> list[str]:
    """Interfaces where packets may come in, and that are no ingress and on no link of the table."""
    ingresses = {end for row in rows if row.kind == "ingress" for end in row.ends}
    return ["no ingress: %s %s (%s)" % (edge.port.end() + (edge.why,)) for edge in wiring.edges
            if not edge.proposed and edge.port.end() not in ingresses]


def check_lines(path: str, rows: list[Row], wiring: Wiring, devices: dict[str, Device], seen: Seen) -> list[str]:
    """All differences, a line each: those of the table's lines in their order, then what is missing, then what contradicts itself."""
    found = {port.end(): segment for segment in wiring.segments for port in segment.ports}
    told = ["%s line %d: %s" % (path, row.line.number, fault) for row in rows for fault in row_faults(row, devices, found, seen)]
    told += ["%s: %s" % (path, line) for line in missing_links(rows, wiring) + missing_edges(rows, wiring)]
    return told + wiring.contradictions
