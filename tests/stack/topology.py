"""A network as namespaces: one for each router, one for switches, one for what is outside; and packets through it.

A `p2p` is a pair of veth whose ends share a hardware address and ask nobody (no ARP), so what the one sends the other takes, whatever the
next address. A `lan` is a bridge, with a port on which a host stands that answers for each address that no end of the lan has. An interface
on no segment is a pair whose other end is outside. Each router has one more pair, the collector: what it says itself, and copies of what
it takes as its own, go there. An interface that is shut or without an address is down and without addresses, since Linux answers for
the addresses of an interface that is down, and forwards by one that has none.
"""
import errno
import os
import secrets
import select
import socket
import struct
import time
from collections import defaultdict
from typing import Iterable, NamedTuple, Optional

import packets
from daemons import Daemons, begin
from filters import COLLECTOR, ruleset
from headers import Packet
from namespaces import LONGEST, Namespace, NotSettled, StackError
from networks import Interface, Network, Place, Segment, dotted

ETH_P_ALL = 3
SOL_PACKET = 263
PACKET_STATISTICS = 6
PACKET_IGNORE_OUTGOING = 23
# So many packets are sent before what came out is read.
BURST = 24
# Nothing is on its way where the kernels' queues are empty and nothing has come for so many seconds.
QUIET = 0.02
# A neighbour that hasn't answered three times within so many milliseconds is given up: a busy machine's host may take its time.
ANSWERS = 1000


class Caught(NamedTuple):
    """Where a packet was caught: an edge or a lan by the place that it left, or the router that took it or told of it."""

    router: str
    interface: Optional[str]
    seen: packets.Seen


def hardware(kind: int, a: int, b: int) -> bytes:
    return bytes([2, kind, 0, 0, a, b])


def colons(address: bytes) -> str:
    return ":".join(f"{byte:02x}" for byte in address)


def is_up(interface: Interface) -> bool:
    return bool(interface.live())


class Topology:
    """The namespaces, links and daemons of a network; close it by `close`.

    Args:
        order: a wrong order of steps, as `filters.ruleset` takes it.
        more_hops: how much greater the TTL is with which packets enter.
    """

    def __init__(self, network: Network, folder: str, order: str = "", more_hops: int = 0):
        self.network = network
        self.order = order
        self.more_hops = more_hops
        self.folder = folder
        self.mark = secrets.token_bytes(packets.MARK)
        self.namespaces: list[Namespace] = []
        self.outside = self.namespace()
        self.switches = self.namespace()
        self.routers = {name: self.namespace() for name in network.routers}
        self.addresses = {place: hardware(1, k >> 8, k & 255) for k, place in enumerate(network.places())}
        self.daemons: list[Daemons] = []
        self.sockets: dict[str, socket.socket] = {}
        self.places: dict[bytes, Place] = {}
        self.lans: dict[str, Segment] = {}
        self.caught: dict[int, list[Caught]] = defaultdict(list)
        self.sent = 0
        try:
            self.build()
        except BaseException:
            self.close()
            raise

    def namespace(self) -> Namespace:
        made = Namespace()
        self.namespaces.append(made)
        return made

    # ---- building

    def build(self) -> None:
        for namespace in self.namespaces:
            for name in ("all", "default"):
                namespace.set(f"net/ipv6/conf/{name}/disable_ipv6", 1)
        for namespace in self.routers.values():
            self.prepare(namespace)
        self.outside.ip(self.link_lines())
        self.build_lans()
        for place in self.network.places():
            self.routers[place.router].set(f"net/ipv4/neigh/{place.interface}/retrans_time_ms", ANSWERS)
            self.routers[place.router].set(f"net/ipv4/neigh/{place.interface}/unres_qlen_bytes", 1 << 20)
        for name, namespace in self.routers.items():
            namespace.ip(self.router_lines(name))
            namespace.run(["nft", "-f", "-"], ruleset(self.network.routers[name], self.order))
        self.outside.ip([f"link set {device} up" for device in self.outside_devices()])
        self.start_daemons()
        self.open_sockets()

    def prepare(self, namespace: Namespace) -> None:
        """Settings of a router: it forwards, asks and answers for each interface by itself, and says what it has to without bounds."""
        ours = {"ip_forward": 1, "icmp_ratemask": 0, "fib_multipath_hash_policy": 1}
        each = {"rp_filter": 0, "accept_local": 1, "send_redirects": 0, "arp_ignore": 1, "arp_announce": 2}
        for name, value in ours.items():
            namespace.set("net/ipv4/" + name, value)
        for folder in ("all", "default"):
            for name, value in each.items():
                namespace.set(f"net/ipv4/conf/{folder}/{name}", value)

    def link_lines(self) -> list[str]:
        """The commands that make all pairs and hand their ends over."""
        lines = []
        for name, namespace in self.routers.items():
            lines.append(f"link add {name}-{COLLECTOR} type veth peer name {COLLECTOR} netns {namespace.path}")
        for place, address in self.addresses.items():
            segment = self.network.segment_of(place)
            own = f"name {place.interface} address {colons(address)} netns {self.routers[place.router].path}"
            if segment is None:
                lines.append(f"link add {place.router}-{place.interface} type veth peer {own}")
            elif segment.kind == "lan":
                lines.append(f"link add {place.router}-{place.interface} netns {self.switches.path} type veth peer {own}")
            elif place == segment.ends[0]:
                other = segment.ends[1]
                self.addresses[other] = address
                far = f"name {other.interface} address {colons(address)} netns {self.routers[other.router].path}"
                lines.append(f"link add {own} type veth peer {far}")
        return lines

    def build_lans(self) -> None:
        self.switches.set("net/bridge/bridge-nf-call-iptables", 0)
        lines = []
        for k, segment in enumerate(one for one in self.network.segments if one.kind == "lan"):
            name = f"lan{k}"
            self.lans[name] = segment
            lines.append(f"link add br{k} type bridge mcast_snooping 0 forward_delay 0")
            lines.append(f"link add {name} type veth peer name {name} address {colons(hardware(2, 0, k))} netns {self.outside.path}")
            for port in [name] + [f"{end.router}-{end.interface}" for end in segment.ends]:
                lines += [f"link set {port} master br{k}", f"link set {port} up"]
            lines.append(f"link set br{k} up")
        if lines:
            self.switches.ip(lines)

    def router_lines(self, name: str) -> list[str]:
        """Addresses and links of a router. What it sends itself goes to the collector, by a table before all others."""
        lines = [f"link set {COLLECTOR} arp off", f"link set {COLLECTOR} up"]
        for interface, one in self.network.routers[name].interfaces.items():
            segment = self.network.segment_of(Place(name, interface))
            if segment is None or segment.kind == "p2p":
                lines.append(f"link set {interface} arp off")
            if is_up(one):
                lines += [f"address add {dotted(subnet.address)}/{subnet.length} dev {interface}" for subnet in one.subnets]
                lines.append(f"link set {interface} up")
        lines += ["rule add pref 20 lookup local", "rule del pref 0", "rule add pref 10 iif lo lookup 100"]
        return lines + [f"route add default dev {COLLECTOR} table 100"]

    def outside_devices(self) -> list[str]:
        edges = [f"{place.router}-{place.interface}" for place in self.network.places() if self.network.segment_of(place) is None]
        return edges + [f"{name}-{COLLECTOR}" for name in self.routers] + list(self.lans)

    def wait_for_links(self) -> None:
        """Waits until the kernel has opened the queues of all interfaces that are up, which it does some time after their links came up.

        Raises:
            NotSettled: that takes too long.
        """
        end = time.monotonic() + LONGEST
        for name, router in self.network.routers.items():
            wanted = {one for one, interface in router.interfaces.items() if is_up(interface) and self.has_carrier(Place(name, one))}
            while True:
                lines = [line.split() for line in self.routers[name].run(["ip", "-br", "link", "show"]).stdout.splitlines()]
                if wanted <= {words[0].partition("@")[0] for words in lines if words[1] == "UP"}:
                    break
                if time.monotonic() > end:
                    raise NotSettled(f"the links of {name} don't come up")
                time.sleep(0.05)

    def has_carrier(self, place: Place) -> bool:
        """Whether the other end of the place's link is up."""
        segment = self.network.segment_of(place)
        return segment is None or segment.kind == "lan" or all(is_up(self.network.interface(end)) for end in segment.ends)

    def start_daemons(self) -> None:
        for name, namespace in self.routers.items():
            self.daemons.append(Daemons(self.network.routers[name], namespace, os.path.join(self.folder, name)))
        for one in self.daemons:
            one.start_zebra()
        self.wait_for_links()
        begin(self.daemons)

    def open_sockets(self) -> None:
        """The socket that catches all that comes outside, and those that send into routers."""
        self.sockets["outside"] = self.opened(self.outside, ETH_P_ALL)
        self.sockets["outside"].setsockopt(SOL_PACKET, PACKET_IGNORE_OUTGOING, 1)
        self.sockets["outside"].setsockopt(socket.SOL_SOCKET, 33, 64 << 20)  # SO_RCVBUFFORCE
        self.sockets["outside"].setblocking(False)
        self.sockets["switches"] = self.opened(self.switches, 0)
        for name, namespace in self.routers.items():
            self.sockets[name] = self.opened(namespace, 0)
        for place, address in self.addresses.items():
            self.places[address] = place

    def opened(self, namespace: Namespace, protocol: int) -> socket.socket:
        with namespace.entered():
            return socket.socket(socket.AF_PACKET, socket.SOCK_RAW, socket.htons(protocol))

    # ---- packets

    def send(self, packet: Packet, number: int) -> None:
        """Sends a packet to the interface at which it enters, from the other end of its link."""
        place = packet.place
        segment = self.network.segment_of(place)
        to = self.addresses[place]
        data = packets.frame(packet.header, min(255, packet.ttl + self.more_hops), self.mark, number, to, hardware(3, 0, 0))
        if segment is None:
            where = "outside", f"{place.router}-{place.interface}"
        elif segment.kind == "lan":
            where = "switches", f"{place.router}-{place.interface}"
        else:
            other = next(end for end in segment.ends if end != place)
            where = other.router, other.interface
        try:
            self.sockets[where[0]].sendto(data, (where[1], 0))
        except OSError as error:
            if is_up(self.network.interface(place)) or error.errno not in (errno.ENETDOWN, errno.ENOBUFS):
                raise StackError(f"nothing can be sent to {place.router} {place.interface}: {error.strerror}") from error
        self.sent += 1

    def read(self) -> None:
        """Reads what has come out so far."""
        while True:
            try:
                data, where = self.sockets["outside"].recvfrom(2048)
            except BlockingIOError:
                return
            self.take(data, where[0])

    def read_all(self, quiet: float) -> None:
        """Reads what comes out until nothing is on its way: no kernel has a packet in a queue, and nothing comes for so many seconds.

        Raises:
            NotSettled: that takes too long.
        """
        end = time.monotonic() + LONGEST
        since = time.monotonic()
        while time.monotonic() < end:
            waiting = softnet(BACKLOG) > 0
            if select.select([self.sockets["outside"]], [], [], quiet / 4)[0] or waiting:
                self.read()
                since = time.monotonic()
            elif time.monotonic() - since >= quiet:
                return
        raise NotSettled("packets are on their way for too long")

    def take(self, data: bytes, device: str) -> None:
        """Takes a frame that came outside by a device."""
        kind = data[12:14]
        if device in self.lans and kind == b"\x08\x06":
            self.answer(data, device)
            return
        seen = packets.read(data, self.mark) if kind == b"\x08\x00" else None
        if seen is None:
            return
        if device in self.lans:
            place = self.places.get(data[6:12])
            if place is not None and data[:6] == self.host(device):
                self.caught[seen.number].append(Caught(place.router, place.interface, seen))
            return
        router, _, interface = device.partition("-")
        self.caught[seen.number].append(Caught(router, None if interface == COLLECTOR else interface, seen))

    def host(self, lan: str) -> bytes:
        return hardware(2, 0, int(lan[3:]))

    def answer(self, data: bytes, lan: str) -> None:
        """Answers, as the host of a lan, who has an address that no end of the lan has."""
        operation, asker, _, asked = struct.unpack_from("!H6s4s6x4s", data, 20)
        wanted = int.from_bytes(asked, "big")
        ends = [self.network.interface(end) for end in self.lans[lan].ends]
        if operation != 1 or any(subnet.address == wanted for end in ends for subnet in end.subnets):
            return
        own = self.host(lan)
        reply = struct.pack("!HHBBH6s4s6s4s", 1, 0x0800, 6, 4, 2, own, asked, asker, data[28:32])
        self.sockets["outside"].sendto(asker + own + b"\x08\x06" + reply, (lan, 0))

    def carry(self, numbered: Iterable[tuple[int, Packet]], quiet: float = QUIET) -> None:
        """Sends packets, each under its number, and reads what comes out until nothing has come for so many seconds.

        Raises:
            NotSettled: packets are on their way for too long, or some were lost where they are caught.
        """
        dropped = softnet(DROPPED)
        for k, (number, packet) in enumerate(numbered, 1):
            self.send(packet, number)
            if k % BURST == 0:
                self.read()
        self.read_all(quiet)
        lost = struct.unpack("II", self.sockets["outside"].getsockopt(SOL_PACKET, PACKET_STATISTICS, 8))[1]
        if lost:
            raise NotSettled(f"the socket that catches packets lost {lost}")
        self.overrun = softnet(DROPPED) != dropped

    def forget(self) -> None:
        self.caught.clear()

    def expiries(self) -> int:
        """How many packets the routers have let expire or found with a bad header, as their kernels count."""
        total = 0
        for namespace in self.routers.values():
            with namespace.entered(), open("/proc/net/snmp") as file:
                names, values = [line.split() for line in file if line.startswith("Ip:")]
            total += int(dict(zip(names, values))["InHdrErrors"])
        return total

    def close(self) -> None:
        for daemons in self.daemons:
            daemons.stop()
        for opened in self.sockets.values():
            opened.close()
        for namespace in self.namespaces:
            namespace.close()
        self.namespaces = []


# Columns of softnet_stat: packets dropped for want of room, and packets that wait.
DROPPED, BACKLOG = 1, 11


def softnet(column: int) -> int:
    """The sum of a column of what the kernel tells of its processors' queues, those of all namespaces; 0 where it doesn't tell it."""
    with open("/proc/net/softnet_stat") as file:
        rows = [line.split() for line in file]
    return sum(int(row[column], 16) for row in rows if len(row) > column)
