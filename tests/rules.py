#!/usr/bin/env python3
"""The comparison of two networks, the trace of a packet, the answers to questions, the audit of access lists, the edits of a network
and the check of a rollout, once more from the rules of docs/DEFINITIONS.md alone: a second opinion for tests.

    rules.py OLD NEW LINKS [NEWLINKS] [--ttl T]
    rules.py trace NET LINKS DEVICE INTERFACE HEADER [--ttl T]
    rules.py ask NET LINKS QUESTIONS [--ttl T]
    rules.py audit NET
    rules.py edits NET LINKS EDITS
    rules.py rollout NET LINKS QUESTIONS STEPS

It prints what the program must print for `compare` with these words, for `trace`, `ask`, `audit`, `edits` or `rollout`. It shares no
code with the program, takes networks, questions, edits and steps as accepted (it refuses nothing), and is slow: a set of headers is
halved at the first bit that a rule asks for, until all its headers are treated alike.
"""
import os
import sys

sys.setrecursionlimit(100000)

# Each field with its lowest bit and its width, in the order of a header.
FIELDS = [("dst", 80, 32), ("src", 48, 32), ("proto", 40, 8), ("dport", 24, 16), ("sport", 8, 16), ("flags", 0, 8)]
FIELD = {name: (shift, width) for name, shift, width in FIELDS}
PLACES = 112
ALL_ONES = 2**32 - 1

PROTOCOLS = dict(icmp=1, igmp=2, ipinip=4, tcp=6, udp=17, gre=47, esp=50, ahp=51, eigrp=88, ospf=89, pim=103)
TCP_PORTS = {
    "echo": 7, "discard": 9, "daytime": 13, "chargen": 19, "ftp-data": 20, "ftp": 21, "telnet": 23, "smtp": 25, "time": 37,
    "whois": 43, "tacacs": 49, "domain": 53, "gopher": 70, "finger": 79, "www": 80, "hostname": 101, "pop2": 109, "pop3": 110,
    "sunrpc": 111, "ident": 113, "nntp": 119, "bgp": 179, "irc": 194, "exec": 512, "login": 513, "cmd": 514, "lpd": 515,
    "talk": 517, "uucp": 540, "klogin": 543, "kshell": 544,
}
UDP_PORTS = {
    "echo": 7, "discard": 9, "time": 37, "nameserver": 42, "tacacs": 49, "domain": 53, "bootps": 67, "bootpc": 68, "tftp": 69,
    "sunrpc": 111, "ntp": 123, "netbios-ns": 137, "netbios-dgm": 138, "netbios-ss": 139, "snmp": 161, "snmptrap": 162,
    "xdmcp": 177, "mobile-ip": 434, "isakmp": 500, "biff": 512, "who": 513, "syslog": 514, "talk": 517, "rip": 520,
    "non500-isakmp": 4500,
}
ICMP_TYPES = {
    "echo-reply": (0, None), "unreachable": (3, None), "net-unreachable": (3, 0), "host-unreachable": (3, 1),
    "port-unreachable": (3, 3), "packet-too-big": (3, 4), "administratively-prohibited": (3, 13), "source-quench": (4, None),
    "redirect": (5, None), "echo": (8, None), "time-exceeded": (11, None), "ttl-exceeded": (11, 0),
    "parameter-problem": (12, None),
}
FLAGS = dict(fin=1, syn=2, rst=4, psh=8, ack=16, urg=32)


def is_address(word):
    parts = word.split(".")
    return len(parts) == 4 and all(part.isdigit() and len(part) <= 3 and int(part) < 256 for part in parts)


def address_of(word):
    return sum(int(part) << (24 - 8 * i) for i, part in enumerate(word.split(".")))


def dotted(address):
    return ".".join(str(address >> shift & 255) for shift in (24, 16, 8, 0))


def length_of(mask):
    return bin(address_of(mask)).count("1")


def first_bits(length):
    return 2**32 - 2 ** (32 - length)


# ---- sets of headers


class Divided(Exception):
    """A rule asks for a bit that the set of headers leaves open."""

    def __init__(self, place):
        super().__init__(place)
        self.place = place


class Headers:
    """A set of headers: the bits of `fixed` are those of `bits`, all others are open."""

    def __init__(self, fixed=0, bits=0):
        self.fixed = fixed
        self.bits = bits

    def key(self):
        return self.fixed, self.bits

    def halves(self, place):
        weight = 1 << (PLACES - 1 - place)
        return Headers(self.fixed | weight, self.bits), Headers(self.fixed | weight, self.bits | weight)

    def field(self, name):
        """The fixed bits of a field, and their digits."""
        shift, width = FIELD[name]
        ones = 2**width - 1
        return self.fixed >> shift & ones, self.bits >> shift & ones

    def agrees(self, name, mask, value):
        """Whether the field has these digits under the mask."""
        fixed, bits = self.field(name)
        if (bits ^ value) & fixed & mask:
            return False
        rest = mask & ~fixed
        if rest:
            raise Divided(PLACES - FIELD[name][0] - rest.bit_length())
        return True

    def equals(self, name, value):
        return self.agrees(name, 2 ** FIELD[name][1] - 1, value)

    def at_most(self, name, value):
        shift, width = FIELD[name]
        fixed, bits = self.field(name)
        for i in reversed(range(width)):
            if not fixed >> i & 1:
                raise Divided(PLACES - 1 - shift - i)
            if bits >> i & 1 != value >> i & 1:
                return bits >> i & 1 == 0
        return True

    def between(self, name, low, high):
        return low <= high and self.at_most(name, high) and not (low > 0 and self.at_most(name, low - 1))

    def replaced(self, name, value):
        shift, width = FIELD[name]
        ones = (2**width - 1) << shift
        return Headers(self.fixed | ones, self.bits & ~ones | value << shift)


# ---- access lists


class Entry:
    def __init__(self, words, extended):
        self.permit = words[0] == "permit"
        self.protocol = None
        self.tests = []
        if extended:
            self.read_extended(words[1:])
        else:
            self.read_standard(words[1:])

    def read_standard(self, words):
        if len(words) == 1 and is_address(words[0]):
            words = ["host"] + words
        self.read_address("src", words)

    def read_extended(self, words):
        self.protocol = None if words[0] == "ip" else PROTOCOLS[words[0]] if words[0] in PROTOCOLS else int(words[0])
        words = self.read_ports("sport", self.read_address("src", words[1:]))
        words = self.read_ports("dport", self.read_address("dst", words))
        while words:
            words = self.read_rest(words)

    def read_address(self, field, words):
        if words[0] == "any":
            return words[1:]
        if words[0] == "host":
            words = [words[1], "0.0.0.0"] + words[2:]
        value, wild = address_of(words[0]), address_of(words[1])
        self.tests.append(lambda h: h.agrees(field, ALL_ONES & ~wild, value & ~wild))
        return words[2:]

    def read_ports(self, field, words):
        names = {6: TCP_PORTS, 17: UDP_PORTS}.get(self.protocol)
        if names is None or not words:
            return words

        def port(word):
            return names[word] if word in names else int(word)

        test, rest = words[0], words[1:]
        if test == "eq":
            ports = []
            while rest and len(ports) < 10 and (rest[0] in names or rest[0].isdigit()):
                ports.append(port(rest[0]))
                rest = rest[1:]
            self.tests.append(lambda h: any([h.equals(field, p) for p in ports]))
        elif test == "neq":
            value, rest = port(rest[0]), rest[1:]
            self.tests.append(lambda h: not h.equals(field, value))
        elif test in ("gt", "lt", "range"):
            value = port(rest[0])
            low, high = (value + 1, 65535) if test == "gt" else (0, value - 1) if test == "lt" else (value, port(rest[1]))
            rest = rest[2:] if test == "range" else rest[1:]
            self.tests.append(lambda h: h.between(field, low, high))
        else:
            return words
        return rest

    def read_rest(self, words):
        word, rest = words[0], words[1:]
        if word in ("log", "log-input"):
            return rest
        if self.protocol == 1:
            kind, code = ICMP_TYPES.get(word, (None, None))
            if kind is None:
                kind = int(word)
                if rest and rest[0].isdigit():
                    code, rest = int(rest[0]), rest[1:]
            mask, value = (0xFF00, kind << 8) if code is None else (0xFFFF, kind << 8 | code)
            self.tests.append(lambda h: h.agrees("sport", mask, value))
            return rest
        return self.read_flags(word, rest)

    def read_flags(self, word, rest):
        ones = zeros = 0
        if word == "established":
            word, ones = "match-any", FLAGS["ack"] | FLAGS["rst"]
        elif word in FLAGS:
            word, ones = "match-all", FLAGS[word]
        else:
            while rest and rest[0][0] in "+-":
                ones |= FLAGS[rest[0][1:]] if rest[0][0] == "+" else 0
                zeros |= FLAGS[rest[0][1:]] if rest[0][0] == "-" else 0
                rest = rest[1:]
        wanted = [(flag, flag) for flag in FLAGS.values() if ones & flag] + [(flag, 0) for flag in FLAGS.values() if zeros & flag]
        choose = any if word == "match-any" else all
        self.tests.append(lambda h: choose(h.agrees("flags", flag, value) for flag, value in wanted))
        return rest

    def matches(self, headers):
        if self.protocol is not None and not headers.equals("proto", self.protocol):
            return False
        return all(test(headers) for test in self.tests)


# ---- configurations


class Interface:
    def __init__(self):
        self.primary = None
        self.secondary = []
        self.shut = False
        self.side = None
        self.lists = {}

    def subnets(self):
        return ([self.primary] if self.primary else []) + self.secondary

    def live(self):
        return [] if self.shut else self.subnets()


class Device:
    """A device as its configuration says, with its valid and installed routes."""

    def __init__(self, text):
        self.name = None
        self.interfaces = {}
        self.routes = []
        self.lists = {}
        self.rules = []
        self.outer_rules = []
        self.section = None
        delimiter = None
        for line in text.split("\n"):
            words = line.split()
            if delimiter is not None:
                delimiter = None if delimiter in line else delimiter
            elif words and not words[0].startswith("!"):
                if line[0] in " \t":
                    self.read_inner(words)
                else:
                    delimiter = self.read_global(words, line)
        self.install()

    def read_global(self, words, line):
        """Reads a command outside of sections; gives the delimiter of a banner that this line leaves open."""
        self.section = None
        if words[0] == "banner":
            text = line.split(None, 2)[2]
            delimiter = "^C" if text.startswith("^C") else text[0]
            return None if delimiter in text[len(delimiter):] else delimiter
        if words[0] == "hostname":
            self.name = words[1]
        elif words[0] == "interface" and words[1] != "Null0":
            self.section = self.interfaces.setdefault(words[1], Interface())
        elif words[0] == "access-list":
            number = int(words[1])
            entries = self.lists.setdefault(words[1], (100 <= number <= 199 or 2000 <= number <= 2699, {}))
            self.read_entry(entries, words[2:])
        elif words[:2] == ["ip", "access-list"]:
            self.section = self.lists.setdefault(words[3], (words[2] == "extended", {}))
        elif words[:2] == ["ip", "route"]:
            self.read_route(words[2:])
        elif words[:5] == ["ip", "nat", "inside", "source", "static"]:
            self.read_rule([word for word in words[5:] if word != "extendable"])
        elif words[:5] == ["ip", "nat", "outside", "source", "static"]:
            self.outer_rules.append((address_of(words[5]), address_of(words[6])))
        return None

    def read_inner(self, words):
        if isinstance(self.section, tuple):
            self.read_entry(self.section, words)
        elif isinstance(self.section, Interface):
            self.read_interface(self.section, words)

    def read_entry(self, entries, words):
        extended, by_sequence = entries
        sequence = max(by_sequence) + 10 if by_sequence else 10
        if words[0].isdigit():
            sequence, words = int(words[0]), words[1:]
        if words[0] != "remark":
            by_sequence[sequence] = Entry(words, extended)

    def read_interface(self, interface, words):
        if words[:2] == ["ip", "address"]:
            subnet = address_of(words[2]), length_of(words[3])
            if words[4:] == ["secondary"]:
                interface.secondary.append(subnet)
            else:
                interface.primary = subnet
        elif words[:3] == ["no", "ip", "address"]:
            interface.primary, interface.secondary = None, []
        elif words == ["shutdown"]:
            interface.shut = True
        elif words == ["no", "shutdown"]:
            interface.shut = False
        elif words[:2] == ["ip", "access-group"]:
            interface.lists[words[3]] = words[2]
        elif words in (["ip", "nat", "inside"], ["ip", "nat", "outside"]):
            interface.side = words[2]

    def read_route(self, words):
        prefix, words = (address_of(words[0]), length_of(words[1])), words[2:]
        name = next_hop = None
        if words[0] == "Null0":
            words = words[1:]
        else:
            if not is_address(words[0]):
                name, words = words[0], words[1:]
            if words and is_address(words[0]):
                next_hop, words = address_of(words[0]), words[1:]
        distance = 1
        while words:
            if words[0] not in ("name", "tag"):
                distance = int(words[0])
            words = words[2:] if words[0] in ("name", "tag") else words[1:]
        self.routes.append((prefix, name, next_hop, distance))

    def read_rule(self, words):
        if words[0] in PROTOCOLS:
            self.rules.append((PROTOCOLS[words[0]], address_of(words[1]), int(words[2]), address_of(words[3]), int(words[4])))
        else:
            self.rules.append((None, address_of(words[0]), None, address_of(words[1]), None))

    def install(self):
        """The least set of valid routes, and of these the best ones of each prefix."""
        own = {address for interface in self.interfaces.values() for address, _ in interface.live()}
        connected = [
            ((address & first_bits(length), length), name, None, 0)
            for name, interface in self.interfaces.items()
            for address, length in interface.live()
        ]
        routes = self.routes + connected
        self.route_count = len(routes)
        usable = [route for route in routes if route[3] != 255 and route[2] not in own]
        valid = [route for route in usable if route[1] is None and route[2] is None or self.is_enabled(route[1])]
        waiting = [route for route in usable if route[1] is None and route[2] is not None]
        while True:
            ready = [r for r in waiting if any(r[2] & first_bits(v[0][1]) == v[0][0] for v in valid)]
            if not ready:
                break
            valid += ready
            waiting = [r for r in waiting if not any(r is q for q in ready)]
        self.installed = [r for r in valid if not any(q[0] == r[0] and q[3] < r[3] for q in valid)]
        self.installed.sort(key=lambda route: -route[0][1])

    def is_enabled(self, name):
        return name in self.interfaces and bool(self.interfaces[name].live())

    def verdict(self, name, headers):
        """What the list says, as the trace tells it: None where everything is passed."""
        _, entries = self.lists.get(name, (None, {}))
        for sequence in sorted(entries):
            if entries[sequence].matches(headers):
                return "permit" if entries[sequence].permit else "deny", sequence
        return ("deny", "end") if entries else None

    def passes(self, name, headers):
        verdict = self.verdict(name, headers)
        return verdict is None or verdict[0] == "permit"

    def hops(self, headers, address, depth):
        """Pairs of an interface and a next hop; None for a discard, and None as next hop for the packet's own destination."""
        if depth == 0:
            return {None}
        best, best_length = [], -1
        for (prefix, length), name, next_hop, _ in self.installed:
            if length < best_length:
                break
            mask = first_bits(length)
            if headers.agrees("dst", mask, prefix) if address is None else address & mask == prefix:
                best.append((name, next_hop))
                best_length = length
        hops = set() if best else {None}
        for name, next_hop in best:
            if name is not None:
                hops.add((name, next_hop))
            elif next_hop is None:
                hops.add(None)
            else:
                hops |= {hop if hop is None or hop[1] is not None else (hop[0], next_hop) for hop in self.hops(headers, next_hop, depth - 1)}
        return hops

    def written(self, headers, sides, address, port):
        """The address and the port that the first rule that matches writes, port rules before plain ones: a plain rule writes no
        port, and None is where no rule matches."""
        here, there = sides
        for rule in self.rules:
            if rule[0] is not None and headers.equals("proto", rule[0]) and headers.equals(address, rule[here]) and headers.equals(port, rule[here + 1]):
                return rule[there], rule[there + 1]
        for rule in self.rules:
            if rule[0] is None and headers.equals(address, rule[here]):
                return rule[there], None
        return None

    def translated(self, headers, sides, address, port):
        """The headers after the first rule that matches."""
        written = self.written(headers, sides, address, port)
        if written is None:
            return headers
        headers = headers.replaced(address, written[0])
        return headers if written[1] is None else headers.replaced(port, written[1])

    def outer_address(self, headers, field, here, there):
        """What the first outer rule that matches writes: None where none does."""
        for rule in self.outer_rules:
            if headers.equals(field, rule[here]):
                return rule[there]
        return None

    def from_outside(self, headers):
        source = self.outer_address(headers, "src", 0, 1)
        headers = self.translated(headers, (3, 1), "dst", "dport")
        return headers if source is None else headers.replaced("src", source)

    def from_inside(self, headers):
        destination = self.outer_address(headers, "dst", 1, 0)
        headers = self.translated(headers, (1, 3), "src", "sport")
        return headers if destination is None else headers.replaced("dst", destination)


# ---- networks


class Network:
    def __init__(self, devices, links):
        self.devices = {device.name: device for device in devices}
        self.segments = {}
        self.ingress = []
        for line in links.split("\n"):
            words = line.split()
            if not words or words[0].startswith("!"):
                continue
            ends = list(zip(words[1::2], words[2::2]))
            if words[0] == "ingress":
                self.ingress += ends
            else:
                self.segments.update((end, (words[0], ends)) for end in ends)

    def interface(self, place):
        device = self.devices.get(place[0])
        return device.interfaces.get(place[1]) if device else None

    def moves(self, place, headers):
        """What becomes of these headers at the place: a list of ("drop",), ("lost",), ("local", place),
        ("exit", place, headers) and ("go", place, headers)."""
        device, interface = self.devices.get(place[0]), self.interface(place)
        if interface is None or not interface.live() or not device.passes(interface.lists.get("in"), headers):
            return [("drop",)]
        if interface.side == "outside":
            headers = device.from_outside(headers)
        if headers.agrees("dst", 7 << 29, 7 << 29):
            return [("drop",)]
        subnets = [(name, subnet) for name, other in device.interfaces.items() for subnet in other.live()]
        for _, (address, length) in subnets:
            if length <= 30 and headers.equals("dst", address | ~first_bits(length) & ALL_ONES):
                return [("drop",)]
        for name, (address, _) in subnets:
            if headers.equals("dst", address):
                return [("local", (place[0], name))]
        return [self.leave(device, interface, headers, hop) for hop in device.hops(headers, None, device.route_count)]

    def leave(self, device, interface, headers, hop):
        if hop is None:
            return ("drop",)
        name, next_hop = hop
        out = device.interfaces[name]
        sent = headers
        if interface.side == "inside" and out.side == "outside":
            sent = device.from_inside(headers)
        if not device.passes(out.lists.get("out"), sent):
            return ("lost",)
        return self.send((device.name, name), next_hop, headers, sent)

    def send(self, place, next_hop, looked_up, headers):
        """Sends the headers to the next hop; without one, to the destination that was looked up."""
        if place not in self.segments:
            return ("exit", place, headers)
        kind, ends = self.segments[place]
        others = [end for end in ends if end != place]
        if kind == "p2p":
            return ("go", others[0], headers) if others else ("exit", place, headers)

        def has_next_address(end, enabled):
            interface = self.interface(end)
            if interface is None or bool(interface.live()) != enabled:
                return False
            addresses = [address for address, _ in interface.subnets()]
            return next_hop in addresses if next_hop is not None else any(looked_up.equals("dst", address) for address in addresses)

        for end in others:
            if has_next_address(end, True):
                return ("go", end, headers)
        if any(has_next_address(end, False) for end in others):
            return ("lost",)
        return ("exit", place, headers)

    def label(self, place, start, ttl):
        """The outcomes of these headers, in order: all walks at once, move by move. What was met before is met again after as
        many moves as it took, so whole rounds of it are passed over."""
        states, outcomes, met, count = {(place, start.key())}, set(), {}, 0
        while states and count < ttl:
            first = met.setdefault(frozenset(states), count)
            if first < count:
                count += (ttl - 1 - count) // (count - first) * (count - first)
            after = set()
            for here, key in states:
                for move in self.moves(here, Headers(*key)):
                    if move[0] == "drop":
                        outcomes.add((0,))
                    elif move[0] == "local":
                        outcomes.add((2, move[1]))
                    elif count == ttl - 1:
                        outcomes.add((1,))
                    elif move[0] == "lost":
                        outcomes.add((0,))
                    elif move[0] == "exit":
                        outcomes.add((3, move[1], changes(start, move[2])))
                    else:
                        after.add((move[1], move[2].key()))
            states = after
            count += 1
        return tuple(sorted(outcomes, key=in_order))

    def next_states(self, state):
        """The states to which one move leads."""
        here, key = state
        return {(move[1], move[2].key()) for move in self.moves(here, Headers(*key)) if move[0] == "go"}

    def loops(self, place, start, ttl):
        """Whether some walk of at most ttl - 1 moves is twice in one state. A header that is in two states with the same
        place and the same header is in one: what a rule replaces was fixed before, so equal keys are equal headers."""
        first_seen, states = {}, {(place, start.key())}
        for count in range(ttl):
            states = {state for state in states if state not in first_seen}
            first_seen.update((state, count) for state in states)
            states = {after for state in states for after in self.next_states(state)}
        return any(self.comes_back(state, ttl - 1 - count) for state, count in first_seen.items())

    def comes_back(self, state, moves):
        """Whether a walk of one to so many moves leads from the state to itself."""
        seen, states = set(), {state}
        for _ in range(moves):
            states = {after for one in states for after in self.next_states(one)} - seen
            if state in states:
                return True
            seen |= states
        return False

    # ---- traces

    def choices(self, place, headers):
        """The choices of a lookup in order: a discard, which is None, then pairs of an interface and a next address."""
        device = self.devices[place[0]]
        destination = headers.field("dst")[1]
        hops = {hop if hop is None else (hop[0], destination if hop[1] is None else hop[1]) for hop in device.hops(headers, None, device.route_count)}
        return sorted(hops, key=lambda hop: (hop is not None, hop and (hop[0].encode(), hop[1])))

    def trace(self, place, header, ttl):
        """The lines of a trace. States are numbered in the order in which they are found, each stepped in turn."""
        order, moves = [(place, header.key())], {(place, header.key()): 0}
        for state in order:
            if moves[state] < ttl - 1:
                for move in self.moves_in_order(*state):
                    found = move[0] == "go" and (move[1], move[2].key())
                    if found and found not in moves:
                        moves[found] = moves[state] + 1
                        order.append(found)
        numbers = {state: k for k, state in enumerate(order, 1)}
        lines = [line for state in order for line in self.state_lines(state, numbers, header)]
        return lines + ["outcome " + label_text(self.label(place, header, ttl))]

    def moves_in_order(self, place, key):
        headers = Headers(*key)
        moves = self.moves(place, headers)
        if len(moves) == 1:
            return moves
        device, interface = self.devices[place[0]], self.interface(place)
        if interface.side == "outside":
            headers = device.from_outside(headers)
        return [self.leave(device, interface, headers, hop) for hop in self.choices(place, headers)]

    def state_lines(self, state, numbers, first):
        place, headers = state[0], Headers(*state[1])
        lines = ["state %d at %s %s %s" % (numbers[state], *place, header_text(headers))]
        device, interface = self.devices.get(place[0]), self.interface(place)
        if interface is None or not interface.live():
            return lines + ["closed"]
        lines.append(list_line("input", interface.lists.get("in"), device.verdict(interface.lists.get("in"), headers)))
        if not device.passes(interface.lists.get("in"), headers):
            return lines
        if interface.side == "outside":
            lines += nat_lines("dst", "dport", device.written(headers, (3, 1), "dst", "dport"))
            lines += nat_lines("src", None, (device.outer_address(headers, "src", 0, 1), None))
            headers = device.from_outside(headers)
        destination = headers.field("dst")[1]
        subnets = [(name, *subnet) for name, other in device.interfaces.items() for subnet in other.live()]
        if destination >> 29 == 7 or any(length <= 30 and destination == address | ~first_bits(length) & ALL_ONES for _, address, length in subnets):
            return lines + ["broadcast"]
        own = [name for name, address, _ in subnets if address == destination]
        if own:
            return lines + ["local %s %s" % (place[0], own[0])]
        for hop in self.choices(place, headers):
            lines += self.choice_lines(device, interface, headers, hop, numbers, first)
        return lines

    def choice_lines(self, device, interface, headers, hop, numbers, first):
        if hop is None:
            return ["discard"]
        name, address = hop
        out = device.interfaces[name]
        lines = ["out %s next %s" % (name, dotted(address))]
        sent = headers
        if interface.side == "inside" and out.side == "outside":
            lines += nat_lines("src", "sport", device.written(headers, (1, 3), "src", "sport"))
            lines += nat_lines("dst", None, (device.outer_address(headers, "dst", 1, 0), None))
            sent = device.from_inside(headers)
        lines.append(list_line("output", out.lists.get("out"), device.verdict(out.lists.get("out"), sent)))
        if not device.passes(out.lists.get("out"), sent):
            return lines
        move = self.send((device.name, name), address, headers, sent)
        if move[0] == "exit":
            return lines + [outcome_text((3, move[1], changes(first, move[2])))]
        if move[0] == "go":
            return lines + ["go %s" % numbers.get((move[1], move[2].key()), "-")]
        return lines + ["lost"]


def list_line(word, name, verdict):
    return word + " none" if verdict is None else "%s %s %s %s" % (word, name, *verdict)


def nat_lines(field, port_field, written):
    """The line of a rule that matched."""
    if written is None or written[0] is None:
        return []
    line = "nat %s %s" % (field, dotted(written[0]))
    return [line if written[1] is None else "%s %s %d" % (line, port_field, written[1])]


def changes(start, last):
    """The fields of the last header that differ from the first one's: None, or the value."""
    found = []
    for name in ("src", "dst", "sport", "dport"):
        fixed, bits = start.field(name)
        if (fixed, bits) == last.field(name):
            found.append(None)
        else:
            ones = 2 ** FIELD[name][1] - 1
            start.agrees(name, ones, bits)  # divides where the first header's field is open
            found.append(last.field(name)[1])
    return tuple(found)


def in_order(outcome):
    kind, *rest = outcome
    place = tuple(word.encode() for word in rest[0]) if rest else ()
    fields = tuple((value is not None, value or 0) for value in rest[1]) if kind == 3 else ()
    return kind, place, fields


# ---- the report


def pieces(old, new, place, ttl):
    """Disjoint sets of exactly the headers whose labels differ, with the two labels."""
    found, waiting = [], [Headers()]
    while waiting:
        headers = waiting.pop()
        try:
            labels = old.label(place, headers, ttl), new.label(place, headers, ttl)
        except Divided as divided:
            waiting += headers.halves(divided.place)
            continue
        if labels[0] != labels[1]:
            found.append((headers.fixed, headers.bits, labels))
    return found


def canonical_rows(found):
    """The paths of the reduced decision diagram of the pieces, in order."""
    numbers = {}

    def node(key):
        return numbers.setdefault(key, len(numbers))

    def diagram(parts, place):
        if not parts:
            return node(None)
        while place < PLACES and not any(fixed >> (PLACES - 1 - place) & 1 for fixed, _, _ in parts):
            place += 1
        if place == PLACES:
            return node(parts[0][2])
        weight = 1 << (PLACES - 1 - place)
        low = diagram([part for part in parts if not (part[0] & weight and part[1] & weight)], place + 1)
        high = diagram([part for part in parts if not (part[0] & weight and not part[1] & weight)], place + 1)
        return low if low == high else node((place, low, high))

    root = diagram(found, 0)
    keys = {number: key for key, number in numbers.items()}
    rows = []

    def walk(number, fixed, bits):
        key = keys[number]
        if key is not None and len(key) == 3:
            weight = 1 << (PLACES - 1 - key[0])
            walk(key[1], fixed | weight, bits)
            walk(key[2], fixed | weight, bits | weight)
        elif key is not None:
            rows.append((fixed, bits, key))

    walk(root, 0, 0)
    return rows


def field_text(name, headers):
    fixed, bits = headers.field(name)
    width = FIELD[name][1]
    if fixed == 0:
        return "*"
    if fixed == 2**width - 1:
        return dotted(bits) if width == 32 else str(bits)
    if width == 32 and fixed == first_bits(bin(fixed).count("1")):
        return "%s/%d" % (dotted(bits), bin(fixed).count("1"))
    return "".join(str(bits >> i & 1) if fixed >> i & 1 else "*" for i in reversed(range(width)))


def outcome_text(outcome):
    kind, *rest = outcome
    if kind < 2:
        return ("drop", "expired")[kind]
    text = "%s %s %s" % (("local", "exit")[kind - 2], *rest[0])
    for name, value in zip(("src", "dst", "sport", "dport"), rest[1] if kind == 3 else ()):
        if value is not None:
            text += " %s %s" % (name, dotted(value) if name in ("src", "dst") else value)
    return text


def label_text(label):
    return " | ".join(map(outcome_text, label))


def load(folder):
    names = sorted(name for name in os.listdir(folder) if name.endswith(".cfg"))
    return [Device(open(os.path.join(folder, name)).read()) for name in names]


def lines_of(file):
    """The words of each line of a file that isn't empty or a comment."""
    words = [line.split() for line in open(file).read().split("\n")]
    return [line for line in words if line and not line[0].startswith("!")]


def report(old_folder, new_folder, links, new_links=None, ttl=255):
    old = Network(load(old_folder), open(links).read())
    new = Network(load(new_folder), open(new_links or links).read())
    return report_text(old, new, ttl)[0]


def report_text(old, new, ttl):
    """The report on two networks, and how many rows it has."""
    lines, affected = [], 0
    for place in old.ingress + [place for place in new.ingress if place not in old.ingress]:
        rows = canonical_rows(pieces(old, new, place, ttl))
        affected += len(rows)
        lines.append("ingress %s %s rows %d" % (*place, len(rows)))
        for fixed, bits, labels in rows:
            headers = Headers(fixed, bits)
            lines.append(header_text(headers))
            lines.append("old " + label_text(labels[0]))
            lines.append("new " + label_text(labels[1]))
    return "\n".join(lines + ["affected %d" % affected]) + "\n", affected


def header_text(headers):
    return " ".join("%s %s" % (name, field_text(name, headers)) for name, _, _ in FIELDS)


def header_of(word):
    values = word.split(",")
    bits = 0
    for (_, shift, _), value in zip(FIELDS, [address_of(values[0]), address_of(values[1])] + [int(value) for value in values[2:]]):
        bits |= value << shift
    return Headers(2**PLACES - 1, bits)


def trace(folder, links, device, interface, header, ttl=255):
    network = Network(load(folder), open(links).read())
    return "".join(line + "\n" for line in network.trace((device, interface), header_of(header), ttl))


# ---- questions


def field_masks(text, width):
    """The bits of a field that its text fixes, and their digits."""
    ones = 2**width - 1
    if text == "*":
        return 0, 0
    if "*" in text:
        return int("".join("0" if digit == "*" else "1" for digit in text), 2), int(text.replace("*", "0"), 2)
    if "/" in text:
        address, length = text.split("/")
        return first_bits(int(length)), address_of(address)
    return ones, address_of(text) if width == 32 else int(text)


def filter_of(words):
    fixed = bits = 0
    for name, text in zip(words[::2], words[1::2]):
        shift, width = FIELD[name]
        field_fixed, field_bits = field_masks(text, width)
        fixed |= field_fixed << shift
        bits |= field_bits << shift
    return Headers(fixed, bits)


def breaks(network, kind, place, to, headers, ttl):
    """Whether these headers break the question."""
    if kind == "noloop":
        return network.loops(place, headers, ttl)
    there = any(outcome[0] >= 2 and outcome[1] == to for outcome in network.label(place, headers, ttl))
    return there == (kind == "isolate")


def least_breaking(network, words, ttl):
    """The least header of the filter that breaks the question."""
    kind, place = words[0], (words[1], words[2])
    to, rest = (None, words[3:]) if kind == "noloop" else ((words[4], words[5]), words[6:])
    least, waiting = None, [filter_of(rest)]
    while waiting:
        headers = waiting.pop()
        if least is not None and headers.bits >= least:
            continue
        try:
            broken = breaks(network, kind, place, to, headers, ttl)
        except Divided as divided:
            waiting += reversed(headers.halves(divided.place))
            continue
        if broken:
            least = headers.bits
    return least


def answers(folder, links, questions, ttl=255):
    network = Network(load(folder), open(links).read())
    lines, failed = [], 0
    for words in lines_of(questions):
        least = least_breaking(network, words, ttl)
        if least is None:
            lines.append("%d holds" % (len(lines) + 1))
        else:
            failed += 1
            lines.append("%d fails %s" % (len(lines) + 1, header_text(Headers(2**PLACES - 1, least))))
    return "\n".join(lines + ["failed %d" % failed]) + "\n"


# ---- audits


def first_of(entries, headers):
    """The first of the entries that matches."""
    return next((entry for entry in entries if entry.matches(headers)), None)


def fates(entries, entry):
    """Disjoint sets of headers with what counts for an entry: whether it matches them, which entry decides them, and whether
    they pass with the list and with the list without the entry. What the entry doesn't match is left out where others are left."""
    rest = [other for other in entries if other is not entry]
    found, waiting = [], [Headers()]
    while waiting:
        headers = waiting.pop()
        try:
            matches = entry.matches(headers)
            if not matches and rest:
                continue
            decides, other = first_of(entries, headers), first_of(rest, headers)
            fate = matches, decides, decides is not None and decides.permit, other.permit if other is not None else not rest
        except Divided as divided:
            waiting += headers.halves(divided.place)
            continue
        found.append((headers.fixed, headers.bits, fate))
    return found


def finding(entries, sequence):
    """The kind of an entry, or None, and the lines of what earlier ones take of it."""
    found = fates(entries.values(), entries[sequence])
    dead = not any(fate[1] is entries[sequence] for _, _, fate in found)
    redundant = not dead and all(fate[2] == fate[3] for _, _, fate in found)
    if not dead and not redundant:
        return None, []
    lines = []
    for earlier in entries:
        if earlier >= sequence:
            break
        rows = canonical_rows([(fixed, bits, (True,)) for fixed, bits, fate in found if fate[0] and fate[1] is entries[earlier]])
        if rows:
            lines.append("by %d rows %d" % (earlier, len(rows)))
            lines += [header_text(Headers(fixed, bits)) for fixed, bits, _ in rows]
    return "dead" if dead else "redundant", lines


def audit(folder):
    lines, count = [], 0
    for file in sorted(name for name in os.listdir(folder) if name.endswith(".cfg")):
        for name, (_, entries) in Device(open(os.path.join(folder, file)).read()).lists.items():
            entries = dict(sorted(entries.items()))
            kinds, told = [], []
            for sequence in entries:
                kind, taken = finding(entries, sequence)
                if kind is not None:
                    kinds.append(kind)
                    told += ["entry %d %s" % (sequence, kind)] + taken
            lines += ["list %s %s dead %d redundant %d" % (file, name, kinds.count("dead"), kinds.count("redundant"))] + told
            count += len(kinds)
    return "\n".join(lines + ["findings %d" % count]) + "\n"


# ---- networks that change


def rollout(folder, links, questions, steps):
    """The first network of a change window that doesn't meet the questions, which are asked of each of them."""
    devices, table, asked = load(folder), open(links).read(), lines_of(questions)
    changes = [Device(open(words[1]).read()) for words in lines_of(steps)]
    text = "networks %d\n" % (len(changes) + 1)
    for step, change in enumerate([None] + changes):
        devices = [change if change is not None and device.name == change.name else device for device in devices]
        network = Network(devices, table)
        for number, words in enumerate(asked, 1):
            least = least_breaking(network, words, 255)
            if least is not None:
                return text + "step %d question %d fails %s\n" % (step, number, header_text(Headers(2**PLACES - 1, least)))
    return text + "rollout holds\n"


def edit(device, words):
    """One edit of a device: an entry into a list or out of it, a route behind the others, or the first equal one out."""
    kind, rest = words[0], words[2:]
    if kind == "entry":
        device.read_entry(device.lists[rest[0]], rest[1:])
    elif kind == "no-entry":
        del device.lists[rest[0]][1][int(rest[1])]
    elif kind == "route":
        device.read_route(rest)
    else:
        device.read_route(rest)
        device.routes.remove(device.routes.pop())
    device.install()


def edits(folder, links, file):
    """How many rows the comparison with the edited network has after each edit, and the last report."""
    table = open(links).read()
    old = Network(load(folder), table)
    devices = load(folder)
    lines, (text, affected) = [], report_text(old, old, 255)
    for number, line in enumerate(open(file).read().split("\n"), 1):
        words = line.split()
        if words and not words[0].startswith("!"):
            edit(next(device for device in devices if device.name == words[1]), words)
            text, affected = report_text(old, Network(devices, table), 255)
            lines.append("line %d affected %d\n" % (number, affected))
    return "".join(lines) + text


def main():
    words, ttl = sys.argv[1:], 255
    if len(words) >= 2 and words[-2] == "--ttl":
        words, ttl = words[:-2], int(words[-1])
    if words[:1] == ["audit"]:
        sys.stdout.write(audit(*words[1:]))
    elif words[:1] == ["trace"]:
        sys.stdout.write(trace(*words[1:], ttl=ttl))
    elif words[:1] == ["ask"]:
        sys.stdout.write(answers(*words[1:], ttl=ttl))
    elif words[:1] == ["edits"]:
        sys.stdout.write(edits(*words[1:]))
    elif words[:1] == ["rollout"]:
        sys.stdout.write(rollout(*words[1:]))
    else:
        sys.stdout.write(report(*words, ttl=ttl))


if __name__ == "__main__":
    main()
