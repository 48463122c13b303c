#!/usr/bin/env python3
"""Writes a small random network and a changed one: two folders of configurations, a link table `links`, a changed table
`newlinks`, a TTL in the file `ttl`, in the file `packets` some packets of the first network, in each line the place where one
enters, its header and a TTL, and questions on the first network in the file `questions`.

    random_networks.py FOLDER SEED

Where SEED is a multiple of eight, the network is one in which many packets go round in circles.
"""
import os
import random
import sys

SUBNETS = ["10.0.%d.0/%d" % (k, (24, 29, 30, 31, 28)[k % 5]) for k in range(1, 9)]


def number(text):
    return sum(int(part) << (24 - 8 * i) for i, part in enumerate(text.split(".")))


def dotted(value):
    return ".".join(str(value >> shift & 255) for shift in (24, 16, 8, 0))


def mask_of(length):
    return dotted(2**32 - 2 ** (32 - length))


class Maker:
    def __init__(self, seed):
        self.random = random.Random(seed)
        self.addresses = []
        self.links = []
        self.outer = None
        # Whether hosts of the first router reach hosts behind the second one by outer rules of both.
        self.there_and_back = self.chance(0.17)
        # How many of its routers translate, and whether their sides lead from the first router's hosts to the others'.
        self.translating = 1 if self.there_and_back else self.pick(0.1, 0.1, 0.9)
        self.leads_on = self.there_and_back or self.chance(0.5)

    def pick(self, *items):
        return self.random.choice(items)

    def chance(self, part):
        return self.random.random() < part

    def network(self):
        """The devices, each a list of sections, and the link table."""
        count = 2 if self.there_and_back else self.pick(1, 2, 2, 3, 3, 4)
        devices = {"R%d" % (k + 1): {} for k in range(count)}
        subnets = SUBNETS[:]
        self.random.shuffle(subnets)
        if self.there_and_back:
            self.connect(devices, subnets, list(devices), "p2p")
        else:
            self.connect_some(devices, subnets)
        for name in devices:
            self.connect(devices, subnets, [name], "")
        if self.there_and_back:
            self.links.append("ingress R1 Ethernet1")
        else:
            for name, interfaces in devices.items():
                self.links.append("ingress %s %s" % (name, self.random.choice(list(interfaces))))
        self.random.shuffle(self.links)
        return {name: self.device(name, interfaces) for name, interfaces in devices.items()}

    def connect_some(self, devices, subnets):
        names = list(devices)
        if len(names) >= 3 and self.chance(0.5):
            self.connect(devices, subnets, names[: self.pick(3, len(names))], "lan")
        for a, b in zip(names, names[1:]):
            if self.chance(0.8):
                self.connect(devices, subnets, [a, b], self.pick("p2p", "p2p", "lan"))

    def connect(self, devices, subnets, names, kind):
        if not subnets:
            return
        base, length = subnets.pop().split("/")
        length = int(length)
        size = 2 ** (32 - length)
        hosts = self.random.sample(range(0 if size == 2 else 1, size if size == 2 else size - 1), min(len(names), 2 if size <= 4 else size - 2))
        ends = []
        for name, host in zip(names, hosts):
            interface = "Ethernet%d" % len(devices[name])
            address = dotted(number(base) + host)
            self.addresses.append(address)
            devices[name][interface] = [" ip address %s %s" % (address, mask_of(length))]
            ends.append("%s %s" % (name, interface))
        if kind and len(ends) > 1:
            self.links.append(" ".join([kind] + ends))

    def address(self):
        return self.pick(self.random.choice(self.addresses), dotted(number("10.0.0.0") + self.random.randrange(2304)), "192.168.0.%d" % self.pick(1, 2, 9))

    def prefix(self):
        length = self.pick(0, 22, 24, 29, 30, 32, 16)
        return dotted(number(self.address()) >> (32 - length) << (32 - length) if length else 0), mask_of(length)

    def device(self, name, interfaces):
        sections = []
        lists = self.random.sample(["101", "A", "7"], self.pick(0, 0, 1) if self.there_and_back else self.pick(0, 1, 1, 2))
        sides = self.chance(self.translating)
        for interface, lines in interfaces.items():
            if self.chance(0.1):
                lines.append(" ip address %s 255.255.255.255 secondary" % self.pick("192.168.0.1", "192.168.0.2", "10.9.9.9"))
            if lists and self.chance(0.35):
                lines.append(" ip access-group %s %s" % (self.random.choice(lists + ["NONE"]), self.pick("in", "in", "out")))
            if sides:
                lines.append(" ip nat %s" % self.side(name, interface))
            if self.chance(0.07):
                lines.append(" shutdown")
            sections.append(["interface " + interface] + lines)
        for _ in range(self.pick(0, 1, 2, 3)):
            sections.append([self.route(list(interfaces))])
        if sides:
            for _ in range(self.pick(0, 0, 1) if self.there_and_back else self.pick(1, 1, 2)):
                sections.append([self.translation()])
            if self.there_and_back or self.chance(0.7):
                sections.append([self.outer_translation()])
                if self.there_and_back or self.chance(0.6):
                    onward = "Ethernet0" if name == "R1" else list(interfaces)[-1]
                    sections += [["ip route %s 255.255.255.255 %s" % (address, onward)] for address in self.outer]
        for one in lists:
            sections += self.access_list(one)
        return sections

    def side(self, name, interface):
        if self.leads_on:
            return "inside" if (name == "R1") != (interface == "Ethernet0") else "outside"
        return self.pick("inside", "outside")

    def route(self, interfaces):
        exit_ = self.pick("Null0", self.address(), self.address(), self.random.choice(interfaces), self.random.choice(interfaces) + " " + self.address())
        return "ip route %s %s %s%s" % (*self.prefix(), exit_, self.pick("", "", " 5", " 200", " 255"))

    def translation(self):
        if self.chance(0.5):
            return "ip nat inside source static %s %s" % (self.address(), self.pick("203.0.113.5", "203.0.113.6", self.address()))
        return "ip nat inside source static %s %s %d %s %d" % (
            self.pick("tcp", "udp"), self.address(), self.pick(80, 443), self.pick("203.0.113.5", self.address()), self.pick(80, 8080))

    def outer_translation(self):
        """A rule for a host outside. Mostly its addresses are those of the last such rule, the other way round: so two routers
        can translate there and back."""
        if self.outer is None or not self.there_and_back and self.chance(0.2):
            self.outer = self.pick("198.51.100.7", self.address(), self.address()), self.pick("10.8.0.7", self.address(), self.address())
        self.outer = self.outer[::-1]
        return "ip nat outside source static %s %s" % self.outer

    def access_list(self, name):
        if name == "7":
            return [["access-list 7 %s %s" % (self.pick("permit", "deny"), self.source())] for _ in range(self.pick(1, 2))]
        entries = [self.entry() for _ in range(self.pick(1, 2, 3))]
        if name == "101":
            return [["access-list 101 " + entry] for entry in entries]
        return [["ip access-list extended A"] + [" %d %s" % (10 * k, entry) for k, entry in enumerate(entries, 1)]]

    def source(self):
        draw = self.pick("any", "host", "block", "block")
        if draw == "any":
            return draw
        if draw == "host":
            return "host " + self.address()
        return "%s %s" % (self.address(), self.pick("0.0.0.255", "0.0.0.3", "0.0.255.0", "0.0.0.1"))

    def entry(self):
        action = self.pick("permit", "permit", "deny")
        protocol = self.pick("ip", "tcp", "udp", "icmp", "50")
        line = "%s %s %s %s" % (action, protocol, self.source(), self.source())
        if protocol in ("tcp", "udp") and self.chance(0.6):
            line += self.pick(" eq 80", " eq 80 443", " neq 80", " gt 1023", " lt 1024", " range 80 90")
        if protocol == "tcp" and self.chance(0.3):
            line += self.pick(" established", " syn", " match-all +syn -ack", " match-any +fin -psh")
        if protocol == "icmp" and self.chance(0.5):
            line += self.pick(" echo", " echo-reply", " 3 1", " unreachable")
        return line

    def changed(self, devices):
        """A copy with one to four changes."""
        copy = {name: [section[:] for section in sections] for name, sections in devices.items()}
        for _ in range(self.pick(1, 2, 3, 4)):
            self.change(copy[self.random.choice(list(copy))])
        return copy

    def change(self, sections):
        interfaces = [section for section in sections if section[0].startswith("interface")]
        others = [section for section in sections if not section[0].startswith("interface")]
        kind = self.pick("shut", "drop", "route", "route", "entry", "line")
        if kind == "drop" and others:
            sections.remove(self.random.choice(others))
        elif kind == "line":
            section = self.random.choice(interfaces)
            if len(section) > 2:
                del section[self.random.randrange(2, len(section))]
        elif kind == "shut":
            self.random.choice(interfaces).append(self.pick(" shutdown", " shutdown", " no shutdown"))
        elif kind == "entry":
            self.random.choice(interfaces).append(" ip access-group 101 " + self.pick("in", "out"))
            sections.append(["access-list 101 " + self.entry()])
            sections.append(["access-list 101 permit ip any any"])
        else:
            sections.append([self.route([section[0].split()[1] for section in interfaces])])

    def changed_links(self, devices):
        """A copy of the link table with one to three changes. Each end stays on one segment at most, and an ingress is left."""
        places = ["%s %s" % (name, section[0].split()[1]) for name, sections in devices.items() for section in sections if section[0].startswith("interface")]
        links = self.links[:]
        for _ in range(self.pick(1, 1, 2, 3)):
            self.change_links(links, places)
        return links

    def change_links(self, links, places):
        segments = [k for k, line in enumerate(links) if not line.startswith("ingress")]
        ingresses = [k for k, line in enumerate(links) if line.startswith("ingress")]
        on_segments = {place for k in segments for place in ends_of(links[k])}
        free = [place for place in places if place not in on_segments]
        kind = self.pick("kind", "kind", "cut", "move", "new", "enter", "enter", "leave")
        if kind == "kind" and segments:
            k = self.random.choice(segments)
            ends = ends_of(links[k])
            links[k] = " ".join([self.pick("p2p", "lan") if len(ends) == 2 else "lan"] + ends)
        elif kind == "cut" and segments:
            del links[self.random.choice(segments)]
        elif kind == "move" and segments and free:
            k = self.random.choice(segments)
            ends = ends_of(links[k])
            ends[self.random.randrange(len(ends))] = self.random.choice(free)
            links[k] = " ".join([links[k].split()[0]] + ends)
        elif kind == "new" and len(free) > 1:
            links.append(" ".join([self.pick("p2p", "lan")] + self.random.sample(free, 2)))
        elif kind == "enter":
            line = "ingress " + self.random.choice(places)
            if line not in links:
                links.insert(self.random.randrange(len(links) + 1), line)
        elif kind == "leave" and len(ingresses) > 1:
            del links[self.random.choice(ingresses)]

    def packet(self, devices):
        """A place, mostly an ingress of the network, a header, mostly of addresses that matter in it, and a TTL."""
        ingresses = [ends_of(line)[0] for line in self.links if line.startswith("ingress")]
        places = ["%s %s" % (name, section[0].split()[1]) for name, sections in devices.items() for section in sections if section[0].startswith("interface")]
        place = self.random.choice(ingresses if self.chance(0.85) else places + ["R1 Ethernet9", "R9 Ethernet0"])
        lines = [line for sections in devices.values() for section in sections for line in section if line.startswith(("ip nat", "ip route"))]
        known = [word for line in lines for word in line.split() if word.count(".") == 3 and not word.startswith(("0.", "255."))] + self.addresses
        subnets = [line.split() for sections in devices.values() for section in sections for line in section if line.startswith(" ip address")]
        known += [dotted(number(words[2]) | number("255.255.255.255") ^ number(words[3])) for words in subnets]
        source, destination = [self.random.choice(known) if self.chance(0.8) else self.address() for _ in range(2)]
        protocol = self.pick(6, 6, 17, 1, 50)
        ports = [self.pick(80, 80, 443, 8080, 1024) if protocol in (6, 17) else 0 for _ in range(2)]
        if protocol == 1:
            ports[1] = self.pick(2048, 0, 769, 768)
        return "%s %s,%s,%d,%d,%d,%d --ttl %d" % (place, destination, source, protocol, *ports, self.pick(0, 2, 16, 18), self.ttl())

    def ttl(self):
        return self.pick(255, 255, 1, 2, 3, 4, 5, self.random.randint(1, 255))

    def questions(self, devices):
        """Some questions on the network, of all kinds, with filters of all forms."""
        places = ["%s %s" % (name, section[0].split()[1]) for name, sections in devices.items() for section in sections if section[0].startswith("interface")]
        return [self.question(places) for _ in range(self.pick(3, 5, 8))]

    def question(self, places):
        kind = self.pick("reach", "isolate", "noloop")
        line = "%s %s" % (kind, self.random.choice(places))
        if kind != "noloop":
            line += " to " + self.random.choice(places)
        fields = self.random.sample(["dst", "src", "proto", "dport", "sport", "flags"], self.pick(0, 1, 1, 2, 3))
        return " ".join([line] + ["%s %s" % (field, self.field_text(field)) for field in fields])

    def field_text(self, field):
        if self.chance(0.1):
            return "*"
        if field in ("dst", "src"):
            length = self.pick(8, 24, 29, 30, 31)
            block = "%s/%d" % (dotted(number(self.address()) >> (32 - length) << (32 - length)), length)
            return self.pick(self.address(), block, block, self.digits(number(self.address()), 32))
        if field == "proto":
            return self.pick("6", "17", "1", "50", self.digits(6, 8))
        if field == "flags":
            return self.pick("2", "16", self.digits(16, 8))
        return self.pick("80", "443", "1024", self.digits(80, 16))

    def digits(self, value, width):
        """The value's digits, of which one is open behind its first one, and mostly some more are."""
        digits = list(format(value, "0%db" % width))
        for k in [self.random.randrange(1, width - 1)] + self.random.sample(range(width), self.pick(0, 1, 3)):
            digits[k] = "*"
        digits[width - 1] = digits[width - 1].replace("*", "1")
        return "".join(digits)


class Circles(Maker):
    """Two or three routers in a circle, each with a default route to the next one. Many translate what comes round, in rounds of
    addresses of their own, so that a circle has more states than routers; and some have another default route beside it."""

    def __init__(self, seed):
        super().__init__(seed)
        self.there_and_back = False
        self.round = self.random.sample(["198.51.100.%d" % k for k in range(4)], self.pick(2, 2, 3))
        self.rounds_of = self.pick("outside", "outside", "inside")

    def network(self):
        count = self.pick(2, 2, 3)
        names = ["R%d" % (k + 1) for k in range(count)]
        devices = {name: {} for name in names}
        self.defaults = {name: [] for name in names}
        subnets = [subnet for subnet in SUBNETS if not subnet.endswith("/31")]
        pairs = [(names[k], names[(k + 1) % count]) for k in range(count)]
        if count == 2 and self.chance(0.7):
            self.connect(devices, subnets, names, self.pick("p2p", "lan"))
            for name, other in pairs:
                self.defaults[name].append(address_on(devices[other]["Ethernet0"]))
            pairs = []
        for a, b in pairs:
            self.connect(devices, subnets, [a, b], self.pick("p2p", "p2p", "lan"))
            self.defaults[a].append(address_on(list(devices[b].values())[-1]))
            if self.chance(0.2):
                self.defaults[b].append(address_on(list(devices[a].values())[-1]))
        self.connect(devices, subnets, ["R1"], "")
        self.links.append("ingress R1 %s" % self.random.choice(list(devices["R1"])))
        if self.chance(0.3):
            self.links.append("ingress R2 Ethernet0")
        return {name: self.device(name, interfaces) for name, interfaces in devices.items()}

    def device(self, name, interfaces):
        own = list(interfaces)[-1]
        translates = self.chance(0.6)
        sections = []
        for interface, lines in interfaces.items():
            if translates:
                lines.append(" ip nat %s" % (self.pick("inside", "outside") if interface == own else self.pick("outside", "outside", "inside")))
            if self.chance(0.05):
                lines.append(" ip access-group 101 %s" % self.pick("in", "out"))
            sections.append(["interface " + interface] + lines)
        hops = self.defaults[name] + ([self.pick("Null0", own, own + " " + self.address())] if self.chance(0.3) else [])
        sections += [["ip route 0.0.0.0 0.0.0.0 " + hop] for hop in hops]
        if self.chance(0.2):
            sections.append([self.route(list(interfaces))])
        if translates:
            sections += self.translations()
        if any("access-group" in line for section in sections for line in section):
            sections += [["access-list 101 " + self.entry()], ["access-list 101 permit ip any any"]]
        return sections

    def translations(self):
        """Each address of the round is written in place of the one before it: sources of hosts outside, or destinations of hosts
        inside."""
        turn = self.pick(1, -1)
        return [["ip nat %s source static %s %s" % (self.rounds_of, a, b)] for a, b in zip(self.round, self.round[turn:] + self.round[:turn])]

    def address(self):
        return self.random.choice(self.round) if self.chance(0.4) else super().address()

    def ttl(self):
        """Around the length of a circle, and around the greatest one."""
        return self.pick(self.random.randint(1, 7), self.random.randint(1, 28), self.random.randint(250, 255), 255)


def address_on(lines):
    return lines[0].split()[2]


def ends_of(line):
    words = line.split()
    return [" ".join(pair) for pair in zip(words[1::2], words[2::2])]


def write(folder, version, devices):
    path = os.path.join(folder, version)
    os.makedirs(path, exist_ok=True)
    for old in os.listdir(path):
        os.remove(os.path.join(path, old))
    for name, sections in devices.items():
        with open(os.path.join(path, name + ".cfg"), "w") as file:
            file.write("hostname %s\n" % name + "".join(line + "\n" for section in sections for line in section))


def main():
    folder, seed = sys.argv[1], int(sys.argv[2])
    maker = Circles(seed) if seed % 8 == 0 else Maker(seed)
    devices = maker.network()
    write(folder, "old", devices)
    write(folder, "new", maker.changed(devices))
    write_lines(folder, "links", maker.links)
    write_lines(folder, "newlinks", maker.changed_links(devices))
    write_lines(folder, "ttl", [str(maker.ttl())])
    write_lines(folder, "packets", [maker.packet(devices) for _ in range(4)])
    write_lines(folder, "questions", maker.questions(devices))


def write_lines(folder, name, lines):
    with open(os.path.join(folder, name), "w") as file:
        file.write("".join(line + "\n" for line in lines))


if __name__ == "__main__":
    main()
