#!/usr/bin/env python3
"""Writes the networks of the benchmarks: two folders of configurations and a link table.

    networks.py chain FOLDER N            a chain of N routers whose first one permits other ports in the new network
    networks.py fabric FOLDER S L         S spines and L leaves with equal-cost routes, all leaves as ingresses; a route is changed
    networks.py leaves FOLDER S L         S spines and L leaves, a route to each subnet on each device; a spine loses one
    networks.py layers FOLDER C P A L     C cores, P pods of A aggregations and L leaves, a route to each subnet on each device; a
                                          core loses one
    networks.py ring FOLDER N             N routers in a ring, each with a default route to the next; one of them loses its subnet
    networks.py device FOLDER R E RULES   a device with R routes, a list of E entries and RULES translation rules; a route is changed
    networks.py hops FOLDER R H           a device with R routes by H next hops in turn, one of which gets another one
    networks.py circle FOLDER R           two routers, each with R routes and a default route to the other; nothing is changed
    networks.py folders FOLDER N          N devices of ten interfaces that have nothing to do with one another; nothing is changed
    networks.py shown FOLDER N R E        N devices as devices show them, which `prepare` has to bring in: R routes each, a list of E entries with
                                          names and groups; an entry of each is changed
    networks.py list FOLDER N PERCENT     a device with a list of N generated entries, one of which is changed; of a hundred
                                          entries PERCENT have any source, and as many any destination
    networks.py lists FOLDER N PERCENT C  a device with such a list for arriving and one for leaving packets, in each of which C entries change
    networks.py listed FOLDER S L N C     such a fabric, with a list of N entries on each leaf, in each of which C entries change
    networks.py crossed FOLDER N CHANGE   two devices one behind the other, each with a list of N entries with ports told by `neq` and
                                          ranges, flags by `match-any`, and wildcards with holes; CHANGE is `route` (one host's),
                                          `list` (an entry of the second device) or `translation` (a rule is new)
"""
import os
import random
import sys


def write(folder, version, devices):
    path = os.path.join(folder, version)
    os.makedirs(path, exist_ok=True)
    for name, lines in devices.items():
        with open(os.path.join(path, name + ".cfg"), "w") as file:
            file.write("hostname %s\n" % name + "".join(line + "\n" for line in lines))


def write_links(folder, lines):
    with open(os.path.join(folder, "links"), "w") as file:
        file.write("".join(line + "\n" for line in lines))


def draws(x):
    while True:
        x = (x * 6364136223846793005 + 1442695040888963407) % 2**64
        yield 1 + x // 2**33 % 60000


def chain(folder, n):
    """Router j has the subnet 10.1.j.0/24, a route to each other one, and at the first router a list of ports."""
    ports = draws(7)
    pairs = [(next(ports), next(ports)) for _ in range(n)]
    old_list = ["access-list 101 permit tcp any 10.1.%d.0 0.0.0.255 eq %d" % (j, pairs[j - 1][0]) for j in range(1, n + 1)]
    new_list = ["access-list 101 permit udp any host 10.1.%d.9 eq %d" % (j, pairs[j - 1][1]) for j in range(1, n + 1)]
    for version in ("old", "new"):
        devices = {}
        for j in range(1, n + 1):
            lines = []
            if j > 1:
                lines += ["interface Ethernet0", " ip address 10.2.%d.2 255.255.255.252" % (j - 1)]
            if j < n:
                lines += ["interface Ethernet1", " ip address 10.2.%d.1 255.255.255.252" % j]
            lines += ["interface Ethernet2", " ip address 10.1.%d.1 255.255.255.0" % j]
            if j == 1:
                lines += [" ip access-group 101 in"]
            for i in range(1, n + 1):
                if i < j:
                    lines.append("ip route 10.1.%d.0 255.255.255.0 10.2.%d.1" % (i, j - 1))
                if i > j:
                    lines.append("ip route 10.1.%d.0 255.255.255.0 10.2.%d.2" % (i, j))
            if j == 1:
                lines += old_list + (new_list if version == "new" else [])
            devices["R%d" % j] = lines
        write(folder, version, devices)
    links = ["p2p R%d Ethernet1 R%d Ethernet0" % (j, j + 1) for j in range(1, n)]
    write_links(folder, links + ["ingress R1 Ethernet2", "ingress R%d Ethernet2" % n])


def fabric(folder, spines, leaves):
    """Leaf l has the subnet 10.1.l.0/24 and sends the rest to all spines alike. In the new network spine 1 has lost its
    route to leaf 1 and drops what is for it."""
    equal_cost(folder, spines, leaves, {}, True)


def listed(folder, spines, leaves, entries, changes):
    """A fabric whose leaves have lists for what comes from their subnets."""
    random_ = random.Random(5)
    lists = {}
    for l in range(1, leaves + 1):
        old = [entry_between(random_, "10.1.%d.0 0.0.0.255" % l, leaves) for _ in range(entries)]
        lists[l] = {"old": old, "new": changed(old, changes)}
    equal_cost(folder, spines, leaves, lists, False)


def entry_between(random_, source, leaves):
    ports = sorted((random_.randint(1, 65535), random_.randint(1, 65535)))
    port = " range %d %d" % tuple(ports) if random_.random() < 0.5 else " eq %d" % ports[0]
    subnet_ = "10.1.%d.0 0.0.0.255" % random_.randint(1, leaves) if random_.random() < 0.8 else "any"
    action = "permit" if random_.random() < 0.7 else "deny"
    return "%s %s %s %s%s" % (action, random_.choice(("tcp", "udp")), source, subnet_, port)


def equal_cost(folder, spines, leaves, lists, loses):
    for version in ("old", "new"):
        devices = {}
        for l in range(1, leaves + 1):
            lines = ["interface Ethernet0", " ip address 10.1.%d.1 255.255.255.0" % l]
            if l in lists:
                lines += [" ip access-group 101 in"] + ["access-list 101 " + line for line in lists[l][version]]
                lines += ["access-list 101 permit ip 10.1.%d.0 0.0.0.255 any" % l]
            for s in range(1, spines + 1):
                lines += ["interface Uplink%d" % s, " ip address 172.%d.%d.2 255.255.255.252" % (15 + s, l)]
            lines += ["ip route 10.1.0.0 255.255.0.0 172.%d.%d.1" % (15 + s, l) for s in range(1, spines + 1)]
            devices["Leaf%d" % l] = lines
        for s in range(1, spines + 1):
            lines = []
            for l in range(1, leaves + 1):
                lines += ["interface Port%d" % l, " ip address 172.%d.%d.1 255.255.255.252" % (15 + s, l)]
            for l in range(1, leaves + 1):
                if loses and version == "new" and s == 1 and l == 1:
                    lines.append("ip route 10.1.1.0 255.255.255.0 Null0")
                else:
                    lines.append("ip route 10.1.%d.0 255.255.255.0 172.%d.%d.2" % (l, 15 + s, l))
            devices["Spine%d" % s] = lines
        write(folder, version, devices)
    links = ["p2p Leaf%d Uplink%d Spine%d Port%d" % (l, s, s, l) for l in range(1, leaves + 1) for s in range(1, spines + 1)]
    write_links(folder, links + ["ingress Leaf%d Ethernet0" % l for l in range(1, leaves + 1)])


def dotted(number):
    return ".".join(str(number >> shift & 255) for shift in (24, 16, 8, 0))


def subnet(i):
    """The subnet of the i-th leaf, of 24 bits, without its last number."""
    return "10.%d.%d" % (64 + i // 256, i % 256)


class Wires:
    """Links of 30 bits, numbered from 172.16.0.0 on, and the interfaces that they make."""

    def __init__(self):
        self.interfaces = {}
        self.lines = []

    def link(self, one, its, other, others):
        """The addresses of the two ends."""
        base = (172 << 24 | 16 << 16) + 4 * len(self.lines)
        ends = dotted(base + 1), dotted(base + 2)
        self.interfaces.setdefault(one, []).append((its, ends[0]))
        self.interfaces.setdefault(other, []).append((others, ends[1]))
        self.lines.append("p2p %s %s %s %s" % (one, its, other, others))
        return ends

    def device(self, name, routes, own=None):
        lines = []
        for interface, address in self.interfaces.get(name, []):
            lines += ["interface " + interface, " ip address %s 255.255.255.252" % address]
        if own:
            lines += ["interface Ethernet0", " ip address %s.1 255.255.255.0" % own]
        return lines + routes


def route(i, hop):
    return "ip route %s.0 255.255.255.0 %s" % (subnet(i), hop)


def leaves(folder, spines, count):
    """Leaf l sends what is for leaf m to spine m modulo S. In the new network the spine of the last leaf drops what is for it."""
    wires = Wires()
    ends = {(l, s): wires.link("Leaf%d" % l, "Up%d" % s, "Spine%d" % s, "Down%d" % l) for l in range(count) for s in range(spines)}
    for version in ("old", "new"):
        devices = {}
        for l in range(count):
            routes = [route(m, ends[l, m % spines][1]) for m in range(count) if m != l]
            devices["Leaf%d" % l] = wires.device("Leaf%d" % l, routes, subnet(l))
        for s in range(spines):
            routes = [route(m, ends[m, s][0]) for m in range(count)]
            if version == "new" and s == (count - 1) % spines:
                routes[-1] = route(count - 1, "Null0")
            devices["Spine%d" % s] = wires.device("Spine%d" % s, routes)
        write(folder, version, devices)
    write_links(folder, wires.lines + ["ingress Leaf0 Ethernet0", "ingress Leaf%d Ethernet0" % (count // 2)])


def layers(folder, cores, pods, aggregations, per_pod):
    """A leaf sends the i-th subnet to the aggregation i modulo A, and that to the core i modulo C. In the new network a core drops
    what is for the last leaf."""
    wires = Wires()
    all_leaves = [(p, l) for p in range(pods) for l in range(per_pod)]
    leaf, aggregation, core = "Leaf%d_%d", "Aggregation%d_%d", "Core%d"
    below, above = {}, {}
    for p in range(pods):
        for l in range(per_pod):
            for a in range(aggregations):
                ends = wires.link(leaf % (p, l), "Up%d" % a, aggregation % (p, a), "Down%d" % l)
                below[p, l, a] = ends
        for a in range(aggregations):
            for c in range(cores):
                above[p, a, c] = wires.link(aggregation % (p, a), "Up%d" % c, core % c, "Pod%d_%d" % (p, a))
    last = len(all_leaves) - 1
    for version in ("old", "new"):
        devices = {}
        for own, (p, l) in enumerate(all_leaves):
            routes = [route(i, below[p, l, i % aggregations][1]) for i in range(len(all_leaves)) if i != own]
            devices[leaf % (p, l)] = wires.device(leaf % (p, l), routes, subnet(own))
        for p in range(pods):
            for a in range(aggregations):
                routes = [
                    route(i, below[q, m, a][0] if q == p else above[p, a, i % cores][1])
                    for i, (q, m) in enumerate(all_leaves)
                ]
                devices[aggregation % (p, a)] = wires.device(aggregation % (p, a), routes)
        for c in range(cores):
            routes = [route(i, above[q, i % aggregations, c][0]) for i, (q, _) in enumerate(all_leaves)]
            if version == "new" and c == last % cores:
                routes[-1] = route(last, "Null0")
            devices[core % c] = wires.device(core % c, routes)
        write(folder, version, devices)
    middle = all_leaves[len(all_leaves) // 2]
    write_links(folder, wires.lines + ["ingress Leaf0_0 Ethernet0", "ingress Leaf%d_%d Ethernet0" % middle])


def ring(folder, n):
    """Router k has the subnet of leaf k and a default route to router k + 1, so what is for nobody goes round for ever."""
    wires = Wires()
    ends = [wires.link("R%d" % k, "Next", "R%d" % ((k + 1) % n), "Last") for k in range(n)]
    for version in ("old", "new"):
        devices = {}
        for k in range(n):
            own = None if version == "new" and k == n // 2 else subnet(k)
            devices["R%d" % k] = wires.device("R%d" % k, ["ip route 0.0.0.0 0.0.0.0 %s" % ends[k][1]], own)
        write(folder, version, devices)
    write_links(folder, wires.lines + ["ingress R0 Ethernet0"])


def device(folder, routes, entries, rules):
    """Routes of 20 to 32 bits by four connected subnets, and one in eight by a next hop that is looked up in turn."""
    random_ = random.Random(11)
    lines = []
    for i in range(4):
        lines += ["interface Ethernet%d" % i, " ip address 10.0.%d.1 255.255.255.0" % i]
        lines += [" ip access-group 101 in", " ip nat outside"] if i == 0 else [" ip nat inside"]
    lines += ["ip route 172.16.0.0 255.255.0.0 10.0.1.2"]
    for i in range(routes):
        length = random_.randint(20, 32)
        wild = 2 ** (32 - length) - 1
        hop = "172.16.%d.1" % random_.randrange(256) if i % 8 == 0 else "10.0.%d.%d" % (i % 4, 2 + random_.randrange(250))
        lines.append("ip route %s %s %s" % (dotted(random_.getrandbits(32) & ~wild), dotted(2**32 - 1 & ~wild), hop))
    lines += ["access-list 101 " + entry(random_, 0) for _ in range(entries)]
    lines += ["access-list 101 permit ip any any"] if entries else []
    for i in range(rules):
        inside, outside = "10.0.1.%d" % (2 + i % 250), "203.0.%d.%d" % (i // 250, 1 + i % 250)
        lines.append("ip nat inside source static tcp %s %d %s %d" % (inside, 1024 + i // 250, outside, 2000 + i))
    write(folder, "old", {"R1": lines})
    write(folder, "new", {"R1": lines + ["ip route 198.51.100.0 255.255.255.0 10.0.3.9"]})
    write_links(folder, ["ingress R1 Ethernet0", "ingress R1 Ethernet1"])


def hops(folder, routes, count):
    """Routes of 28 bits, side by side, by next hops in connected subnets of 16 bits. In the new network the route in the middle is by
    the last one, out of another interface where there are more than 1,000."""
    lines = []
    for k in range(1 + (count - 1) // 1000):
        lines += ["interface Ethernet%d" % k, " ip address 10.%d.0.1 255.255.0.0" % k]

    def by(i, j):
        return "ip route %s 255.255.255.240 10.%d.%d.%d" % (dotted((20 << 24) + 16 * i), j // 1000, j % 1000 // 100, 2 + j % 100)

    for version in ("old", "new"):
        hops_of = [i % count for i in range(routes)]
        if version == "new":
            hops_of[routes // 2] = count - 1
        write(folder, version, {"R1": lines + [by(i, j) for i, j in enumerate(hops_of)]})
    write_links(folder, ["ingress R1 Ethernet0", "ingress R1 Ethernet1"])


def circle(folder, routes):
    """What is for nobody goes to and fro until it expires."""
    own = ["ip route %s 255.255.255.240 Null0" % dotted((20 << 24) + 16 * i) for i in range(routes)]
    devices = {}
    for k in (1, 2):
        lines = ["interface Ethernet0", " ip address 10.0.0.%d 255.255.255.252" % k]
        lines += ["interface Ethernet1", " ip address 10.1.%d.1 255.255.255.0" % k]
        devices["R%d" % k] = lines + own + ["ip route 0.0.0.0 0.0.0.0 10.0.0.%d" % (3 - k)]
    for version in ("old", "new"):
        write(folder, version, devices)
    write_links(folder, ["p2p R1 Ethernet0 R2 Ethernet0", "ingress R1 Ethernet1"])


def folders(folder, n):
    devices = {}
    for k in range(n):
        lines = []
        for i in range(10):
            lines += ["interface Ethernet%d" % i, " ip address %d.%d.%d.1 255.255.255.0" % (1 + k // 256, k % 256, i)]
        devices["R%d" % k] = lines
    for version in ("old", "new"):
        write(folder, version, devices)
    links = ["p2p R%d Ethernet%d R%d Ethernet%d" % (k, i, k + 1, i + 1) for k in range(n - 1) for i in (0, 2, 4)]
    write_links(folder, links + ["ingress R0 Ethernet0"])


def shown(folder, n, routes, entries):
    """Device d has the subnet 10.d.0/24 of users behind a list, and its routes and its default go to its neighbour over a lan of its own."""
    random_ = random.Random(3)
    for version in ("old", "new"):
        devices = {"D%d" % d: as_shown(random.Random(d), d, routes, entries, version == "new") for d in range(n)}
        write(folder, version, devices)
    write_links(folder, ["ingress D%d GigabitEthernet0/0" % random_.randrange(n)])


def as_shown(random_, d, routes, entries, is_new):
    """The lines of such a device."""
    users, hop = "10.%d.%d" % (d // 256, d % 256), "172.16.%d.2" % (d % 256)
    lines = ["!", "ipv6 unicast-routing", "object-group network SERVERS", " host 192.0.2.5", " 198.51.100.0 255.255.255.0", "!"]
    lines += ["interface GigabitEthernet0/0", " description users", " ip address %s.1 255.255.255.0" % users, " ip access-group USERS in",
              " ipv6 address 2001:DB8:%x::1/64" % d, "interface GigabitEthernet0/1", " ip address 172.16.%d.1 255.255.255.0" % (d % 256)]
    lines += [line for port in range(24) for line in ("interface GigabitEthernet1/0/%d" % port, " switchport access vlan 10", " spanning-tree portfast")]
    lines += ["ip route 172.20.%d.%d 255.255.255.252 %s" % (r // 64, r % 64 * 4, hop) for r in range(routes)]
    lines += ["ip route 0.0.0.0 0.0.0.0 %s" % hop, "ip access-list extended USERS"]
    for k in range(entries):
        port = random_.choice(("msrpc", "syslog", "www", "443", "drip"))
        lines.append(" permit tcp any host 198.51.100.%d eq %s" % (k % 250, "8080" if is_new and k == entries // 2 else port))
    return lines + [" permit tcp any object-group SERVERS eq 22", " deny ip any any", "line vty 0 4", " login local", "end"]


def crossed(folder, n, change):
    random_ = random.Random(23)
    lists = [[holed(random_) for _ in range(n)] for _ in range(2)]
    for version in ("old", "new"):
        is_new = version == "new"
        first = ["interface Ethernet0", " ip address 192.168.0.1 255.255.255.0", " ip access-group 101 in", " ip nat outside"]
        first += ["interface Ethernet1", " ip address 172.16.0.1 255.255.255.252", " ip nat inside"]
        first += ["ip route 10.0.0.0 255.0.0.0 172.16.0.2"] + ["access-list 101 " + line for line in lists[0]]
        first += ["access-list 101 permit ip any any"]
        if is_new and change == "translation":
            first.append("ip nat inside source static 10.9.9.9 192.168.0.99")
        entries = lists[1][:]
        if is_new and change == "list":
            entries.insert(n // 5, "permit tcp host 10.1.2.3 host 10.9.9.9 range 1024 40000")
        second = ["interface Ethernet0", " ip address 172.16.0.2 255.255.255.252", " ip access-group 102 in"]
        second += ["interface Ethernet1", " ip address 172.16.0.5 255.255.255.252"]
        second += ["access-list 102 " + line for line in entries] + ["access-list 102 permit ip any any"]
        second += ["ip route 10.0.0.0 255.0.0.0 172.16.0.6"]
        second += ["ip route 10.9.9.9 255.255.255.255 Null0"] if is_new and change == "route" else []
        write(folder, version, {"R1": first, "R2": second})
    write_links(folder, ["p2p R1 Ethernet1 R2 Ethernet0", "ingress R1 Ethernet0"])


def holed(random_):
    """An entry that cuts across most others."""

    def address(any_part):
        draw = random_.random()
        if draw < any_part:
            return "any"
        wild = random_.choice((0x00FF00FF, 0x0000FFFE, 0x00FF0001, 0x000F0F0F, 0x0000FF00) if draw > 0.8 else (0xFFFF, 0xFFF, 0xFF))
        return "%s %s" % (dotted((10 << 24 | random_.getrandbits(24)) & ~wild), dotted(wild))

    def port():
        draw = random_.random()
        if draw < 0.35:
            return " neq %d" % random_.randint(1, 65535)
        if draw < 0.7:
            low, high = sorted((random_.randint(1, 65535), random_.randint(1, 65535)))
            return " range %d %d" % (low, high)
        return ""

    action = "permit" if random_.random() < 0.6 else "deny"
    flags = random_.choice(("", "", "", " match-any +fin -psh", " match-any +syn -ack"))
    return "%s tcp %s%s %s%s%s" % (action, address(0.25), port(), address(0.02), port(), flags)


def entry(random_, percent):
    def address():
        if random_.random() * 100 < percent:
            return "any"
        length = random_.randint(24, 32)
        value = 10 << 24 | random_.getrandbits(24)
        wild = 2 ** (32 - length) - 1
        return "%s %s" % (dotted(value & ~wild), dotted(wild))

    def port():
        draw = random_.random()
        if draw < 0.6:
            return " eq %d" % random_.randint(1, 65535)
        if draw < 0.8:
            low, high = sorted((random_.randint(1, 65535), random_.randint(1, 65535)))
            return " range %d %d" % (low, high)
        return " gt 1023" if draw < 0.9 else ""

    action = "permit" if random_.random() < 0.7 else "deny"
    protocol = random_.choice(("tcp", "udp"))
    return "%s %s %s %s%s" % (action, protocol, address(), address(), port())


def turned(entry):
    """The entry with the other action."""
    return entry.replace("permit", "deny") if entry.startswith("permit") else entry.replace("deny", "permit")


def changed(entries, count):
    """The entries, of which so many are turned, in equal steps."""
    places = {(2 * k + 1) * len(entries) // (2 * count) for k in range(count)}
    return [turned(entry) if i in places else entry for i, entry in enumerate(entries)]


def lists(folder, n, percent, changes):
    random_ = random.Random(7)
    old = [[entry(random_, percent) for _ in range(n)] for _ in range(2)]
    for version, (first, second) in (("old", old), ("new", [changed(entries, changes) for entries in old])):
        device = ["interface Ethernet0", " ip address 192.0.2.1 255.255.255.252", " ip access-group 101 in"]
        device += ["interface Ethernet1", " ip address 192.0.2.5 255.255.255.252", " ip access-group 102 out"]
        device += ["ip route 0.0.0.0 0.0.0.0 192.0.2.6"]
        device += ["access-list 101 " + line for line in first] + ["access-list 102 " + line for line in second]
        write(folder, version, {"R1": device})
    write_links(folder, ["ingress R1 Ethernet0"])


def one_list(folder, n, percent):
    random_ = random.Random(7)
    entries = [entry(random_, percent) for _ in range(n)]
    for version, lines in (("old", entries), ("new", changed(entries, 1))):
        device = ["interface Ethernet0", " ip address 192.0.2.1 255.255.255.252", " ip access-group 101 in"]
        device += ["interface Ethernet1", " ip address 192.0.2.5 255.255.255.252", "ip route 0.0.0.0 0.0.0.0 192.0.2.6"]
        write(folder, version, {"R1": device + ["access-list 101 " + line for line in lines]})
    write_links(folder, ["ingress R1 Ethernet0"])


def main():
    kind, folder, *numbers = sys.argv[1:]
    shapes = {"list": one_list}
    shapes.update((shape.__name__, shape) for shape in (chain, fabric, listed, lists, leaves, layers, ring, device, hops, circle, folders, crossed, shown))
    shapes[kind](folder, *(int(word) if word.isdigit() else word for word in numbers))


if __name__ == "__main__":
    main()
