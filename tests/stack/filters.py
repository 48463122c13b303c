"""Access lists and static translation as rules of nftables.

The hooks keep the order of IOS: at an interface where a packet comes in the input list, then translation from outside; then the kernel's
lookup; and where the packet is handed to the link, translation from inside and the output list. A mark of the packet says that it was
forwarded (1), and that it came in inside (2). Translation is written without connection tracking, for each packet by itself, as static
rules of IOS do.
"""
from typing import Optional

from networks import ALL_ONES, Block, Entry, FlagTest, FLAG_BITS, PortTest, Router, Rule, dotted

CAME_IN, CAME_IN_INSIDE = 1, 2
# Orders of steps that are wrong, to see that a run notices them.
TRANSLATION_FIRST, LIST_FIRST, PLAIN_FIRST = "translation before the input list", "output list before translation", "plain rules first"
COLLECTOR = "col"


def address_match(field: str, block: Block) -> str:
    """The match of an address under a wildcard mask, or nothing where it matches all."""
    compared = ALL_ONES & ~block.wildcard
    if compared == 0:
        return ""
    if compared == ALL_ONES:
        return f" ip {field} {dotted(block.address)}"
    return f" ip {field} & {dotted(compared)} == {dotted(block.address & compared)}"


def port_match(protocol: str, field: str, test: Optional[PortTest]) -> Optional[str]:
    """The match of a port test; None where no port meets it."""
    if test is None:
        return ""
    first, last = test.ports[0], test.ports[-1]
    if test.word == "eq":
        return f" {protocol} {field} {{ {', '.join(map(str, sorted(set(test.ports))))} }}"
    if test.word == "neq":
        # (nft 1.0.6 makes one comparison of two that stand side by side, also of two `!=`.)
        ranges = ([f"0-{first - 1}"] if first > 0 else []) + ([f"{first + 1}-65535"] if first < 65535 else [])
        return f" {protocol} {field} {{ {', '.join(ranges)} }}"
    if test.word == "gt":
        return f" {protocol} {field} > {first}" if first < 65535 else None
    if test.word == "lt":
        return f" {protocol} {field} < {first}" if first > 0 else None
    return f" {protocol} {field} {first}-{last}" if first <= last else None


def flag_matches(test: Optional[FlagTest]) -> list[str]:
    """Matches of which one has to hold: one for all flags, or one for each."""
    if test is None:
        return [""]
    if test.word == "match-all":
        if test.ones & test.zeros:
            return []
        return [f" tcp flags & {test.ones | test.zeros:#x} == {test.ones:#x}"]
    ones = [f" tcp flags & {bit:#x} == {bit:#x}" for bit in FLAG_BITS.values() if test.ones & bit]
    return ones + [f" tcp flags & {bit:#x} == 0" for bit in FLAG_BITS.values() if test.zeros & bit]


def entry_rules(entry: Entry) -> list[str]:
    """The rules of an entry: several where one of several flags has to fit, none where it matches nothing."""
    rule = f" ip protocol {entry.protocol}" if entry.protocol is not None else ""
    rule += address_match("saddr", entry.source) + address_match("daddr", entry.destination)
    name = {6: "tcp", 17: "udp"}.get(entry.protocol or 0, "")
    ports = [port_match(name, "sport", entry.source_port), port_match(name, "dport", entry.destination_port)]
    if None in ports:
        return []
    rule += "".join(port for port in ports if port is not None)
    if entry.icmp is not None:
        kind, code = entry.icmp
        rule += f" icmp type {kind}" + (f" icmp code {code}" if code is not None else "")
    verdict = " return" if entry.permit else " drop"
    return [rule + flags + verdict for flags in flag_matches(entry.flags)]


def list_chain(name: str, entries: tuple[Entry, ...]) -> list[str]:
    """The chain of a list: it returns for what the list permits, and drops what it denies and, at its end, the rest."""
    rules = [rule.strip() for entry in entries for rule in entry_rules(entry)]
    return [f"chain list_{name} {{", *rules, *(["drop"] if entries else []), "}"]


def in_turn(router: Router, order: str) -> list[Rule]:
    """The rules in the order in which they are tried."""
    return sorted(router.rules, key=lambda rule: (rule.protocol is None) != (order == PLAIN_FIRST))


def from_outside(router: Router, order: str) -> list[str]:
    """The chains of translation from outside: of the source, and of the destination by port rules, then plain ones."""
    lines = ["chain outside_source {"]
    lines += [f"ip saddr {dotted(rule.outer)} ip saddr set {dotted(rule.local)} return" for rule in router.outer_rules]
    lines += ["}", "chain outside_destination {"]
    for rule in in_turn(router, order):
        if rule.protocol is None:
            lines.append(f"ip daddr {dotted(rule.outer)} ip daddr set {dotted(rule.local)} return")
        else:
            name = {6: "tcp", 17: "udp"}[rule.protocol]
            match = f"ip daddr {dotted(rule.outer)} {name} dport {rule.outer_port}"
            lines.append(f"{match} ip daddr set {dotted(rule.local)} {name} dport set {rule.local_port} return")
    return lines + ["}"]


def from_inside(router: Router, order: str) -> list[str]:
    """The chains of translation from inside: of the destination, and of the source by port rules, then plain ones."""
    lines = ["chain inside_destination {"]
    lines += [f"ip daddr {dotted(rule.local)} ip daddr set {dotted(rule.outer)} return" for rule in router.outer_rules]
    lines += ["}", "chain inside_source {"]
    for rule in in_turn(router, order):
        if rule.protocol is None:
            lines.append(f"ip saddr {dotted(rule.local)} ip saddr set {dotted(rule.outer)} return")
        else:
            name = {6: "tcp", 17: "udp"}[rule.protocol]
            match = f"ip saddr {dotted(rule.local)} {name} sport {rule.local_port}"
            lines.append(f"{match} ip saddr set {dotted(rule.outer)} {name} sport set {rule.outer_port} return")
    return lines + ["}"]


def incoming(router: Router, order: str) -> list[str]:
    """What each interface does with a packet that comes in."""
    lines = []
    for name, interface in router.interfaces.items():
        lines.append(f"chain in_{name} {{")
        steps = [f"jump list_{interface.list_in}"] if interface.list_in in router.lists else []
        if interface.side == "outside":
            translation = ["jump outside_source", "jump outside_destination"]
            steps = translation + steps if order == TRANSLATION_FIRST else steps + translation
        lines += [*steps, f"meta mark set {CAME_IN_INSIDE if interface.side == 'inside' else CAME_IN}", "}"]
    lines.append("chain incoming { type filter hook prerouting priority -300; policy accept;")
    lines += [f'iifname "{name}" jump in_{name}' for name in router.interfaces]
    return lines + ["}"]


def outgoing(router: Router, order: str) -> list[str]:
    """What each interface does with a forwarded packet that it hands to the link."""
    lines = []
    for name, interface in router.interfaces.items():
        lines.append(f'chain out_{name} {{ type filter hook egress device "{name}" priority 0; policy accept;')
        lines += ["meta protocol != ip accept", "meta mark 0 accept"]
        steps = [f"jump list_{interface.list_out}"] if interface.list_out in router.lists else []
        if interface.side == "outside":
            translation = [f"meta mark {CAME_IN_INSIDE} jump inside_{what}" for what in ("source", "destination")]
            steps = steps + translation if order == LIST_FIRST else translation + steps
        lines += [*steps, "}"]
    return lines


def ruleset(router: Router, order: str = "") -> str:
    """The text for `nft -f`. What is for the router itself is copied to the collector, and not answered.

    Args:
        order: one of the three wrong orders above, or none.
    """
    lists = [line for name, entries in router.lists.items() for line in list_chain(name, entries)]
    own = ["chain own { type filter hook input priority 0; policy drop;", f'dup to 192.0.2.1 device "{COLLECTOR}"', "drop", "}"]
    lines = ["table ip router {", *lists, *from_outside(router, order), *incoming(router, order), *own, "}"]
    lines += ["table netdev router {", *lists, *from_inside(router, order), *outgoing(router, order), "}"]
    return "\n".join(lines) + "\n"
