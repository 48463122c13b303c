"""Object groups, once more from the rules (IOS: object groups for access lists): a second opinion for tests, beside rules.py.

A network group holds an address where one of its lines does: a host, a subnet with its mask, a range with both ends, any, or a group
within it. A service group holds a packet where one of its lines does: its protocol, and where they are written its source port, its
destination port, its ICMP type; `tcp-udp` is either of the two. An entry with groups matches where its parts do. Nothing is expanded.
"""
import rules

EVERY_PORT = (0, 65535)


class Groups:
    """The lines of each group, as words."""

    def __init__(self):
        self.lines = {}

    def holds_address(self, name, headers, field):
        """Whether the field's address is in a network group."""
        return any(self.line_holds(words, headers, field) for words in self.lines[name])

    def line_holds(self, words, headers, field):
        if words[0] == "group-object":
            return self.holds_address(words[1], headers, field)
        if words[0] == "any":
            return True
        if words[0] == "host":
            return headers.equals(field, rules.address_of(words[1]))
        if words[0] == "range":
            return headers.between(field, rules.address_of(words[1]), rules.address_of(words[2]))
        mask = rules.first_bits(int(words[1][1:])) if words[1][0] == "/" else rules.address_of(words[1])
        return headers.agrees(field, mask, rules.address_of(words[0]))

    def holds_service(self, name, headers):
        """Whether a packet's protocol and ports are in a service group."""
        return any(self.service_holds(words, headers) for words in self.lines[name])

    def service_holds(self, words, headers):
        if words[0] == "group-object":
            return self.holds_service(words[1], headers)
        if words[0] == "tcp-udp":
            return self.service_holds(["tcp"] + words[1:], headers) or self.service_holds(["udp"] + words[1:], headers)
        if words[0] != "ip":
            protocol = rules.PROTOCOLS[words[0]] if words[0] in rules.PROTOCOLS else int(words[0])
            if not headers.equals("proto", protocol):
                return False
        if words[0] == "icmp":
            return len(words) == 1 or self.icmp_holds(words[1], headers)
        names = {"tcp": rules.TCP_PORTS, "udp": rules.UDP_PORTS}.get(words[0], {})
        rest = words[1:]
        if rest[:1] == ["source"]:
            spans, rest = port_spans(rest[1:], names)
            if not any(headers.between("sport", *span) for span in spans):
                return False
        spans, _ = port_spans(rest, names)
        return any(headers.between("dport", *span) for span in spans)

    @staticmethod
    def icmp_holds(word, headers):
        kind, code = rules.ICMP_TYPES[word] if word in rules.ICMP_TYPES else (int(word), None)
        return headers.agrees("sport", 0xFF00, kind << 8) if code is None else headers.equals("sport", kind << 8 | code)


def port_spans(words, names):
    """The spans of ports that a test holds, and the words behind it; a port alone is `eq`."""
    if not words:
        return [EVERY_PORT], []

    def port(word):
        return names[word] if word in names else int(word)

    if words[0] == "range":
        return [(port(words[1]), port(words[2]))], words[3:]
    test, value, rest = (words[0], port(words[1]), words[2:]) if words[0] in ("eq", "neq", "gt", "lt") else ("eq", port(words[0]), words[1:])
    spans = {"eq": [(value, value)], "gt": [(value + 1, 65535)], "lt": [(0, value - 1)], "neq": [(0, value - 1), (value + 1, 65535)]}
    return spans[test], rest


class Entry(rules.Entry):
    """An entry whose protocol and addresses may be groups."""

    def __init__(self, words, groups):
        self.groups = groups
        super().__init__(words, True)

    def read_extended(self, words):
        if words[0] == "object-group":
            name = words[1]
            self.tests.append(lambda headers: self.groups.holds_service(name, headers))
            words = ["ip"] + words[2:]
        super().read_extended(words)

    def read_address(self, field, words):
        if words[0] != "object-group":
            return super().read_address(field, words)
        name = words[1]
        self.tests.append(lambda headers: self.groups.holds_address(name, headers, field))
        return words[2:]


class Device(rules.Device):
    """A device with object groups."""

    def __init__(self, text):
        self.groups = Groups()
        super().__init__(text)

    def read_global(self, words, line):
        if words[0] == "object-group":
            self.section = self.groups.lines.setdefault(words[2], [])
            return None
        return super().read_global(words, line)

    def read_inner(self, words):
        if isinstance(self.section, list):
            if words[0] != "description":
                self.section.append(words)
        else:
            super().read_inner(words)

    def read_entry(self, entries, words):
        extended, by_sequence = entries
        if not extended:
            return super().read_entry(entries, words)
        sequence = max(by_sequence) + 10 if by_sequence else 10
        if words[0].isdigit():
            sequence, words = int(words[0]), words[1:]
        if words[0] != "remark":
            by_sequence[sequence] = Entry(words, self.groups)
        return None
