"""Entries of access lists as they are typed: abbreviated words are written out, names that the verifier doesn't read become numbers, and
two entries can be compared."""
from . import names as other_names
from .addresses import ALL_ONES, address_of, is_number
from .commands import resolve

PROTOCOLS = dict(icmp=1, igmp=2, ipinip=4, tcp=6, udp=17, gre=47, esp=50, ahp=51, eigrp=88, ospf=89, pim=103)
TCP = dict(
    echo=7, discard=9, daytime=13, chargen=19, ftp=21, telnet=23, smtp=25, time=37, whois=43, tacacs=49, domain=53, gopher=70, finger=79,
    www=80, hostname=101, pop2=109, pop3=110, sunrpc=111, ident=113, nntp=119, bgp=179, irc=194, exec=512, login=513, cmd=514, lpd=515,
    talk=517, uucp=540, klogin=543, kshell=544,
)
TCP["ftp-data"] = 20
UDP = dict(
    echo=7, discard=9, time=37, nameserver=42, tacacs=49, domain=53, bootps=67, bootpc=68, tftp=69, sunrpc=111, ntp=123, snmp=161,
    snmptrap=162, xdmcp=177, isakmp=500, biff=512, who=513, syslog=514, talk=517, rip=520,
)
UDP.update({"netbios-ns": 137, "netbios-dgm": 138, "netbios-ss": 139, "mobile-ip": 434, "non500-isakmp": 4500})
ICMP = {
    "echo-reply": (0,), "unreachable": (3,), "net-unreachable": (3, 0), "host-unreachable": (3, 1), "port-unreachable": (3, 3),
    "packet-too-big": (3, 4), "administratively-prohibited": (3, 13), "source-quench": (4,), "redirect": (5,), "echo": (8,),
    "time-exceeded": (11,), "ttl-exceeded": (11, 0), "parameter-problem": (12,),
}
PORT_TESTS = ("eq", "gt", "lt", "neq", "range")
FLAGS = ("ack", "fin", "psh", "rst", "syn", "urg")
TRAILING = FLAGS + ("established", "log", "log-input", "match-all", "match-any")
OTHER_TRAILING = ("dscp", "fragments", "option", "precedence", "reflect", "time-range", "tos", "ttl")


class Entry:
    """An entry that is read word by word: `words` are its words in full, `key` what it means, so that equal keys are equal entries."""

    def __init__(self, line, words, extended):
        self.line, self.rest, self.extended = line, list(words), extended
        self.words, self.key = [], []
        action = resolve(line, self.take(), ("permit", "deny"), ("remark", "dynamic", "evaluate"))
        if action not in ("permit", "deny"):
            raise line.refused("NotCovered", action)
        self.put(action, action)
        if extended:
            self.read_extended()
        else:
            self.read_standard()

    def take(self):
        """The next word."""
        if not self.rest:
            raise self.line.refused("MissingWord")
        return self.rest.pop(0)

    def put(self, word, meaning):
        """Takes a word in full, with what it means."""
        self.words.append(word)
        self.key.append(meaning)

    def word(self, covered, others):
        """The next word in full; one that a router has and the rules don't is refused."""
        word = resolve(self.line, self.take(), covered, others)
        if word not in covered:
            raise self.line.refused("NotCovered", word)
        return word

    def read_address(self, standard=False):
        """An address; a standard entry may have one without a wildcard."""
        first = self.take()
        value = address_of(first)
        if value is not None:
            wild = address_of(self.rest[0]) if self.rest else None
            if wild is None and not standard:
                raise self.line.refused("BadWord", self.rest[0]) if self.rest else self.line.refused("MissingWord")
            self.words += [first] + ([self.take()] if wild is not None else [])
            wild = wild or 0
            self.key.append((value & ~wild & ALL_ONES, wild))
            return
        choices = ("any", "host") if standard else ("any", "host", "object-group")
        word = self.word_from(first, choices, ("interface",))
        if word == "any":
            self.put(word, (0, ALL_ONES))
        elif word == "host":
            host = self.take()
            if address_of(host) is None:
                raise self.line.refused("BadWord", host)
            self.words += [word, host]
            self.key.append((address_of(host), 0))
        else:
            name = self.take()
            self.words += [word, name]
            self.key.append(("group", name))

    def word_from(self, word, covered, others):
        """As `word`, of a word that was taken already."""
        self.rest.insert(0, word)
        return self.word(covered, others)

    def read_standard(self):
        """A source, and perhaps `log`."""
        self.read_address(True)
        while self.rest:
            word = self.word(("log",), ("smartlog",))
            if word in self.words:
                raise self.line.refused("ExtraWord", word)
            self.put(word, word)

    def read_extended(self):
        """Protocol, source, destination, and what stands behind them."""
        protocol = self.read_protocol()
        self.read_address()
        self.read_ports(protocol)
        self.read_address()
        self.read_ports(protocol)
        while self.rest:
            self.read_trailing(protocol)

    def read_protocol(self):
        """The number of the protocol; None for `ip` and for a group."""
        word = self.take()
        if is_number(word):
            if not 1 <= int(word) <= 255:
                raise self.line.refused("NotCovered" if int(word) == 0 else "BadWord", word)
            self.put(word, int(word))
            return int(word)
        word = self.word_from(word, tuple(PROTOCOLS) + tuple(other_names.PROTOCOLS) + ("ip", "object-group"), ())
        if word in other_names.PROTOCOLS:
            self.put(str(other_names.PROTOCOLS[word]), other_names.PROTOCOLS[word])
            return other_names.PROTOCOLS[word]
        if word == "object-group":
            name = self.take()
            self.words += [word, name]
            self.key.append(("group", name))
            return None
        self.put(word, PROTOCOLS.get(word, word))
        return PROTOCOLS.get(word)

    def read_ports(self, protocol):
        """The test of a port; a router takes `eq` and the other words only where the protocol has ports."""
        if protocol not in (6, 17) or not self.rest or address_of(self.rest[0]) is not None:
            return
        others = ("any", "host", "object-group", "interface") + TRAILING + OTHER_TRAILING
        test = resolve(self.line, self.rest[0], PORT_TESTS, others)
        if test not in PORT_TESTS:
            return
        self.take()
        self.put(test, test)
        most = {"eq": 10, "neq": 10, "range": 2}.get(test, 1)
        count = 0
        while count < most and self.rest and (count == 0 or test == "range" or self.is_port(self.rest[0], protocol)):
            self.read_port(protocol)
            count += 1
        if count < (2 if test == "range" else 1):
            raise self.line.refused("MissingWord")

    def is_port(self, word, protocol):
        """Whether a word behind a port is a further one: a number, or the name of a port in full."""
        names, others = (TCP, other_names.TCP) if protocol == 6 else (UDP, other_names.UDP)
        return is_number(word) or word.lower() in names or word.lower() in others

    def read_port(self, protocol):
        """A port, by its number or its name."""
        word = self.take()
        if is_number(word):
            if int(word) > 65535:
                raise self.line.refused("BadWord", word)
            self.put(word, int(word))
            return
        names, others = (TCP, other_names.TCP) if protocol == 6 else (UDP, other_names.UDP)
        name = self.word_from(word, tuple(names) + tuple(others), ())
        self.put(name if name in names else str(others[name]), names.get(name, others.get(name)))

    def read_trailing(self, protocol):
        """One of the words behind the destination."""
        word = self.rest[0]
        if protocol == 1 and is_number(word):
            self.read_icmp_numbers()
            return
        names = tuple(ICMP) + tuple(other_names.ICMP) if protocol == 1 else ()
        word = self.word(names + (TRAILING if protocol == 6 else ("log", "log-input")), OTHER_TRAILING)
        if word in ICMP and protocol == 1:
            self.words.append(word)
            self.key += list(ICMP[word])
        elif word in other_names.ICMP and protocol == 1:
            self.words += map(str, other_names.ICMP[word])
            self.key += list(other_names.ICMP[word])
        elif word in ("match-all", "match-any"):
            self.put(word, word)
            self.read_flags()
        else:
            self.put(word, word)

    def read_icmp_numbers(self):
        """A type, and perhaps a code."""
        for _ in range(2):
            if self.rest and is_number(self.rest[0]):
                word = self.take()
                if int(word) > 255:
                    raise self.line.refused("BadWord", word)
                self.put(word, int(word))

    def read_flags(self):
        """The flags of `match-all` and `match-any`."""
        while self.rest and self.rest[0][0] in "+-":
            word = self.take()
            name = resolve(self.line, word[1:], FLAGS)
            self.put(word[0] + name, word[0] + name)


def same(entry, other):
    """Whether two entries mean the same."""
    return entry.key == other.key
