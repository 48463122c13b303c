"""Lines of tickets in the section of an interface that the rules of packets say little of: they are carried into the text, where
`prepare` or the verifier judges them, or told as what may move a protocol."""
from . import commands as known
from .addresses import is_number
from .commands import need, resolve
from .list_users import MOVES

SWITCH_PORT = "which VLAN a port is in says nothing of routed packets; a Vlan interface is taken as up while it isn't shut"
GATEWAY = "which device is active is what --active FILE says"


class SectionLines:
    """What a ticket does with such lines; the editor, the table and the interface are those of the ticket."""

    def carry(self, line, words, count, reason, is_no):
        """Puts a line into the section in place of the one that begins with the same `count` words, or takes such lines away."""
        begin = words[:count]
        old = self.editor.replace_in(line, self.where, lambda there: there[:count] == begin, None if is_no else " ".join(words))
        if is_no and not old:
            raise line.refused("NotThere", " ".join(words))
        self.tell(line, "removes" if is_no else "replaces" if old else "adds", reason)

    def switchport(self, line, words, is_no):
        """`switchport ..` with its words in full; alone it says whether the interface is a switch port."""
        if not words:
            self.editor.replace_in(
                line, self.where, lambda there: there in (["switchport"], ["no", "switchport"]) or is_no and there[:1] == ["switchport"],
                "no switchport" if is_no else "switchport")
            self.tell(line, "makes", "%s %s" % (self.where, "no switch port" if is_no else "a switch port"))
            return
        first = need(line, words[0], known.SWITCHPORT, known.SWITCHPORT_OTHERS)
        found, rest = ["switchport", first], words[1:]
        for choices in known.SWITCHPORT_MORE.get(first, ()):
            if rest and not is_number(rest[0]):
                found.append(resolve(line, rest[0], choices))
                rest = rest[1:]
        self.carry(line, found + rest, min(len(found), 3), SWITCH_PORT, is_no)

    def encapsulation(self, line, words, is_no):
        """`encapsulation dot1Q N`: the VLAN of a subinterface."""
        if is_no and not words:
            words = ["dot1q"]
        if not words:
            raise line.refused("MissingWord")
        kind = need(line, words[0], ("dot1q",), known.ENCAPSULATION_OTHERS)
        self.carry(line, ["encapsulation", {"dot1q": "dot1Q"}[kind]] + words[1:], 1, "the link table says what the subinterface is joined to", is_no)

    def gateway(self, line, protocol, words, is_no):
        """`standby`, `vrrp` and `glbp`: the lines of a group, of which `prepare --active` makes addresses."""
        number = [words[0]] if words and is_number(words[0]) else []
        rest = words[len(number):]
        if not rest and not is_no:
            raise line.refused("MissingWord")
        if rest:
            rest = [resolve(line, rest[0], known.GATEWAY_WORDS[protocol])] + rest[1:]
        found = [protocol] + number + rest
        secondary = rest[:1] == ["ip"] and rest[-1:] == ["secondary"]
        self.carry(line, found, len(found) if secondary else len(number) + 1 + bool(rest), GATEWAY, is_no)
        if rest[:1] == ["address-family"] and not is_no:
            self.leave("family", self.where)

    def read_family(self, line, words):
        """A line below `vrrp N address-family ipv4`."""
        is_no = words[0].lower() == "no"
        first = (words[1:] if is_no else words)[:1]
        word = self.word_or_none(line, first[0], known.FAMILY_WORDS) if first else None
        if word is None or word == "exit-vrrp":
            self.leave("interface", self.where)
            if word is None:
                self.read_interface(line, words)
            return
        full = [word] + (words[2:] if is_no else words[1:])
        block = self.editor.sections(self.where)[-1]
        for there in block.inner():
            if there.words()[:1] == [word] and there.text.startswith("  "):
                block.body.remove(there)
        if not is_no:
            block.body.insert(len(block.body) - block.trailing(), line.again("  " + " ".join(full)))
        self.tell(line, "removes" if is_no else "adds", GATEWAY)

    def move(self, line):
        """A line that may move a protocol."""
        self.tell(line, "not followed", MOVES)
