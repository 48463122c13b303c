"""Sections and lines of tickets at the margin that forward nothing by themselves: VLANs, lists of IPv6, and what protocols do by prefix
lists, route maps and distribute lists. The latter are carried into the text and told as what the model can't follow."""
from . import commands as known
from .addresses import is_number
from .blocks import Block
from .commands import need, resolve
from .list_users import MOVES

FOLLOWS = "what a protocol does by it isn't in the model"
NOT_IPV4 = "IPv4 doesn't depend on it"


class OtherSections:
    """What a ticket does with them; the editor, the table and the mode are those of the ticket."""

    def vlan(self, line, words, is_no=False):
        """`vlan N`, with the lines of its section; `no vlan N` where its interface isn't there."""
        if not words:
            raise line.refused("MissingWord")
        if not is_number(words[0].replace(",", "").replace("-", "")):
            raise line.refused("NotCovered", words[0])
        if is_no:
            for name in self.editor.names():
                if name.startswith("Vlan") and name[4:] in words[0].split(","):
                    raise line.refused("NotCovered", "vlan")
        else:
            self.leave("vlan")
        self.tell(line, "no effect", "a VLAN of the switch; packets are routed by its interface, Vlan%s" % words[0])

    def read_vlan(self, line, words):
        """A line below `vlan N`."""
        word = self.word_or_none(line, words[0], known.VLAN_WORDS)
        if word is None or word == "no" and len(words) > 1 and self.word_or_none(line, words[1], known.VLAN_WORDS) is None:
            self.leave()
            self.read_config(line, words)
        elif word == "exit":
            self.leave()
        elif word in ("end", "do"):
            self.end_or_do(line, word)
        elif word == "shutdown" or word == "no" and words[1:2] and resolve(line, words[1], known.VLAN_WORDS) == "shutdown":
            raise line.refused("NotCovered", "shutdown")
        else:
            self.tell_harmless(line)

    def ipv6(self, line, words):
        """`ipv6 ..` at the margin; lists of IPv6 have a section."""
        if words and words[0].lower() == "access-list" and words[1:]:
            self.leave("ipv6-list")
        self.tell(line, "no effect", NOT_IPV4)

    def read_ipv6_list(self, line, words):
        """A line below `ipv6 access-list NAME`."""
        word = self.word_or_none(line, words[0], known.IPV6_LIST_WORDS)
        if word is None or word == "no" and len(words) > 1 and self.word_or_none(line, words[1], known.IPV6_LIST_WORDS) is None:
            self.leave()
            self.read_config(line, words)
        elif word == "exit":
            self.leave()
        elif word in ("end", "do"):
            self.end_or_do(line, word)
        else:
            self.tell(line, "no effect", NOT_IPV4)

    def prefix_list(self, line, words, is_no):
        """`ip prefix-list NAME ..`: carried over, and told."""
        if not words:
            raise line.refused("MissingWord")
        text = ["ip", "prefix-list"] + words
        self.margin(line, text, is_no)
        self.changed.setdefault(("prefix-list", words[0]), line)
        self.tell(line, "not followed", FOLLOWS)

    def margin(self, line, words, is_no):
        """Carries a line of the margin over, or takes away those that begin with its words."""
        old = [block for block in self.editor.blocks if block.words()[:len(words)] == words]
        if is_no:
            if not old:
                raise line.refused("NotThere", " ".join(words[2:]))
            self.editor.remove_blocks(old)
        elif not any(block.words() == words for block in old):
            self.editor.append(Block(line.again(" ".join(words))))

    def section(self, line, words, mode):
        """Opens a section that is there or makes it; the lines below it belong to its block."""
        found = [block for block in self.editor.blocks if block.words() == words]
        if not found:
            found = [Block(line.again(" ".join(words)))]
            self.editor.append(found[0])
        self.leave(mode, found[-1])
        self.tell(line, "not followed", FOLLOWS)

    def route_map(self, line, words, is_no):
        """`route-map NAME [permit N]`: opens its section, or takes it away."""
        if not words:
            raise line.refused("MissingWord")
        words = words[:1] + [resolve(line, word, ("permit", "deny")) if not is_number(word) else word for word in words[1:]]
        self.changed.setdefault(("route-map", words[0]), line)
        if is_no:
            self.margin(line, ["route-map"] + words, True)
            self.tell(line, "not followed", FOLLOWS)
        else:
            self.section(line, ["route-map"] + (words + ["permit", "10"] if len(words) == 1 else words + ["10"] if len(words) == 2 else words), "route-map")

    def router(self, line, words):
        """`router ..`, below which distribute lists stand, and nothing else is covered; the section is there."""
        if not words:
            raise line.refused("MissingWord")
        words = ["router"] + words
        if not any(block.words() == words for block in self.editor.blocks):
            raise line.refused("NotCovered", "router")
        self.section(line, words, "router")

    def read_router(self, line, words):
        """A line below `router ..`."""
        self.read_carried(line, words, known.ROUTER_WORDS, known.ROUTER_OTHERS)

    def read_route_map(self, line, words):
        """A line below `route-map ..`."""
        self.read_carried(line, words, known.ROUTE_MAP_WORDS, ())

    def read_carried(self, line, words, covered, others):
        """A line that its section takes as it is, told as what isn't followed."""
        block, is_no = self.where, words[0].lower() == "no"
        rest = words[1:] if is_no else words
        word = self.word_or_none(line, rest[0], covered, others) if rest else None
        if word is None:
            self.leave()
            self.read_config(line, words)
        elif word == "exit":
            self.leave()
        elif word in ("end", "do"):
            self.end_or_do(line, word)
        else:
            full = [need(line, rest[0], covered, others)] + rest[1:]
            old = [there for there in block.inner() if there.words()[:len(full)] == full]
            if is_no and not old:
                raise line.refused("NotThere", " ".join(full))
            for there in old:
                block.body.remove(there)
            if not is_no:
                block.body.insert(len(block.body) - block.trailing(), line.again(" " + " ".join(full)))
            self.tell(line, "not followed", MOVES if covered is known.ROUTER_WORDS else FOLLOWS)
