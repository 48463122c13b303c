"""A configuration that the lines of a ticket change, by the rules of the covered commands: what replaces, what adds, what removes."""
import re

from .addresses import dotted, mask_of
from .blocks import Block
from .commands import PHYSICAL, VIRTUAL, resolve
from .facts import Interface, is_interface, is_static, read_interface, static_of
from .groups import KINDS, is_group
from .list_editing import Lists

INTERFACE_NAME = re.compile(r"([A-Za-z][A-Za-z-]*?(?:[0-9]+[A-Za-z][A-Za-z-]*)?)[ -]?([0-9][0-9/.:]*)")
RANGE = re.compile(r"(?P<kind>[A-Za-z][A-Za-z-]*?)\s*(?P<before>(?:[0-9]+[/.:])*)(?P<first>[0-9]{1,5})(?:\s*-\s*(?:[A-Za-z-]*\s*(?:[0-9]+[/.:])*)"
                   r"(?P<last>[0-9]{1,5}))?")
MOST_IN_RANGE = 1000


class Editor:
    """The blocks of one configuration while its ticket is read."""

    def __init__(self, blocks):
        self.blocks = blocks
        self.lists = Lists(blocks)

    def result(self):
        """The blocks as they are at the end."""
        return self.lists.put(self.blocks)

    def append(self, block):
        """Puts a block at the end, before the line `end`."""
        ends = [k for k, other in enumerate(self.blocks) if other.words() == ["end"]]
        self.blocks.insert(ends[-1] if ends else len(self.blocks), block)

    def remove_blocks(self, unwanted):
        """Takes blocks out, whose comments stay."""
        kept = []
        for block in self.blocks:
            if any(block is one for one in unwanted):
                kept += [Block(None, block.comments())] if block.comments() else []
            else:
                kept.append(block)
        self.blocks = kept

    # ---- interfaces

    def names(self):
        """The names of the interfaces, in the order of the text."""
        return list(dict.fromkeys(block.words()[1] for block in self.blocks if is_interface(block)))

    def find_interface(self, line, words):
        """The interface that words of a line name, and whether it is there."""
        found = INTERFACE_NAME.fullmatch("".join(words))
        if found is None:
            raise line.refused("BadWord", " ".join(words))
        kind, number = found.groups()
        there = []
        for name in self.names():
            parts = INTERFACE_NAME.fullmatch(name)
            if parts and parts.group(2) == number and parts.group(1).lower().startswith(kind.lower()):
                there.append(name)
        exact = [name for name in there if name.lower() == (kind + number).lower()]
        if len(exact) == 1 or len(there) == 1:
            return (exact or there)[0], True
        if there:
            raise line.refused("Ambiguous", " ".join(words), there)
        return self.new_interface(line, kind, number), False

    def new_interface(self, line, kind, number):
        """The name of an interface that a line makes: a virtual one, or a part of one that is there."""
        full = resolve(line, kind, VIRTUAL, PHYSICAL)
        full = next(one for one in VIRTUAL + PHYSICAL if one.lower() == full.lower())
        name = full + number
        if full in VIRTUAL or "." in number and full + number.split(".")[0] in self.names():
            return name
        raise line.refused("UnknownInterface", name)

    def there(self, line, words):
        """The name of an interface that has to be there."""
        if not words:
            raise line.refused("MissingWord")
        name, there = self.find_interface(line, words)
        if not there:
            raise line.refused("NotThere", name)
        return name

    def interfaces_of_range(self, line, words):
        """The interfaces of a range, as `gi1/0/1 - 4 , vlan 10`, each of which is there, or is a virtual one that is made."""
        if not words:
            raise line.refused("MissingWord")
        names = []
        for part in " ".join(words).split(","):
            found = RANGE.fullmatch(part.strip())
            if found is None:
                raise line.refused("BadWord", part.strip())
            first, last = int(found["first"]), int(found["last"] or found["first"])
            if not first <= last <= first + MOST_IN_RANGE:
                raise line.refused("BadWord", found["last"])
            for number in range(first, last + 1):
                name, made = self.open_interface(line, [found["kind"], found["before"] + str(number)])
                if name not in names:
                    names.append(name)
        return names

    def reset_interface(self, line, name):
        """Takes all lines out of the sections of an interface but whether it is shut."""
        is_shut = self.interface(name).shut
        for block in self.sections(name):
            for one in block.inner():
                block.body.remove(one)
        last = self.sections(name)[-1]
        last.body.insert(0, line.again(" no ip address"))
        if is_shut:
            last.body.insert(1, line.again(" shutdown"))

    def remove_interface(self, line, name):
        """Removes a logical interface with its subinterfaces, and the static routes out of these; gives the names, and how many routes."""
        found = INTERFACE_NAME.fullmatch(name)
        if found is None or "." not in name and found.group(1) not in VIRTUAL:
            raise line.refused("NotCovered", "interface")
        gone = [one for one in self.names() if one == name or one.startswith(name + ".")]
        routes = [block for block, static in self.statics() if static.interface in gone]
        self.remove_blocks([block for one in gone for block in self.sections(one)] + routes)
        return gone, len(routes)

    def open_interface(self, line, words, kind=()):
        """Opens the section of an interface; gives its name, and whether it was made."""
        name, there = self.find_interface(line, words)
        if not there:
            self.append(Block(line.again(" ".join(("interface", name) + tuple(kind)))))
        return name, not there

    def sections(self, name):
        """The blocks of an interface."""
        return [block for block in self.blocks if is_interface(block) and block.words()[1] == name]

    def interface(self, name):
        """What the sections of an interface say."""
        interface = Interface(name)
        for block in self.sections(name):
            read_interface(interface, block)
        return interface

    def replace_in(self, line, name, is_old, text):
        """Replaces the lines of an interface that are old by one, which is None where they are only taken out; gives them."""
        old, place = [], None
        for block in self.sections(name):
            for one in block.inner():
                if is_old(one.words()):
                    old.append(one)
                    if place is None:
                        place = block, block.body.index(one)
                    block.body.remove(one)
        if text is not None:
            if place is None:
                last = self.sections(name)[-1]
                place = last, len(last.body) - last.trailing()
            place[0].body.insert(place[1], line.again(" " + text))
        return old

    def set_address(self, line, name, subnet):
        """The primary address, which replaces the one before."""
        if subnet in self.interface(name).secondary:
            raise line.refused("AddressTaken", dotted(subnet[0]))
        text = "ip address %s %s" % (dotted(subnet[0]), dotted(mask_of(subnet[1])))
        old = self.replace_in(line, name, lambda words: words[:2] == ["ip", "address"] and words[4:] == [] or words == ["no", "ip", "address"], text)
        return "replaces" if any(one.words()[0] == "ip" for one in old) else "adds"

    def add_secondary(self, line, name, subnet):
        """A secondary address, which needs a primary one and may not be there."""
        interface = self.interface(name)
        if interface.primary is None:
            raise line.refused("NoPrimary", dotted(subnet[0]))
        if any(address == subnet[0] for address, _ in interface.subnets()):
            raise line.refused("AddressTaken", dotted(subnet[0]))
        self.replace_in(line, name, lambda words: False, "ip address %s %s secondary" % (dotted(subnet[0]), dotted(mask_of(subnet[1]))))

    def remove_addresses(self, line, name):
        """Removes all addresses; there has to be one."""
        if not self.interface(name).subnets():
            raise line.refused("NotThere", "address")
        self.replace_in(line, name, lambda words: words[:2] == ["ip", "address"] or words == ["no", "ip", "address"], "no ip address")

    def remove_address(self, line, name, subnet, secondary):
        """Removes one address, which has to be there; the primary one goes last."""
        interface = self.interface(name)
        if secondary:
            if subnet not in interface.secondary:
                raise line.refused("NotThere", dotted(subnet[0]))
            text = ["ip", "address", dotted(subnet[0]), dotted(mask_of(subnet[1])), "secondary"]
            self.replace_in(line, name, lambda words: words == text, None)
            return
        if interface.primary != subnet:
            raise line.refused("NotThere", dotted(subnet[0]))
        if interface.secondary:
            raise line.refused("SecondaryLeft", dotted(interface.secondary[0][0]))
        self.remove_addresses(line, name)

    # ---- lines at the margin

    def set_hostname(self, line, name):
        """The hostname, in place of the one before."""
        old = [block for block in self.blocks if block.words()[:1] == ["hostname"]]
        for block in old:
            block.head = line.again("hostname %s" % name)

    def statics(self):
        """The static routes, each with its block."""
        return [(block, static_of(block.head)) for block in self.blocks if is_static(block)]

    def add_route(self, line, text):
        """Adds a static route; one with the same way is replaced."""
        new = static_of(line.again(text))
        same = [block for block, static in self.statics() if static.exit() == new.exit()]
        place = next((k for k, block in enumerate(self.blocks) if same and block is same[0]), None)
        block = Block(line.again(text))
        if place is None:
            self.append(block)
        else:
            self.blocks.insert(place, block)
            self.remove_blocks(same)
        return "replaces" if same else "adds"

    def remove_route(self, line, text, options):
        """Removes the static route with this way; the options that are written have to be its own."""
        gone = static_of(line.again(text))
        found = [block for block, static in self.statics() if static.exit() == gone.exit()]
        if not found or options and all(static_of(block.head).distance != gone.distance for block in found):
            raise line.refused("NotThere", dotted(gone.prefix))
        self.remove_blocks(found)

    def rules(self):
        """The rules of translation, each as its block and the words that say its sides."""
        found = []
        for block in self.blocks:
            words = block.words()
            if words[:2] == ["ip", "nat"] and words[3:5] == ["source", "static"]:
                found.append((block, rule_sides(words)))
        return found

    def add_rule(self, line, words):
        """Adds a rule of translation; one whose local or global side is taken is refused, as a router does."""
        new = rule_sides(words)
        for block, sides in self.rules():
            if sides == new:
                return "it is there already"
            if sides[:2] == new[:2] and (sides[2] == new[2] or sides[3] == new[3]):
                raise line.refused("NatClash", " ".join(new[2] if sides[2] == new[2] else new[3]))
        self.append(Block(line.again(" ".join(words))))
        return "adds"

    def remove_rule(self, line, words):
        """Removes the rule with these sides, which has to be there."""
        found = [block for block, sides in self.rules() if sides == rule_sides(words)]
        if not found:
            raise line.refused("NotThere", " ".join(words[5:7]))
        self.remove_blocks(found)

    # ---- object groups

    def open_group(self, line, kind, name):
        """Opens a group; gives whether it was made."""
        for other in KINDS:
            if other != kind and self.group_blocks(other, name):
                raise line.refused("GroupKind", name)
        if self.group_blocks(kind, name):
            return False
        self.append(Block(line.again("object-group %s %s" % (kind, name))))
        return True

    def group_blocks(self, kind, name):
        """The blocks of a group."""
        return [block for block in self.blocks if is_group(block) and block.words()[1:3] == [kind, name]]

    def add_member(self, line, kind, name, words):
        """Adds a member at the end of a group; one that is there already changes nothing."""
        blocks = self.group_blocks(kind, name)
        if any(one.words() == words for block in blocks for one in block.inner()):
            return "it is there already"
        blocks[-1].body.insert(len(blocks[-1].body) - blocks[-1].trailing(), line.again(" " + " ".join(words)))
        return "adds to group %s" % name

    def remove_member(self, line, kind, name, words):
        """Removes a member, which has to be there in these words."""
        for block in self.group_blocks(kind, name):
            for one in block.inner():
                if one.words() == words:
                    block.body.remove(one)
                    return "removes from group %s" % name
        raise line.refused("NotThere", " ".join(words))

    def remove_group(self, line, kind, name):
        """Removes a group that no entry names; a router keeps one that is in use."""
        blocks = self.group_blocks(kind, name)
        if not blocks:
            raise line.refused("NotThere", name)
        for words in self.group_users():
            if any(words[k:k + 2] in (["object-group", name], ["group-object", name]) for k in range(len(words))):
                raise line.refused("GroupInUse", name)
        self.remove_blocks(blocks)

    def group_users(self):
        """The words of all entries and of all members of groups."""
        for edited in self.lists.lists.values():
            for item in edited.items:
                yield item.words
        for block in self.blocks:
            if is_group(block):
                for one in block.inner():
                    yield one.words()


def rule_sides(words):
    """A rule of translation as its direction, its kind and its two sides, local and global as they are written."""
    rest = [word for word in words[5:] if word != "extendable"]
    if rest[:1] in (["tcp"], ["udp"]):
        return words[2], rest[0], tuple(rest[1:3]), tuple(rest[3:5])
    return words[2], "plain", tuple(rest[:1]), tuple(rest[1:2])
