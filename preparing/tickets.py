"""Applies the lines that an engineer will paste to configurations: `prepare --apply TICKETS OLD NEW`."""
import os

from . import commands as known
from .addresses import address_of, dotted, is_number, mask_of
from .blocks import banner_delimiter, blocks_of, lines_of
from .checking import check
from .commands import need, resolve
from .editing import Editor
from .facts import hostname_of, static_of, subnet_of
from .faults import Faults, NotFound, Refused, each
from .groups import network_words, service_of
from .list_users import LIST_CHANGES, users_of
from .other_sections import NOT_IPV4, OtherSections
from .outputs import check_free, write_folder
from .section_lines import SectionLines
from .texts import Line, files_of, read_bytes, read_lines, says_something, to_bytes
from .told import Told


INTERFACE_WORDS = known.INTERFACE_COVERED + known.INTERFACE_HARMLESS + known.INTERFACE_MOVING
INTERFACE_IP_WORDS = known.INTERFACE_IP_COVERED + known.INTERFACE_IP_HARMLESS + known.INTERFACE_IP_MOVING


class Ticket(SectionLines, OtherSections):
    """The lines of a ticket, one after the other, in the mode that the lines before have brought about. `changed` has the prefix lists
    and route maps that they change, `absent` the lists that they take away and that aren't there, each with its line."""

    def __init__(self, editor, told):
        self.editor, self.told = editor, told
        self.mode, self.where = "config", None
        self.begun = False
        self.banner = None
        self.changed, self.absent = {}, {}

    def read(self, line):
        """Takes a line of the ticket."""
        if self.banner is not None:
            self.banner = None if self.closing in line.text else self.banner
            return
        if not says_something(line):
            return
        words = line.words()
        reader = {
            "exec": self.read_exec, "config": self.read_config, "interface": self.read_interface, "list": self.read_list,
            "group": self.read_group, "line": self.read_console, "range": self.read_range, "vlan": self.read_vlan, "family": self.read_family,
            "ipv6-list": self.read_ipv6_list, "route-map": self.read_route_map, "router": self.read_router,
        }[self.mode]
        reader(line, words)
        self.begun = True

    def end(self):
        """The end of the ticket: a list that a `no` takes away has to be there, or to come behind it; and what else is done by the lists
        that change is told."""
        if self.banner is not None:
            raise Refused(self.banner.path, 0, "BannerOpen")
        for name, line in self.absent.items():
            if name not in self.editor.lists.lists:
                raise line.refused("NotThere", name)
        changed = set(self.changed) | {("access-list", name) for name, edited in self.editor.lists.lists.items() if edited.touched}
        changed |= {("access-list", name) for name in self.editor.lists.removed}
        for line, kind, name in users_of(self.editor.blocks):
            if (kind, name) in changed:
                place = "%s line %d, %s" % (os.path.basename(line.path), line.number, " ".join(line.words()))
                self.told.row(0, 0, "not followed", place, LIST_CHANGES % name)

    def tell(self, line, what, reason):
        """Tells what a line of the ticket does."""
        self.told.line(line, what, reason)

    def tell_harmless(self, line):
        """Tells a line of which the rules say nothing, by its first words alone: many such lines have a secret in them."""
        words = line.words()
        count = 2 if words[0].lower() == "no" else 1
        text = " ".join(words[:count] + ([".."] if len(words) > count else []))
        self.told.row(line.number, line.number, "no effect", text, "the rules say nothing of it")

    @staticmethod
    def word_or_none(line, word, covered, others=()):
        """The word that a written one stands for, or None where it begins none of these."""
        return resolve_or_none(line, word, covered, others)

    def leave(self, mode="config", where=None):
        """Goes to another mode; `where` is its interface, its list or its group."""
        self.mode, self.where = mode, where

    def falls_back(self, line, words, covered, others):
        """Whether a word is none of a section's, so that the line is one for the margin, as routers take it; behind `no` the next
        word decides."""
        word = resolve_or_none(line, words[0], covered, others)
        if word == "no" and len(words) > 1 and not is_number(words[1]):
            word = resolve_or_none(line, words[1], covered, others)
        if word is None:
            self.leave()
            self.read_config(line, words)
        return word is None

    # ---- outside of the configuration

    def read_exec(self, line, words):
        """A command outside of the configuration."""
        word = need(line, words[0], known.EXEC_HARMLESS + known.EXEC_COVERED, known.EXEC_OTHERS)
        if word == "configure":
            if len(words) > 1:
                need(line, words[1], ("terminal",), ("confirm", "memory", "network", "overwrite-network", "replace", "revert"))
            self.leave()
        elif word == "copy":
            if len(words) != 3 or not "running-config".startswith(words[1].lower()) or not "startup-config".startswith(words[2].lower()):
                raise line.refused("NotCovered", "copy")
        self.tell(line, "no effect", "it changes no running configuration")

    # ---- at the margin

    def read_config(self, line, words):
        """A command at the margin."""
        if not self.begun and self.read_start(line, words):
            return
        word = resolve(line, words[0], known.GLOBAL_COVERED + known.GLOBAL_HARMLESS, known.GLOBAL_OTHERS)
        readers = {
            "hostname": self.hostname, "interface": self.interface, "access-list": self.numbered, "ip": self.ip, "no": self.no,
            "object-group": self.group, "default": self.default, "vlan": self.vlan, "ipv6": self.ipv6, "router": self.router,
            "route-map": lambda line, words: self.route_map(line, words, False),
        }
        if word in readers:
            readers[word](line, words[1:])
        elif word == "banner":
            self.closing = banner_delimiter(line)
            self.banner = line if self.closing is not None else None
            self.tell_harmless(line)
        elif word == "exit":
            self.leave("exec")
        elif word in ("end", "do"):
            self.end_or_do(line, word)
        elif word in known.GLOBAL_HARMLESS:
            if word == "line":
                self.leave("line")
            if word == "system" and len(words) > 1 and words[1].lower() == "mtu":
                self.move(line)
            else:
                self.tell_harmless(line)
        else:
            raise line.refused("NotCovered", word)

    def end_or_do(self, line, word):
        """The commands that stand in every section."""
        if word == "end":
            self.leave("exec")
        else:
            self.do(line)

    def do(self, line):
        """`do` and a command that changes no configuration."""
        words = line.words()[1:]
        if not words:
            raise line.refused("MissingWord")
        mode, where = self.mode, self.where
        self.read_exec(line, words)
        self.mode, self.where = mode, where

    def read_start(self, line, words):
        """What stands before the first command: `enable`, `configure terminal`."""
        lower = [word.lower() for word in words]
        if len(lower) == 1 and len(lower[0]) > 1 and "enable".startswith(lower[0]) and lower[0] != "end":
            self.leave("exec")
        elif len(lower) < 2 or not (len(lower[0]) > 3 or lower[0] == "conf") or not "configure".startswith(lower[0]) \
                or not "terminal".startswith(lower[1]):
            return False
        self.tell(line, "no effect", "it changes no running configuration")
        return True

    def hostname(self, line, words):
        """`hostname W`."""
        exactly(line, words, 1)
        self.editor.set_hostname(line, words[0])
        self.tell(line, "replaces", "the hostname")

    def interface(self, line, words):
        """`interface W`: opens a section."""
        if not words:
            raise line.refused("MissingWord")
        if len(words[0]) > 1 and "range".startswith(words[0].lower()):
            names = self.editor.interfaces_of_range(line, words[1:])
            self.leave("range", names)
            self.tell(line, "opens", ", ".join(names))
            return
        kind = []
        if len(words) > 1 and words[-1].lower() in ("point-to-point", "multipoint"):
            words, kind = words[:-1], [words[-1].lower()]
        if len(words) > 2:
            raise line.refused("ExtraWord", words[2])
        name, made = self.editor.open_interface(line, words, kind)
        self.leave("interface", name)
        self.tell(line, "makes" if made else "opens", name)

    def default(self, line, words):
        """`default interface W`: nothing of its section stays but whether it is shut."""
        if not words:
            raise line.refused("MissingWord")
        need(line, words[0], ("interface",), known.GLOBAL_COVERED + known.GLOBAL_HARMLESS + known.GLOBAL_OTHERS)
        if words[1:] and len(words[1]) > 1 and "range".startswith(words[1].lower()):
            names = self.editor.interfaces_of_range(line, words[2:])
        else:
            names = [self.editor.there(line, words[1:])]
        for name in names:
            self.editor.reset_interface(line, name)
        self.tell(line, "removes", "all of %s; it stays %s, which differs between platforms" % (
            ", ".join(names), " and ".join(sorted({"shut" if self.editor.interface(name).shut else "open" for name in names}))))

    def no_interface(self, line, words):
        """`no interface W` of a logical interface, with the static routes out of it."""
        name = self.editor.there(line, words)
        gone, routes = self.editor.remove_interface(line, name)
        more = " and %s out of it" % ("a static route" if routes == 1 else "%d static routes" % routes) if routes else ""
        self.tell(line, "removes", ", ".join(gone) + more)

    def numbered(self, line, words):
        """`access-list N ...`: an entry or a remark at the end of the list."""
        if words and words[0].lower() == "compiled":
            self.tell_harmless(line)
            return
        if len(words) < 2:
            raise line.refused("MissingWord")
        name = words[0]
        kind = known_kind(line, name)
        action = need(line, words[1], ("permit", "deny", "remark"), ("dynamic", "rate-limit"))
        edited = self.editor.lists.open(line, kind, name)
        if action == "remark":
            self.tell(line, "adds", edited.remark(line, ["remark"] + words[2:]))
        else:
            self.tell(line, "adds", edited.add(line, words[1:], None))

    def ip(self, line, words):
        """`ip route`, `ip nat`, `ip access-list`, and those that say nothing of forwarding."""
        if not words:
            raise line.refused("MissingWord")
        word = need(line, words[0], known.IP_COVERED + known.IP_HARMLESS, known.IP_OTHERS)
        if word == "route":
            text = " ".join(["ip", "route"] + route_words(self.editor, line, words[1:]))
            self.tell(line, self.editor.add_route(line, text), text)
        elif word == "nat":
            text = nat_words(line, words[1:])
            self.tell(line, self.editor.add_rule(line, text), " ".join(text))
        elif word == "access-list":
            self.access_list(line, words[1:])
        elif word == "prefix-list":
            self.prefix_list(line, words[1:], False)
        else:
            self.tell_harmless(line)

    def access_list(self, line, words):
        """`ip access-list`: opens a section, or gives new numbers."""
        if not words:
            raise line.refused("MissingWord")
        kind = need(line, words[0], known.ACCESS_LIST_KINDS + known.ACCESS_LIST_SETTINGS, known.ACCESS_LIST_KINDS_OTHERS)
        if kind in known.ACCESS_LIST_SETTINGS:
            self.tell_harmless(line)
            return
        if kind == "resequence":
            exactly(line, words, 4)
            for word in words[2:]:
                if not is_number(word) or int(word) < 1:
                    raise line.refused("BadWord", word)
            edited = self.editor.lists.there(line, words[1])
            self.tell(line, "replaces", edited.resequence(line, int(words[2]), int(words[3])))
            return
        exactly(line, words, 2)
        self.editor.lists.open(line, kind, words[1])
        self.leave("list", words[1])
        self.tell(line, "opens", "list %s" % words[1])

    def group(self, line, words):
        """`object-group`: opens a section."""
        exactly(line, words, 2)
        kind = need(line, words[0], known.GROUP_KINDS, known.GROUP_KINDS_OTHERS)
        made = self.editor.open_group(line, kind, words[1])
        self.leave("group", (kind, words[1]))
        self.tell(line, "makes" if made else "opens", "group %s" % words[1])

    def no(self, line, words):
        """What takes something away; nothing is taken away that isn't there."""
        if not words:
            raise line.refused("MissingWord")
        word = resolve(line, words[0], known.GLOBAL_COVERED + known.GLOBAL_HARMLESS, known.GLOBAL_OTHERS)
        rest = words[1:]
        if word == "access-list":
            self.no_numbered(line, rest)
        elif word == "ip":
            self.no_ip(line, rest)
        elif word == "interface":
            self.no_interface(line, rest)
        elif word == "vlan":
            self.vlan(line, rest, True)
        elif word == "ipv6":
            self.tell(line, "no effect", NOT_IPV4)
        elif word == "route-map":
            self.route_map(line, rest, True)
        elif word == "object-group":
            exactly(line, rest, 2)
            kind = need(line, rest[0], known.GROUP_KINDS, known.GROUP_KINDS_OTHERS)
            self.editor.remove_group(line, kind, rest[1])
            self.tell(line, "removes", "group %s" % rest[1])
        elif word in known.GLOBAL_HARMLESS or word == "banner":
            self.tell_harmless(line)
        else:
            raise line.refused("NotCovered", word)

    def no_numbered(self, line, words):
        """`no access-list N`: the whole list goes, whatever stands behind its number (IOS: access-list)."""
        exactly_more(line, words, 0)
        if words[0].lower() == "compiled":
            self.tell_harmless(line)
            return
        self.remove_list(line, words[0], known_kind(line, words[0]), "; IOS takes the whole list away, not this entry alone" if words[1:] else "")

    def remove_list(self, line, name, kind, more=""):
        """Takes a list away. Where there is none, nothing happens, as long as the ticket makes it behind."""
        if name in self.editor.lists.lists:
            self.tell(line, "removes", self.editor.lists.remove(line, name, kind) + more)
        else:
            self.absent[name] = line
            self.tell(line, "no effect", "there is no list %s before it" % name)

    def no_ip(self, line, words):
        """`no ip route`, `no ip nat`, `no ip access-list`."""
        if not words:
            raise line.refused("MissingWord")
        word = need(line, words[0], known.IP_COVERED + known.IP_HARMLESS, known.IP_OTHERS)
        if word == "route":
            tail = route_words(self.editor, line, words[1:])
            text = " ".join(["ip", "route"] + tail)
            self.editor.remove_route(line, text, any(is_number(one) for one in tail[3:]))
            self.tell(line, "removes", text)
        elif word == "nat":
            text = nat_words(line, words[1:])
            self.editor.remove_rule(line, text)
            self.tell(line, "removes", " ".join(text))
        elif word == "access-list":
            kind = need(line, words[1], ("standard", "extended") + known.ACCESS_LIST_SETTINGS, known.ACCESS_LIST_KINDS_OTHERS + ("resequence",)) \
                if words[1:] else None
            if kind in known.ACCESS_LIST_SETTINGS:
                self.tell_harmless(line)
            else:
                exactly(line, words, 3)
                self.remove_list(line, words[2], kind)
        elif word == "prefix-list":
            self.prefix_list(line, words[1:], True)
        else:
            self.tell_harmless(line)

    # ---- in the section of an interface

    def read_interface(self, line, words):
        """A command in the section of an interface."""
        if self.is_global(line, words) or self.is_global_ip(line, words) or self.falls_back(line, words, INTERFACE_WORDS, known.INTERFACE_OTHERS):
            return
        word = resolve(line, words[0], INTERFACE_WORDS, known.INTERFACE_OTHERS)
        if word == "exit":
            self.leave()
        elif word in ("end", "do"):
            self.end_or_do(line, word)
        elif word == "shutdown":
            exactly(line, words[1:], 0)
            self.shut(line, True)
        elif word == "ip":
            self.interface_ip(line, words[1:], False)
        elif word == "no":
            self.interface_no(line, words[1:])
        else:
            self.interface_other(line, word, words[1:], False)

    def interface_other(self, line, word, words, is_no):
        """The commands of an interface that the rules of packets say little of."""
        if word == "switchport":
            self.switchport(line, words, is_no)
        elif word == "encapsulation":
            self.encapsulation(line, words, is_no)
        elif word in known.GATEWAY_WORDS:
            self.gateway(line, word, words, is_no)
        elif word == "ipv6":
            self.tell(line, "no effect", NOT_IPV4)
        elif word in known.INTERFACE_MOVING:
            self.move(line)
        elif word in known.INTERFACE_HARMLESS:
            self.tell_harmless(line)
        else:
            raise line.refused("NotCovered", word)

    def read_range(self, line, words):
        """A command in the section of several interfaces: it is done in each."""
        names = self.where
        for name in names:
            self.leave("interface", name)
            self.read_interface(line, words)
            if (self.mode, self.where) != ("interface", name):
                return
        self.leave("range", names)

    def is_global(self, line, words):
        """Whether a line in the section of an interface is one for the margin though its first word is one of the section's too."""
        first, *rest = [word.lower() for word in words if word.lower() != "no"] or [""]
        is_global = first == "vlan" or len(first) > 2 and "default".startswith(first) and rest and len(rest[0]) > 2 and "interface".startswith(rest[0])
        if is_global or first == "ipv6" and rest and rest[0] in known.IPV6_GLOBAL:
            self.leave()
            self.read_config(line, words)
            return True
        return False

    def is_global_ip(self, line, words):
        """Whether an `ip` line in the section of an interface is one for the margin, as `ip route` or `ip nat inside source` are."""
        words = words[1:] if len(words) > 1 and words[0].lower() == "no" else words
        if len(words) < 2 or resolve_or_none(line, words[0], INTERFACE_WORDS, known.INTERFACE_OTHERS) != "ip":
            return False
        second = words[1].lower()
        places = INTERFACE_IP_WORDS, known.INTERFACE_IP_OTHERS
        is_global = second == "route" or resolve_or_none(line, second, *places) is None
        is_global = is_global or resolve_or_none(line, second, *places) == "nat" and len(words) > 3
        if is_global:
            self.leave()
            self.read_config(line, line.words())
        return is_global

    def shut(self, line, is_shut):
        """`shutdown` and `no shutdown`, which change nothing where it is so already."""
        was = self.editor.interface(self.where).shut
        if was == is_shut:
            self.tell(line, "no effect", "%s is %s already" % (self.where, "shut" if is_shut else "open"))
            return
        self.editor.replace_in(line, self.where, lambda words: words in (["shutdown"], ["no", "shutdown"]), "shutdown" if is_shut else None)
        self.tell(line, "shuts" if is_shut else "opens", self.where)

    def interface_no(self, line, words):
        """`no` and a command of an interface."""
        if not words:
            raise line.refused("MissingWord")
        word = resolve(line, words[0], INTERFACE_WORDS, known.INTERFACE_OTHERS)
        if word == "shutdown":
            exactly(line, words[1:], 0)
            self.shut(line, False)
        elif word == "ip":
            self.interface_ip(line, words[1:], True)
        else:
            self.interface_other(line, word, words[1:], True)

    def interface_ip(self, line, words, is_no):
        """`ip` and `no ip` in the section of an interface."""
        if not words:
            raise line.refused("MissingWord")
        word = need(line, words[0], INTERFACE_IP_WORDS, known.INTERFACE_IP_OTHERS)
        if word in known.INTERFACE_IP_MOVING:
            self.move(line)
        elif word == "address":
            self.address(line, words[1:], is_no)
        elif word == "access-group":
            self.access_group(line, words[1:], is_no)
        elif word == "nat":
            self.side(line, words[1:], is_no)
        else:
            self.tell_harmless(line)

    def address(self, line, words, is_no):
        """`ip address`: the primary one is replaced, a secondary one is added."""
        if is_no and not words:
            self.editor.remove_addresses(line, self.where)
            self.tell(line, "removes", "all addresses of %s" % self.where)
            return
        if words and address_of(words[0]) is None:
            need(line, words[0], (), known.ADDRESS_OTHERS)
        subnet = subnet_of(line, words)
        secondary = len(words) > 2
        if secondary:
            need(line, words[2], ("secondary",), ())
            exactly(line, words, 3)
        if is_no:
            self.editor.remove_address(line, self.where, subnet, secondary)
            self.tell(line, "removes", "an address of %s" % self.where)
        elif secondary:
            self.editor.add_secondary(line, self.where, subnet)
            self.tell(line, "adds", "a secondary address of %s" % self.where)
        else:
            what = self.editor.set_address(line, self.where, subnet)
            self.tell(line, what, "the primary address of %s" % self.where)

    def access_group(self, line, words, is_no):
        """`ip access-group`: the list of this direction is replaced, or taken away."""
        if len(words) < 2:
            raise line.refused("MissingWord")
        direction = need(line, words[1], known.DIRECTIONS, ())
        exactly(line, words, 2)
        old = self.editor.replace_in(
            line, self.where, lambda there: there[:2] == ["ip", "access-group"] and there[3:] == [direction],
            None if is_no else "ip access-group %s %s" % (words[0], direction))
        if is_no:
            if not old or old[-1].words()[2] != words[0]:
                raise line.refused("NotThere", words[0])
            self.tell(line, "removes", "list %s %s at %s" % (words[0], direction, self.where))
            return
        self.tell(line, "replaces" if old else "adds", "list %s %s at %s%s" % (
            words[0], direction, self.where, " in place of %s" % old[-1].words()[2] if old else ""))

    def side(self, line, words, is_no):
        """`ip nat inside` and `ip nat outside`: the side is replaced, or taken away."""
        exactly(line, words, 1)
        side = need(line, words[0], known.INTERFACE_NAT, known.INTERFACE_NAT_OTHERS)
        old = self.editor.replace_in(
            line, self.where, lambda there: there in (["ip", "nat", "inside"], ["ip", "nat", "outside"]), None if is_no else "ip nat %s" % side)
        if is_no and (not old or old[-1].words()[2] != side):
            raise line.refused("NotThere", side)
        self.tell(line, "removes" if is_no else "replaces" if old else "adds", "the side %s of %s" % (side, self.where))

    # ---- in the other sections

    def read_list(self, line, words):
        """A line in the section of a list."""
        if is_number(words[0]):
            exactly_more(line, words, 1)
            need(line, words[1], ("permit", "deny", "remark"), known.ENTRY_FIRST_OTHERS)
            self.entry(line, words[1:], int(words[0]))
            return
        if self.falls_back(line, words, known.ENTRY_FIRST, known.ENTRY_FIRST_OTHERS):
            return
        word = resolve(line, words[0], known.ENTRY_FIRST, known.ENTRY_FIRST_OTHERS)
        if word in ("permit", "deny", "remark"):
            self.entry(line, words, None)
        elif word == "no":
            exactly_more(line, words, 1)
            edited = self.editor.lists.there(line, self.where)
            rest = words[1:]
            if not is_number(rest[0]) and resolve(line, rest[0], ("permit", "deny", "remark"), known.ENTRY_FIRST_OTHERS) == "remark":
                rest = ["remark"] + rest[1:]
            self.tell(line, "removes", edited.remove(line, rest))
        elif word == "exit":
            self.leave()
        elif word in ("end", "do"):
            self.end_or_do(line, word)
        else:
            raise line.refused("NotCovered", word)

    def entry(self, line, words, number):
        """An entry or a remark of the list, with its number where one is written."""
        edited = self.editor.lists.there(line, self.where)
        if resolve(line, words[0], ("permit", "deny", "remark"), known.ENTRY_FIRST_OTHERS) == "remark":
            self.tell(line, "adds", edited.remark(line, ["remark"] + words[1:]))
        else:
            self.tell(line, "adds", edited.add(line, words, number))

    def read_group(self, line, words):
        """A line in the section of a group."""
        kind, name = self.where
        is_no = words[0].lower() == "no"
        member = words[1:] if is_no else words
        if not member:
            raise line.refused("MissingWord")
        member = member_words(line, kind, member)
        if member is None:
            self.leave()
            self.read_config(line, words)
        elif member[0] == "description":
            self.tell_harmless(line)
        elif member[0] == "exit":
            self.leave()
        elif is_no:
            self.tell(line, "removes", self.editor.remove_member(line, kind, name, member))
        else:
            self.tell(line, "adds", self.editor.add_member(line, kind, name, member))

    def read_console(self, line, words):
        """A line below `line vty 0 4`: what isn't one of its words is one for the margin."""
        word = resolve_or_none(line, words[0], known.LINE_WORDS + ("exit", "end", "no", "do"))
        if word == "exit":
            self.leave()
        elif word in ("end", "do"):
            self.end_or_do(line, word)
        elif word is None or word == "no" and (len(words) < 2 or resolve_or_none(line, words[1], known.LINE_WORDS) is None):
            self.leave()
            self.read_config(line, words)
        else:
            self.tell_harmless(line)


def exactly(line, words, count):
    """Refuses a line that has another number of words behind its command."""
    if len(words) < count:
        raise line.refused("MissingWord")
    if len(words) > count:
        raise line.refused("ExtraWord", words[count])


def exactly_more(line, words, count):
    """Refuses a line that ends too early."""
    if len(words) <= count:
        raise line.refused("MissingWord")


def resolve_or_none(line, word, covered, others=()):
    """As `resolve`; None where the word begins none of the words."""
    try:
        return resolve(line, word, covered, others)
    except Refused as fault:
        if fault.kind == "UnknownCommand":
            return None
        raise


def known_kind(line, name):
    """The kind of a numbered list."""
    from .list_editing import range_kind
    if not is_number(name) or range_kind(int(name)) is None:
        raise line.refused("BadListNumber", name)
    return range_kind(int(name))


def route_words(editor, line, words):
    """The words of a static route behind `ip route`, in full."""
    if words and words[0].lower() == "vrf":
        raise line.refused("NotCovered", "vrf")
    if len(words) < 3:
        raise line.refused("MissingWord")
    found, rest = words[:2], words[2:]
    if address_of(rest[0]) is None:
        name, rest = exit_interface(editor, line, rest)
        found.append(name)
    if rest and address_of(rest[0]) is not None:
        if found[2:] == ["Null0"]:
            raise line.refused("ExtraWord", rest[0])
        found.append(rest[0])
        rest = rest[1:]
    given = set()
    while rest:
        word = rest[0] if is_number(rest[0]) else need(line, rest[0], known.ROUTE_TAIL, known.ROUTE_TAIL_OTHERS)
        count = 1 if is_number(word) else 2
        kind = "distance" if count == 1 else word
        if len(rest) < count:
            raise line.refused("MissingWord")
        if kind in given or kind == "distance" and not 1 <= int(word) <= 255:
            raise line.refused("ExtraWord" if kind in given else "BadWord", rest[0])
        given.add(kind)
        found += [word] + rest[1:count]
        rest = rest[count:]
    # The mask and the prefix are judged as in a text.
    static_of(line.again(" ".join(["ip", "route"] + found)))
    return found


def exit_interface(editor, line, words):
    """The interface by which a route leaves, with the words behind it: it may be written as two words."""
    if words[0].lower() in ("null0", "nu0"):
        return "Null0", words[1:]
    if words[0].lower() == "null" and words[1:2] == ["0"]:
        return "Null0", words[2:]
    if words[0].lower() in known.ROUTE_TAIL_OTHERS:
        raise line.refused("NotCovered", words[0])
    count = 1 if any(letter in "0123456789" for letter in words[0]) else 2
    if len(words) < count:
        raise line.refused("MissingWord")
    name, there = editor.find_interface(line, words[:count])
    if not there:
        raise line.refused("UnknownInterface", name)
    return name, words[count:]


def nat_words(line, words):
    """A rule of translation in full, from `ip nat` on."""
    words, found = list(words), ["ip", "nat"]

    def take():
        """The next word."""
        if not words:
            raise line.refused("MissingWord")
        return words.pop(0)

    side = need(line, take(), known.NAT_FIRST, known.NAT_FIRST_OTHERS)
    found += [side, need(line, take(), known.NAT_SECOND, known.NAT_SECOND_OTHERS), need(line, take(), known.NAT_THIRD, known.NAT_THIRD_OTHERS)]
    shape = "aa"
    if words and address_of(words[0]) is None:
        protocol = need(line, take(), known.NAT_STATIC, known.NAT_STATIC_OTHERS)
        if side == "outside":
            raise line.refused("NotCovered", protocol)
        found.append(protocol)
        shape = "apap"
    for kind in shape:
        word = take()
        if kind == "a" and address_of(word) is None:
            raise line.refused("NotCovered" if word.lower().startswith("int") else "BadWord", word)
        if kind == "p" and not (is_number(word) and 1 <= int(word) <= 65535):
            raise line.refused("BadWord", word)
        found.append(word)
    if words:
        found.append(need(line, take(), known.NAT_END, known.NAT_END_OTHERS))
    if words:
        raise line.refused("ExtraWord", words[0])
    return found


def member_words(line, kind, words):
    """The words of a line of a group in full; None where it is a line for the margin."""
    first = ("description", "exit", "group-object") + (("any", "host", "range") if kind == "network" else ())
    protocols = ("tcp", "udp", "tcp-udp", "icmp", "ip", "ahp", "eigrp", "esp", "gre", "igmp", "ipinip", "nos", "ospf", "pcp", "pim")
    if not is_number(words[0]) and address_of(words[0]) is None:
        word = resolve_or_none(line, words[0], first + (protocols if kind == "service" else ()))
        # `ip route ..` behind a group of services is a line for the margin, and no service.
        if word is None or word == "ip" and len(words) > 1:
            return None
        words = [word] + words[1:]
    if words[0] in ("description", "exit"):
        return words
    if words[0] == "group-object":
        exactly(line, words, 2)
        return words
    written = line.again(" ".join(words))
    if kind == "network":
        network_words(written)
        if len(words) > 1 and words[1].startswith("/"):
            words = [words[0], dotted(mask_of(int(words[1][1:])))]
        return words
    service_of(written)
    return words


def tickets_of(folder, stem, stems):
    """The tickets of a device in the order in which they are applied: `R1.txt`, and then `R1.2.txt` and others behind a dot, by their names."""
    names = [name for name in sorted(os.listdir(folder), key=os.fsencode) if name.endswith(".txt") and stem_of(name, stems) == stem]
    names.sort(key=lambda name: name != stem + ".txt")
    return [os.path.join(folder, name) for name in names]


def stem_of(name, stems):
    """The device of a ticket by its name: the longest name of a device that the ticket's own is, or begins with behind a dot. None where
    there is none."""
    name = name[:-len(".txt")]
    while name and name not in stems:
        name = name.rpartition(".")[0]
    return name or None


def apply_tickets(blocks, tickets, told):
    """The blocks of a configuration with its tickets applied, one after the other. The rows of each ticket are those of its file."""
    for ticket, table in zip(tickets, told):
        work = Ticket(Editor(blocks), table)
        for line in read_lines(ticket):
            work.read(line)
        work.end()
        tell_missing_lists(work.editor, table)
        blocks = work.editor.result()
    return blocks


def apply_one(words, file, stems=None):
    """The new text of one configuration, with the tables of what its tickets did; None as tables where it has no ticket."""
    path, stem = os.path.join(words.configs, file), file[:-len(".cfg")]
    tickets = tickets_of(words.tickets, stem, stems or {stem})
    if not tickets:
        return file, read_bytes(path), None
    notes = []
    blocks = blocks_of(read_lines(path, notes))
    hostname_of(path, blocks)
    told = [Told("%s with %s" % (path, ticket)) for ticket in tickets]
    for number, text, reason in notes:
        told[0].row(number, number, "left out", text, reason)
    return file, to_bytes(lines_of(apply_tickets(blocks, tickets, told))), told


def tell_missing_lists(editor, told):
    """An interface with a list that isn't there, or has no entry, passes everything: that is told."""
    for name in editor.names():
        for block in editor.sections(name):
            for line in block.inner():
                words = line.words()
                if words[:2] == ["ip", "access-group"] and len(words) > 2:
                    edited = editor.lists.lists.get(words[2])
                    if edited is None or not any(item.sequence is not None for item in edited.items):
                        told.row(0, 0, "note", "list %s at %s" % (words[2], name), "it has no entry, so it passes everything")


def check_tickets(words, files):
    """Each ticket is for a configuration that is there."""
    tickets, others = files_of(words.tickets, ".txt")
    stems = {file[:-len(".cfg")] for file in files}
    faults = [Refused(os.path.join(words.tickets, name), 0, "NotATicket") for name in others if not name.startswith(".")]
    faults += [NotFound(os.path.join(words.configs, name[:-len(".txt")] + ".cfg")) for name in tickets if stem_of(name, stems) is None]
    if faults:
        raise Faults(faults)
    return stems


def apply(words):
    """Applies all tickets and writes the new folder; gives the lines that tell what was done."""
    check_free(words.out)
    files, _ = files_of(words.configs, ".cfg")
    stems = check_tickets(words, files)
    done = each(files, lambda file: apply_one(words, file, stems))
    if words.check:
        check([new_lines(words, file, content) for file, content, _ in done])
    write_folder(words.out, [(file, content) for file, content, _ in done])
    return [line for file, _, told in done
            for line in ([line for table in told for line in table.lines()] if told else ["%s: no ticket" % os.path.join(words.configs, file)])]


def new_lines(words, file, content):
    """A new text with the places that it will have in the new folder, and its path there."""
    path = os.path.join(words.out, file)
    texts = content.decode("ascii", "surrogateescape").split("\n")
    return path, [Line(text, path, number) for number, text in enumerate(texts, 1) if number < len(texts) or text]
