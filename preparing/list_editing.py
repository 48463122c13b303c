"""Access lists that are changed: items in the order of their numbers, written anew as one section where a list was touched."""
from dataclasses import dataclass

from .addresses import is_number
from .blocks import Block
from .entries import Entry, same
from .faults import Refused
from .texts import Line

GREATEST = 2147483647


@dataclass
class Item:
    """A remark, whose number is None, or an entry."""

    line: Line
    words: list
    sequence: int


def range_kind(number):
    """The kind of a list by its number, or None."""
    if 1 <= number <= 99 or 1300 <= number <= 1999:
        return "standard"
    if 100 <= number <= 199 or 2000 <= number <= 2699:
        return "extended"
    return None


def list_of(block):
    """The kind and the name of the list to which a block belongs, or None."""
    words = block.words()
    if words[:2] == ["ip", "access-list"] and words[2:3] in (["standard"], ["extended"]) and len(words) > 3:
        return words[2], words[3]
    if words[:1] == ["access-list"] and len(words) > 2 and is_number(words[1]) and range_kind(int(words[1])):
        return range_kind(int(words[1])), words[1]
    return None


class EditedList:
    """A list with its items; `touched` where a ticket changed it."""

    def __init__(self, kind, name):
        self.kind, self.name = kind, name
        self.items, self.touched, self.made_by = [], False, None

    def greatest(self):
        """The greatest number, or 0."""
        return max((item.sequence for item in self.items if item.sequence is not None), default=0)

    def read(self, line, words):
        """Takes a line of the text, which the verifier judges."""
        number = None
        if words and is_number(words[0]):
            number, words = int(words[0]), words[1:]
        if not words:
            raise line.refused("MissingWord")
        self.items.append(Item(line, words, None if words[0] == "remark" else number or self.greatest() + 10))

    def in_order(self):
        """The items by number, each remark before the entry that it stands before."""
        groups, remarks = [], []
        for item in self.items:
            remarks.append(item)
            if item.sequence is not None:
                groups.append((item.sequence, remarks))
                remarks = []
        groups.sort(key=lambda group: group[0])
        return [item for _, group in groups for item in group] + remarks

    def same_entry(self, entry):
        """The item that means the same as an entry, or None."""
        for item in self.items:
            if item.sequence is not None and same(self.entry_of(item), entry):
                return item
        return None

    def entry_of(self, item):
        """The meaning of an item; words that aren't covered here are compared as they are."""
        try:
            return Entry(item.line, item.words, self.kind == "extended")
        except Refused:
            return Verbatim(item.words)

    def by_number(self, number):
        """The entry of a number, or None."""
        return next((item for item in self.items if item.sequence == number), None)

    def add(self, line, words, number):
        """Adds an entry; gives what to tell of it. An entry that is there already changes nothing (IOS: sequence numbering)."""
        entry = Entry(line, words, self.kind == "extended")
        there = self.same_entry(entry)
        if there is not None and number in (None, there.sequence):
            return "entry %d says it already" % there.sequence
        if there is not None:
            raise line.refused("EntryTwice", str(there.sequence))
        if number is not None and self.by_number(number) is not None:
            raise line.refused("SequenceTaken", str(number))
        if number is None:
            number = self.greatest() + 10
        if not 1 <= number <= GREATEST:
            raise line.refused("BadWord", str(number))
        self.items = self.in_order()
        place = self.place_of(number)
        self.items.insert(place, Item(line, entry.words, number))
        self.touched = True
        return "entry %d of list %s" % (number, self.name)

    def place_of(self, number):
        """Where an entry of a number goes: behind the last one of a lower number."""
        lower = [k for k, item in enumerate(self.items) if item.sequence is not None and item.sequence < number]
        if not any(item.sequence is not None and item.sequence > number for item in self.items):
            return len(self.items)
        return lower[-1] + 1 if lower else 0

    def remark(self, line, words):
        """Adds a remark at the end."""
        self.items = self.in_order()
        self.items.append(Item(line, words, None))
        self.touched = True
        return "a remark of list %s" % self.name

    def remove(self, line, words):
        """Removes an entry by its number, its words, or both, or a remark; one that isn't there is an error."""
        number = None
        if is_number(words[0]):
            number, words = int(words[0]), words[1:]
        item = self.by_number(number) if number is not None else None
        if number is not None and item is None:
            raise line.refused("NotThere", str(number))
        if words and words[0].lower() == "remark":
            item = next((one for one in self.items if one.sequence is None and one.words[1:] == words[1:]), None)
        elif words:
            found = self.same_entry(Entry(line, words, self.kind == "extended"))
            item = found if item in (None, found) else None
        if item is None:
            raise line.refused("NotThere", " ".join(words))
        self.items.remove(item)
        self.touched = True
        return "removes %s of list %s" % ("a remark" if item.sequence is None else "entry %d" % item.sequence, self.name)

    def resequence(self, line, start, step):
        """Gives the entries new numbers, in their order."""
        self.items = self.in_order()
        count = sum(item.sequence is not None for item in self.items)
        if start + step * (count - 1) > GREATEST:
            raise line.refused("BadWord", str(step))
        number = start
        for item in self.items:
            if item.sequence is not None:
                item.sequence = number
                number += step
        self.touched = True
        return "list %s has the numbers from %d in steps of %d" % (self.name, start, step)

    def block(self):
        """The list as a section, each entry with its number."""
        items = self.in_order()
        head = self.made_by or items[0].line
        body = [item.line.again(" " + ("" if item.sequence is None else "%d " % item.sequence) + " ".join(item.words)) for item in items]
        return Block(head.again("ip access-list %s %s" % (self.kind, self.name)), body)


@dataclass
class Verbatim:
    """An entry that isn't understood here, by its words."""

    key: list


class Lists:
    """All lists of a configuration."""

    def __init__(self, blocks):
        self.lists, self.removed = {}, set()
        for block in blocks:
            found = list_of(block)
            if found is None:
                continue
            edited = self.lists.setdefault(found[1], EditedList(*found))
            if edited.kind != found[0]:
                raise block.head.refused("ListKindClash", found[1])
            if block.words()[0] == "access-list":
                edited.read(block.head, block.words()[2:])
            for line in block.inner():
                if block.words()[0] == "ip":
                    edited.read(line, line.words())

    def open(self, line, kind, name):
        """The list of a name, which is made where it isn't there."""
        if is_number(name) and range_kind(int(name)) != kind:
            raise line.refused("BadListNumber", name)
        edited = self.lists.get(name)
        if edited is None:
            edited = self.lists[name] = EditedList(kind, name)
            edited.made_by, edited.touched = line, True
        if edited.kind != kind:
            raise line.refused("ListKindClash", name)
        return edited

    def there(self, line, name, kind=None):
        """The list of a name that has to be there."""
        if name not in self.lists or kind not in (None, self.lists[name].kind):
            raise line.refused("NotThere", name)
        return self.lists[name]

    def remove(self, line, name, kind=None):
        """Removes a list, which has to be there."""
        self.there(line, name, kind)
        del self.lists[name]
        self.removed.add(name)
        return "removes list %s" % name

    def put(self, blocks):
        """The blocks with the lists as they are now: untouched ones stay as they were written."""
        waiting = {name: edited for name, edited in self.lists.items() if edited.touched}
        kept = []
        for block in blocks:
            found = list_of(block)
            name = found[1] if found else None
            if name in self.lists and self.lists[name].touched:
                edited = waiting.pop(name, None)
                kept += [edited.block()] if edited is not None else []
            elif name is None or name not in self.removed or name in self.lists:
                kept.append(block)
                continue
            kept += [Block(None, block.comments())] if block.comments() else []
        ends = [k for k, block in enumerate(kept) if block.words() == ["end"]]
        place = ends[-1] if ends else len(kept)
        kept[place:place] = [edited.block() for edited in waiting.values()]
        return kept
