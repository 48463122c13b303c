"""Entries with names that the verifier doesn't read: the names become numbers, told once for each file."""
from .addresses import is_number
from .entries import PROTOCOLS
from .names import ALL, ICMP, TCP, UDP
from .names import PROTOCOLS as OTHER_PROTOCOLS
from .texts import is_indented

PORT_WORDS = ("eq", "neq", "gt", "lt", "range")


def number_of(protocol):
    """The number of a protocol by its word, or None."""
    if protocol in PROTOCOLS or protocol in OTHER_PROTOCOLS:
        return PROTOCOLS.get(protocol, OTHER_PROTOCOLS.get(protocol))
    return int(protocol) if is_number(protocol) else None


def numbered(words):
    """The words of an extended entry from `permit` or `deny` on with numbers for names, and what was replaced: pairs of a name, behind
    its protocol, and its number."""
    if len(words) < 2 or words[0] not in ("permit", "deny") or ALL.isdisjoint(words):
        return words, []
    protocol, found, replaced = number_of(words[1]), words[:2], []
    if words[1] in OTHER_PROTOCOLS:
        found[1] = str(OTHER_PROTOCOLS[words[1]])
        replaced.append((words[1], found[1]))
    ports = {6: TCP, 17: UDP}.get(protocol, {})
    in_test = False
    for word in words[2:]:
        numbers = ()
        if in_test and word in ports:
            numbers = (ports[word],)
        elif protocol == 1 and word in ICMP:
            numbers = ICMP[word]
        else:
            in_test = word in PORT_WORDS or in_test and not begins_address(word)
        if numbers:
            replaced.append(("%s %s" % (words[1], word), "/".join(map(str, numbers))))
        found += map(str, numbers or (word,))
    return found, replaced


def begins_address(word):
    """Whether a word begins an address, behind which no port of the test before it stands."""
    return word in ("any", "host", "object-group") or "." in word


def number_names(device, told):
    """Gives the entries of all extended lists of a device numbers for names."""
    replaced = {}
    for block in device.blocks:
        words = block.words()
        if block.command() == "access-list":
            block.head = in_line(block.head, 2, replaced)
        elif words[:3] == ["ip", "access-list", "extended"]:
            block.body = [in_line(line, None, replaced) for line in block.body]
    if replaced:
        told.row(0, 0, "replaced", "names in access lists", "the verifier reads numbers: %s" % ", ".join("%s is %s" % pair for pair in replaced.items()))


def in_line(line, place, replaced):
    """A line with numbers for the names of the entry that begins at this word of it, or behind its own number."""
    words = line.words()
    if ALL.isdisjoint(words):
        return line
    if place is None:
        place = 1 if is_number(words[0]) else 0
    found, pairs = numbered(words[place:])
    replaced.update(pairs)
    return line.again(" " * is_indented(line.text) + " ".join(words[:place] + found), line.entry) if pairs else line
