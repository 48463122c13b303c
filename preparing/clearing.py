"""What stands in a text and says nothing that the verifier could read: prompts, lines of IPv6, settings of lists, lists of other
protocols, and a `no` before a list. All of it is told."""
import re

from .addresses import is_number
from .blocks import Block
from .list_editing import list_of, range_kind

NOT_IPV4 = "IPv4 doesn't depend on it"
# Commands of IPv6 that the verifier refuses; the others are passed over.
IPV6_GLOBAL = (["ipv6", "unicast-routing"], ["ipv6", "route"])
IPV6_INTERFACE = (["ipv6", "address"], ["ipv6", "enable"])
# Settings of logging and of compiled lists, and of packets that a router sends itself (IOS: ip access-list, access-list).
LIST_SETTINGS = ("helper", "log-update", "logging", "match-local-traffic", "persistent")
ACCESS_LIST_SETTINGS = ("compiled", "dynamic-extended", "rate-limit")
# Settings of how static routes are watched, and of statistics (IOS: ip route static bfd, ip route profile).
ROUTE_SETTINGS = (["static", "adjust-time"], ["static", "bfd"], ["static", "inter-vrf"], ["profile"])
# What an engineer types to get the text; behind any other command no configuration is shown.
SHOWN_BY = re.compile(r"(sh\w* +(run|startup|conf)|ter\w* |mor\w* |wr\w* +t|en\w*$|exit$|logout$|end$|$)", re.IGNORECASE)


def remove(device, told, unwanted, reason):
    """Leaves out the blocks that are unwanted, whose comments stay, each told with its reason."""
    if not any(map(unwanted, device.blocks)):
        return
    kept = []
    for block in device.blocks:
        if unwanted(block):
            told.block(block, "left out", reason)
            kept += [Block(None, block.comments())] if block.comments() else []
        else:
            kept.append(block)
    device.blocks = kept


def cut_prompts(device, told):
    """Cuts out the lines in which the device's prompt stands, before and behind what it shows."""
    prompt = re.compile(re.escape(device.name) + r"(\([\w-]+\))?[#>] *")

    def is_prompt(block):
        """Whether the block is a prompt with a command that shows a configuration, or none."""
        found = prompt.match(block.head.text) if block.words() else None
        return found is not None and SHOWN_BY.match(block.head.text[found.end():].strip()) is not None and not block.inner()

    remove(device, told, is_prompt, "it is a prompt")


def is_list_of_others(words, used):
    """Whether words at the margin are an entry of a list of another protocol, which no interface names."""
    return words[:1] == ["access-list"] and len(words) > 1 and is_number(words[1]) and 200 <= int(words[1]) <= 1299 and words[1] not in used


def names_in_use(blocks):
    """The names of all lists that interfaces name."""
    return {line.words()[2] for block in blocks if block.command() == "interface" for line in block.inner()
            if line.words()[:2] == ["ip", "access-group"] and len(line.words()) > 2}


def is_setting(words):
    """Whether words at the margin set how lists log, how they are compiled, or how static routes are watched."""
    if words[:1] not in (["access-list"], ["ip"]):
        return False
    if words[0] == "access-list":
        return words[1:2] != [] and words[1] in ACCESS_LIST_SETTINGS
    if words[:2] == ["ip", "access-list"]:
        return words[2:3] != [] and words[2] in LIST_SETTINGS
    return words[:2] == ["ip", "route"] and any(words[2:2 + len(setting)] == setting for setting in ROUTE_SETTINGS)


def leave_out_others(device, told):
    """Leaves out what has no part in forwarding IPv4."""
    used = names_in_use(device.blocks)
    remove(device, told, lambda block: block.command() == "ipv6" and block.words()[:2] in IPV6_GLOBAL, NOT_IPV4)
    remove(device, told, lambda block: is_setting(block.words()), "it decides no packet")
    remove(device, told, lambda block: is_list_of_others(block.words(), used), "no access-group names the list, and %s" % NOT_IPV4)
    for block in device.blocks:
        if block.command() == "interface":
            for line in [line for line in block.inner() if "ipv6" in line.text and line.words()[:2] in IPV6_INTERFACE]:
                told.line(line, "left out", NOT_IPV4)
                block.body.remove(line)


def emptied(block):
    """The kind, or None where it isn't written, and the name of the list that a line at the margin takes away; None for other lines."""
    if block.command() != "no":
        return None
    words = block.words()
    if words[:3] == ["no", "ip", "access-list"] and len(words) > 3:
        rest = words[3:]
        kind = rest.pop(0) if rest[0] in ("standard", "extended") and len(rest) > 1 else None
        return (kind, rest[0]) if len(rest) == 1 else None
    if words[:2] == ["no", "access-list"] and len(words) > 2 and is_number(words[2]):
        return range_kind(int(words[2])), words[2]
    return None


def empty_lists(device, told):
    """Does what a `no` of a list does where it stands: what came before of that list goes; where nothing did, nothing happens."""
    if not any(emptied(block) for block in device.blocks):
        return
    kept = []
    for block in device.blocks:
        gone = emptied(block)
        if gone is None:
            kept.append(block)
            continue
        kind, name = gone
        before = [other for other in kept if (list_of(other) or (None, None))[1] == name]
        for other in before:
            if kind not in (None, list_of(other)[0]):
                raise block.head.refused("ListKindClash", name)
            told.block(other, "left out", "line %d takes the list away" % block.head.number)
        told.block(block, "left out", "it empties list %s" % name if before else "there is no list %s before it" % name)
        kept = [one for other in kept for one in ([Block(None, other.comments())] if any(other is gone for gone in before) else [other])]
        kept += [Block(None, block.comments())]
    device.blocks = [block for block in kept if block.lines()]
