"""One table of routes of a device: that of a VRF that is named, or the global one. What belongs to others is left out, and told."""
from .facts import is_static, static_of
from .faults import Refused
from .switching import commands_of, drop_lines, sections_of, without

FORWARDING = (["vrf", "forwarding"], ["ip", "vrf", "forwarding"])


def is_definition(block):
    """Whether a block makes a VRF."""
    words = block.words() if block.command() in ("vrf", "ip") else []
    return words[1:2] in (["definition"], ["vrf"]) and words[:2] in (["vrf", "definition"], ["ip", "vrf"]) and len(words) > 2


def definition_name(block):
    """The name of the VRF that a block makes."""
    return block.words()[2]


def vrf_of(lines):
    """The VRF of an interface's commands; None is the global table. The last line counts."""
    found = None
    for line in lines:
        for words in FORWARDING:
            if line.words()[:len(words)] == words:
                if len(line.words()) != len(words) + 1:
                    raise line.refused("MissingWord" if len(line.words()) == len(words) else "ExtraWord", (line.words()[len(words) + 1:] or [""])[0])
                found = line.words()[len(words)]
    return found


def choose(device, vrf, told):
    """Keeps what belongs to the VRF, or to the global table where none is named."""
    names = [definition_name(block) for block in device.blocks if is_definition(block)]
    if vrf is not None and vrf not in names:
        raise Refused(device.path, 0, "UnknownVrf", vrf)
    left_out = []
    for blocks in sections_of(device.blocks).values():
        own = vrf_of(commands_of(blocks))
        if own != vrf:
            left_out += blocks
            for block in blocks:
                told.block(block, "left out", "it is in %s" % ("VRF %s" % own if own else "the global table"))
        elif own is not None:
            for words in FORWARDING:
                drop_lines(blocks, words, told, "VRF %s is chosen" % vrf)
    for block in device.blocks:
        if is_definition(block):
            left_out.append(block)
            chosen = definition_name(block) == vrf
            told.block(block, "left out", "it is chosen" if chosen else "another table of routes is chosen")
        elif is_static(block):
            choose_static(block, vrf, left_out, told)
    device.blocks = without(device.blocks, left_out)


def choose_static(block, vrf, left_out, told):
    """Keeps a static route of the table that is chosen, without the name of its VRF."""
    static = static_of(block.head)
    if static.vrf != vrf:
        left_out.append(block)
        told.block(block, "left out", "it is in %s" % ("VRF %s" % static.vrf if static.vrf else "the global table"))
    elif vrf is not None:
        told.line(block.head, "replaced", "VRF %s is chosen" % vrf)
        block.head = block.head.again(" ".join(["ip", "route"] + block.words()[4:]))
