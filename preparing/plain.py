"""Which texts `prepare` leaves as they are, seen soon: nothing that it changes or leaves out has a place in them.

Where this can't be seen, a text isn't plain, and is read whole; what is written is the same.
"""
import re

from .addresses import address_of, holds, length_of
from .names import ALL

WORDS = ALL | {"channel-group", "definition", "neq", "object-group", "switchport", "vrf"}
# Marks of editors of lines, and ends of lines; marks of pagers; settings of lists, and lists that a line takes away.
STRANGE = re.compile(r"[\x00\x08\r\x1b]")
PAGER = re.compile(r"-+ ?more ?-+", re.IGNORECASE)
LONG_NUMBER = re.compile("[0-9]{1000}")
LINES = re.compile(
    r"^\s*(?:no\s+(?:ip\s+)?access-list|ip\s+access-list\s+(?!standard|extended)|access-list\s+(?:[a-z]"
    r"|[2-9][0-9]{2}\s|1[0-2][0-9]{2}\s)|ip\s+route\s+(?![0-9])|ipv6\s+(?:unicast-routing|route|address|enable)|vlan\s+filter)",
    re.MULTILINE | re.IGNORECASE)
NEXT_HOP_ALONE = re.compile(r"^ip[ \t]+route[ \t]+(\S+)[ \t]+(\S+)[ \t]+([0-9]+\.[0-9]+\.[0-9]+\.[0-9]+)", re.MULTILINE)
SUBINTERFACE = re.compile(r"^interface[ \t]+\S+\.[0-9]", re.MULTILINE)
HOSTNAME = re.compile(r"^hostname[ \t]+(\S+)", re.MULTILINE)


def is_plain(text, as_written=False):
    """Whether `prepare` without tables, tickets and options leaves a text as it is."""
    if not WORDS.isdisjoint(text.split()) or text.startswith("\xef\xbb\xbf") or STRANGE.search(text) or LINES.search(text):
        return False
    # (what is rare is looked for where it may be)
    if "more" in text.lower() and PAGER.search(text) or max(map(len, text.split("\n"))) >= 1000 and LONG_NUMBER.search(text):
        return False
    names = HOSTNAME.findall(text)
    if not names or re.search(r"^%s(?:\([\w-]+\))?[#>]" % re.escape(names[-1]), text, re.MULTILINE):
        return False
    return as_written or not runs_otherwise(text)


def runs_otherwise(text):
    """Whether a router may run a text otherwise than the rules say: it has subinterfaces and a `shutdown`, or a route that leads to itself."""
    return "shutdown" in text and bool(SUBINTERFACE.search(text)) or any(map(may_lead_to_itself, NEXT_HOP_ALONE.findall(text)))


def may_lead_to_itself(words):
    """Whether the prefix of a static route by next hop alone holds the next hop, or isn't understood."""
    prefix, mask, hop = map(address_of, words)
    length = length_of(mask) if mask is not None else None
    return None in (prefix, length, hop) or holds(prefix, length, hop)
