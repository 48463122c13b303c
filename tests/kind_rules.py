"""The kinds of what a change does, by rules over its outcomes: a second opinion of the kinds in documents and windows."""
import os
import sys

sys.path.append(os.path.join(os.path.dirname(os.path.dirname(os.path.abspath(__file__))), "windowing"))

from kinds import is_on_one_lan  # noqa: E402


def drops(side):
    """Whether some way ends in a drop."""
    return any(outcome.end == "drop" for outcome in side.all)


def loops(side):
    """Whether some way goes round until it expires."""
    return any(outcome.end == "expired" for outcome in side.all)


# The first rule that holds says the kind.
RULES = (
    ("loops", lambda old, new, lans: loops(new) and not loops(old)),
    ("closes", lambda old, new, lans: bool(old.through) and not new.through),
    ("unanswered", lambda old, new, lans: bool(new.unanswered - old.unanswered)),
    ("opens", lambda old, new, lans: bool(new.through) and not old.through),
    # (nothing gets through in either network: what was dropped on some ways goes round on all of them)
    ("loops", lambda old, new, lans: not new.through and not drops(new)),
    ("loop gone", lambda old, new, lans: not new.through),
    ("sometimes", lambda old, new, lans: old.loses_some != new.loses_some),
    ("translated otherwise", lambda old, new, lans: old.through != new.through and old.places == new.places),
    ("moves on a lan", lambda old, new, lans: old.through != new.through and is_on_one_lan(old, new, lans)),
    ("moves", lambda old, new, lans: old.through != new.through),
    ("loop gone", lambda old, new, lans: loops(old) and not loops(new)),
    # (only what is lost beside a loop that stays)
    ("sometimes", lambda old, new, lans: True),
)


def kind_of(old, new, lans):
    """The kind of a change from one side to another one, for headers that have one side in each network; the sides differ.

    What gets through is each outcome `local` or `exit`; what is lost is `drop` and `expired`. An exit is answered by nobody where it
    leaves over a lan for an address that is not in a subnet of its interface: it was sent to a next hop that no end of the lan has. In
    this order:

    - `loops`: some way expires in the new network, and none in the old one; or nothing gets through in either, and in the new one every
      way expires
    - `closes`: something gets through in the old network, and nothing does in the new one
    - `unanswered`: an exit that nobody answers, which the old network doesn't have
    - `opens`: something gets through in the new network, and nothing does in the old one
    - `loop gone`: nothing gets through in either, and the new one has a drop
    - `sometimes`: something gets through in both, and ways are lost in exactly one of them
    - `translated otherwise`: what gets through differs, and ends in the same ways at the same places
    - `moves on a lan`: what gets through differs, and in both networks leaves over the same lans
    - `moves`: what gets through differs otherwise
    - `loop gone`: the same gets through, and only the old network has a way that expires
    - `sometimes`: the same gets through, and what is lost beside it differs otherwise
    """
    return next(kind for kind, holds in RULES if holds(old, new, lans))
