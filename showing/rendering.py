"""Pages: Jinja2's templates with autoescaping, and a policy that lets a page ask for nothing."""
from __future__ import annotations

import base64
import hashlib
import json
import os
import sys
from types import MappingProxyType
from typing import Any, Mapping, Sequence

from showing.texts import counted, full_place, short, short_place

# Where Debian puts its packages; the programs run without them.
PACKAGES = "/usr/lib/python3/dist-packages"
TEMPLATES = os.path.join(os.path.dirname(os.path.abspath(__file__)), "templates")


class NoJinja(Exception):
    """Debian's package python3-jinja2 isn't there."""


def with_jinja() -> Any:
    """Debian's Jinja2. NoJinja where it isn't there."""
    if PACKAGES not in sys.path:
        sys.path.append(PACKAGES)
    try:
        import jinja2
    except ModuleNotFoundError:
        raise NoJinja from None
    return jinja2


def part(name: str) -> str:
    """A style or a script that stands beside the templates."""
    with open(os.path.join(TEMPLATES, name), encoding="utf-8") as stream:
        return stream.read()


def sum_of(text: str) -> str:
    """What a policy for contents names a style or a script by."""
    return "'sha256-%s'" % base64.b64encode(hashlib.sha256(text.encode("utf-8")).digest()).decode()


def policy_of(styles: Sequence[str], script: str) -> str:
    """The policy of a page: its own styles and its own script, and nothing else."""
    allowed = "style-src %s" % " ".join(map(sum_of, styles))
    if script:
        allowed += "; script-src " + sum_of(script)
    return "default-src 'none'; img-src data:; base-uri 'none'; form-action 'none'; " + allowed


def ways_style(prefix: str, numbers: Sequence[int]) -> str:
    """Without a script: the way of what is open, of which `prefix` and the number are the name."""
    rules = ["html:not(.js) body:has(#%s%d[open]) #w%d { display: inline; }" % (prefix, number, number) for number in numbers]
    return "\n" + "\n".join(rules) + "\n"


def data_of(value: Any) -> str:
    """A value for the page's script, as the text of an element `script`: it has no character with which markup begins."""
    return json.dumps(value, separators=(",", ":")).replace("<", "\\u003c")


def rendered(template: str, context: Mapping[str, Any], styles: Sequence[str], script: str = "",
             data: Mapping[str, str] = MappingProxyType({})) -> bytes:
    """The page of a template in UTF-8. It asks for nothing: styles and script are in it, and its policy forbids all else. `data` is by
    ids what `data_of` wrote. NoJinja where Jinja2 isn't there."""
    jinja2 = with_jinja()
    from markupsafe import Markup

    environment = jinja2.Environment(autoescape=True, undefined=jinja2.StrictUndefined, trim_blocks=True, lstrip_blocks=True,
                                     loader=jinja2.FileSystemLoader(TEMPLATES))
    environment.globals.update(short=short, short_place=short_place, full_place=full_place, counted=counted)
    # (the only texts that aren't escaped: files beside the templates, numbers, and data without markup)
    own = {"styles": [Markup(style) for style in styles], "script": Markup(script), "data": {name: Markup(text) for name, text in data.items()}}
    return environment.get_template(template).render(context, policy=policy_of(styles, script), **own).encode("utf-8")
