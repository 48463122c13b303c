"""The texts of a sweep as routers run them: a static route whose own prefix holds its next hop goes out of the interface that reaches it,
and a subinterface is shut with its main interface. What is done is what `prepare` does; here it is done for each failure."""
import os
import sys

sys.path.append(os.path.dirname(os.path.dirname(os.path.abspath(__file__))))

from preparing import plain  # noqa: E402
from preparing.as_running import shut_below, write_exits  # noqa: E402
from preparing.blocks import blocks_of, lines_of  # noqa: E402
from preparing.faults import Fault  # noqa: E402
from preparing.texts import Line  # noqa: E402


def as_running(content):
    """The bytes of a configuration as a router runs it. What isn't understood stays, and the verifier tells it."""
    text = content.decode("latin-1")
    if not plain.runs_otherwise(text):
        return content
    try:
        blocks = blocks_of([Line(one, "", number) for number, one in enumerate(text.split("\n"), 1)])
        if not write_exits(blocks) + shut_below(blocks):
            return content
    except Fault:
        return content
    return "\n".join(line.text for line in lines_of(blocks)).encode("latin-1")
