"""The documents of the proved program `view`, as they are asked for and read."""
from __future__ import annotations

import json
import os
import subprocess
import sys
import tempfile
from typing import Any, Sequence

from windowing.programs import Stop, command_of

USAGE_HEAD = b"usage:\n"


class Ended(Exception):
    """The proved program gave no document: with which status it ended. What it says stands on the error output already, but for its usage."""

    def __init__(self, status: int) -> None:
        super().__init__(status)
        self.status = status


def document_of(words: Sequence[str]) -> dict[str, Any]:
    """The document that `view` writes with these words. Its input, and files that a shell has opened, are those of this program. Ended where
    it writes none."""
    try:
        command = command_of("view")
    except Stop as stop:
        tell(stop.told)
        raise Ended(stop.status) from None
    with tempfile.TemporaryFile() as output:
        with subprocess.Popen([*command, *words], stdout=output, stderr=subprocess.PIPE, close_fds=False) as running:
            try:
                relay(running)
                status = running.wait()
            except BaseException:
                running.terminate()
                raise
        if status != 0:
            raise Ended(status if status > 0 else 128 - status)
        output.seek(0)
        return dict(json.load(output))


def relay(running: subprocess.Popen[bytes]) -> None:
    """Tells what the program says on its error output while it says it, but for its usage: that has no pages and tables."""
    assert running.stderr is not None
    for line in running.stderr:
        if line == USAGE_HEAD:
            break
        tell(line)
    running.stderr.read()


def tell(text: bytes) -> None:
    """Writes to the error output."""
    sys.stderr.buffer.write(text)
    sys.stderr.buffer.flush()


def report_document(path: str) -> dict[str, Any]:
    """The document of a report (docs/report-schema.json)."""
    return document_of(["--json", path])


def is_file(path: str) -> bool:
    """Whether the path is a file that can be read once more, and no pipe."""
    return os.path.isfile(path)
