"""`view` where it is asked for a page, a table or test cases: the document of the proved program, rendered."""
from __future__ import annotations

import gc
import os
import shlex
import sys
import traceback
from typing import Sequence

TOP = os.path.dirname(os.path.dirname(os.path.abspath(__file__)))
sys.path.insert(0, TOP)

from showing import answered, audited, cases, evidence, explained, links, reported, tables, traced  # noqa: E402
from showing.asked import USAGE, Asked, Usage, asked_of  # noqa: E402
from showing.documents import Ended, document_of, is_file, report_document, tell  # noqa: E402
from showing.page import File  # noqa: E402
from showing.picture import Wiring  # noqa: E402
from showing.rendering import NoJinja, with_jinja  # noqa: E402
from showing.texts import bytes_text  # noqa: E402


class Stop(Exception):
    """The run ends here, with a status and the line that says why."""

    def __init__(self, status: int, told: bytes) -> None:
        super().__init__(status, told)
        self.status, self.told = status, told


# ---- what pages stand on


def table_of(path: str) -> Wiring:
    """The wiring of a link table. Stop as the proved programs end where there is none."""
    try:
        return links.wiring_of(links.content_of(path))
    except links.Refused as refused:
        word = b" " + refused.word if refused.word else b""
        line = b"refused %s line %d %s%s\n" % (os.fsencode(path), refused.line, refused.kind.encode(), word)
        raise Stop(3, line) from None
    except links.Unread as unread:
        raise Stop(unread.status, b"%s %s\n" % (unread.told.encode(), os.fsencode(path))) from None


def files_of(*named: tuple[str, str]) -> list[File]:
    """The evidence of files and folders: each with what it is, and its path. What can't be read once more has none."""
    found = []
    for what, path in named:
        if os.path.isdir(path):
            found.append(evidence.folder_of(what, bytes_text(path), path, ".cfg"))
        elif is_file(path):
            found.append(evidence.file_of(what, bytes_text(path), path))
    return found


def command_of(words: Sequence[str]) -> str:
    """The command as it was typed."""
    return bytes_text(shlex.join(["./view", *words]))


def programs() -> list[File]:
    """The proved program that wrote the document."""
    return evidence.programs_of(("view",))


# ---- what is asked


def report(asked: Asked, words: Sequence[str]) -> bytes:
    """A report, as a page or a table."""
    path = asked.operands[0]
    if asked.form == "--csv":
        return tables.report_table(report_document(path))
    # (the table is read before the report is judged, but behind its file)
    wiring = table_of(asked.operands[1]) if asked.operands[1:] and os.path.exists(path) else None
    document = report_document(path)
    files = files_of(*zip(("report", "links"), asked.operands))
    return reported.page_of(document, reported.Beside(bytes_text(asked.title), command_of(words), files, programs(), wiring))


def why(asked: Asked, words: Sequence[str]) -> bytes:
    """The page of a report whose groups are explained."""
    old, new, table, path = asked.operands
    told = document_of([asked.command, "--json", *asked.operands])
    files = files_of(("today", old), ("planned", new), ("links", table), ("report", path))
    return reported.page_of(report_document(path), reported.Beside(
        "", command_of(words), files, programs(), table_of(table), explained.explained_of(told), (told["groups"], told["explained"])))


def traces(asked: Asked, words: Sequence[str]) -> bytes:
    """The page of a packet in two networks."""
    old, new, table = asked.operands[:3]
    document = document_of(["--traces", "--json", *asked.operands])
    files = files_of(("today", old), ("planned", new), ("links", table))
    return traced.page_of(document, traced.Beside(command_of(words), files, programs(), table_of(table)))


def audit(asked: Asked, words: Sequence[str]) -> bytes:
    """The findings of an audit, as a page or a table."""
    document = document_of(["--audit", "--json", *(["--rows"] if asked.with_rows else []), *asked.operands])
    if asked.form == "--csv":
        return tables.audit_table(document)
    files = files_of(*zip(("findings", "network"), asked.operands))
    return audited.page_of(document, audited.Beside(command_of(words), files, programs()))


def answers(asked: Asked, words: Sequence[str]) -> bytes:
    """Answers to questions, as a page, a table or test cases."""
    document = document_of(["--answers", "--json", *asked.operands])
    if asked.form == "--csv":
        return tables.answers_table(document)
    if asked.form == "--junit":
        return cases.cases_of(document)
    names = ("questions", "before", "after") if asked.operands[2:] else ("questions", "answers")
    files = files_of(*zip(names, asked.operands))
    return answered.page_of(document, answered.Beside(command_of(words), files, programs()))


COMMANDS = {"report": report, "--why": why, "--why-all": why, "--traces": traces, "--audit": audit, "--answers": answers}


def content_of(words: Sequence[str]) -> bytes:
    """What the words ask for."""
    asked = asked_of(words)
    if asked.form == "--html":
        with_jinja()
    return COMMANDS[asked.command](asked, words)


def main(words: Sequence[str]) -> int:
    """Writes what the words ask for, and gives the status."""
    try:
        content = USAGE.encode() if list(words) == ["--help"] else content_of(words)
    except Usage:
        return ended(2, USAGE.encode())
    except Ended as end:
        return ended(end.status, USAGE.encode() if end.status == 2 else b"")
    except Stop as stop:
        return ended(stop.status, stop.told)
    except NoJinja:
        return ended(70, b"view: Debian's package python3-jinja2 is missing\n")
    except MemoryError:
        return ended(7, b"no memory\n")
    except Exception:
        # (a fault of this program: no status that says something of a report)
        traceback.print_exc()
        return 70
    try:
        sys.stdout.buffer.write(content)
        sys.stdout.buffer.flush()
    except OSError:
        # (what is left in the buffer would be told once more at the end)
        os.dup2(os.open(os.devnull, os.O_WRONLY), sys.stdout.fileno())
        return ended(6, b"cannot write\n")
    return 0


def ended(status: int, told: bytes) -> int:
    """Says why there is nothing, and gives the status."""
    tell(told)
    return status


if __name__ == "__main__":
    # (a document is a tree of millions of values, none of which goes before the end)
    gc.disable()
    sys.exit(main(sys.argv[1:]))
