"""Questions of both networks: who is asked what, and what is answered."""
from __future__ import annotations

import os
import re
from typing import Callable, Container, Iterable, NamedTuple, Sequence

import answers
from model import Question
from programs import Stop
from sources import write

# Asks a network ("old", "new") the questions of a file: the answers' lines.
Ask = Callable[[str, str], Sequence[str]]


class Asked(NamedTuple):
    """A question with its file and line, and which networks are asked it."""

    path: str
    line: int
    text: str
    networks: tuple[str, ...]


def devices_of(text: str) -> list[str]:
    """The devices that a question names: `reach R1 E0 to R2 E1 dst ..`."""
    words = text.split(" ")
    return [words[at] for at in (1, 4) if len(words) > at and (at == 1 or words[3:4] == ["to"])]


def questions_in(path: str) -> list[tuple[int, str]]:
    """The questions of a file with the numbers of their lines."""
    try:
        lines = answers.lines_of(path)
    except FileNotFoundError:
        raise Stop(8, b"not found %s\n" % os.fsencode(path)) from None
    found = []
    for number, line in enumerate(lines, 1):
        words = line.split()
        if words and not words[0].startswith("!"):
            found.append((number, " ".join(words)))
    return found


def asked_of(questions: str | None, questions_new: str | None, old: Container[str], new: Container[str]) -> list[Asked]:
    """Who is asked what: both networks the questions of the first file, but for those that name a device that only the old one has; the
    new network alone those of the second one."""
    found = []
    for number, text in questions_in(questions) if questions else ():
        added = [name for name in devices_of(text) if name in new and name not in old]
        if added:
            raise Stop(3, helped(os.fsencode("refused %s line %d UnknownPlace %s" % (questions, number, added[0])), "old"))
        retired = any(name in old and name not in new for name in devices_of(text))
        found.append(Asked(questions or "", number, text, ("old",) if retired else ("old", "new")))
    for number, text in questions_in(questions_new) if questions_new else ():
        found.append(Asked(questions_new or "", number, text, ("new",)))
    return found


def answers_of(lines: Iterable[str]) -> list[tuple[bool, str]]:
    """What is answered, in order: whether a question holds, and the packet that shows that it doesn't."""
    found = []
    for line in lines:
        answer = re.fullmatch(r"[0-9]+ (holds|fails)(?: (.*))?", line)
        if answer:
            found.append((answer[1] == "holds", answer[2] or ""))
    return found


def ask_all(asked: Sequence[Asked], folder: str, ask: Ask) -> list[Question]:
    """Asks each network its questions. A refusal is told with the file and the line of the question."""
    found: dict[tuple[str, int], tuple[bool, str]] = {}
    for network in ("old", "new"):
        for path in dict.fromkeys(one.path for one in asked):
            here = [at for at, one in enumerate(asked) if network in one.networks and one.path == path]
            if not here:
                continue
            # (each question at its own line, so that a refusal names it)
            lines = [""] * max(asked[at].line for at in here)
            for at in here:
                lines[asked[at].line - 1] = asked[at].text
            copy = write(os.path.join(folder, "questions-%s" % network), "".join(line + "\n" for line in lines))
            try:
                answered = answers_of(ask(network, copy))
            except Stop as stop:
                raise Stop(stop.status, helped(stop.told.replace(os.fsencode(copy), os.fsencode(path)), network)) from None
            found |= {(network, at): answer for at, answer in zip(here, answered)}
    questions = []
    for at, one in enumerate(asked):
        (before, packet_before), (after, packet_after) = (found.get((network, at), (None, "")) for network in ("old", "new"))
        questions.append(Question(one.path, one.line, one.text, before, after, packet_before, packet_after))
    return questions


def helped(told: bytes, network: str) -> bytes:
    """A refusal with the network that gave it, and which option helps."""
    if b" UnknownPlace " not in told:
        return told
    help_ = b": the old network hasn't it; --questions-new asks the new one alone" if network == "old" else b": the new network hasn't it"
    return told.rstrip(b"\n") + help_ + b"\n"
