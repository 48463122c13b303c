"""What a page rests on: the folders, files and programs of a run, with the sums of their bytes."""
from __future__ import annotations

import hashlib
import os
from typing import Iterable, Mapping

from launching.programs import find
from showing.page import File
from showing.texts import counted


def sum_of(content: bytes) -> str:
    """The sum of bytes, as `sha256sum` says it."""
    return hashlib.sha256(content).hexdigest()


def folder_sum(files: Mapping[str, bytes]) -> str:
    """The sum of a folder's files: what `LC_ALL=C; cd FOLDER; sha256sum *.cfg | sha256sum` says of their names and bytes."""
    lines = [sum_of(files[name]).encode() + b"  " + os.fsencode(name) + b"\n" for name in sorted(files, key=os.fsencode)]
    return sum_of(b"".join(lines))


def files_in(folder: str, endings: tuple[str, ...]) -> dict[str, bytes]:
    """The files of a folder with such an ending, as the shell's `*` finds them; what is no file is left to the program that tells it."""
    found = {}
    for name in sorted(os.listdir(folder)) if os.path.isdir(folder) else []:
        path = os.path.join(folder, name)
        if name.endswith(endings) and not name.startswith(".") and os.path.isfile(path):
            with open(path, "rb") as stream:
                found[name] = stream.read()
    return found


def folder_of(what: str, called: str, folder: str, ending: str) -> File:
    """A folder of the run."""
    files = files_in(folder, (ending,))
    return File(what, called, "%s," % counted(len(files), "file *" + ending, "files *" + ending), folder_sum(files))


def file_of(what: str, called: str, path: str) -> File:
    """A file of the run."""
    with open(path, "rb") as stream:
        content = stream.read()
    return File(what, called, "%s," % counted(len(content), "byte", "bytes"), sum_of(content))


def programs_of(names: Iterable[str]) -> list[File]:
    """The programs of the run by the sums of their files, which a release names in PROGRAMS, and whether they are proved."""
    return [file_of(program.name, program.told() + ",", program.path) for program in map(find, names)]
