"""Files and folders of a revision of a git repository, laid out for a run."""
from __future__ import annotations

import os
import subprocess
from typing import NamedTuple

from programs import Stop


class Blob(NamedTuple):
    """A file of a tree: its mode, its object and its name."""

    mode: str
    identity: str
    name: str


def told(text: str) -> bytes:
    """A line for the error output."""
    return (text + "\n").encode("utf-8", "surrogateescape")


class Repository:
    """A repository, or a folder within one: paths are those from there."""

    def __init__(self, path: str):
        self.path = path
        if not os.path.isdir(path):
            raise Stop(8, told("not found %s" % path))
        self.prefix = self.line("rev-parse", "--show-prefix", fails="%s is no git repository" % path)

    def git(self, *words: str, given: bytes = b"") -> subprocess.CompletedProcess[bytes]:
        """Runs git with these words."""
        environment = dict(os.environ, GIT_OPTIONAL_LOCKS="0", LC_ALL="C")
        try:
            return subprocess.run(["git", "-C", self.path, *words], input=given, capture_output=True, check=False, env=environment)
        except FileNotFoundError:
            raise Stop(70, told("window: git isn't on the PATH")) from None

    def line(self, *words: str, fails: str) -> str:
        """The line that git writes; where it ends with an error, the run ends with status 8 and what fails."""
        done = self.git(*words)
        if done.returncode:
            raise Stop(8, told("window: %s" % fails))
        return os.fsdecode(done.stdout).rstrip("\n")

    def commit(self, revision: str) -> str:
        """The commit that a revision names."""
        shallow = self.git("rev-parse", "--is-shallow-repository").stdout.strip() == b"true"
        more = "; the clone is shallow, and git fetch --unshallow brings the rest" if shallow else ""
        return self.line("rev-parse", "--verify", "--quiet", "--end-of-options", revision + "^{commit}",
                         fails="%s has no revision %s%s" % (self.path, revision, more))

    def inside(self, path: str) -> str:
        """A path as the revision's tree has it."""
        whole = os.path.normpath(os.path.join(self.prefix, path))
        return "" if whole == "." else whole

    def blobs(self, commit: str, path: str) -> list[Blob] | None:
        """The files of a folder, without its folders; None where there is no such folder."""
        done = self.git("ls-tree", "--full-tree", "-z", "%s:%s" % (commit, self.inside(path)))
        if done.returncode:
            return None
        entries = [entry.split("\t", 1) for entry in os.fsdecode(done.stdout).split("\0") if entry]
        return [Blob(kind.split(" ")[0], kind.split(" ")[2], name) for kind, name in entries if kind.split(" ")[1] == "blob"]

    def contents(self, identities: list[str]) -> list[bytes | None]:
        """The bytes of objects, in order; None for one that isn't there."""
        output = self.git("cat-file", "--batch", given="".join(one + "\n" for one in identities).encode()).stdout
        found: list[bytes | None] = []
        place = 0
        for _ in identities:
            end = output.find(b"\n", place)
            words = output[place:end].split(b" ") if end >= 0 else []
            if len(words) != 3:
                found.append(None)
                place = end + 1 if end >= 0 else len(output)
                continue
            size = int(words[2])
            found.append(output[end + 1:end + 1 + size])
            place = end + 2 + size
        return found

    def day(self, commit: str, path: str) -> int:
        """When a path was changed last before a commit, in seconds; 0 where that isn't known."""
        done = self.git("log", "-1", "--format=%ct", commit, "--", path)
        return int(done.stdout.strip() or 0)


class Revision:
    """A revision of a repository, of which files are laid out in a folder of the run. `names` has what each is called."""

    def __init__(self, repository: Repository, revision: str, folder: str):
        self.repository, self.revision, self.into = repository, revision, folder
        self.commit = repository.commit(revision)
        self.names: dict[str, str] = {}

    def called(self, path: str) -> str:
        """What a path of the revision is called."""
        return "%s:%s" % (self.revision, path)

    def folder(self, path: str, dated: bool = False) -> str:
        """Lays the files of a folder out, and gives the folder; `dated` gives them the times of their last change."""
        blobs = self.repository.blobs(self.commit, path)
        if blobs is None:
            raise Stop(8, told("not found %s" % self.called(path)))
        return self.lay_out(path, blobs, dated)

    def file(self, path: str) -> str:
        """Lays a file out, and gives its path."""
        blobs = self.repository.blobs(self.commit, os.path.dirname(path) or ".") or []
        wanted = [blob for blob in blobs if blob.name == os.path.basename(path)]
        if not wanted:
            raise Stop(8, told("not found %s" % self.called(path)))
        return os.path.join(self.lay_out(os.path.dirname(path) or ".", wanted, False), wanted[0].name)

    def lay_out(self, path: str, blobs: list[Blob], dated: bool) -> str:
        """Writes files of a folder."""
        target = os.path.join(self.into, self.repository.inside(path))
        os.makedirs(target, exist_ok=True)
        for blob, content in zip(blobs, self.repository.contents([blob.identity for blob in blobs])):
            name = os.path.join(path, blob.name) if path != "." else blob.name
            if content is None or blob.mode == "120000":
                raise Stop(4, told("cannot read %s%s" % (self.called(name), ": it is a link" if content is not None else "")))
            place = os.path.join(target, blob.name)
            with open(place, "wb") as stream:
                stream.write(content)
            if dated:
                seconds = self.repository.day(self.commit, name)
                os.utime(place, (seconds, seconds))
            self.names[place] = self.called(name)
        self.names[target] = self.called(path)
        return target


class WorkingTree:
    """The working tree of a repository, where no second revision is named: its files are read where they are."""

    def __init__(self, repository: Repository):
        self.repository = repository
        self.names: dict[str, str] = {}

    def folder(self, path: str, dated: bool = False) -> str:
        """The folder, which is there."""
        found = os.path.join(self.repository.path, path)
        if not os.path.isdir(found):
            raise Stop(8, told("not found %s" % found))
        return found

    def file(self, path: str) -> str:
        """The file, which is there."""
        found = os.path.join(self.repository.path, path)
        if not os.path.isfile(found):
            raise Stop(8, told("not found %s" % found))
        return found
