#!/usr/bin/env python3
"""Looks at a change window as a whole: what was not read, what changes, and which questions fail afterwards. docs/GUIDE.md tells how."""
import importlib
import os
import signal
import sys
import tempfile
import traceback

import answers
import documents
import expecting
import telling
from bringing import bring
from causes import Unfaithful
from comparing import found_in
from deciding import Deciding, helped, no_causes
from lines import find_causes
from parts import Lans
from programs import Stop, run, tell_unproved, version
from rest import rest_of
from statuses import causes_in, status_of
from verdict import fewest_lines
from words import USAGE, Usage, read_words


class Window:
    """The files of one run, in a folder that goes with it."""

    def __init__(self, words, folder, origins):
        self.words = words
        self.folder = folder
        self.origins = origins
        self.deciding = Deciding(words, folder, origins.rewritten)

    def path(self, name):
        """A file of the folder."""
        return os.path.join(self.folder, name)

    def examine(self):
        """The doctor's warnings, and the limits of the model that it tells. What it warns of may stop the comparison: then all of it
        is told before the line of that."""
        words = self.words
        run("doctor", ["--json", words.old, words.new] + words.tables(), self.path("notes"))
        found = answers.examination_of(self.path("notes"))
        return [warning.shown() for warning in found.warnings], found.limit_lines()

    def compare(self, notes):
        """The report of the comparison, with the edges that are to be ingresses."""
        words, tables = self.words, self.deciding.tables()
        try:
            run("review", ["compare", words.old, words.new] + tables, self.path("report"))
        except Stop as stop:
            told = helped(stop, words.tables(), self.refuses).told
            raise Stop(stop.status, b"".join(line.encode("utf-8", "surrogateescape") + b"\n" for line in notes) + told) from None
        if words.all_edges and not self.deciding.added:
            self.deciding.add_edges()
            return self.compare(notes) if self.deciding.added else self.report()
        return self.report()

    def report(self):
        """The report's text."""
        with open(self.path("report"), encoding="utf-8", errors="surrogateescape", newline="\n") as stream:
            return stream.read()

    def refuses(self, side, line):
        """Whether one network by itself is refused with this line."""
        words = self.words
        network = [words.old, words.links] if side == "old" else [words.new, words.tables()[-1]]
        try:
            run("review", ["trace", *network, "none", "none", "0.0.0.0,0.0.0.0,0,0,0,0"], self.path("refused"))
        except Stop as stop:
            return stop.told.rstrip(b"\n").endswith(line)
        return False

    def causes(self, report):
        """What each changed line does, and why nobody can tell where nobody can. `report` is what the comparison found."""
        words, work = self.words, self.path("lines")
        os.mkdir(work)
        try:
            return find_causes(words.old, words.new, self.deciding.tables(), report, work, self.origins, words.finer), ""
        except Unfaithful as unfaithful:
            return None, "the changed files aren't read here as `review` reads them (%s)" % unfaithful

    def decide(self, notes, warnings):
        """What is to be told, with the lines of which it comes."""
        text = self.compare(notes)
        report = found_in(self.path("report"))
        causes, untold = (None, "") if self.words.no_lines else self.causes(report)
        result = self.deciding.decide(text, report.places, warnings, causes.of if causes else no_causes)
        result.lines_untold = untold
        if causes:
            result.lines, result.idle, result.beside = causes.lines, causes.idle, causes.beside
            result.holds_back, result.notes = causes.holds_back, causes.notes
            behind = fewest_lines(result.undecided)
            if behind:
                lans = Lans(*self.deciding.networks())
                result.rest = rest_of(causes.without(behind), report, result.sources, lans, self.deciding.kinds)
        return result


def write_whole(path, content):
    """Writes a file whole or not at all."""
    place = os.path.dirname(os.path.abspath(path))
    try:
        with tempfile.NamedTemporaryFile(dir=place, prefix=".window-", delete=False) as stream:
            name = stream.name
            try:
                stream.write(content)
                stream.flush()
                mask = os.umask(0)
                os.umask(mask)
                os.chmod(name, 0o666 & ~mask)
                os.replace(name, path)
            except BaseException:
                os.unlink(name)
                raise
    except OSError:
        raise Stop(6, b"cannot write %s\n" % os.fsencode(path)) from None


def tell(lines):
    """Writes the lines; where nobody takes them, that is told."""
    try:
        sys.stdout.buffer.write("".join(line + "\n" for line in lines).encode("utf-8", "surrogateescape"))
        sys.stdout.buffer.flush()
    except OSError:
        # (what is left in the buffer is not to be tried again at the end)
        os.dup2(os.open(os.devnull, os.O_WRONLY), sys.stdout.fileno())
        raise Stop(6, b"cannot write\n") from None


def look(words, given):
    """Does what the words say; gives the status. `given` are the words as they were given."""
    fail_on = causes_in(words.fail_on)
    # (reading the modules of a page takes a third of the time of a small window without one)
    paging = importlib.import_module("paging") if words.page else None
    if paging:
        paging.check()
    tell_unproved(("doctor", "review", "view"), ("rollout",))
    with tempfile.TemporaryDirectory(prefix="diqenyu-window-") as folder:
        brought = bring(words, folder)
        rests = paging.Paging(words, brought, given) if paging else None
        window = Window(brought.words, folder, brought.origins)
        try:
            warnings, limits = window.examine()
            result = window.decide(brought.warnings + warnings + limits, warnings)
            add_warnings(result, brought.warnings, window.deciding)
        except Stop as stop:
            raise brought.own(stop) from None
        result = called_by_engineers(result, words, brought)
        status = status_of(result, fail_on)
        files = [(words.page, rests.page(result, status, window.deciding, limits))] if rests else []
        if words.keep:
            brought.keep(words.keep)
    files += [(path, make(result, status)) for path, make in ((words.json, documents.json_of), (words.sarif, documents.sarif_of),
                                                              (words.junit, documents.junit_of)) if path]
    if words.write_expect:
        files.append((words.write_expect, expecting.written(result.findings).encode("utf-8", "surrogateescape")))
    for path, content in files:
        write_whole(path, content)
    tell(telling.lines_of(result, words.foreign))
    return status


def add_warnings(result, told, deciding):
    """Adds the warnings of what was prepared, but for those that the baseline has."""
    sorting, accepted = deciding.sorting(), deciding.accepted()
    known = [warning for warning in told if sorting.accepted_key(warning) in accepted]
    result.warnings.new[:0] = [warning for warning in told if warning not in known]
    result.warnings.accepted[:0] = known


def called_by_engineers(result, words, brought):
    """The result with the paths and lines of the engineer's own files, and what was prepared."""
    called = brought.origins.called
    result.title, result.old, result.new = brought.title, words.old, words.new or words.tickets
    result.as_given = (brought.words.old, brought.words.new, brought.words.links) == (words.old, words.new, words.links)
    result.tables = tuple(called(table) for table in result.tables)
    result.lines = [line._replace(path=brought.own_path(line.path, line.at)) for line in result.lines]
    result.questions = result.questions and [one._replace(path=called(one.path)) for one in result.questions]
    result.expected = result.expected and result.expected._replace(path=called(result.expected.path))
    result.prepared, result.last = brought.told, brought.last
    return result


def end(*_):
    """A signal ends the window as an error does, so that its files are removed."""
    raise KeyboardInterrupt


def answer(words):
    """What the words ask for: help, a version, or a window."""
    if words == ["--help"]:
        tell(USAGE.splitlines())
        return 0
    if words == ["--version"]:
        tell(["window of Diqenyu %s, schema %d" % (version(), documents.VERSION)])
        return 0
    return look(read_words(words), words)


def main():
    """The status of a call."""
    for number in (signal.SIGTERM, signal.SIGINT, signal.SIGHUP):
        signal.signal(number, end)
    try:
        return answer(sys.argv[1:])
    except Usage:
        sys.stderr.write(USAGE)
        return 2
    except Stop as stop:
        sys.stderr.buffer.write(stop.told)
        return stop.status
    except KeyboardInterrupt:
        sys.stderr.write("window: interrupted\n")
        return 130
    except OSError as error:
        sys.stderr.write("window: %s\n" % error)
        return 4
    except Exception:
        # The status 1 of an error would be taken for an answer.
        traceback.print_exc()
        return 70


if __name__ == "__main__":
    sys.exit(main())
