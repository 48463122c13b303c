"""The proved programs, as they are called."""
import os
import subprocess
import sys

TOP = os.path.dirname(os.path.dirname(os.path.abspath(__file__)))
sys.path.insert(0, TOP)

from launching.programs import NOT_BUILT, NotBuilt, command, standing, unproved_line, version  # noqa: E402,F401


class Stop(Exception):
    """The window ends here, with a status and the bytes that are to be told."""

    def __init__(self, status, told):
        super().__init__(told)
        self.status = status
        self.told = told


def command_of(name):
    """How a program is called, before its words."""
    try:
        return command(name)
    except NotBuilt as none:
        raise Stop(NOT_BUILT, none.told.encode("utf-8", "surrogateescape")) from None


def tell_unproved(needed, others):
    """Tells on one line which of these programs are not proved here; of the others those alone that stand built. Ends the window where one
    that is needed can't be run."""
    for name in needed:
        command_of(name)
    line = unproved_line("window", [*needed, *(name for name in others if standing(name))])
    sys.stderr.buffer.write(line.encode("utf-8", "surrogateescape"))
    sys.stderr.buffer.flush()


def end_of(running):
    """Waits for a program; where the window is ended meanwhile, so is the program."""
    try:
        return running.communicate()[1]
    except BaseException:
        running.terminate()
        running.wait()
        raise


def run(name, words, path):
    """Runs a program with its output in a file, and gives its status, 0 or 1; any other one ends the window with the program's line."""
    with open(path, "wb") as output:
        running = subprocess.Popen(command_of(name) + words, stdin=subprocess.DEVNULL, stdout=output, stderr=subprocess.PIPE)
        told = end_of(running)
    status = running.returncode if running.returncode >= 0 else 128 - running.returncode
    if status > 1:
        raise Stop(status, told or b"%s: status %d\n" % (os.fsencode(name), status))
    sys.stderr.buffer.write(told)
    return status
