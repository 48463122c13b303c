"""What the tests have in common: folders of texts, runs of the programs, and the verifier where it is built."""
import calendar
import os
import shutil
import subprocess
import sys
import tempfile
import time
import unittest

TOP = os.path.dirname(os.path.dirname(os.path.dirname(os.path.abspath(__file__))))
sys.path.insert(0, TOP)
sys.path.insert(0, os.path.join(TOP, "tests"))

from launching import programs  # noqa: E402

STANDING = programs.standing("review")
BUILT = STANDING.path if STANDING else ""
needs_review = unittest.skipUnless(os.access(BUILT, os.X_OK), "the verifier isn't built; DIQENYU_REVIEW names another one")

# The day of all tables of routes.
DAY = "2026-03-05"


def set_day(folder):
    """Gives all files of a folder the day."""
    seconds = calendar.timegm(time.strptime(DAY, "%Y-%m-%d"))
    for name in os.listdir(folder):
        os.utime(os.path.join(folder, name), (seconds, seconds))


def remove_folder(path):
    """Takes a folder away, if it is there."""
    shutil.rmtree(path, ignore_errors=True)


def review(*words):
    """A run of the verifier."""
    return subprocess.run([BUILT, *words], capture_output=True, check=False)


class Folders(unittest.TestCase):
    """A test with a folder of its own."""

    def setUp(self):
        holder = tempfile.TemporaryDirectory()
        self.addCleanup(holder.cleanup)
        self.folder = holder.name

    def path(self, *names):
        return os.path.join(self.folder, *names)

    def write(self, name, content):
        """Writes a file of the folder; a text gets an end of line behind each line."""
        path = self.path(name)
        os.makedirs(os.path.dirname(path), exist_ok=True)
        if isinstance(content, (list, tuple)):
            content = "".join(line + "\n" for line in content)
        with open(path, "wb") as file:
            file.write(content if isinstance(content, bytes) else content.encode())
        return path

    def read(self, name):
        with open(self.path(name), "rb") as file:
            return file.read().decode("utf-8", "surrogateescape")

    def run_program(self, program, *words, environment=None):
        """Runs a program in the folder; gives its status and its error output, with the folder's name left out."""
        done = subprocess.run(
            [os.path.join(TOP, program)] + list(words), cwd=self.folder, capture_output=True, check=False,
            env=dict(os.environ, DIQENYU_REVIEW=BUILT, **(environment or {})))
        self.assertEqual(done.stdout, b"")
        return done.returncode, done.stderr.decode("utf-8", "surrogateescape")

    def assert_refused(self, status, lines, *words, program="prepare", environment=None, out="out"):
        """The program ends with the status and exactly these lines, and writes nothing."""
        before = sorted(os.listdir(self.folder))
        found = self.run_program(program, *words, environment=environment)
        self.assertEqual(found, (status, "".join(line + "\n" for line in lines)))
        self.assertEqual(sorted(os.listdir(self.folder)), before)
        self.assertFalse(os.path.exists(self.path(out)) and os.listdir(self.path(out)))
