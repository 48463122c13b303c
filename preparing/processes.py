"""Work on many files, side by side where that pays.

The processes begin as copies of this one, so that the work may be anything; what it gives is handed back as bytes, and should be small.
"""
import multiprocessing
import os
import signal
from concurrent.futures import ProcessPoolExecutor
from concurrent.futures.process import BrokenProcessPool

from launching.progress import Progress

from .faults import ProcessDied

# Below so many bytes, in all, a process of its own costs more than it spares.
LONG = 4_000_000
# So many files are handed to a process at one time.
CHUNK = 8
_WORK: list = []


def processors():
    """How many this process may use."""
    return len(os.sched_getaffinity(0)) if hasattr(os, "sched_getaffinity") else os.cpu_count() or 1


def begin(work):
    """Begins a process with the work that it does again and again. What interrupts the run ends it without a word."""
    _WORK[:] = [work]
    for number in (signal.SIGTERM, signal.SIGINT, signal.SIGHUP):
        signal.signal(number, signal.SIG_DFL)


def call(item):
    """Does the work of a process."""
    return _WORK[0](item)


def for_each(items, work, size):
    """What the work gives for each item, in order, of items that have so many bytes in all. An exception of the work is raised here, and
    ProcessDied where a process is killed. A terminal is told how far it is."""
    count = min(processors(), (len(items) + CHUNK - 1) // CHUNK)
    if size < LONG or count < 2:
        return [work(item) for item in items]
    with ProcessPoolExecutor(count, multiprocessing.get_context("fork"), begin, (work,)) as pool:
        progress, found = Progress("preparing", "files"), []
        progress.more(len(items))
        try:
            for result in pool.map(call, items, chunksize=CHUNK):
                found.append(result)
                progress.step(1)
        except BrokenProcessPool:
            raise ProcessDied from None
        finally:
            progress.end()
        return found
