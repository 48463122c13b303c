"""Runs of the proved programs side by side.

Each job is a process of its own, as many at one time as there are processors. Where one ends with another status than those of an answer,
or the window is interrupted, all of them end.
"""
from __future__ import annotations

import os
import re
import subprocess
import threading
from concurrent.futures import FIRST_COMPLETED, Executor, Future, ThreadPoolExecutor, wait
from functools import lru_cache
from typing import Callable, NamedTuple, Sequence, TypeVar

from programs import Stop, command_of, standing

from launching.progress import Progress

REFUSED = 3


class Refused(NamedTuple):
    """A network that isn't accepted, with the program's line."""

    line: str


class Job(NamedTuple):
    """A call of a program: its name, its words, the file for its output, and the statuses with which it refuses its input."""

    program: str
    words: Sequence[str]
    path: str
    refuses: tuple[int, ...] = (REFUSED,)


def processors() -> int:
    """How many this process may use."""
    return len(os.sched_getaffinity(0)) if hasattr(os, "sched_getaffinity") else os.cpu_count() or 1


@lru_cache(maxsize=None)
def command(program: str) -> tuple[str, ...]:
    """How a program that is called many times is called."""
    return tuple(command_of(program))


def is_built(program: str) -> bool:
    """Whether a program stands built and may be run."""
    return standing(program) is not None


@lru_cache(maxsize=None)
def bounded() -> dict[str, str]:
    """The environment of the programs, in which the memory that they may take is said, so that no launcher looks for it again."""
    environment = dict(os.environ)
    if "DIQENYU_MEMORY" not in environment:
        found = [int(number) for number in re.findall(r"^MemAvailable: +([0-9]+)", read_text("/proc/meminfo"), re.MULTILINE)]
        found += [int(number) // 1024 for number in re.findall(r"^[0-9]+$", read_text("/sys/fs/cgroup/memory.max"), re.MULTILINE)]
        environment["DIQENYU_MEMORY"] = str(min(found, default=0))
    return environment


def read_text(path: str) -> str:
    try:
        with open(path, encoding="utf-8") as stream:
            return stream.read()
    except OSError:
        return ""


Result = TypeVar("Result")


def gathered(pool: Executor, call: Callable[..., Result], items: Sequence[object], progress: Progress,
             end: Callable[[], None]) -> list[Result]:
    """What the call gives for each item, in order. Where one fails, what hasn't begun is left, and `end` ends the others."""
    futures: list[Future[Result]] = [pool.submit(call, item) for item in items]
    waiting = set(futures)
    try:
        while waiting:
            done, waiting = wait(waiting, timeout=1, return_when=FIRST_COMPLETED)
            progress.step(len(done))
            for future in done:
                future.result()
    except BaseException:
        for future in futures:
            future.cancel()
        end()
        raise
    return [future.result() for future in futures]


def run_all(jobs: Sequence[Job], progress: Progress) -> list[Refused | None]:
    """Runs all jobs; says which of them were refused. Stop for any other end than an answer."""
    running: set[subprocess.Popen[bytes]] = set()
    stopped = threading.Event()

    def run(job: Job) -> Refused | None:
        with open(job.path, "wb") as output:
            process = subprocess.Popen([*command(job.program), *job.words], stdin=subprocess.DEVNULL, stdout=output,
                                       stderr=subprocess.PIPE, env=bounded())
        running.add(process)
        if stopped.is_set():
            process.terminate()
        told = process.communicate()[1]
        running.discard(process)
        status = process.returncode if process.returncode >= 0 else 128 - process.returncode
        if status in job.refuses:
            return Refused(told.decode("utf-8", "surrogateescape").strip().rsplit("\n", 1)[-1])
        if status > 1:
            raise Stop(status, told or b"%s: status %d\n" % (job.program.encode(), status))
        return None

    def end() -> None:
        stopped.set()
        for process in list(running):
            process.terminate()

    progress.more(len(jobs))
    with ThreadPoolExecutor(processors()) as pool:
        return gathered(pool, run, jobs, progress, end)


def answer_of(program: str, words: Sequence[str]) -> str | None:
    """The answer of a program that takes a moment, or None where what it reads is refused. Stop for any other end."""
    done = subprocess.run([*command(program), *words], stdin=subprocess.DEVNULL, stdout=subprocess.PIPE, stderr=subprocess.PIPE,
                          env=bounded())
    status = done.returncode if done.returncode >= 0 else 128 - done.returncode
    if status > 1 and status != REFUSED:
        raise Stop(status, done.stderr or b"%s: status %d\n" % (program.encode(), status))
    return done.stdout.decode("utf-8", "surrogateescape") if status <= 1 else None
