#!/usr/bin/env python3
"""Times `sweep` under each single failure of a fabric, beside a plain loop over the same failures, and interrupts it and resumes it.

    sweep.py S L [LOOP]       S spines and L leaves; the plain loop takes the first LOOP failures, all without the word

The last line says whether the interrupted and resumed sweep wrote the same bytes.
"""
import glob
import os
import shutil
import signal
import subprocess
import sys
import tempfile
import time

TOP = os.path.dirname(os.path.dirname(os.path.abspath(__file__)))


def start(words, output):
    return subprocess.Popen([os.path.join(TOP, "sweep")] + words, stdout=output, stderr=subprocess.DEVNULL, start_new_session=True)


def timed(words, path):
    began = time.monotonic()
    with open(path, "wb") as output:
        status = start(words, output).wait()
    return status, time.monotonic() - began


def interrupted(words, folder, half, path):
    """Stops a sweep by the signal of a terminal once so many results are there, and starts it again."""
    with open(path, "wb") as output:
        running = start(words, output)
        while running.poll() is None and len(glob.glob(os.path.join(folder, "results", "*.seq"))) < half:
            time.sleep(0.1)
        os.killpg(running.pid, signal.SIGINT)
        running.wait()
    with open(os.path.join(folder, "joblog"), encoding="latin-1") as log:
        there = len(log.readlines()) - 1
    return there, timed(words, path)


def loop(folder, count):
    """Does the same jobs one after the other."""
    kit, = glob.glob(os.path.join(folder, "kit-*"))
    with open(os.path.join(kit, "jobs"), encoding="ascii") as stream:
        jobs = stream.read().split()[:count]
    began = time.monotonic()
    for job in jobs:
        subprocess.run([sys.executable, "-S", os.path.join(kit, "job.py"), job], stdout=subprocess.DEVNULL, check=True)
    return len(jobs), time.monotonic() - began


def main():
    spines, leaves, *count = sys.argv[1:]
    scratch = tempfile.mkdtemp()
    try:
        subprocess.run([sys.executable, os.path.join(TOP, "bench", "networks.py"), "fabric", scratch, spines, leaves], check=True)
        words = ["compare"] + [os.path.join(scratch, name) for name in ("old", "new", "links")] + ["--folder"]
        whole, stopped = os.path.join(scratch, "whole"), os.path.join(scratch, "stopped")
        status, seconds = timed(words + [whole], whole + ".answer")
        with open(whole + ".answer", encoding="latin-1") as answer:
            last = answer.read().splitlines()[-1]
        print("sweep: status %d, %s, %.1f s on %d cores, load %.1f" % (status, last, seconds, os.cpu_count(), os.getloadavg()[0]))
        print("plain loop: %d failures, %.1f s" % loop(whole, int(count[0]) if count else None))
        half = int(last.split()[1]) // 2
        there, (status, seconds) = interrupted(words + [stopped], stopped, half, stopped + ".answer")
        print("interrupted at %d results, resumed: status %d, %.1f s" % (there, status, seconds))
        with open(whole + ".answer", "rb") as first, open(stopped + ".answer", "rb") as second:
            same = first.read() == second.read()
        print("the same bytes" if same else "OTHER BYTES")
        return 0 if same else 1
    finally:
        shutil.rmtree(scratch)


if __name__ == "__main__":
    sys.exit(main())
