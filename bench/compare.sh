#!/usr/bin/env bash
# Times the built program on networks that networks.py makes, by 1, 2 and 4 workers: rows, seconds of the clock and of the processors,
# megabytes, and how many times as fast as one worker. REVIEW names another program that is timed beside it. Words choose one network, as
# `list 100 20`, or `generated 7 200`: the networks of `gen 7 200`, from files, and that command itself.
cd "$(dirname "$0")/.." || exit 1
folder=$(mktemp -d) || exit 1
trap 'rm -rf "$folder"' EXIT
./review >/dev/null 2>&1

measure() {
    name=$*
    rm -rf "${folder:?}"/*
    if [ "$1" = generated ]; then
        python3 tests/generated.py "$folder" "$2" "$3" || exit 1
    else
        python3 bench/networks.py "$1" "$folder" "${@:2}" || exit 1
    fi
    python3 - "$name" "$folder" <<'PYTHON'
import os, subprocess, sys, time
name, folder = sys.argv[1:]
words = ["compare", folder + "/old", folder + "/new", folder + "/links"]
programs = ["build/proved/review"] + [p for p in [os.environ.get("REVIEW")] if p]


def timed(program, *words):
    """Runs the program: its status, its last line, and seconds of the clock, of the processors, and megabytes of this run."""
    start = time.monotonic()
    run = subprocess.Popen([program, *words], stdout=subprocess.PIPE)
    last = b"nothing"
    for last in run.stdout:
        pass
    _, status, used = os.wait4(run.pid, 0)
    return os.waitstatus_to_exitcode(status), last.decode().strip(), time.monotonic() - start, used.ru_utime + used.ru_stime, used.ru_maxrss // 1024


for program in programs:
    print("%-24s %s" % (name, "" if program is programs[0] else program))
    one = None
    for workers in 1, 2, 4:
        status, last, clock, processors, memory = timed(program, *words, "--workers", str(workers))
        one = one or clock
        print("    %d workers: status %d, %s, clock %.3f s, processors %.3f s, %d MB, %.2f times as fast as one" % (workers, status, last, clock, processors, memory, one / clock))
if name.startswith("generated "):
    status, last, clock, processors, memory = timed(programs[0], "gen", *name.split()[1:])
    print("    gen: status %d, %s, clock %.3f s, processors %.3f s, %d MB" % (status, last, clock, processors, memory))
PYTHON
}

if [ $# -gt 0 ]; then
    measure "$@"
    exit
fi
for n in 50 100 200; do measure chain $n; done
measure generated 7 200
measure fabric 4 16
measure fabric 16 64
measure listed 16 64 50 5
measure leaves 16 250
measure layers 16 8 4 20
measure ring 100
measure device 10000 1000 100
measure hops 300000 1250
measure folders 1000
for n in 1000 3000; do
    measure list $n 0
    measure list $n 20
done
measure lists 3000 0 100
measure lists 3000 20 100
for n in 50 100 200 400; do
    for change in route list translation; do measure crossed $n $change; done
done
