#!/usr/bin/env bash
# Times the trace of a packet that goes to and fro between two routers until it expires, by the built program: states, processor
# seconds and megabytes, by how many routes each router has. A word chooses one number.
cd "$(dirname "$0")/.." || exit 1
folder=$(mktemp -d) || exit 1
trap 'rm -rf "$folder"' EXIT
./review >/dev/null 2>&1

measure() {
    rm -rf "${folder:?}"/*
    python3 bench/networks.py circle "$folder" "$1" || exit 1
    python3 - "$1" "$folder" <<'PYTHON'
import resource, subprocess, sys
routes, folder = sys.argv[1:]


def timed(*words):
    """The lines of what the program writes, and the processor seconds that it takes."""
    before = resource.getrusage(resource.RUSAGE_CHILDREN)
    run = subprocess.run(["./review", *words], stdout=subprocess.PIPE)
    after = resource.getrusage(resource.RUSAGE_CHILDREN)
    seconds = after.ru_utime + after.ru_stime - before.ru_utime - before.ru_stime
    return run.stdout.decode().splitlines(), seconds, after.ru_maxrss // 1024


reading = timed("read", folder + "/old")
trace = timed("trace", folder + "/old", folder + "/links", "R1", "Ethernet1", "9.9.9.9,10.1.1.2,6,80,1024,2")
states = sum(line.startswith("state ") for line in trace[0])
print("%s routes each: %d states, %s, %.3f s, %d MB (to read the folder alone %.3f s)" % (routes, states, trace[0][-1], trace[1], trace[2], reading[1]))
PYTHON
}

if [ $# -gt 0 ]; then
    measure "$@"
    exit
fi
for n in 1000 10000 100000 300000; do measure "$n"; done
