#!/usr/bin/env bash
# Times the answers to questions, by the built program, on networks that networks.py makes: how many fail, seconds, also those of a
# processor, and megabytes. All headers are asked of, but for the fabric, where a question for each pair of 20 leaves asks of one's
# subnet, and for `leaves`, where a question for each leaf asks so from one of them, and a hundred are asked for loops. REVIEW names
# another program that is timed beside the built one. Words choose one network, as `list 1000 20`, or `generated 7 200`: the networks of
# `gen 7 200`.
cd "$(dirname "$0")/.." || exit 1
folder=$(mktemp -d) || exit 1
trap 'rm -rf "$folder"' EXIT
./review >/dev/null 2>&1

# questions NETWORK ..: what is asked of it.
questions() {
    case $1 in
    generated)
        echo "reach R1 Ethernet2 to R$3 Ethernet2"
        echo "isolate R1 Ethernet2 to R$3 Ethernet2"
        echo "noloop R1 Ethernet2"
        ;;
    list)
        echo "isolate R1 Ethernet0 to R1 Ethernet1"
        echo "noloop R1 Ethernet0"
        ;;
    fabric)
        for from in $(seq 20); do
            for to in $(seq 20); do
                [ "$from" = "$to" ] || echo "reach Leaf$from Ethernet0 to Leaf$to Ethernet0 dst 10.1.$to.0/25"
            done
        done
        ;;
    leaves)
        for to in $(seq 2 $(($3 - 1))); do
            echo "reach Leaf1 Ethernet0 to Leaf$to Ethernet0 dst 10.1.$to.0/25"
        done
        for from in $(seq 100); do
            echo "noloop Leaf$from Ethernet0"
        done
        ;;
    ring)
        echo "reach R1 Ethernet0 to R$(($2 / 2)) Ethernet0"
        echo "isolate R1 Ethernet0 to R$(($2 / 2)) Ethernet0"
        echo "noloop R1 Ethernet0"
        ;;
    esac
}

measure() {
    rm -rf "${folder:?}"/*
    if [ "$1" = generated ]; then
        python3 tests/generated.py "$folder" "$2" "$3" || exit 1
    else
        python3 bench/networks.py "$1" "$folder" "${@:2}" || exit 1
    fi
    questions "$@" >"$folder/questions"
    python3 - "$*" "$folder" <<'PYTHON'
import os, resource, subprocess, sys, time
name, folder = sys.argv[1:]


def timed(program, *questions):
    """The answers to these questions, or to all."""
    path = folder + "/questions"
    if questions:
        path = folder + "/one"
        open(path, "w").write("".join(questions))
    before = resource.getrusage(resource.RUSAGE_CHILDREN).ru_utime
    start = time.monotonic()
    run = subprocess.run([program, "ask", folder + "/old", folder + "/links", path], stdout=subprocess.PIPE)
    seconds = time.monotonic() - start
    used = resource.getrusage(resource.RUSAGE_CHILDREN)
    last = run.stdout.decode().splitlines()[-1:] or ["nothing"]
    print("%-20s status %d, %s, %.3f s (%.3f of a processor), %d MB" % (name, run.returncode, last[0], seconds, used.ru_utime - before, used.ru_maxrss // 1024))


lines = open(folder + "/questions").readlines()
for program in ["./review"] + [p for p in [os.environ.get("REVIEW")] if p]:
    timed(program)
    if len(lines) < 5:
        for line in lines:
            print("    " + line.strip())
            timed(program, line)
PYTHON
}

if [ $# -gt 0 ]; then
    measure "$@"
    exit
fi
measure generated 7 200
for n in 1000 10000; do measure list $n 20; done
measure fabric 16 64
measure leaves 16 250
measure ring 100
