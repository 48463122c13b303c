#!/usr/bin/env bash
# Times the audit of one list of generated entries, as the built program does it: findings, rows, seconds and megabytes. Two
# words choose one list: how many entries, and how many of a hundred source or destination addresses are `any`.
cd "$(dirname "$0")/.." || exit 1
folder=$(mktemp -d) || exit 1
trap 'rm -rf "$folder"' EXIT
./rollout >/dev/null 2>&1

measure() {
    rm -rf "${folder:?}"/*
    python3 bench/networks.py list "$folder" "$1" "$2" || exit 1
    python3 - "$1" "$2" "$folder/old" <<'PYTHON'
import resource, subprocess, sys, time
entries, percent, net = sys.argv[1:]
start = time.monotonic()
run = subprocess.Popen(["./rollout", "audit", net], stdout=subprocess.PIPE)
rows, last = 0, "nothing"
for line in run.stdout:
    rows += line.startswith(b"dst ")
    last = line.decode().strip()
status = run.wait()
seconds = time.monotonic() - start
memory = resource.getrusage(resource.RUSAGE_CHILDREN).ru_maxrss // 1024
print("%s entries, %s %% open: status %d, %s, %d rows, %.3f s, %d MB" % (entries, percent, status, last, rows, seconds, memory))
PYTHON
}

if [ $# -gt 0 ]; then
    measure "$@"
    exit
fi
for n in 100 1000 5000; do measure $n 0; done
for n in 60 100 300; do measure $n 20; done
