#!/usr/bin/env bash
# Times reviews of edits by the built program, beside a comparison from nothing of two versions of the same network: seconds of a
# processor and megabytes of the review that is opened alone, and of each kind of edit (edits.py) the milliseconds of one. Words choose
# one network, as `fabric 4 30`, behind the number of its ingresses.
cd "$(dirname "$0")/.." || exit 1
folder=$(mktemp -d) || exit 1
trap 'rm -rf "$folder"' EXIT
review=${DIQENYU_REVIEW:-build/proved/review}
rollout=${DIQENYU_ROLLOUT:-build/proved/rollout}
[ -x "$review" ] || ./review >/dev/null 2>&1
[ -x "$rollout" ] || ./rollout >/dev/null 2>&1

measure() {
    ingresses=$1
    shift
    rm -rf "${folder:?}"/*
    python3 bench/networks.py "$1" "$folder" "${@:2}" || exit 1
    python3 bench/edits.py "$folder" "$ingresses" 20 || exit 1
    python3 - "$* from $ingresses" "$folder" "$review" "$rollout" <<'PYTHON'
import os, subprocess, sys
name, folder, review, rollout = sys.argv[1:]


def run(*words):
    """The last line of what the words write, seconds of the processors, and megabytes of this run."""
    started = subprocess.Popen(words, stdout=subprocess.PIPE, text=True)
    last = "nothing"
    for last in started.stdout:
        pass
    _, _, used = os.wait4(started.pid, 0)
    return last.strip(), used.ru_utime + used.ru_stime, used.ru_maxrss // 1024


last, seconds, memory = run(review, "compare", folder + "/old", folder + "/new", folder + "/links", "--workers", "1")
print("%s: compared from nothing in %.3f s, %s, %d MB" % (name, seconds, last, memory))
_, opened, memory = run(rollout, "edits", folder + "/old", folder + "/links", folder + "/none")
print("  opened in %.3f s, %d MB" % (opened, memory))
for kind in ("away", "route", "entry", "spine"):
    path = os.path.join(folder, kind)
    if os.path.getsize(path):
        last, seconds, memory = run(rollout, "edits", folder + "/old", folder + "/links", path)
        count = len(open(path).readlines())
        print("  %-6s %2d edits, %.1f ms each, %s, %d MB" % (kind, count, (seconds - opened) * 1000 / count, last, memory))
PYTHON
}

if [ $# -gt 0 ]; then
    measure "$@"
    exit
fi
measure 30 fabric 4 30
measure 250 fabric 16 250
measure 30 leaves 16 1000
measure 64 listed 16 64 100 5
measure 1 crossed 400 route
