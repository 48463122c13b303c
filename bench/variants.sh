#!/usr/bin/env bash
# Times the comparison of variants with their network by the built programs, beside one comparison and a network that is read alone: seconds of
# a processor and megabytes. The variants are of one device each (variants.py). Words choose one network, as `fabric 16 64`, behind the numbers
# of its ingresses and of its variants. `rollout` always has four workers, `review` is given one.
cd "$(dirname "$0")/.." || exit 1
folder=$(mktemp -d) || exit 1
trap 'rm -rf "$folder"' EXIT
review=${DIQENYU_REVIEW:-build/proved/review}
rollout=${DIQENYU_ROLLOUT:-build/proved/rollout}
[ -x "$review" ] || ./review >/dev/null 2>&1
[ -x "$rollout" ] || ./rollout >/dev/null 2>&1

measure() {
    ingresses=$1 variants=$2
    shift 2
    rm -rf "${folder:?}"/*
    python3 bench/networks.py "$1" "$folder" "${@:2}" || exit 1
    python3 bench/variants.py "$folder" "$ingresses" "$variants" || exit 1
    : >"$folder/none"
    python3 - "$* from $ingresses" "$folder" "$review" "$rollout" <<'PYTHON'
import os, subprocess, sys, time
name, folder, review, rollout = sys.argv[1:]


def timed(what, *words):
    began = time.monotonic()
    started = subprocess.Popen(words, stdout=subprocess.PIPE, text=True)
    last = "nothing"
    for last in started.stdout:
        pass
    _, _, used = os.wait4(started.pid, 0)
    seconds = used.ru_utime + used.ru_stime
    print("  %-22s %6.2f s, processor %6.2f s, %4d MB: %s" % (what, time.monotonic() - began, seconds, used.ru_maxrss // 1024, last.strip()))


print(name)
timed("compared once", review, "compare", folder + "/old", folder + "/new", folder + "/links", "--workers", "1")
timed("no variant", rollout, "variants", folder + "/old", folder + "/links", folder + "/none")
timed("variants", rollout, "variants", folder + "/old", folder + "/links", folder + "/variants")
PYTHON
}

if [ $# -gt 0 ]; then
    measure "$@"
    exit
fi
measure 30 21 leaves 16 1000
measure 64 1104 fabric 16 64
