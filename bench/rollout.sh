#!/usr/bin/env bash
# Times the check of a change window, by the built programs, beside the questions asked of its first network alone: seconds, also those of a
# processor. 16 spines and 250 leaves, 399 questions; 50 steps that no question meets, and 10 that touch most of them (rollout.py).
cd "$(dirname "$0")/.." || exit 1
folder=$(mktemp -d) || exit 1
trap 'rm -rf "$folder"' EXIT
./review >/dev/null 2>&1
./rollout >/dev/null 2>&1

# timed NAME WORD ...: runs the words, and prints what they took and the last line that they wrote.
timed() {
    python3 - "$@" <<'END'
import resource
import subprocess
import sys
import time

start = time.monotonic()
said = subprocess.run(sys.argv[2:], stdout=subprocess.PIPE, text=True).stdout.splitlines()
used = resource.getrusage(resource.RUSAGE_CHILDREN)
print("%-28s %6.2f s, processor %6.2f s, %4d MB: %s" % (sys.argv[1], time.monotonic() - start, used.ru_utime + used.ru_stime, used.ru_maxrss // 1024, (said or ["nothing"])[-1]))
END
}

python3 bench/networks.py fabric "$folder" 16 250 || exit 1
for window in "50 lists" "10 hops"; do
    # shellcheck disable=SC2086
    python3 bench/rollout.py "$folder" 250 $window || exit 1
    timed "ask" ./review ask "$folder/old" "$folder/links" "$folder/questions"
    timed "rollout, $window" ./rollout rollout "$folder/old" "$folder/links" "$folder/questions" "$folder/steps"
done
