#!/usr/bin/env bash
# A network that changes device by device. First thousands of random changes of small networks, after each of which the ways, the labels
# and the visits of all places are compared with those that are found from nothing. Then times: a fabric of 16 spines and 1,000 leaves
# is opened once, and changed 1,000 times, by a route at leaves, an entry at leaves, a route at spines, or one at a device off every
# path: the milliseconds of the opening, microseconds of a change, and the pages of memory after the first change and after the last.
# Words choose a fabric, as `16 250`, and how many changes.
# The C library is told to give back to the system what is freed of 128 KB or more: else it keeps it, and the pages tell the greatest
# memory that there was, with both tables of a copy, and not what is in use.
export MALLOC_MMAP_THRESHOLD_=131072
cd "$(dirname "$0")/.." || exit 1
test=${DIQENYU_TEST_EDITS:-crates/test_edits/out/test_edits}
[ -x "$test" ] || (cd crates/test_edits && rt run) >/dev/null 2>&1
bench=$(bench/build live) || exit
"$test" 20 1000 | grep -E "^(networks|ways|labels|visits) "
for kind in route entry spine away; do
    echo "$kind:"
    "$bench" "${1:-16}" "${2:-1000}" "$kind" "${3:-1000}" time
done
