#!/bin/sh
# Times the pool with 1, 2 and 4 workers: even work, then one root with all of the work. The work on a region takes so many rounds of a
# generator. The last number of a line is the time of one worker in percent of this one.
bench=$("$(dirname "$0")/build" pool) || exit
"$bench" "${1:-20000}"
