#!/bin/sh
# Times the layers below a network: canonical rows of random pieces, access lists of 100 to 10,000 entries as diagrams, tables of
# routes. Counts, and microseconds.
bench=$("$(dirname "$0")/build" cubes) || exit
for words in "rows 10000" "rows 100000" lists "routes 10000" "routes 100000"; do
    # Each line has its words apart.
    # shellcheck disable=SC2086
    "$bench" $words
done
