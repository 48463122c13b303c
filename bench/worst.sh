#!/usr/bin/env bash
# How long the built program takes over the texts that need the most memory for their bytes, and how much memory: for each kind of
# bench/worst.py a line for `read` and one for `compare`, with the status, the processor seconds, the mebibytes and the output's first line.
#
#     worst.sh [KIND ..]      with MEBIBYTES=64, what a folder has, PROGRAM, another program than the one of this checkout, and
#                             MOST=600, after how many seconds a run is ended (status 124); READ_ALONE=1 compares nothing
set -u
cd "$(dirname "${BASH_SOURCE[0]}")/.." || exit 2
program=${PROGRAM:-build/proved/review}
scratch=$(mktemp -d) || exit 2
trap 'rm -rf "$scratch"' EXIT
kinds=("$@")
[ $# -gt 0 ] || kinds=(interfaces addresses secondary standard extended ports lists remarks routes hosts rules banner passed blank)

timed() {
    kind=$1
    shift
    timeout "${MOST:-600}" /usr/bin/time -f '%U %M' -o "$scratch/time" "$program" "$@" >"$scratch/out" 2>"$scratch/err"
    status=$?
    read -r seconds kilobytes < <(tail -n 1 "$scratch/time")
    echo "$kind $1: status $status, $seconds s, $((kilobytes / 1024)) MB, $(head -qn 1 "$scratch/out" "$scratch/err" | head -n 1 | cut -c 1-100)"
}
for kind in "${kinds[@]}"; do
    rm -rf "$scratch/net"
    python3 bench/worst.py "$scratch/net" "$kind" "${MEBIBYTES:-64}" || exit 2
    timed "$kind" read "$scratch/net/old"
    [ -n "${READ_ALONE:-}" ] && continue
    timed "$kind" compare "$scratch/net/old" "$scratch/net/new" "$scratch/net/links"
done
