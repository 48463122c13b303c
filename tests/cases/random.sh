#!/usr/bin/env bash
# random.sh FIRST LAST: random networks by their numbers: the programs write what a second program of the rules writes.
# The last line is 'N passed, M failed'.
set -u
cd "$(dirname "${BASH_SOURCE[0]}")/../.." || exit 2
# shellcheck source=tests/cases/common.sh
. tests/cases/common.sh

# Random networks: the program writes what a second program of the rules writes (NETWORKS=1000 of tests/run tries more of them). Each is
# compared with one link table, and with one for each version under a random TTL.
compared=0
traced=0
asked=0
rolled=0
edited=0
first=${1:?"random.sh wants two numbers"}
last=${2:?"random.sh wants two numbers"}
networks=$((last - first + 1))
judge() {
    name=$1
    shift
    run_review compare "$@"
    # What isn't accepted isn't judged; that is a part of them only.
    [ "$status" = 3 ] && return
    compared=$((compared + 1))
    python3 tests/rules.py "$@" >"$scratch/wanted" || exit 2
    wanted=1
    [ "$(tail -n 1 "$scratch/wanted")" = "affected 0" ] && wanted=0
    check "$name" "$wanted" "$scratch/wanted" "$scratch/nothing"
    by_workers "$name" "$wanted" "$scratch/wanted" compare "$@"
}
# within SECONDS COMMAND ..: runs a command that may take a processor so many seconds, however busy the machine is.
within() (
    ulimit -t "$1"
    exec "${@:2}"
)
random=$scratch/random
for seed in $(seq "$first" "$last"); do
    python3 tests/random_networks.py "$random" "$seed" || exit 2
    judge "random network $seed" "$random/old" "$random/new" "$random/links"
    judge "random network $seed, rewired" "$random/old" "$random/new" "$random/links" "$random/newlinks" --ttl "$(cat "$random/ttl")"
    while read -r packet; do
        # shellcheck disable=SC2086
        run_review trace "$random/old" "$random/links" $packet
        [ "$status" = 3 ] && break
        traced=$((traced + 1))
        # shellcheck disable=SC2086
        python3 tests/rules.py trace "$random/old" "$random/links" $packet >"$scratch/wanted" || exit 2
        check "random network $seed, packet $packet" 0 "$scratch/wanted" "$scratch/nothing"
    done <"$random/packets"
    for ttl in 255 "$(cat "$random/ttl")" 2; do
        run_review ask "$random/old" "$random/links" "$random/questions" --ttl "$ttl"
        [ "$status" = 3 ] && break
        asked=$((asked + 1))
        python3 tests/rules.py ask "$random/old" "$random/links" "$random/questions" --ttl "$ttl" >"$scratch/wanted" || exit 2
        wanted=1
        [ "$(tail -n 1 "$scratch/wanted")" = "failed 0" ] && wanted=0
        check "random network $seed, questions, TTL $ttl" "$wanted" "$scratch/wanted" "$scratch/nothing"
        by_workers "random network $seed, questions, TTL $ttl" "$wanted" "$scratch/wanted" ask "$random/old" "$random/links" "$random/questions" --ttl "$ttl"
    done
    # A window whose second opinion takes longer than this is left out.
    within 20 python3 tests/random_windows.py "$random" "$seed" || continue
    if within 60 python3 tests/rules.py edits "$random/old" "$random/links" "$random/edits" >"$scratch/wanted"; then
        run_rollout edits "$random/old" "$random/links" "$random/edits"
        if [ "$status" != 3 ]; then
            edited=$((edited + 1))
            wanted=1
            [ "$(tail -n 1 "$scratch/wanted")" = "affected 0" ] && wanted=0
            check "random network $seed, edits" "$wanted" "$scratch/wanted" "$scratch/nothing"
        fi
    fi
    within 60 python3 tests/rules.py rollout "$random/old" "$random/links" "$random/held" "$random/steps" >"$scratch/wanted" || continue
    run_rollout rollout "$random/old" "$random/links" "$random/held" "$random/steps"
    [ "$status" = 3 ] && continue
    rolled=$((rolled + 1))
    wanted=1
    [ "$(tail -n 1 "$scratch/wanted")" = "rollout holds" ] && wanted=0
    check "random network $seed, a change window" "$wanted" "$scratch/wanted" "$scratch/nothing"
done
if [ $((2 * edited)) -lt "$networks" ]; then
    failed=$((failed + 1))
    echo "FAILED random networks $first to $last: only $edited of $networks files of edits are judged"
fi
if [ $((2 * rolled)) -lt "$networks" ]; then
    failed=$((failed + 1))
    echo "FAILED random networks $first to $last: only $rolled of $networks change windows are judged"
fi
if [ "$asked" -lt "$networks" ]; then
    failed=$((failed + 1))
    echo "FAILED random networks $first to $last: only $asked of $((3 * networks)) files of questions are on accepted networks"
fi
if [ "$traced" -lt "$networks" ]; then
    failed=$((failed + 1))
    echo "FAILED random networks $first to $last: only $traced of $((4 * networks)) packets are in accepted networks"
fi
if [ "$compared" -lt "$networks" ]; then
    failed=$((failed + 1))
    echo "FAILED random networks $first to $last: only $compared of $((2 * networks)) comparisons are accepted"
fi

end
