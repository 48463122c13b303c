# shellcheck shell=bash
# common.sh: what the scripts of this folder share. They stand at the top of the repository. The programs are those of the launchers, or
# those that DIQENYU_REVIEW and the like name, as tests/run has them.
passed=0
failed=0
scratch=$(mktemp -d) || exit 2
trap 'rm -rf "$scratch"' EXIT
: >"$scratch/nothing"
# The built program itself, for the many runs that try no launcher.
program=${DIQENYU_REVIEW:-./review}

# check NAME STATUS OUT ERR: the last run's status and what it wrote, against what is wanted.
check() {
    if [ "$status" = "$2" ] && cmp -s "$3" "$scratch/out" && cmp -s "$4" "$scratch/err"; then
        passed=$((passed + 1))
    else
        failed=$((failed + 1))
        echo "FAILED $1: status $status, wanted $2"
        diff "$3" "$scratch/out" | head -n 20
        diff "$4" "$scratch/err" | head -n 20
    fi
}

run_review() {
    ./review "$@" >"$scratch/out" 2>"$scratch/err"
    status=$?
}

run_rollout() {
    ./rollout "$@" >"$scratch/out" 2>"$scratch/err"
    status=$?
}

# by_workers NAME STATUS OUT WORD...: one worker and seven write the same as the four without the option, which were tried.
by_workers() {
    name=$1
    wanted=$2
    same=$3
    shift 3
    for workers in 1 7; do
        "$program" "$@" --workers "$workers" >"$scratch/out" 2>"$scratch/err"
        status=$?
        check "$name, by $workers workers" "$wanted" "$same" "$scratch/nothing"
    done
}

end() {
    echo "$passed passed, $failed failed"
    [ "$failed" = 0 ]
}
