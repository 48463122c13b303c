#!/usr/bin/env bash
# examples.sh: the examples, traces, traps and questions, which were derived by hand, and what is said of configurations.
# The last line is 'N passed, M failed'.
set -u
cd "$(dirname "${BASH_SOURCE[0]}")/../.." || exit 2
# shellcheck source=tests/cases/common.sh
. tests/cases/common.sh

# Each example: 'expected' is what is written, and its last line tells the status. Where there is a table 'newlinks', it
# wires the new network.
for example in examples/*/; do
    example=${example%/}
    [ -e "$example/expected" ] || continue
    tables=("$example/links")
    [ -e "$example/newlinks" ] && tables+=("$example/newlinks")
    run_review compare "$example/old" "$example/new" "${tables[@]}"
    wanted=1
    [ "$(tail -n 1 "$example/expected")" = "affected 0" ] && wanted=0
    check "$example" "$wanted" "$example/expected" "$scratch/nothing"
    by_workers "$example" "$wanted" "$example/expected" compare "$example/old" "$example/new" "${tables[@]}"
done
here=examples/mask-change
mkdir "$scratch/old"
printf 'hostname R1\nrouter ospf 1\n' >"$scratch/old/R1.cfg"
# The configurations of a folder.
run_review read examples/edge-list/old
echo 'EDGE.cfg EDGE interfaces 3 routes 1 lists 2 entries 4 nat 1 passed 37' >"$scratch/wanted"
check "a configuration that is read" 0 "$scratch/wanted" "$scratch/nothing"
run_review read examples/edge-list/old --ttl 3
check "read takes no TTL" 2 "$scratch/nothing" tests/usage
run_review read "$scratch/old"
printf 'refused %s line 2 NotCovered router\n' "$scratch/old/R1.cfg" >"$scratch/line"
check "a configuration that is refused" 3 "$scratch/nothing" "$scratch/line"

# Traces of single packets, derived by hand.
for words in examples/traces/*.words; do
    # shellcheck disable=SC2046
    run_review trace $(cat "$words")
    check "${words%.words}" 0 "${words%.words}.expected" "$scratch/nothing"
done
run_review trace $here/old $here/links R1 Ethernet0
check "trace wants a header" 2 "$scratch/nothing" tests/usage
run_review trace "$scratch/old" $here/links R1 Ethernet0 1.1.1.1,2.2.2.2,6,1,2,3
printf 'refused %s line 2 NotCovered router\n' "$scratch/old/R1.cfg" >"$scratch/line"
check "a network that isn't accepted isn't traced" 3 "$scratch/nothing" "$scratch/line"

# Traps, derived by hand. A report with a row and an answer that fails have status 1.
for words in examples/traps/*/*.words; do
    expected=${words%.words}.expected
    # shellcheck disable=SC2046
    run_review $(cat "$words")
    wanted=0
    [[ $(tail -n 1 "$expected") =~ ^(affected|failed)\ [1-9] ]] && wanted=1
    check "${words%.words}" "$wanted" "$expected" "$scratch/nothing"
done

# Questions. The answers are derived by hand; where one fails, the status is 1.
ask() {
    name=$1
    expected=$2
    shift 2
    run_review ask "$@"
    wanted=1
    [ "$(tail -n 1 "$expected")" = "failed 0" ] && wanted=0
    check "$name" "$wanted" "$expected" "$scratch/nothing"
    by_workers "$name" "$wanted" "$expected" ask "$@"
}
for words in examples/questions/*.words; do
    # shellcheck disable=SC2046
    ask "${words%.words}" "${words%.words}.expected" $(cat "$words")
done
# The questions that a reviewer keeps, before the change and after it.
for questions in examples/*/questions; do
    example=${questions%/questions}
    [ -f "$example/answers-old" ] || continue
    for version in old new; do
        ask "$questions, $version" "$example/answers-$version" "$example/$version" "$example/links" "$questions"
    done
done

end
