#!/usr/bin/env bash
# rollout.sh: audits, edits and change windows, derived by hand; and AUDITS random access lists, judged by tests/rules.py.
# The last line is 'N passed, M failed'.
set -u
cd "$(dirname "${BASH_SOURCE[0]}")/../.." || exit 2
# shellcheck source=tests/cases/common.sh
. tests/cases/common.sh

mkdir "$scratch/old" "$scratch/folder" "$scratch/folder/R1.cfg"
printf 'hostname R1\nrouter ospf 1\n' >"$scratch/old/R1.cfg"
# Access lists that are audited, derived by hand.
run_rollout audit examples/audit/net
check "an audit" 1 examples/audit/findings "$scratch/nothing"
mkdir "$scratch/clean"
printf 'hostname R1\naccess-list 7 permit host 10.0.0.1\naccess-list 8 remark nothing yet\n' >"$scratch/clean/R1.cfg"
printf 'list R1.cfg 7 dead 0 redundant 0\nlist R1.cfg 8 dead 0 redundant 0\nfindings 0\n' >"$scratch/wanted"
run_rollout audit "$scratch/clean"
check "an audit that finds nothing" 0 "$scratch/wanted" "$scratch/nothing"
printf 'usage:\n  audit NET\n  edits NET LINKS EDITS\n  rollout NET LINKS QUESTIONS STEPS\n  variants NET LINKS VARIANTS\n' >"$scratch/usage"
run_rollout
check "rollout without words" 2 "$scratch/nothing" "$scratch/usage"
run_rollout audit
check "audit wants a folder" 2 "$scratch/nothing" "$scratch/usage"
run_rollout audit examples/audit/net examples/audit/net
check "audit takes one folder" 2 "$scratch/nothing" "$scratch/usage"
run_rollout audit --
check "audit takes no option" 2 "$scratch/nothing" "$scratch/usage"
run_rollout audit ""
check "audit of no name" 2 "$scratch/nothing" "$scratch/usage"
run_rollout read examples/audit/net
check "rollout doesn't know read" 2 "$scratch/nothing" "$scratch/usage"
run_rollout audit "$scratch/old"
printf 'refused %s line 2 NotCovered router\n' "$scratch/old/R1.cfg" >"$scratch/line"
check "a configuration that isn't accepted isn't audited" 3 "$scratch/nothing" "$scratch/line"
run_rollout audit "$scratch/none"
printf 'not found %s\n' "$scratch/none" >"$scratch/line"
check "a folder to audit isn't there" 8 "$scratch/nothing" "$scratch/line"
run_rollout audit "$scratch/folder"
printf 'cannot read %s\n' "$scratch/folder/R1.cfg" >"$scratch/line"
check "a file to audit can't be read" 4 "$scratch/nothing" "$scratch/line"
# Random access lists, 15 in a folder (AUDITS=300 tries more of them): the program finds what the second one does.
audits=${AUDITS:-60}
for seed in $(seq 1 $(((audits + 14) / 15))); do
    rm -rf "$scratch/lists"
    python3 tests/random_lists.py "$scratch/lists" "$seed" 15 || exit 2
    python3 tests/rules.py audit "$scratch/lists" >"$scratch/wanted" || exit 2
    wanted=1
    [ "$(tail -n 1 "$scratch/wanted")" = "findings 0" ] && wanted=0
    run_rollout audit "$scratch/lists"
    check "random lists $seed" "$wanted" "$scratch/wanted" "$scratch/nothing"
done

# Edits, derived by hand: three of one list, none, and what is refused.
lines="examples/list-entry/old examples/list-entry/links"
# shellcheck disable=SC2086
run_rollout edits $lines examples/edits/edits
check "edits of a list" 1 examples/edits/written "$scratch/nothing"
head -n 2 examples/edits/edits >"$scratch/edits"
printf 'line 1 affected 30\nline 2 affected 0\ningress R1 Ethernet0 rows 0\naffected 0\n' >"$scratch/wanted"
# shellcheck disable=SC2086
run_rollout edits $lines "$scratch/edits"
check "an edit that is taken back" 0 "$scratch/wanted" "$scratch/nothing"
# refuses NAME EDITS LINE: the edits are refused with this line.
refuses() {
    printf '%b' "$2" >"$scratch/edits"
    printf 'refused %s %s\n' "$scratch/edits" "$3" >"$scratch/line"
    # shellcheck disable=SC2086
    run_rollout edits $lines "$scratch/edits"
    check "$1" 3 "$scratch/nothing" "$scratch/line"
}
refuses "an entry under a number that is taken" 'entry R1 101 10 permit ip any any\n' "line 1 SequenceTaken 10"
refuses "an entry that isn't there" 'no-entry R1 101 20\n' "line 1 NoSuchEntry 20"
refuses "a route that isn't there" 'no-route R1 10.9.0.0 255.255.0.0 Null0\n' "line 1 NoSuchRoute"
refuses "an edit of a device that isn't there" '! a comment\nroute R2 10.9.0.0 255.255.0.0 Null0\n' "line 2 UnknownDevice R2"
refuses "an edit of a list that isn't there" 'no-entry R1 102 10\n' "line 1 UnknownList 102"
refuses "an entry that no configuration has" 'entry R1 101 20 permit tcp any any fragments\n' "line 1 NotCovered fragments"
refuses "all lines are read first" 'entry R1 101 10 permit ip any any\nentry R1\n' "line 2 MissingWord"

# Change windows, derived by hand: the steps in three orders, no step at all, and what is refused of one.
window=examples/rollout
for order in "" -leak -loop; do
    wanted=1
    [ "$order" = "" ] && wanted=0
    run_rollout rollout $window/net $window/links $window/questions "$window/steps$order"
    check "a change window, steps$order" "$wanted" "$window/written$order" "$scratch/nothing"
done
: >"$scratch/steps"
printf 'networks 1\nrollout holds\n' >"$scratch/wanted"
run_rollout rollout $window/net $window/links $window/questions "$scratch/steps"
check "a change window without a step" 0 "$scratch/wanted" "$scratch/nothing"
printf 'hostname R9\n' >"$scratch/R9.cfg"
printf '! first\nchange %s\nchange %s\n' "$scratch/R9.cfg" "$scratch/none" >"$scratch/steps"
printf 'refused %s line 2 UnknownDevice R9\n' "$scratch/steps" >"$scratch/line"
run_rollout rollout $window/net $window/links $window/questions "$scratch/steps"
check "a step of a device that isn't there" 3 "$scratch/nothing" "$scratch/line"
printf 'change %s\n' "$scratch/none" >"$scratch/steps"
printf 'not found %s\n' "$scratch/none" >"$scratch/line"
run_rollout rollout $window/net $window/links $window/questions "$scratch/steps"
check "a step whose file isn't there" 8 "$scratch/nothing" "$scratch/line"
sed 's/10.0.25.1/10.0.25.0/' $window/net/R5.cfg >"$scratch/R5.cfg"
printf 'change %s\n' "$scratch/R5.cfg" >"$scratch/steps"
printf 'refused %s line 1 AddressTwice 10.0.25.0\n' "$scratch/steps" >"$scratch/line"
run_rollout rollout $window/net $window/links $window/questions "$scratch/steps"
check "a step after which an address stands twice" 3 "$scratch/nothing" "$scratch/line"
seq 1025 | sed "s#.*#change $window/changes/R5.cfg#" >"$scratch/steps"
printf 'too many files %s\n' "$scratch/steps" >"$scratch/line"
run_rollout rollout $window/net $window/links $window/questions "$scratch/steps"
check "a window of too many steps" 5 "$scratch/nothing" "$scratch/line"
run_rollout rollout $window/net $window/links $window/questions
check "a rollout wants its steps" 2 "$scratch/nothing" "$scratch/usage"

end
