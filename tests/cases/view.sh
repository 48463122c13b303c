#!/usr/bin/env bash
# view.sh: what a person sees of a report and of an audit, and which texts are none.
# The last line is 'N passed, M failed'.
set -u
cd "$(dirname "${BASH_SOURCE[0]}")/../.." || exit 2
# shellcheck source=tests/cases/common.sh
. tests/cases/common.sh

# What a person sees of a report: 'view' is written by hand.
view() {
    ./view "$@" >"$scratch/out" 2>"$scratch/err"
    status=$?
}
for example in examples/*/; do
    example=${example%/}
    [ -e "$example/view" ] || continue
    view "$example/expected"
    check "$example, shown" 0 "$example/view" "$scratch/nothing"
done
campus=examples/campus/expected
view tests/view-report
check "each kind of change and of field, shown" 0 tests/view-shown "$scratch/nothing"
# The proved program says how it is used itself; pages, tables and test cases are another one's.
./launch view >/dev/null 2>"$scratch/own-usage"
view
check "nothing to show" 2 "$scratch/nothing" tests/view-usage
view --text $campus
check "an option that isn't there" 2 "$scratch/nothing" tests/view-usage
view $campus examples/campus/links
check "links without a page" 2 "$scratch/nothing" "$scratch/own-usage"
view --json --title change $campus
check "a title of a document" 2 "$scratch/nothing" "$scratch/own-usage"
view --csv $campus examples/campus/links
check "links of a table" 2 "$scratch/nothing" tests/view-usage
view --traces --csv examples/campus/old examples/campus/new examples/campus/links ACC1 Vlan11 10.0.0.1,1,1,1,1,1
check "a table of traces" 2 "$scratch/nothing" tests/view-usage
view --help
check "how view is used" 0 tests/view-usage "$scratch/nothing"
view --version
# (tests/launcher.sh tries what it says of the proof)
sed -i 's/, schema 1, .*/, schema 1/' "$scratch/out"
echo "view of Diqenyu $(cat VERSION), schema 1" >"$scratch/line"
check "which view it is" 0 "$scratch/line" "$scratch/nothing"
view --title 'old to new' $campus
{ echo "old to new" && cat examples/campus/view; } >"$scratch/titled"
check "a title" 0 "$scratch/titled" "$scratch/nothing"
view "$scratch/none"
printf 'not found %s\n' "$scratch/none" >"$scratch/line"
check "a report that isn't there" 8 "$scratch/nothing" "$scratch/line"
view --html $campus "$scratch/none"
check "links that aren't there" 8 "$scratch/nothing" "$scratch/line"

# Both networks are one: the trace that was derived by hand stands once, and its outcome twice.
for words in examples/traces/*.words; do
    read -r net links rest <"$words"
    case $rest in *--ttl*) continue ;; esac
    trace=${words%.words}.expected
    { echo both: && head -n -1 "$trace" | sed 's/^/  /'; for side in old new; do echo $side: && tail -n 1 "$trace" | sed 's/^/  /'; done; } >"$scratch/sides"
    # shellcheck disable=SC2086
    view --traces "$net" "$net" "$links" $rest
    check "${words%.words}, in one network twice" 0 "$scratch/sides" "$scratch/nothing"
done
# Why the rows of examples are there: 'why' is written by hand.
for example in examples/*/; do
    example=${example%/}
    [ -e "$example/why" ] || continue
    view --why "$example/old" "$example/new" "$example/links" "$example/expected"
    check "$example, explained" 0 "$example/why" "$scratch/nothing"
done
view --why examples/campus/new examples/campus/old examples/campus/links $campus
printf 'refused %s line 1 OtherNetworks\n' $campus >"$scratch/line"
check "a report of the networks the other way round" 3 "$scratch/nothing" "$scratch/line"
sed 's/^ingress EDGE1 GigabitEthernet0\/0 /ingress EDGE1 GigabitEthernet0\/1 /' $campus >"$scratch/report"
view --why examples/campus/old examples/campus/new examples/campus/links "$scratch/report"
printf 'refused %s line 94 OtherNetworks\n' "$scratch/report" >"$scratch/line"
check "a report with another ingress" 3 "$scratch/nothing" "$scratch/line"
view --why examples/campus/old examples/campus/new examples/campus/links "$scratch/none"
printf 'not found %s\n' "$scratch/none" >"$scratch/line"
check "a report to be explained that isn't there" 8 "$scratch/nothing" "$scratch/line"
view --why examples/campus/old "$scratch/none" examples/campus/links "$scratch/none2"
check "a new folder that isn't there" 8 "$scratch/nothing" "$scratch/line"
view --why examples/campus/old examples/campus/new examples/campus/links
check "no report to explain" 2 "$scratch/nothing" "$scratch/own-usage"
view --traces examples/campus/old examples/campus/new examples/campus/links ACC1 Vlan11 10.0.0.1,2
check "a header that is none" 2 "$scratch/nothing" "$scratch/own-usage"
view --traces --html examples/campus/old examples/campus/new examples/campus/links ACC1 Vlan11 10.0.0.1,2
check "a header that is none, for a page" 2 "$scratch/nothing" tests/view-usage

# refuse NAME LINE: the text on the input is no report, from this line on.
refuse() {
    cat >"$scratch/report"
    printf 'refused %s line %s\n' "$scratch/report" "$2" >"$scratch/line"
    view "$scratch/report"
    check "$1" 3 "$scratch/nothing" "$scratch/line"
}
refuse "a row more than the line of its ingress says" 44 < <(sed '1s/15/14/' $campus)
refuse "a zero in front" 2 < <(sed '2s/dport 443/dport 0443/' $campus)
refuse "an outcome that is none" 3 < <(sed '3s/drop/dropped/' $campus)
refuse "an old label in place of a new one" 4 < <(sed '4s/new/old/' $campus)
refuse "a count of rows that is wrong" 95 < <(sed '$s/30/31/' $campus)
refuse "no last line" 95 < <(head -n 94 $campus)
refuse "a line behind the last one" 96 < <(cat $campus; echo more)
refuse "no end of the last line" 95 < <(printf '%s' "$(cat $campus)")
refuse "nothing at all" 1 </dev/null
# What a person sees of an audit stands in docs/GUIDE.md; here is what isn't shown.
mkdir "$scratch/clean"
printf 'hostname R1\naccess-list 7 permit host 10.0.0.1\naccess-list 8 remark nothing yet\n' >"$scratch/clean/R1.cfg"
audited=examples/audit
sed '$s/[0-9]*$/0/' $audited/findings >"$scratch/findings"
view --audit "$scratch/findings" $audited/net
printf 'refused %s line %s\n' "$scratch/findings" "$(wc -l <$audited/findings)" >"$scratch/line"
check "another number of findings" 3 "$scratch/nothing" "$scratch/line"
view --audit $audited/findings "$scratch/clean"
printf 'refused %s line 1\n' $audited/findings >"$scratch/line"
check "findings of another folder" 3 "$scratch/nothing" "$scratch/line"
view --audit "$scratch/none" "$scratch/none2"
printf 'not found %s\n' "$scratch/none" >"$scratch/line"
check "findings that aren't there" 8 "$scratch/nothing" "$scratch/line"
view --audit $audited/findings "$scratch/none"
check "a folder of findings that isn't there" 8 "$scratch/nothing" "$scratch/line"
view --audit --rows --json $audited/findings $audited/net
check "a format behind the rows" 2 "$scratch/nothing" "$scratch/own-usage"
view --audit $audited/findings
check "findings without their folder" 2 "$scratch/nothing" "$scratch/own-usage"

end
