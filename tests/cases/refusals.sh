#!/usr/bin/env bash
# refusals.sh: what `review` says where it refuses words, files and questions, where nobody takes its output, and networks made from a
# number.
# The last line is 'N passed, M failed'.
set -u
cd "$(dirname "${BASH_SOURCE[0]}")/../.." || exit 2
# shellcheck source=tests/cases/common.sh
. tests/cases/common.sh

# What the program says where it refuses.
here=examples/mask-change
run_review
check "no words" 2 "$scratch/nothing" tests/usage
run_review compare $here/old $here/new
check "a word is missing" 2 "$scratch/nothing" tests/usage
run_review compare $here/old $here/new $here/links --ttl 256
check "a TTL that is too great" 2 "$scratch/nothing" tests/usage
run_review --help
check "no help" 2 "$scratch/nothing" tests/usage
run_review compare --ttl=9 -- $here/old $here/new $here/links
check "an option before the words" 1 $here/expected "$scratch/nothing"
run_review compare $here/old $here/none $here/links
printf 'not found %s\n' "$here/none" >"$scratch/line"
check "a folder isn't there" 8 "$scratch/nothing" "$scratch/line"
run_review compare $here/old $here/new $here/none
printf 'not found %s\n' "$here/none" >"$scratch/line"
check "the link table isn't there" 8 "$scratch/nothing" "$scratch/line"
run_review compare $here/old $here/new $here/links $here/none
check "the new link table isn't there" 8 "$scratch/nothing" "$scratch/line"
run_review compare $here/old $here/new $here/none $here/none2
check "the old link table isn't there either" 8 "$scratch/nothing" "$scratch/line"
grep -v '^ingress' examples/rewired/newlinks >"$scratch/newlinks"
run_review compare examples/rewired/old examples/rewired/new examples/rewired/links "$scratch/newlinks"
printf 'refused %s line 0 NoIngress\n' "$scratch/newlinks" >"$scratch/line"
check "new links without an ingress" 3 "$scratch/nothing" "$scratch/line"
run_review compare examples/rewired/old examples/rewired/new examples/rewired/links examples/rewired/links
printf 'ingress R1 Ethernet0 rows 0\naffected 0\n' >"$scratch/wanted"
check "new links that are the old ones" 0 "$scratch/wanted" "$scratch/nothing"

mkdir "$scratch/old" "$scratch/folder"
printf 'hostname R1\nrouter ospf 1\n' >"$scratch/old/R1.cfg"
run_review compare "$scratch/old" $here/new $here/links
printf 'refused %s line 2 NotCovered router\n' "$scratch/old/R1.cfg" >"$scratch/line"
check "a command that isn't covered" 3 "$scratch/nothing" "$scratch/line"
mkdir "$scratch/folder/R1.cfg"
run_review compare "$scratch/folder" $here/new $here/links
printf 'cannot read %s\n' "$scratch/folder/R1.cfg" >"$scratch/line"
check "a file that can't be read" 4 "$scratch/nothing" "$scratch/line"
# refused NAME LINE QUESTIONS: what is said of questions on the network of two default routes.
two=examples/traces/two-defaults
refused() {
    printf '%b' "$3" >"$scratch/questions"
    run_review ask $two/net $two/links "$scratch/questions"
    printf 'refused %s %s\n' "$scratch/questions" "$2" >"$scratch/line"
    check "$1" 3 "$scratch/nothing" "$scratch/line"
}
refused "no kind of question" "line 1 BadWord touch" "touch R1 Ethernet0\n"
refused "a question that ends at once" "line 1 MissingWord" "noloop R1\n"
refused "an interface that isn't there" "line 1 UnknownPlace Ethernet7" "noloop R1 Ethernet7\n"
refused "a device that isn't there" "line 1 UnknownPlace R9" "reach R9\n"
refused "no second place" "line 1 MissingWord" "reach R1 Ethernet0\n"
refused "a second place without its word" "line 1 BadWord R2" "isolate R1 Ethernet0 R2 Ethernet0\n"
refused "a second place that ends early" "line 2 MissingWord" "!\nisolate R1 Ethernet0 to R2\n"
refused "a second place that isn't there" "line 1 UnknownPlace R9" "isolate R1 Ethernet0 to R9 Ethernet0\n"
refused "no field" "line 3 BadWord ttl" "\n! none\nnoloop R1 Ethernet0 ttl 3\n"
refused "a field without its text" "line 1 MissingWord" "noloop R1 Ethernet0 proto 6 dst\n"
refused "a field that is named twice" "line 1 BadWord proto" "noloop R1 Ethernet0 proto 6 dst 1.2.3.4 proto\n"
refused "a number that is too great" "line 1 BadWord 256" "noloop R1 Ethernet0 proto 256\n"
refused "a number with a zero before it" "line 1 BadWord 06" "noloop R1 Ethernet0 proto 06\n"
refused "bits behind a prefix" "line 1 BadWord 10.0.0.1/24" "noloop R1 Ethernet0 dst 10.0.0.1/24\n"
refused "a prefix of a port" "line 1 BadWord 80/8" "noloop R1 Ethernet0 dport 80/8\n"
refused "digits of another width" "line 1 BadWord 0000011*" "noloop R1 Ethernet0 dport 0000011*\n"
refused "digits without an open one" "line 1 BadWord 00000110" "noloop R1 Ethernet0 proto 00000110\n"
refused "the first line that is refused" "line 2 BadWord x" "noloop R1 Ethernet0\nnoloop R1 Ethernet0 x\nnoloop R9\n"

run_review ask $two/net $two/links
check "ask wants questions" 2 "$scratch/nothing" tests/usage
run_review ask $two/net $two/links $two/none
printf 'not found %s\n' "$two/none" >"$scratch/line"
check "the questions aren't there" 8 "$scratch/nothing" "$scratch/line"
run_review ask $two/net $two/links $two/net
printf 'cannot read %s\n' "$two/net" >"$scratch/line"
check "questions that can't be read" 4 "$scratch/nothing" "$scratch/line"
head -c 16777217 /dev/zero | tr '\0' '\n' >"$scratch/questions"
run_review ask $two/net $two/links "$scratch/questions"
printf 'too long %s\n' "$scratch/questions" >"$scratch/line"
check "too many questions" 5 "$scratch/nothing" "$scratch/line"
truncate -s 16777216 "$scratch/questions"
run_review ask $two/net $two/links "$scratch/questions"
echo 'failed 0' >"$scratch/wanted"
check "as long as questions may be" 0 "$scratch/wanted" "$scratch/nothing"
printf 'p2p R1 Ethernet1 R2 Ethernet0\n' >"$scratch/links"
echo 'touch' >"$scratch/questions"
run_review ask $two/net "$scratch/links" "$scratch/questions"
printf 'refused %s line 0 NoIngress\n' "$scratch/links" >"$scratch/line"
check "links are judged before questions" 3 "$scratch/nothing" "$scratch/line"
run_review ask "$scratch/old" "$scratch/links" "$scratch/questions"
printf 'refused %s line 2 NotCovered router\n' "$scratch/old/R1.cfg" >"$scratch/line"
check "a network that isn't accepted isn't asked of" 3 "$scratch/nothing" "$scratch/line"

# Networks that are made from a number, and the same ones from files.
for pair in "7 2" "7 20" "0 3" "18446744073709551615 2" "12345 40"; do
    read -r number size <<<"$pair"
    run_review gen "$number" "$size"
    printf 'devices %s\ningresses 2\naffected %s\n' "$size" "$size" >"$scratch/wanted"
    check "gen $pair" 1 "$scratch/wanted" "$scratch/nothing"
    rm -rf "$scratch/generated"
    python3 tests/generated.py "$scratch/generated" "$number" "$size" || exit 2
    run_review compare "$scratch/generated/old" "$scratch/generated/new" "$scratch/generated/links"
    check "gen $pair from files" 1 "$scratch/generated/expected" "$scratch/nothing"
done
for pair in "7 1" "7 201" "18446744073709551616 2"; do
    # shellcheck disable=SC2086
    run_review gen $pair
    check "gen $pair is refused" 2 "$scratch/nothing" tests/usage
done
# An output that takes nothing more.
printf 'cannot write\n' >"$scratch/line"
if [ -c /dev/full ]; then
    ./review compare $here/old $here/new $here/links >/dev/full 2>"$scratch/err"
    status=$?
    : >"$scratch/out"
    check "a full device" 6 "$scratch/nothing" "$scratch/line"
fi
# A reader that is gone before the report is written, and one that goes after a line.
{
    sleep 1
    ./review compare $here/old $here/new $here/links 2>"$scratch/err"
    echo $? >"$scratch/status"
} | true
status=$(cat "$scratch/status")
: >"$scratch/out"
check "a reader that is gone" 6 "$scratch/nothing" "$scratch/line"
./review compare $here/old $here/new $here/links 2>"$scratch/err" | head -n 1 >"$scratch/out"
status=0
head -n 1 $here/expected >"$scratch/wanted"
: >"$scratch/err"
check "a reader of one line" 0 "$scratch/wanted" "$scratch/nothing"

end
