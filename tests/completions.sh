#!/usr/bin/env bash
# completions.sh: what bash and zsh offer behind some words of a line, on the examples. Where zsh isn't there a line says so.
# The last line is 'N passed, M failed'.
set -u
cd "$(dirname "${BASH_SOURCE[0]}")/.." || exit 2
passed=0
failed=0
scratch=$(mktemp -d) || exit 2
trap 'rm -rf "$scratch"' EXIT
printf 'interface Vlan1\nhostname R1\r\n interface Vlan2\ninterface Vlan3\r\n' >"$scratch/R1.cfg"
printf 'hostname R2\ninterface Serial0\n' >"$scratch/R2.cfg"
printf 'hostname R3\n' >"$scratch/R3.txt"

# by_bash WORD ...: what bash offers for the last word, one a line.
by_bash() {
    bash --norc -c '
        source completions/diqenyu.bash
        COMP_WORDS=("$@") COMP_CWORD=$(($# - 1))
        _diqenyu "$1"
        printf "%s\n" "${COMPREPLY[@]}"' bash "$@"
}

# by_zsh WORD ...: the same of zsh, whose calls for words and for files are written out.
by_zsh() {
    zsh -fc '
        fpath=(completions $fpath)
        autoload -Uz _diqenyu
        words=("$@") CURRENT=$#
        compadd() { shift; print -l -- ${(M)@:#$words[CURRENT]*} }
        _files() { print -l -- $words[CURRENT]*(N) }
        _diqenyu' zsh "$@"
}

# offers WANTED WORD ...: both offer the words of WANTED.
offers() {
    local wanted=$1 found shell
    shift
    for shell in bash zsh; do
        command -v $shell >/dev/null 2>&1 || continue
        found=$(by_$shell "$@" 2>&1 | sort | tr '\n' ' ')
        if [ "${found% }" = "$wanted" ]; then
            passed=$((passed + 1))
        else
            failed=$((failed + 1))
            echo "FAILED $shell, $*: '${found% }' in place of '$wanted'"
        fi
    done
}
command -v zsh >/dev/null 2>&1 || echo "zsh isn't there: its completions are not tried"

campus=examples/campus
offers "ask compare gen read trace" review ""
offers "compare" ./review c
offers "audit edits rollout variants" rollout ""
offers "--version" review --
offers "--version" rollout --
offers "doctor review rollout view" ./prove ""
offers "view" prove review v
offers "--help" prove --
offers "examples/edits/edits" rollout edits examples/list-entry/old examples/list-entry/links examples/edits/ed
offers "" rollout edits a b c d
offers "examples/rollout/steps examples/rollout/steps-leak examples/rollout/steps-loop" rollout rollout examples/rollout/net examples/rollout/links examples/rollout/questions examples/rollout/st
offers "" rollout rollout a b c d e
offers "$campus/links" review compare $campus/old $campus/new $campus/li
offers "$campus/links" review compare --ttl 9 $campus/old $campus/new $campus/links $campus/li
offers "" review compare $campus/old $campus/new $campus/links $campus/links $campus/li
offers "$campus/questions" review ask $campus/old $campus/links $campus/q
offers "--ttl --workers" review compare $campus/old --
offers "--ttl" review trace --t
offers "--workers" review gen 7 --
offers "" review read --
offers "" review compare --workers ""
offers "--answers --audit --csv --help --html --json --title --traces --version --why --why-all" view --
offers "--csv --html --json --rows" view --audit --
offers "--csv --html --json --rows" view --audit --json --
offers "--csv --html --json --junit" view --answers --
offers "--html --json" view --why --
offers "--html --json" view --traces --
offers "--all --json" doctor $campus/old --
offers "--all --help --json --version" doctor --
offers "$campus/links" doctor $campus/old $campus/new $campus/li
offers "" doctor --all a b c d $campus/li
offers "--accept --active --all-edges --as-written --expect --fail-on --finer --foreign --git --json --junit --keep --newlinks --no-lines --page --questions --questions-new --routes --sarif --sources --tickets --title --vrf --waivers --write-expect" window $campus/old --
offers "--accept --active --all-edges --as-written" window $campus/old --a
offers "$campus/expected" window --expect $campus/exp
offers "$campus/links" window --fail-on closes --json out $campus/old $campus/new $campus/li
offers "" window --fail-on ""
offers "$campus/questions" window --questions $campus/q
offers "$campus/links" window --title A $campus/old $campus/new $campus/li
offers "" window a b c $campus/li
offers "$campus/expected" view --html $campus/exp
offers "$campus/new" rollout audit $campus/ne
offers "R1 R2" review trace "$scratch" $campus/links ""
offers "R1 R2" review trace --ttl 3 -- "$scratch" $campus/links R
offers "Vlan1 Vlan3" review trace "$scratch" $campus/links R1 ""
offers "Serial0" ./review trace "$scratch" $campus/links --ttl=4 R2 S
offers "" review trace "$scratch" $campus/links R3 ""
offers "" review trace "$scratch/none" $campus/links ""
offers "DC1 DIST-A DIST-B" review trace $campus/old $campus/links D
offers "" review trace $campus/old $campus/links DC1 Vlan1 ""

offers "ask compare" sweep ""
offers "$campus/links" sweep compare --jobs 4 $campus/old $campus/new $campus/li
offers "" sweep ask a b c $campus/li
offers "" sweep compare --show ""
offers "$campus/new" sweep --folder $campus/ne
offers "--active --apply --as-written" prepare $campus/old --a
offers "$campus/new" prepare --check $campus/old $campus/ne
offers "$campus/new" prepare --apply $campus/ne
offers "" prepare a b $campus/ne
offers "$campus/new" collect $campus/links $campus/ne

# Each option of a program's usage is offered, and no other. (view and review offer them by their commands, as above.)
for name in rollout doctor window wire sweep prepare collect; do
    wanted=$({
        "./$name" --help 2>&1 </dev/null | sed -n '/^usage:/,$p' | grep '^  ' | grep -o -E -e '--[a-z-]+'
        [ $name = rollout ] && echo --version
    } | sort -u | tr '\n' ' ')
    offers "${wanted% }" $name --
done

echo "$passed passed, $failed failed"
[ "$failed" = 0 ]
