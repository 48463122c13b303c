#!/usr/bin/env bash
# launcher.sh: tries ./launch and ./prove with a kit of its own, which does no proof, but works as the Rattle kit does: it takes its time,
# crates side by side, keeps what passed or keeps nothing, writes the lines by which it is followed, and fails where a source says 'wrong'.
# The last line is 'N passed, M failed'.
set -u
cd "$(dirname "${BASH_SOURCE[0]}")/.." || exit 2
passed=0
failed=0
scratch=$(mktemp -d) || exit 2
trap 'rm -rf "$scratch"' EXIT
unset DIQENYU_REVIEW DIQENYU_ROLLOUT DIQENYU_VIEW DIQENYU_DOCTOR DIQENYU_PROVED DIQENYU_PROGRESS
top=$scratch/top
kit=$scratch/opt/kit
export TMPDIR=$scratch/temporary XDG_CACHE_HOME=$scratch/cache RT_DIARY=$scratch/diary
mkdir -p "$kit/bin" "$kit/toolchain/bin" "$kit/c" "$top/crates" "$TMPDIR"
cp -R launch prove launching "$top/"
echo 1.2.3 >"$top/VERSION"
echo "Handles allowed: none." >"$top/HANDLES"
printf '# comment\nlow:\nleft: low kit_library\nright: low\nreview_cli: left right # the program\nrollout_cli: left\nview_cli: low\nother: low\ndoctor_cli: other\n' >"$top/crates.txt"
echo "stand-in-kit 1" >"$kit/KIT-ID"
# (weights of a machine that is much slower than the stand-in)
table() { printf 'build review 90\nproof left 120\nproof review_cli 60\n'; }
table >"$top/launching/weights"

cat >"$kit/bin/rt" <<'RT'
#!/usr/bin/env bash
# rt ci at the top of a repository, rt all check, rt run and rt try in the folder of a program. RT_DIARY gets a line for each crate that
# is begun and for each that passes, and for each build; RT_OLD keeps nothing between runs of rt ci; RT_CI fails rt ci, and RT_ALL fails
# rt all. A crate whose name is of the pattern RT_LAST doesn't end before the command RT_WAITS succeeds.
here=$(dirname "$(readlink -f "$0")")
kept=$(dirname "$(dirname "$here")")/rattle-kept
[ -n "${RT_OLD:-}" ] && kept=
trap 'rm -rf "${room:-}"' EXIT
trap 'kill $(jobs -p) 2>/dev/null; wait; exit 143' TERM
room=$(mktemp -d)
libraries() { sed -n "s/^$1:\([^#]*\).*/\1/p" "$top/crates.txt"; }
waits() {
    [[ $1 =~ ^(${RT_LAST:-})$ ]] || return 0
    for _ in $(seq 600); do
        eval "$RT_WAITS" && return
        sleep 0.1
    done
}
# The crates that this one is made of, and a sum of their sources.
below() { for it in $(libraries "$1"); do [ -d "$top/crates/$it" ] && below "$it"; done; echo "$1"; }
sum() { for it in $(below "$1" | sort -u); do cat "$top/crates/$it/src/"*; done | cksum | tr ' ' -; }
made() { if [ -e "$top/crates/$1/src/main.rt" ]; then echo "$top/crates/$1/out/$1"; else echo "$top/crates/$1/out/rlib/$1.rlib"; fi; }
# What stands in out/ is that of these sources.
stands() { [ -e "$(made "$1")" ] && [ "$(cat "$top/crates/$1/out/stamp" 2>/dev/null)" = "$(sum "$1")" ]; }
prove() {
    local out=$top/crates/$1/out word it
    for it in $(libraries "$1"); do
        while [ -d "$top/crates/$it" ] && ! stands "$it"; do
            [ -e "$room/failed" ] && return
            sleep 0.1
        done
    done
    mkdir -p "$out/rlib"
    if [ -n "$to" ] && [ -e "$to/$1-$(sum "$1")" ]; then
        cp "$to/$1-$(sum "$1")" "$(made "$1")"
        sum "$1" >"$out/stamp"
        echo "rt: $1 is kept: an earlier run on this machine proved the same files over the same libraries"
        return
    fi
    echo "begin $1" >>"$RT_DIARY"
    waits "$1"
    word=$(cat "$top/crates/$1/src/"*.rt)
    if [ "$word" = wrong ]; then
        printf '== %s\n%s: error: it is wrong\nlogic=not-proved\n' "$1" "$1"
        echo "rt: $1 NOT PROVED"
        touch "$room/failed"
        return
    fi
    printf '#!/bin/sh\necho "proved %s $*"\nexit 2\n' "$word" >"$out/new"
    chmod +x "$out/new"
    [ -n "$to" ] && cp "$out/new" "$to/$1-$(sum "$1")"
    mv "$out/new" "$(made "$1")"
    sum "$1" >"$out/stamp"
    echo "end $1" >>"$RT_DIARY"
    printf '== %s\nlogic=proved\n' "$1"
    [ "$verb" = ci ] && echo "rt: $1 proved"
}
verb=$1
case $verb in
    help) [ -n "${RT_OLD:-}" ] || echo "What a run passed is kept beside the kit" ;;
    ci)
        top=$PWD to=$kept
        { [ -d .git ] && [ -f HANDLES ] && [ ! -e crates/left/must-fail ]; } || exit 2
        [ -n "${RT_CI:-}" ] && echo "rt: it was not run" && exit 1
        [ -z "$kept" ] || mkdir -p "$kept"
        rm -rf crates/*/out
        for crate in $(sed -n 's/^\([a-z_]*\):.*/\1/p' crates.txt); do prove "$crate" & done
        wait
        [ -e "$room/failed" ] && exit 1
        echo "3 passed, 0 failed"
        ;;
    all)
        top=$(cd ../.. && pwd) to=
        [ -n "${RT_ALL:-}" ] && exit 1
        for crate in $(below "$(basename "$PWD")" | sort -u); do stands "$crate" || prove "$crate" & done
        wait
        ;;
    run)
        top=$(cd ../.. && pwd) to=
        for crate in $(below "$(basename "$PWD")"); do
            stands "$crate" || [ -e "$room/failed" ] || prove "$crate"
        done
        [ -e "$room/failed" ] && exit 1
        "./out/$(basename "$PWD")"
        ;;
    try)
        top=$(cd ../.. && pwd)
        crate=$(basename "$PWD")
        echo "try $crate" >>"$RT_DIARY"
        waits "$crate"
        word=$(cat src/main.rt)
        if [ "$word" = nonsense ]; then
            echo "src/main.rt:1: error: it is no program"
            exit 1
        fi
        printf '#!/bin/sh\nif [ "$*" = --version ]; then echo "%s of Diqenyu, schema 1"; exit; fi\necho "built %s $*"\nexit 2\n' "${crate%_cli}" "$word" >"$room/module.bc"
        "$here/../toolchain/bin/clang" -c "$room/module.bc" -o "$room/first"
        "$here/../toolchain/bin/clang" -fsanitize=address -c "$room/module.bc" -o "$room/second"
        # (a kit's own program is none of the launchers')
        echo "tried $crate" >>"$RT_DIARY"
        ;;
    *) exit 2 ;;
esac
RT
# A compiler and a linker that copy what they are given.
cat >"$kit/toolchain/bin/clang" <<'TOOL'
#!/usr/bin/env bash
for word in "$@"; do case $word in *.bc) from=$word ;; esac; done
while [ "$1" != -o ]; do shift; done
cp "$from" "$2"
TOOL
cat >"$kit/bin/rattle-link" <<'TOOL'
#!/usr/bin/env bash
while [ "$1" != -o ]; do shift; done
cp "$3" "$2"
chmod +x "$2"
TOOL
cp "$kit/bin/rattle-link" "$kit/bin/rattle"
chmod +x "$kit/bin/"* "$kit/toolchain/bin/clang"
export PATH=$kit/bin:$PATH
touch "$scratch/out" "$scratch/err" "$scratch/diary"

# source_is CRATE WORD: the text of a crate's source.
source_is() {
    local file=lib
    [[ $1 == *_cli ]] && file=main
    mkdir -p "$top/crates/$1/src" "$top/crates/$1/must-fail"
    echo "$2" >"$top/crates/$1/src/$file.rt"
}
# as_at_first: all sources as they were, and nothing built or proved.
as_at_first() {
    rm -rf "$top/build" "$XDG_CACHE_HOME" "$scratch/opt/rattle-kept"
    for crate in low left right other review_cli rollout_cli view_cli doctor_cli; do source_is "$crate" "${crate%_cli}"; done
}
# seen WORD FILE: the command by which the stand-in waits for a line of a file.
seen() {
    printf "grep -q '%s' '%s'" "$1" "$2"
}

# run COMMAND ..: the last run, by its output, error output and status.
run() {
    : >"$scratch/diary"
    "$top/$1" "${@:2}" >"$scratch/out" 2>"$scratch/err"
    status=$?
}

# wants NAME: the words behind it are a condition that holds.
wants() {
    local name=$1
    shift
    if "$@"; then
        passed=$((passed + 1))
    else
        failed=$((failed + 1))
        echo "FAILED $name: $*"
        sed 's/^/  out: /' "$scratch/out"
        sed 's/^/  err: /' "$scratch/err"
        sed 's/^/  diary: /' "$scratch/diary"
        find "$TMPDIR" -mindepth 1 | sed 's/^/  left: /'
    fi
}
# is WORD ...: the program of these words ran with the words a and b.
is() { [ "$status" = 2 ] && [ "$(cat "$scratch/out")" = "$* a b" ]; }
# refused LINE: nothing was run, and this line, seen as a pattern, says why.
refused() { [ "$status" = 70 ] && [ ! -s "$scratch/out" ] && says "$1"; }
says() { grep -q -- "$1" "$scratch/err"; }
says_only() { [ "$(cat "$scratch/err")" = "$1" ]; }
silent() { [ ! -s "$scratch/err" ]; }
# The crates that were proved, and the programs that were built, in the order of their names, each as often as it was.
did() { [ "$(sed -n "s/^$1 //p" "$scratch/diary" | sort | tr '\n' ' ')" = "$2" ]; }
proved() { did end "$1"; }
built() { did tried "$1"; }
line_of() { grep -n "^$1\$" "$scratch/diary" | head -n 1 | cut -d: -f1; }
side_by_side() { [ "$(line_of "$1 $3")" -lt "$(line_of "$2 $4")" ] && [ "$(line_of "$1 $4")" -lt "$(line_of "$2 $3")" ]; }
# Nothing of the run works on or lies about.
nothing_left() {
    for _ in $(seq 300); do
        if ! pgrep -f "$kit/bin/rt|$TMPDIR" >/dev/null && [ -z "$(find "$TMPDIR" -mindepth 1)" ]; then return 0; fi
        sleep 0.1
    done
    return 1
}
until_diary_has() {
    for _ in $(seq 600); do
        grep -q "$1" "$scratch/diary" && return
        sleep 0.1
    done
}
# ended_by SIGNAL WORD COMMAND ..: a run that gets the signal once the diary has the word.
ended_by() {
    local signal=$1 word=$2 one
    shift 2
    : >"$scratch/diary"
    # (a shell's background command would ignore the interrupt)
    python3 -c 'import os, signal, sys
signal.signal(signal.SIGINT, signal.SIG_DFL)
os.setsid()
os.execv(sys.argv[1], sys.argv[1:])' "$top/$1" "${@:2}" >"$scratch/out" 2>"$scratch/err" &
    one=$!
    until_diary_has "$word"
    kill "-$signal" "$one"
    wait "$one"
    status=$?
}
unproved_line="review: the proof of this build has not been checked on this machine: ./prove review checks it"

as_at_first
wants "the crates of a program" [ "$("$top/launch" --crates review | tr '\n' ' ')" = "low left right review_cli " ]
wants "a crate of the tree has a weight" [ -z "$(for name in review rollout view doctor; do ./launch --crates $name; done | sort -u | while read -r crate; do grep -q "^proof $crate " launching/weights || echo "$crate"; done)" ]

# ---- A first answer: all four programs, without proofs.
run launch --state review
wants "nothing stands built" [ "$status" = 70 ]
run launch review --version
wants "the version of what isn't built" [ "$(cat "$scratch/out")" = "review of Diqenyu 1.2.3, not built" ]
wants "it builds nothing" built ""
DIQENYU_PROVED=1 run launch review a b
wants "what isn't built is refused where a proof is wanted" refused '^review: it is not proved on this machine; DIQENYU_PROVED wants a proved program: ./prove review makes it$'
wants "and not built" built ""
RT_LAST='.*' RT_WAITS="$(seen '0 of 4 programs built' "$scratch/err") && $(seen 'try rollout_cli' "$scratch/diary")" \
    DIQENYU_PROGRESS=1 run launch review a b
wants "the first run" is built review
wants "it says what it begins" says '^review: building review, rollout, view and doctor without proofs, once: about [0-9]* seconds on [0-9]* processors$'
wants "it says how far it is" says '^review: 0 of 4 programs built; [0-9]* seconds, some [0-9]* more by the table$'
wants "it says what is known of its proof" says "^$unproved_line\$"
wants "it builds each program once" built "doctor_cli review_cli rollout_cli view_cli "
if [ "$(nproc)" -gt 1 ]; then wants "it builds them side by side" side_by_side try tried review_cli rollout_cli; fi
wants "it proves nothing" proved ""
wants "it leaves nothing lying about" nothing_left
run launch review a b
wants "the second run" is built review
wants "it says only what is known of its proof" says_only "$unproved_line"
wants "it builds nothing" built ""
# (files that were written within two seconds are read again at each run)
touch "$top/crates/low/src/lib.rt"
sleep 3
mkdir "$scratch/counting"
# shellcheck disable=SC2016
printf '#!/bin/sh\necho "read $#" >>"$RT_DIARY"\nexec %s "$@"\n' "$(command -v sha256sum)" >"$scratch/counting/sha256sum"
chmod +x "$scratch/counting/sha256sum"
PATH=$scratch/counting:$PATH run launch review a b
wants "the sources are read" grep -q '^read [1-9]' "$scratch/diary"
PATH=$scratch/counting:$PATH run launch review a b
wants "and what they make is remembered" [ "$(grep -c '^read [1-9]' "$scratch/diary"):$(cat "$scratch/out")" = "0:built review a b" ]
run launch view a b
wants "the others are built with it" is built view
run launch --state view
wants "what stands built is told" [ "$(head -n 2 "$scratch/out" | tr '\n' ' ')" = "unproved $top/build/unproved/view " ]
run launch view --version
wants "the version of an unproved program" [ "$(cat "$scratch/out")" = "view of Diqenyu 1.2.3, schema 1, not proved on this machine: ./prove view" ]
DIQENYU_PROVED=1 run launch review a b
wants "an unproved program is refused where a proof is wanted" refused 'DIQENYU_PROVED wants a proved program'

# How long it takes still is said by the table until a program ends, and then by what that one took.
rm -rf "$top/build"
for name in review rollout view doctor; do echo "build $name 9000"; done >"$top/launching/weights"
RT_LAST=view_cli RT_WAITS=$(seen '^review: [1-3] of 4 programs built' "$scratch/err") DIQENYU_PROGRESS=1 run launch review a b
wants "a build's end" is built review
wants "the first program that ends says how long the others take" says '^review: [1-3] of 4 programs built; [0-9]* seconds, \(longer than expected\|about [0-9]\{1,3\} more\)$'
table >"$top/launching/weights"

# By content, not by time.
touch "$top/crates/left/src/lib.rt" "$top/crates.txt"
run launch review a b
wants "a time is no change" built ""
source_is review_cli changed
run launch review a b
wants "a changed source" is built changed
wants "only its program is built" built "review_cli "
touch -r "$top/crates.txt" "$top/crates/low/src/lib.rt"
echo later >"$scratch/lib.rt" && touch -d yesterday "$scratch/lib.rt" && cp -p "$scratch/lib.rt" "$top/crates/right/src/lib.rt"
run launch review a b
wants "an older file is a change too" built "review_cli "
touch "$top/crates/right/src/more"
run launch review a b
rm "$top/crates/right/src/more"
run launch review a b
wants "a source that is gone is a change" built "review_cli "
mkdir -p "$top/crates/left/proofs" && echo lemma >"$top/crates/left/proofs/one.antt"
run launch review a b
wants "a proof is no part of what is built without it" built ""
rm -r "$top/crates/left/proofs"
echo "stand-in-kit 2" >"$kit/KIT-ID"
run launch review a b
wants "another kit builds anew" built "doctor_cli review_cli rollout_cli view_cli "
printf '#!/bin/sh\necho stranger\n' >"$top/build/unproved/review"
run launch review a b
wants "an exchanged program is built anew" is built changed
wants "it is told" says "^review: build/unproved/review isn't the program that was built, and is built anew\$"

# What can't be built.
source_is rollout_cli nonsense
source_is view_cli nonsense
run launch review a b
wants "another program's fault" is built changed
run launch view a b
wants "a program that can't be built" refused '^view: the program could not be built: its sources make no program$'
wants "it says why" says '^src/main.rt:1: error: it is no program$'
wants "the fault of the other is told as its own" says '^rollout: the program could not be built: its sources make no program$'
wants "no lie about what stands built" [ ! -e "$top/build/unproved/view.new" ]
as_at_first

# An end by a signal, and two calls at once.
for signal in TERM INT; do
    RT_LAST='.*' RT_WAITS=false ended_by $signal 'try review_cli' launch review a b
    wants "a build's end by $signal has its status" [ "$status" = "$((128 + $(kill -l "$signal")))" ]
    wants "after $signal it says so" says '^review: interrupted; what is built is kept$'
    wants "after $signal nothing works on" nothing_left
    wants "after $signal nothing stands built" [ ! -e "$top/build/unproved/review" ]
done
: >"$scratch/diary"
RT_LAST=review_cli RT_WAITS=$(seen 'waiting for another call' "$scratch/err") \
    "$top/launch" review a b >"$scratch/first" 2>"$scratch/first.err" &
until_diary_has 'try review_cli'
"$top/launch" review a b >"$scratch/out" 2>"$scratch/err"
status=$?
wait
wants "the second of two calls" is built review
wants "it waits for the first" says '^review: waiting for another call that is at work here$'
wants "the first of two calls" cmp -s "$scratch/first" "$scratch/out"
wants "they build each program once" built "doctor_cli review_cli rollout_cli view_cli "

# ---- What is proved.
RT_LAST='left|right' RT_WAITS="$(seen '1 of 4 crates proved, now .*left' "$scratch/err") && $(seen 'begin right' "$scratch/diary")" \
    DIQENYU_PROGRESS=1 run prove review
wants "a proof" [ "$status" = 0 ]
wants "it says what it begins" says '^prove: proving review: 4 crates, some [0-9]* minutes* on [0-9]* processors by the table; the first crate that ends says it better$'
wants "it says how far it is" says '^prove: 1 of 4 crates proved, now .*left.*; [0-9]* minutes, about [0-9]* more$'
wants "it says its end" says '^prove: review proved, in [0-9]* \(seconds\|minutes\)$'
wants "all crates of the program are proved, and no other" proved "left low review_cli right "
if [ "$(nproc)" -gt 1 ]; then wants "independent crates are proved side by side" side_by_side begin end left right; fi
wants "it leaves nothing lying about" nothing_left
wants "what was proved of it is told beside it" [ "$(sed -n 's/^crate \([a-z_]*\) [0-9a-f]* /\1 /p' "$top/build/proved/review.report" | tr '\n' ' ')" = "low proved left proved right proved review_cli proved " ]
run launch review a b
wants "the proved program is run" is proved review
wants "it says nothing" silent
DIQENYU_PROVED=1 run launch review a b
wants "it is run where a proof is wanted" is proved review
run launch review --version
wants "the version of a proved program" [ "$(cat "$scratch/out")" = "review of Diqenyu 1.2.3, proved by stand-in-kit 2" ]
run prove review
wants "what is proved isn't proved again" says_only "prove: review stands proved by stand-in-kit 2"
wants "nothing is" proved ""
run prove
wants "the other programs" [ "$status" = 0 ]
wants "what they share was proved once" proved "doctor_cli other rollout_cli view_cli "
PATH=/usr/bin:/bin run launch review a b
wants "a proved program needs no kit" is proved review

# From nothing: all four, each crate once.
rm -rf "$top/build" "$scratch/opt/rattle-kept"
run prove
wants "all four from nothing, each crate once" proved "doctor_cli left low other review_cli right rollout_cli view_cli "

rm -rf "$top/build/unproved" "$top/build/proved/view" "$top/build/proved/doctor"
run launch view a b
wants "what stands proved is not built without its proof" built "doctor_cli view_cli "
run prove
wants "what is missing is proved again" [ "$status" = 0 ]

# A proved program is run only of today's sources, by today's kit, and if it is the one.
source_is right changed
run launch review a b
wants "of changed sources the unproved program is run" is built review
wants "and it is told" says "^$unproved_line\$"
DIQENYU_PROVED=1 run launch review a b
wants "it is refused where a proof is wanted" refused 'it is not proved on this machine'
source_is right right
DIQENYU_PROVED=1 run launch review a b
wants "the sources of the proof again" is proved review
mkdir -p "$top/crates/left/specs" && echo weaker >"$top/crates/left/specs/one.antt"
DIQENYU_PROVED=1 run launch review a b
wants "a changed definition is a change of what is proved" refused 'it is not proved on this machine'
rm -r "$top/crates/left/specs"
echo "Handles allowed: Net." >"$top/HANDLES"
DIQENYU_PROVED=1 run launch review a b
wants "other handles are a change" refused 'it is not proved on this machine'
echo "Handles allowed: none." >"$top/HANDLES"
echo "stand-in-kit 3" >"$kit/KIT-ID"
DIQENYU_PROVED=1 run launch review a b
wants "another kit has proved nothing" refused 'it is not proved on this machine'
echo "stand-in-kit 2" >"$kit/KIT-ID"
printf '#!/bin/sh\necho stranger\n' >"$scratch/stranger" && chmod +x "$scratch/stranger"
cp "$scratch/stranger" "$top/build/proved/review"
DIQENYU_PROVED=1 run launch review a b
wants "an exchanged program is refused" refused "^review: build/proved/review isn't the program that was proved, and is not run; DIQENYU_PROVED wants a proved program: ./prove review makes it\$"
run launch review a b
wants "the unproved one is run in its place" is built review
run launch review a b
wants "it says why" says_only "review: build/proved/review isn't the program that was proved, and is not run: ./prove review checks it"
run prove review
wants "its proof is taken again" [ "$status" = 0 ]
wants "its crates are kept" proved ""
run launch review a b
wants "and the proved program is run" is proved review
mkdir -p "$top/crates/review_cli/out" && cp "$scratch/stranger" "$top/crates/review_cli/out/review_cli"
run launch review a b
wants "a program that somebody copies into out/ is not run" is proved review

# A proof that fails.
source_is right wrong
run prove rollout review
wants "a crate that isn't proved" [ "$status" = 70 ]
wants "it says which" says '^right: error: it is wrong$'
wants "it says where the log is" says '^prove: review could not be proved; the whole log is /'
wants "the log is there" grep -q '^rt: right NOT PROVED$' "$(sed -n 's/.*the whole log is //p' "$scratch/err")"
DIQENYU_PROVED=1 run launch review a b
wants "its program is refused" refused 'it is not proved on this machine'
run launch review a b
wants "the unproved program can be run" is built review
wants "it leaves nothing lying about" nothing_left
source_is right mended
run prove review
wants "what had been proved is taken" proved "review_cli right "

# While a proof works, others go on.
source_is right slowly
: >"$scratch/diary"
RT_LAST=right RT_WAITS=$(seen hastily "$top/crates/right/src/lib.rt") "$top/prove" review >"$scratch/first" 2>"$scratch/first.err" &
proof=$!
until_diary_has 'begin right'
"$top/launch" review a b >"$scratch/out" 2>"$scratch/err"
status=$?
wants "while a proof works the unproved program answers" is built review
source_is right hastily
wait "$proof"
status=$?
wants "a source that changes while a proof works" [ "$status" = 70 ]
cp "$scratch/first.err" "$scratch/err"
wants "it is told" says '^prove: review was proved as it stood when this began, and a source changed meanwhile: ./prove proves it as it is$'
DIQENYU_PROVED=1 run launch review a b
wants "and nothing else is taken for proved" refused 'it is not proved on this machine'
run prove review
wants "the next proof" [ "$status" = 0 ]

# The gate proves in this tree, and its programs are taken where no source changed meanwhile.
"$top/prove" --sums >"$scratch/sums"
for name in review rollout view doctor; do
    mkdir -p "$top/crates/${name}_cli/out"
    printf '#!/bin/sh\necho "gate %s $*"\nexit 2\n' $name >"$top/crates/${name}_cli/out/${name}_cli"
    chmod +x "$top/crates/${name}_cli/out/${name}_cli"
done
run prove --passed "$scratch/sums"
wants "what the gate proved" [ "$status" = 0 ]
wants "its crates are told so" [ "$(sed -n 's/^crate \([a-z_]*\) [0-9a-f]* /\1 /p' "$top/build/proved/doctor.report" | tr '\n' ' ')" = "low passed other passed doctor_cli passed " ]
DIQENYU_PROVED=1 run launch doctor a b
wants "it is run" is gate doctor
source_is other meanwhile
run prove --passed "$scratch/sums"
wants "a source that changed while the gate worked" refused '^prove: a source changed while rt ci worked: nothing is taken for proved$'

# ---- An end by a signal: what was proved until then is kept. So it is with a kit that keeps and with one that doesn't, each crate once.
for kind in keeping old; do
    [ $kind = old ] && export RT_OLD=1
    as_at_first
    for signal in TERM INT; do
        source_is review_cli "$signal"
        [ $signal = TERM ] || source_is low more
        RT_LAST='left|right' RT_WAITS=false ended_by $signal 'begin left' prove review
        wants "$kind kit: a proof's end by $signal has its status" [ "$status" = "$((128 + $(kill -l "$signal")))" ]
        wants "$kind kit: after $signal it says how to go on" says '^prove: interrupted; the next ./prove goes on from the crates that are proved$'
        wants "$kind kit: after $signal nothing works on" nothing_left
        DIQENYU_PROVED=1 run launch review a b
        wants "$kind kit: after $signal nothing is taken for proved" refused 'it is not proved on this machine'
    done
    run prove review
    wants "$kind kit: the run after an interrupt" [ "$status" = 0 ]
    wants "$kind kit: it goes on where it was" proved "left review_cli right "
    run prove rollout
    wants "$kind kit: the second program proves what it has alone" proved "rollout_cli "
    run launch rollout a b
    wants "$kind kit: it is run" is proved rollout
    run prove
    wants "$kind kit: and all others" proved "doctor_cli other view_cli "
    source_is left again
    : >"$scratch/diary"
    RT_LAST=left RT_WAITS=$(seen 'waiting for another call' "$scratch/err") "$top/prove" review >"$scratch/first" 2>"$scratch/first.err" &
    until_diary_has 'begin left'
    "$top/prove" review >"$scratch/out" 2>"$scratch/err"
    status=$?
    wait
    wants "$kind kit: the second of two proofs at once" [ "$status" = 0 ]
    wants "$kind kit: it waits for the first" says '^prove: waiting for another call that is at work here$'
    wants "$kind kit: each crate is proved once" proved "left review_cli "
    source_is left wrong
    run prove review
    wants "$kind kit: a proof that fails" [ "$status" = 70 ]
    wants "$kind kit: it says which crate" says '^left: error: it is wrong$'
    DIQENYU_PROVED=1 run launch review a b
    wants "$kind kit: nothing unproved is run" refused 'it is not proved on this machine'
done
unset RT_OLD

# Where rt ci fails for another reason than a proof, the crates are proved by rt all check; where that fails too, one after the other.
as_at_first
RT_CI=1 run prove review
wants "a kit whose rt ci can't be used" proved "left low review_cli right "
source_is low one_by_one
RT_CI=1 RT_ALL=1 run prove review
wants "crates one after the other, each once" proved "left low review_cli right "
run launch review a b
wants "what they make is run" is proved review

# ---- On a terminal one line moves.
source_is left terminal
RT_LAST=left RT_WAITS=$(seen 'crates proved' "$scratch/seen") python3 - "$top/prove" "$scratch/seen" >"$scratch/out" 2>"$scratch/err" <<'PY'
import os, pty, re, sys

process, terminal = pty.fork()
if not process:
    os.execv(sys.argv[1], [sys.argv[1], "review"])
seen = got = b"."
while got:
    try:
        got = os.read(terminal, 4096)
    except OSError:
        # (so a terminal's end is told)
        got = b""
    seen += got
    with open(sys.argv[2], "wb") as file:
        file.write(seen)
moves = [it for it in seen.split(b"\r") if it.startswith(b"prove: ") and b" crates proved" in it and it.endswith(b"\x1b[K")]
ends = re.search(rb"\x1b\[Kprove: review proved, in [0-9]+ (seconds|minutes)\s*$", seen)
print("moves" if moves and ends and all(len(it) < 84 for it in moves) else repr(seen))
PY
wants "the line of a terminal" [ "$(cat "$scratch/out")" = moves ]

# ---- How long it may take still: by the table until a crate ends, and then by what that one took. One processor.
printf 'proof a 100\nproof b 1200\n' >"$scratch/weights"
printf 'a:\nb: a\n' >"$scratch/crates"
printf 'begin a 0\nend a 200\n' >"$scratch/times"
# estimates WANTED LOG TIMES: after 200 seconds.
estimates() {
    printf '%s\n' "$2" >"$scratch/log"
    awk -v elapsed=200 -v lanes=1 -v times=/dev/null -f launching/estimate.awk part=weights "$scratch/weights" part=times "$3" \
        part=log "$scratch/log" part=made /dev/null part=crates "$scratch/crates" >"$scratch/out"
    [ "$(cat "$scratch/out")" = "$1" ]
}
wants "nothing has ended" estimates "0 of 2 crates proved; 3 minutes, some 22 more by the table" "" /dev/null
wants "what was kept says nothing" estimates "1 of 2 crates proved; 3 minutes, some 20 more by the table" "rt: a is kept: earlier" /dev/null
wants "the first crate took twice its time" estimates "1 of 2 crates proved; 3 minutes, about 40 more" "== a" "$scratch/times"

# ---- Programs that the environment names, and words that are no program's.
DIQENYU_REVIEW=$scratch/stranger run launch review a b
wants "a program that the environment names" [ "$(cat "$scratch/out")" = stranger ]
wants "it is run without a word" silent
DIQENYU_REVIEW=$scratch/stranger DIQENYU_PROVED=1 run launch review a b
wants "nothing is known of its proof" refused 'it is not proved on this machine'
DIQENYU_REVIEW=$top/build/proved/review DIQENYU_PROVED=1 run launch review a b
wants "unless it is the one that was proved" is proved review
DIQENYU_REVIEW=$scratch/none run launch review a b
wants "a program that isn't there" refused "^review: no program $scratch/none\$"
DIQENYU_REVIEW=$scratch/stranger run launch review --version
wants "its version" [ "$(cat "$scratch/out")" = "review of Diqenyu 1.2.3, $scratch/stranger, which DIQENYU_REVIEW names: nothing is known of its proof" ]
run prove other
wants "no such program to prove" [ "$status" = 2 ]
wants "the usage is told" says_only "usage: prove [review|rollout|view|doctor ..]"

# ---- Python programs build what isn't built, begin no proof, and tell once what isn't proved.
cp -R window windowing showing sweep sweeping prepare preparing "$top/"
network=("$PWD/examples/campus/old" "$PWD/examples/campus/new" "$PWD/examples/campus/links")
# told_by PROGRAM NAMES WORDS: the line of a run whose programs aren't proved.
told_by() { says "^$1: the proof of this build of $2 has not been checked on this machine: ./prove $3 checks it\$"; }
tell_once() {
    as_at_first
    run "$@"
    wants "$1 begins no proof" proved ""
    wants "$1 builds what isn't built" built "doctor_cli review_cli rollout_cli view_cli "
}
tell_once window "${network[@]}"
wants "window tells what isn't proved" told_by window "doctor, review, view and rollout" "doctor review view rollout"
DIQENYU_PROVED=1 run window "${network[@]}"
wants "window runs nothing unproved where a proof is wanted" refused '^doctor: it is not proved on this machine'
DIQENYU_DOCTOR=$scratch/stranger DIQENYU_PROVED=1 run window "${network[@]}"
wants "nor what the environment names" refused '^doctor: it is not proved on this machine'
tell_once sweep compare "${network[@]}"
wants "sweep tells what isn't proved" told_by sweep "review and view" "review view"
DIQENYU_PROVED=1 run sweep compare "${network[@]}"
wants "sweep runs nothing unproved where a proof is wanted" refused '^review: it is not proved on this machine'
if /usr/bin/python3 -c 'import textfsm' 2>/dev/null; then
    tell_once prepare "${network[0]}" "$scratch/prepared" --check
    wants "prepare tells what isn't proved" told_by prepare review review
    DIQENYU_PROVED=1 run prepare "${network[0]}" "$scratch/prepared" --check
    wants "prepare runs nothing unproved where a proof is wanted" refused '^review: it is not proved on this machine'
else
    echo "prepare isn't tried: /usr/bin/python3 has no textfsm (Debian: python3-textfsm)"
fi
run prove review
DIQENYU_PROVED=1 run window "${network[@]}"
wants "a proof of one program is none of another" refused '^doctor: it is not proved on this machine'

# ---- No kit, and no room.
as_at_first
if ! PATH=/usr/bin:/bin command -v rt >/dev/null; then
    PATH=/usr/bin:/bin run launch review a b
    wants "without the kit nothing is built" refused "^review: the program isn't built, and the command rt of the Rattle kit isn't on the PATH\$"
    PATH=/usr/bin:/bin run prove review
    wants "without the kit nothing is proved" refused "^prove: the program isn't built, and the command rt of the Rattle kit isn't on the PATH\$"
fi
TMPDIR=$scratch/none run launch review a b
wants "no folder for what is made" refused "^review: no folder can be made in $scratch/none\$"
TMPDIR=$scratch/none run prove review
wants "no folder for what is proved" refused "^prove: no folder can be made in $scratch/none\$"
# in_little_room FOLDER KILOBYTES COMMAND ..: runs where the folder has no more room than that.
in_little_room() {
    : >"$scratch/diary"
    # shellcheck disable=SC2016
    unshare -m bash -c 'mount -t tmpfs -o size="$2"k none "$1" && "${@:3}"' bash "$1" "$2" "$top/$3" "${@:4}" >"$scratch/out" 2>"$scratch/err"
    status=$?
}
# shellcheck disable=SC2016
if unshare -m bash -c 'mount -t tmpfs none "$1"' bash "$TMPDIR" 2>/dev/null; then
    in_little_room "$TMPDIR" 16 launch review a b
    wants "no room for what is made" refused '^review: the program could not be built: there is no room in '
    in_little_room "$TMPDIR" 16 prove review
    wants "no room for what is proved" refused '^prove: there is no room in '
    mkdir -p "$top/build/unproved"
    # (room for the kit's module, but not for the one that is caught; once the kit's is gone there is room again)
    head -c 300000 /dev/zero | tr '\0' x >>"$top/crates/review_cli/src/main.rt"
    in_little_room "$TMPDIR" 450 launch review a b
    wants "no room for what is compiled" refused '^review: the program could not be built: there is no room in '
    in_little_room "$top/build/unproved" 4 launch review a b
    wants "no room for a program" refused '^review: the program could not be built'
    wants "it isn't taken for built" [ ! -e "$top/build/unproved/review.made" ]
    source_is review_cli review
else
    echo "a want of room isn't tried: no folder can be bounded here (unshare, mount)"
fi
wants "nothing lies about" nothing_left

# ---- An unpacked release needs no kit, and holds its programs to their sums.
mkdir "$top/programs"
printf '#!/bin/sh\necho "released $*"\nexit 2\n' >"$top/programs/review"
chmod +x "$top/programs/review"
printf 'program %s\nsources 0\nkit that-kit 1\ndate 2026-01-01\n' "$(sha256sum <"$top/programs/review" | cut -c 1-64)" >"$top/programs/review.made"
for wanted in 0 1; do
    PATH=/usr/bin:/bin DIQENYU_PROVED=$wanted run launch review a b
    wants "a released program" is released
done
run launch review --version
wants "its version" [ "$(cat "$scratch/out")" = "review of Diqenyu 1.2.3, proved by that-kit 1" ]
echo "# more" >>"$top/programs/review"
run launch review a b
wants "a released program that was changed" refused "^review: programs/review isn't the program of this release, and is not run\$"

echo "$passed passed, $failed failed"
[ "$failed" = 0 ]
