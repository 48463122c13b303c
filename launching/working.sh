# shellcheck shell=bash
# working.sh: what builds and proofs share: one of a kind works at a time, a line tells how far it is, and what is ended takes along what
# it made.
: "${top:?}" "${caller:?}"

# The processes and the folders of this script, and what it says where it is ended before it is done.
running=()
rooms=()
when_interrupted='interrupted'
# The seconds at which a line of progress was told last, and those between two of them.
told=0
patience=20

# Ends what works for this script, and removes what it made. What these processes started ends with them, but may write for a moment longer.
clean() {
    local again=1
    if [ "${#running[@]}" != 0 ]; then
        kill "${running[@]}" 2>/dev/null
        wait "${running[@]}" 2>/dev/null
        again=50
    fi
    running=()
    [ "${#rooms[@]}" = 0 ] || remove "$again"
    rooms=()
}

# remove TRIES: removes the rooms, and looks so often whether one is there again, until none is for three looks.
remove() {
    local tries=$1 gone=0 it
    rm -rf "${rooms[@]}" 2>/dev/null
    while [ "$((tries -= 1))" -gt 0 ] && [ "$gone" -lt 3 ]; do
        sleep 0.1
        gone=$((gone + 1))
        for it in "${rooms[@]}"; do
            [ -e "$it" ] && gone=0
        done
        [ "$gone" != 0 ] || rm -rf "${rooms[@]}" 2>/dev/null
    done
}

end_line() {
    if [ -t 2 ]; then
        printf '\r\033[K' >&2
    fi
}

interrupted() {
    end_line
    clean
    say "$when_interrupted"
    exit "$1"
}

# begin_work FOLDER NOTE: takes the turn in FOLDER; another call that works there is waited for. NOTE is said at an end by a signal.
begin_work() {
    when_interrupted=$2
    trap 'interrupted 129' HUP
    trap 'interrupted 130' INT
    trap 'interrupted 143' TERM
    trap clean EXIT
    if ! mkdir -p "$1" 2>/dev/null || ! { exec {turn}>"$1/lock"; } 2>/dev/null; then
        fail "nothing can be written in $1"
    fi
    if command -v flock >/dev/null 2>&1 && ! flock -n "$turn"; then
        say "waiting for another call that is at work here"
        flock "$turn" &
        running=($!)
        wait "$!"
        running=()
    fi
    SECONDS=0
}

end_work() {
    clean
    trap - HUP INT TERM EXIT
    exec {turn}>&-
}

fail() {
    end_line
    say "$1"
    exit 70
}

# new_room: a folder that goes with this script, as `room`.
new_room() {
    room=$(mktemp -d 2>/dev/null) || fail "no folder can be made in ${TMPDIR:-/tmp}"
    rooms+=("$room")
}

# progress WORDS: says how far the work is: on a terminal on one line that moves, else on a line every so many seconds.
progress() {
    local columns
    if [ -t 2 ]; then
        columns=$(stty size <&2 2>/dev/null | awk '{ print $2 }')
        printf '\r%.*s\033[K' "$((${columns:-80} - 1))" "$caller: $1" >&2
    elif [ "$((SECONDS - told))" -ge "${DIQENYU_PROGRESS:-$patience}" ]; then
        told=$SECONDS
        say "$1"
    fi
}

# A moment's wait that a signal can end.
moment() {
    sleep 1 &
    wait "$!"
}

need_kit() {
    command -v rt >/dev/null 2>&1 || fail "the program isn't built, and the command rt of the Rattle kit isn't on the PATH"
}

# lanes_of MEGABYTES: how many things that need so much memory work side by side: as many as there are processors, and as find room.
lanes_of() {
    local lanes by_memory
    lanes=$(nproc)
    by_memory=$(($("$top/launch" --memory) / ($1 * 1000)))
    [ "$by_memory" -lt "$lanes" ] && lanes=$by_memory
    [ "$lanes" -ge 1 ] || lanes=1
    echo "$lanes"
}
