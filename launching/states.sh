# shellcheck shell=bash
# states.sh: what the launchers share: which programs there are, what stands built of today's sources, and whether it is proved. A script
# that reads it has set `top`, the folder of the product, and `caller`, the name that its lines begin with.
#
# A program stands in a folder of build/, with a file beside it, NAME.made, that has the sum of the program, the sum of the sources that it
# was made of, the kit and the day. It is the program of today's sources where both sums are those of the files as they are.

# shellcheck disable=SC2034 # (what is set here is for the scripts that read it)
: "${top:?}" "${caller:?}"

# The programs, as the user calls them.
programs=(review rollout view doctor)
# Where the programs of a release stand, those that were proved here, and those that were built without proofs.
released=$top/programs
proved=$top/build/proved
unproved=$top/build/unproved
# The parts of a crate that decide what is proved, and what is compiled.
proof_parts=(src specs proofs)
code_parts=(src)

say() {
    printf '%s: %s\n' "$caller" "$1" >&2
}

# Whether the words hold a program's name.
is_program() {
    local name
    for name in "${programs[@]}"; do
        [ "$name" = "${1:-}" ] && return
    done
    return 1
}

# How a list is said: `review, view and doctor`.
in_words() {
    local said=$1
    shift
    while [ $# -gt 1 ]; do
        said="$said, $1"
        shift
    done
    echo "$said${1:+ and $1}"
}

# crate_lines FOLDER NAME ..: the lines of FOLDER's crates.txt, without comments, for the programs NAME and all that they use, each behind
# those of what it uses.
crate_lines() {
    local folder=$1
    shift
    awk -v tops="$*" '
        { sub(/#.*/, "") }
        /:/ { split($0, halves, ":"); split(halves[1], words, " "); lines[words[1]] = $0; below[words[1]] = halves[2] }
        function visit(crate,    used, count, at) {
            if (crate in seen) return
            seen[crate] = 1
            count = split(below[crate], used, " ")
            for (at = 1; at <= count; at++) if (used[at] in lines) visit(used[at])
            print lines[crate]
        }
        END {
            count = split(tops, names, " ")
            for (at = 1; at <= count; at++) if (names[at] "_cli" in lines) visit(names[at] "_cli")
        }' "$folder/crates.txt"
}

# crates_of FOLDER NAME ..: the crates that the programs are made of, in that order.
crates_of() {
    local line
    crate_lines "$@" | while read -r line; do
        echo "${line%%[ :]*}"
    done
}

# The folder of the kit whose command rt is on the PATH.
kit_folder() {
    local rt
    rt=$(type -P rt) && rt=$(readlink -f "$rt") && rt=${rt%/*} && echo "${rt%/*}"
}

# That kit, in a line; nothing where there is none.
kit_name() {
    local kit name
    kit=$(kit_folder) || return 1
    if ! read -r name 2>/dev/null <"$kit/KIT-ID"; then
        name=$(rt version 2>/dev/null | head -n 1)
    fi
    echo "$name"
}

# The sum of what comes in.
sum() {
    local it
    it=$(sha256sum) && echo "${it:0:64}"
}

# sources_of FOLDER NAME PART ..: the files of these parts of the program's crates in FOLDER, seen from there, each with a byte 0 behind
# it.
sources_of() {
    local folder=$1 name=$2 crates part it places=()
    shift 2
    mapfile -t crates < <(crates_of "$folder" "$name")
    for it in "${crates[@]}"; do
        for part in "$@"; do
            [ -d "$folder/crates/$it/$part" ] && places+=("crates/$it/$part")
        done
    done
    [ "${#places[@]}" != 0 ] && (cd "$folder" && find "${places[@]}" ! -type d -print0 | LC_ALL=C sort -z)
}

# sum_of FOLDER KIT NAME PART ..: the sum of all that the program NAME is made of, or nothing where a file can't be read: of its crates as
# crates.txt has them, what HANDLES allows, the kit, and the names and bytes of these parts of the crates.
sum_of() {
    local folder=$1 kit=$2 name=$3 sums
    sums=$(set -o pipefail && sources_of "$folder" "${@:3}" | (cd "$folder" && xargs -0 -r sha256sum) 2>/dev/null) || return 1
    [ -n "$sums" ] || return 1
    {
        echo "$kit"
        crate_lines "$folder" "$name"
        cat "$folder/HANDLES" 2>/dev/null
        echo "$sums"
    } | sum
}

# made FILE WORD: what the file beside a program says: its program, sources, kit, or date.
made() {
    local word rest
    while read -r word rest; do
        [ "$word" = "$2" ] && echo "$rest"
    done 2>/dev/null <"$1.made"
}

# write_made FILE SOURCES KIT: says beside a program what it was made of.
write_made() {
    printf 'program %s\nsources %s\nkit %s\ndate %s\n' "$(sum <"$1")" "$2" "$3" "$(date -u +%Y-%m-%d)" >"$1.made.new" &&
        mv "$1.made.new" "$1.made"
}

# listing FILE KIT NAME PART ..: a sum that stays the same as long as no file that decides on a program is written, added or taken away.
# Files that were written just now have another one each time, since a clock may not tell their next change from this one.
listing() {
    local file=$1 kit=$2 crates places=() it part now
    shift 2
    mapfile -t crates < <(crates_of "$top" "$1")
    shift
    for it in "${crates[@]}"; do
        for part in "$@"; do
            places+=("$top/crates/$it/$part")
        done
    done
    printf -v now '%(%s)T'
    {
        echo "$kit"
        find "$top/crates.txt" "$top/HANDLES" "${places[@]}" "$file" "$file.made" -printf '%p %y %i %s %T@ %C@\n' 2>/dev/null
    } | awk -v now="$now" -v once="$$ $RANDOM" '
        { print; if ($NF > newest) newest = $NF }
        END { if (newest > now - 2) print once, now }' | sum
}

# fits FILE NAME PART ..: whether FILE is the program that its file says, of today's sources; `why` is then `fits`. Else it is `none`,
# `sources`, or, where it is another program than that, `exchanged`.
fits() {
    local file=$1 kit seen known
    shift
    why=none
    [ -x "$file" ] && [ -r "$file.made" ] || return 1
    # (without a kit there is none that would prove otherwise)
    kit=$(kit_name) || kit=$(made "$file" kit)
    seen=$(listing "$file" "$kit" "$@")
    # The answer of an earlier run holds as long as the listing does.
    read -r known why 2>/dev/null <"$file.seen" || known=
    if [ "$known" != "$seen" ]; then
        if [ "$(sum <"$file")" != "$(made "$file" program)" ]; then
            why=exchanged
        elif [ "$(sum_of "$top" "$kit" "$@")" != "$(made "$file" sources)" ]; then
            why=sources
        else
            why=fits
        fi
        { echo "$seen $why" >"$file.seen.$$" && mv "$file.seen.$$" "$file.seen"; } 2>/dev/null
    fi
    [ "$why" = fits ]
}

# Whether only proved programs may be run.
wants_proof() {
    [ "${DIQENYU_PROVED:-0}" != 0 ]
}

# The program that the environment names in place of NAME's own, as DIQENYU_REVIEW does; nothing where it names none.
named() {
    local word=DIQENYU_${1^^}
    echo "${!word:-}"
}

# look NAME [run]: finds what stands built of a program, without building it, to run it or to tell of it. Sets `program`, its path, and `state`: `proved`; `unproved`;
# `named` in the environment, of which nothing is known; `none`; `exchanged`, in a release, or `missing`, where what the environment names
# isn't there. `doubt` says why a program that was proved is not run, and `note` why one is built anew, where another one stands in its
# place.
look() {
    local name=$1
    note='' doubt=''
    program=$(named "$name")
    if [ -n "$program" ]; then
        [[ $program == /* ]] || program=$PWD/$program
        state=missing
        [ -f "$program" ] && [ -x "$program" ] && state=named
        # It may be the one that was proved here, which a mere run doesn't ask.
        if { [ "${2:-}" != run ] || wants_proof; } && [ "$program" -ef "$proved/$name" ]; then
            fits "$proved/$name" "$name" "${proof_parts[@]}" && state=proved
        fi
        return
    fi
    program=$released/$name
    if [ -x "$program" ]; then
        state=exchanged
        [ "$(sum <"$program")" = "$(made "$program" program)" ] && state=proved
        return
    fi
    program=$proved/$name
    state=proved
    fits "$program" "$name" "${proof_parts[@]}" && return
    [ "$why" = exchanged ] && doubt="build/proved/$name isn't the program that was proved, and is not run"
    program=$unproved/$name
    state=unproved
    fits "$program" "$name" "${code_parts[@]}" && return
    [ "$why" = exchanged ] && note="build/unproved/$name isn't the program that was built, and is built anew"
    state=none
}
