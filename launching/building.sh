# shellcheck shell=bash
# building.sh: builds the programs of today's sources without their proofs, side by side, and keeps them in build/unproved/.
: "${top:?}" "${caller:?}" "${unproved:?}" "${proved:?}" "${proof_parts:?}" "${code_parts:?}" "${programs:?}"
# shellcheck source=launching/working.sh
. "$top/launching/working.sh" || exit 70

# make_kit KIT ROOM: makes in ROOM/kit a kit that is KIT but for two tools. Its compiler keeps the last module that it was given, and ends
# rt try at the one that is to be run, which is compiled with checks of each access to memory. Its prover isn't asked whether a check would
# refuse a name, which rt try does beside the build.
make_kit() {
    local kit=$1 made=$2 file
    mkdir -p "$made/kit/bin" "$made/toolchain/bin" || return 1
    for file in "$kit"/*; do
        case ${file##*/} in bin | toolchain) ;; *) ln -s "$file" "$made/kit/" || return 1 ;; esac
    done
    for file in "$kit"/bin/*; do
        case ${file##*/} in
            rattle) ;;
            rt*) cp "$file" "$made/kit/bin/" || return 1 ;;
            *) ln -s "$file" "$made/kit/bin/" || return 1 ;;
        esac
    done
    for file in "$kit"/toolchain/*; do
        [ "${file##*/}" = bin ] || ln -s "$file" "$made/toolchain/" || return 1
    done
    for file in "$kit"/toolchain/bin/*; do
        [ "${file##*/}" = clang ] || ln -s "$file" "$made/toolchain/bin/" || return 1
    done
    ln -s "$made/toolchain" "$made/kit/toolchain" || return 1
    cat >"$made/toolchain/bin/clang" <<TOOL || return 1
#!/bin/sh
for word in "\$@"; do
    case \$word in *.bc) { cp "\$word" "$made/module" && mv "$made/module" "$made/program.bc"; } || touch "$made/full" ;; esac
done
case "\$*" in *-fsanitize=address*) exit 1 ;; esac
exec "$kit/toolchain/bin/clang" "\$@"
TOOL
    cat >"$made/kit/bin/rattle" <<TOOL || return 1
#!/bin/sh
case "\$*" in *"no function"*) exit 0 ;; esac
exec "$kit/bin/rattle" "\$@"
TOOL
    chmod +x "$made/toolchain/bin/clang" "$made/kit/bin/rattle"
}

# step COMMAND ..: runs a command so that a signal to this process ends it too.
step() {
    "$@" </dev/null &
    running=($!)
    wait "$!"
    local status=$?
    running=()
    return "$status"
}

# gives_up WHY [LOG]: ends a build that failed, and tells why: that of the one who calls, unless there is no room for what is made, or was
# none for the module that was to be caught.
gives_up() {
    local why=$1
    if [ -e "$made/full" ] || ! head -c 100000 /dev/zero 2>/dev/null >"$made/room"; then
        why="there is no room in $made"
    fi
    end_line
    [ -z "${2:-}" ] || tail -n 20 "$2" >&2
    say "the program could not be built: $why"
    exit 1
}

# compile FOLDER MADE: makes MADE/program of the crate in FOLDER. The kit's way to run a program before its proof makes the whole program
# as one module, and compiles that without optimisation. The module is caught and compiled with it; its checks at run time stay in it.
compile() {
    local folder=$1 made=$2 kit
    kit=$(kit_folder)
    make_kit "$kit" "$made" 2>"$made/log" || gives_up "the kit can't be read" "$made/log"
    step env -C "$folder" "$made/kit/bin/rt" try >"$made/log" 2>&1
    [ -s "$made/program.bc" ] || gives_up "its sources make no program" "$made/log"
    step "$kit/toolchain/bin/clang" --target=x86_64-unknown-linux-gnu --sysroot="$made/toolchain" -march=x86-64 -ffunction-sections \
        -fdata-sections -mllvm -trap-unreachable --no-default-config -no-canonical-prefixes -fintegrated-cc1 -c -x ir \
        "$made/program.bc" -o "$made/program.o" -fPIE -O1 2>"$made/log" || gives_up "$(tail -n 3 "$made/log")"
    step "$kit/bin/rattle-link" --target x86_64-unknown-linux-gnu --toolchain "$kit/toolchain" -o "$made/program" \
        "$made/program.o" "$kit/c/libos_c.a" "$kit/c/liblibc_c.a" 2>"$made/log" || gives_up "$(tail -n 3 "$made/log")"
}

# build_one NAME ROOM: builds a program, in a process of its own.
build_one() {
    local caller=$1 made=$2 sources program=$unproved/$1
    trap 'clean; exit 143' HUP INT TERM
    trap - EXIT
    rooms=()
    sources=$(sum_of "$top" "$(kit_name)" "$caller" "${code_parts[@]}") || gives_up "a source can't be read"
    compile "$top/crates/${caller}_cli" "$made"
    [ "$(sum_of "$top" "$(kit_name)" "$caller" "${code_parts[@]}")" = "$sources" ] ||
        gives_up "a source changed meanwhile; the next call builds anew"
    rm -f "$program.made"
    if ! { cp "$made/program" "$program.new" && mv "$program.new" "$program" &&
        write_made "$program" "$sources" "$(kit_name)"; } 2>/dev/null; then
        rm -f "$program.new" "$program.made.new"
        gives_up "there is no room in $unproved"
    fi
}

# The seconds that the build of a program takes a processor, by the file of weights.
build_seconds() {
    awk -v name="$1" '$1 == "build" && $2 == name { found = $3 } END { print found ? found : 100 }' "$top/launching/weights"
}

# needs LANES NAME ..: the seconds that so many processors need for all of these.
needs() {
    local lanes=$1 sum=0 longest=0 seconds it
    shift
    for it in "$@"; do
        seconds=$(build_seconds "$it")
        sum=$((sum + seconds))
        [ "$seconds" -gt "$longest" ] && longest=$seconds
    done
    [ "$((sum / lanes))" -gt "$longest" ] && longest=$((sum / lanes))
    echo "$longest"
}

# more SECONDS ENDED: how long it may take still, in words; as long as no program has ended, by the file of weights alone.
more() {
    if [ "$1" -lt 1 ]; then
        echo ", longer than expected"
    elif [ "$2" = 0 ]; then
        echo ", some $1 more by the table"
    else
        echo ", about $1 more"
    fi
}

# build_programs NAME: builds NAME, and each of the others that stands neither proved nor built. What can't be built is told.
build_programs() {
    local first=$1 it at lanes room all still pace=100 wanted=() names=() waiting=() failed=''
    local -A process=()
    need_kit
    begin_work "$unproved" "interrupted; what is built is kept"
    for it in "$first" "${programs[@]}"; do
        case " ${wanted[*]} " in *" $it "*) continue ;; esac
        [ "$it" = "$first" ] || ! fits "$proved/$it" "$it" "${proof_parts[@]}" || continue
        fits "$unproved/$it" "$it" "${code_parts[@]}" || wanted+=("$it")
    done
    if [ "${#wanted[@]}" != 0 ]; then
        lanes=$(lanes_of 2000)
        new_room
        all=$(needs "$lanes" "${wanted[@]}")
        say "building $(in_words "${wanted[@]}") without proofs, once: about $all seconds on $lanes processors"
        waiting=("${wanted[@]}")
        while [ "${#waiting[@]}" != 0 ] || [ "${#process[@]}" != 0 ]; do
            while [ "${#waiting[@]}" != 0 ] && [ "${#process[@]}" -lt "$lanes" ]; do
                it=${waiting[0]}
                waiting=("${waiting[@]:1}")
                mkdir "$room/$it" || fail "there is no room in $room"
                build_one "$it" "$room/$it" &
                process[$it]=$!
                running+=("$!")
            done
            moment
            for it in "${!process[@]}"; do
                kill -0 "${process[$it]}" 2>/dev/null && continue
                at=${process[$it]}
                unset "process[$it]"
                wait "$at" || failed=1
                rm -rf "${room:?}/$it"
                # (the first one that ends tells how fast this machine is)
                [ "${#names[@]}" = 0 ] && pace=$((100 * (SECONDS + 1) / $(build_seconds "$it")))
                names+=("$it")
            done
            running=("${process[@]}")
            [ "${#process[@]}${#waiting[@]}" = 00 ] && continue
            still=$(more "$((all * pace / 100 - SECONDS))" "${#names[@]}")
            progress "${#names[@]} of ${#wanted[@]} programs built; $SECONDS seconds$still"
        done
        end_line
        [ -n "$failed" ] || [ -t 2 ] || say "built in $SECONDS seconds"
    fi
    end_work
}
