# Completions for bash of review, rollout, view, doctor, window, wire, sweep, prepare, collect and prove: commands, options, files, and for
# trace the devices and interfaces of the folder on the line. `source completions/diqenyu.bash` for one shell; `make install` for all.

# The hostnames of a folder's configurations, and the interfaces of one device.
_diqenyu_devices() {
    awk '{ sub(/\r$/, "") } $1 == "hostname" && NF == 2 { print $2 }' "$1"/*.cfg 2>/dev/null
}

_diqenyu_interfaces() {
    awk -v device="$2" '
        function tell(at) { if (found) for (at = 1; at <= count; at++) print names[at]; count = found = 0 }
        FNR == 1 { tell() }
        { sub(/\r$/, "") }
        $1 == "hostname" && $2 == device { found = 1 }
        $1 == "interface" && /^interface/ && NF == 2 { names[++count] = $2 }
        END { tell() }' "$1"/*.cfg 2>/dev/null
}

_diqenyu() {
    local word=${COMP_WORDS[COMP_CWORD]} at it options='' words='' files='' only='' flags='' paths='' others=''
    local -a given=()
    # Of each program the options without a value, those whose value is a file or a folder, and those with another value.
    case ${1##*/} in
        *review) others='--workers --ttl' ;;
        *view) others=--title ;;
        *wire) paths='--neighbors --check --active' ;;
        *window)
            flags='--foreign --all-edges --no-lines --finer --as-written'
            paths='--newlinks --questions --page --questions-new --expect --write-expect --sources --accept --json --sarif --junit --tickets --routes --active --waivers --keep --git'
            others='--title --fail-on --vrf'
            ;;
        *sweep)
            flags='--pairs --copy --slurm --jobs-only --as-written'
            paths=--folder
            others='--show --by-ingress --jobs --sshlogin --workers --ttl'
            ;;
        *prepare)
            flags='--keep-static --as-written --check'
            paths='--routes --active --waivers --apply'
            others=--vrf
            ;;
    esac
    # The words before this one that are no option and no option's value; after -- no word is an option.
    for ((at = 1; at < COMP_CWORD; at++)); do
        it=${COMP_WORDS[at]}
        if [ -n "$only" ]; then
            given+=("${it/#\~/$HOME}")
        elif [ "$it" = -- ]; then
            only=' '
        elif [[ " $paths $others " == *" $it "* ]]; then
            at=$((at + 1))
        elif [[ $it != --* ]]; then
            given+=("${it/#\~/$HOME}")
        fi
    done
    COMPREPLY=()
    if [ -z "$only" ]; then
        [[ " $others " == *" ${COMP_WORDS[COMP_CWORD - 1]} "* ]] && return
        [[ " $paths " == *" ${COMP_WORDS[COMP_CWORD - 1]} "* ]] && files=1
    fi
    case ${1##*/} in
        *review)
            case ${#given[@]}:${given[0]:-} in
                0:) words='compare ask trace read gen' options=--version ;;
                [123]:compare | [123]:ask | [12]:trace | 1:read) files=1 ;;
                4:compare) files=1 ;;
                3:trace) words=$(_diqenyu_devices "${given[1]}") ;;
                4:trace) words=$(_diqenyu_interfaces "${given[1]}" "${given[3]}") ;;
            esac
            case ${given[0]:-} in
                compare | ask) options='--workers --ttl' ;;
                trace) options=--ttl ;;
                gen) options=--workers ;;
            esac
            ;;
        *rollout)
            case ${#given[@]}:${given[0]:-} in
                0:) words='audit edits rollout variants' options=--version ;;
                1:audit | [1-3]:edits | [1-4]:rollout | [1-3]:variants) files=1 ;;
            esac
            ;;
        *prove)
            words='review rollout view doctor'
            [ "${#given[@]}" = 0 ] && options=--help
            ;;
        *doctor)
            [ "${#given[@]}" -lt 4 ] && files=1
            options='--all --json'
            [ "${#given[@]}" = 0 ] && options='--all --json --help --version'
            ;;
        *wire)
            [ "${#given[@]}" -lt 1 ] && files=1
            options=$paths
            [ "${#given[@]}" = 0 ] && options="$options --help --version"
            ;;
        *window)
            [ "${#given[@]}" -lt 3 ] && files=1
            options="$flags $paths $others"
            [ "${#given[@]}" = 0 ] && options="$options --help --version"
            ;;
        *sweep)
            [ "${#given[@]}" = 0 ] && [ -z "$files" ] && words='compare ask'
            [[ ${#given[@]} == [123] ]] && files=1
            options="$flags $paths $others"
            ;;
        *prepare)
            [ "${#given[@]}" -lt 2 ] && files=1
            options="$flags $paths $others"
            ;;
        *collect)
            [ "${#given[@]}" -lt 2 ] && files=1
            ;;
        *view)
            files=1
            [ "${#given[@]}" = 0 ] && options='--html --json --csv --title --audit --answers --traces --why --why-all --help --version'
            [ "${#given[@]}" = 1 ] && options=--title
            [ "$COMP_CWORD" -gt 1 ] && [ "${COMP_WORDS[1]}" = --audit ] && options='--html --json --csv --rows'
            [ "$COMP_CWORD" -gt 1 ] && [ "${COMP_WORDS[1]}" = --answers ] && options='--html --json --csv --junit'
            [ "$COMP_CWORD" -gt 1 ] && [[ ${COMP_WORDS[1]} =~ ^--(why|why-all|traces)$ ]] && options='--html --json'
            ;;
    esac
    if [ -z "$only" ] && [[ $word == -* ]]; then
        mapfile -t COMPREPLY < <(compgen -W "$options" -- "$word")
    elif [ -n "$files" ]; then
        mapfile -t COMPREPLY < <(compgen -f -- "$word")
        compopt -o filenames 2>/dev/null
    else
        mapfile -t COMPREPLY < <(compgen -W "$words" -- "$word")
    fi
}
complete -F _diqenyu review rollout view doctor window wire sweep prepare collect prove
