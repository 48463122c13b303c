#!/usr/bin/env bash
# manual.sh: groff, man and mandoc format the manual pages without a warning, and each page has the options and words of its program's
# usage. A line names each tool that isn't installed. DIQENYU_REVIEW and the like name the programs, as tests/run does.
# The last line is 'N passed, M failed'.
set -u
cd "$(dirname "${BASH_SOURCE[0]}")/.." || exit 2
passed=0
failed=0

# silent NAME COMMAND ...: the command says nothing, and ends well.
silent() {
    local name=$1 said
    shift
    if said=$("$@" 2>&1 >/dev/null) && [ -z "$said" ]; then
        passed=$((passed + 1))
    else
        failed=$((failed + 1))
        echo "FAILED $name: $said"
    fi
}

# (a tool's warnings, on the error output as man's)
lint() {
    mandoc -T lint -W warning "$1" >&2
}

for page in man/*.[17]; do
    if command -v groff >/dev/null 2>&1; then
        silent "groff $page" groff -ww -b -z -man -T utf8 "$page"
    else
        echo "groff isn't there: $page is not tried with it"
    fi
    if command -v man >/dev/null 2>&1 && man --version >/dev/null 2>&1; then
        silent "man $page" env LC_ALL=C.UTF-8 MANWIDTH=80 man --warnings -E UTF-8 -Tutf8 -l "$page"
    else
        echo "man isn't there: $page is not tried with it"
    fi
    if command -v mandoc >/dev/null 2>&1; then
        silent "mandoc $page" lint "$page"
    else
        echo "mandoc isn't there: $page is not tried with it"
    fi
done

# usage NAME: the lines of the program's usage that have forms and options.
usage() {
    "./$1" --help 2>&1 </dev/null | sed -n '/^usage:/,$p' | grep -e '^  ' -e '^usage: '
}

# Each command, option and name of a value in a usage is on the page of its program, and each option that a page explains is in the
# usage.
for name in review rollout view doctor window wire sweep prepare collect prove; do
    page=man/$name.1
    text=$(sed -e 's/\\f[BIR]//g' -e 's/\\-/-/g' "$page")
    forms=$(usage "$name")
    while read -r word; do
        silent "$word of the usage is on $page" grep -q -w -F -e "$word" <<<"$text"
    done < <(grep -o -E -e '--[a-z-]+' -e '\b[A-Z][A-Z0-9]+\b' -e '^  [a-z]+ ' <<<"$forms" | tr -d ' ' | sort -u)
    silent "$name has a usage" grep -q . <<<"$forms"
    while read -r option; do
        silent "$option of $page is in the usage" grep -q -w -F -e "$option" <<<"$forms"
    done < <(awk '/^\.TP/ { getline; gsub(/\\f[BIR]/, ""); gsub(/\\-/, "-"); print }' "$page" | grep -o -E -e '--[a-z-]+' |
        grep -v -x -e --help -e --version | sort -u)
done

# The forms of each usage are those of its page.
if said=$(python3 tests/synopses.py); then
    passed=$((passed + 1))
else
    failed=$((failed + 1))
    echo "$said"
fi

echo "$passed passed, $failed failed"
[ "$failed" = 0 ]
