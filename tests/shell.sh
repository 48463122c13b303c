#!/usr/bin/env bash
# shell.sh: shellcheck says nothing of any shell file of the tree.
# The last line is 'N passed, M failed'.
set -u
cd "$(dirname "${BASH_SOURCE[0]}")/.." || exit 2
passed=0
failed=0
# Each file whose first line names a shell, but those that tests write down to be read as they are.
mapfile -t files < <(git ls-files --cached --others --exclude-standard 2>/dev/null | while read -r file; do
    [ -f "$file" ] && head -n 1 "$file" 2>/dev/null | LC_ALL=C tr -d '\0' | LC_ALL=C grep -qE '^#!.*\b(bash|sh)$|^# shellcheck shell=' && echo "$file"
done)
[ "${#files[@]}" != 0 ] || mapfile -t files < <(find launch prove launching tests .ci -name '*.sh' -o -name launch -o -name prove)
for file in "${files[@]}"; do
    if said=$(shellcheck -x "$file"); then
        passed=$((passed + 1))
    else
        failed=$((failed + 1))
        echo "FAILED $file"
        echo "$said"
    fi
done
echo "$passed passed, $failed failed"
[ "$failed" = 0 ]
