#!/bin/sh
# Times the view of a report of a million rows, or of as many as are asked for: text and document of the program, page and table of what
# renders these. Processor seconds, kilobytes of memory, and bytes.
cd "$(dirname "$0")/.." || exit 1
scratch=$(mktemp -d) || exit 1
trap 'rm -rf "$scratch"' EXIT
python3 bench/view_report.py "${1:-1000000}" >"$scratch/report"
./view --version >/dev/null || exit 1
program=${DIQENYU_VIEW:-build/proved/view}
[ -x "$program" ] || program=./view
for option in "" --html --json --csv; do
    # (pages and tables are the launcher's; the option is left out where it is empty)
    case $option in --html | --csv) by=./view ;; *) by=$program ;; esac
    python3 - "$by" $option "$scratch/report" >"$scratch/told" <<'END' || exit 1
import resource, subprocess, sys
size = len(subprocess.run(sys.argv[1:], stdout=subprocess.PIPE, check=True).stdout)
used = resource.getrusage(resource.RUSAGE_CHILDREN)
print(f'{used.ru_utime + used.ru_stime:.2f} s, {used.ru_maxrss} KB, {size} bytes')
END
    echo "view $option: $(cat "$scratch/told")"
done
