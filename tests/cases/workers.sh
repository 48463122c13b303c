#!/usr/bin/env bash
# workers.sh: each number of workers writes the same.
# The last line is 'N passed, M failed'.
set -u
cd "$(dirname "${BASH_SOURCE[0]}")/../.." || exit 2
# shellcheck source=tests/cases/common.sh
. tests/cases/common.sh

# Each number of workers writes the same, here from 64 ingresses.
python3 bench/networks.py fabric "$scratch/fabric" 4 64 || exit 2
run_review compare "$scratch/fabric/old" "$scratch/fabric/new" "$scratch/fabric/links" --workers 1
cp "$scratch/out" "$scratch/wanted"
for workers in 2 4 7 64; do
    run_review compare "$scratch/fabric/old" "$scratch/fabric/new" "$scratch/fabric/links" --workers "$workers"
    check "64 ingresses by $workers workers" 1 "$scratch/wanted" "$scratch/nothing"
done

# The same where workers make routes functions, in both networks: each device of the new one differs.
python3 bench/networks.py leaves "$scratch/leaves" 4 64 || exit 2
for file in "$scratch"/leaves/new/*.cfg; do echo "ip route 192.0.2.1 255.255.255.255 Null0" >>"$file"; done
run_review compare "$scratch/leaves/old" "$scratch/leaves/new" "$scratch/leaves/links" --workers 1
cp "$scratch/out" "$scratch/wanted"
for workers in 2 4 7 64; do
    run_review compare "$scratch/leaves/old" "$scratch/leaves/new" "$scratch/leaves/links" --workers "$workers"
    check "routes made functions by $workers workers" 1 "$scratch/wanted" "$scratch/nothing"
done
# (the second one fails for the subnet's broadcast address)
printf 'reach Leaf0 Ethernet0 to Leaf32 Ethernet0 dst 10.64.32.%s\n' 128/26 128/25 >"$scratch/leaves/questions"
run_review ask "$scratch/leaves/old" "$scratch/leaves/links" "$scratch/leaves/questions" --workers 1
cp "$scratch/out" "$scratch/wanted"
for workers in 2 4; do
    run_review ask "$scratch/leaves/old" "$scratch/leaves/links" "$scratch/leaves/questions" --workers "$workers"
    check "routes of one network made functions by $workers workers" 1 "$scratch/wanted" "$scratch/nothing"
done

end
