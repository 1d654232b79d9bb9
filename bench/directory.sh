#!/usr/bin/env bash
# The time of one count by a user as users and grants grow: the proved st_run reads the users, the grants and 1 or 200,001
# counts, and the difference is of 200,000 counts. Of three runs each, the quickest counts.
# First build it: (cd crates/st_run && rt run < stdin > /dev/null).
set -eu
cd "$(dirname "$0")/.."
digest=66687aadf862bd776c8fc18b8e9f8e20089714856ee233b3902a591d0d5f2925
program=crates/st_run/out/st_run
folder=$(mktemp -d -p /dev/shm)
trap 'rm -rf "$folder"' EXIT

# The quickest of three runs over the users, the grants and so many counts, in seconds.
quickest() {
    python3 bench/directory.py "$1" "$2" "$3" > "$folder/input"
    for _ in 1 2 3; do
        start=$(date +%s.%N)
        "$program" --root "$digest" < "$folder/input" > "$folder/output"
        echo "$(date +%s.%N) - $start" | bc -l
    done | sort -g | head -n 1
}

for sizes in "1 5" "100 1000" "10000 100000"; do
    set -- $sizes
    before=$(quickest "$1" "$2" 1)
    after=$(quickest "$1" "$2" 200001)
    counted=$(grep -c '"count":0' "$folder/output" || true)
    python3 -c "print(f'$1 users, $2 grants: {1e6 * ($after - $before) / 200000:.2f} us a count ($counted answered)')"
done
