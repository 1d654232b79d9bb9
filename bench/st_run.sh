#!/usr/bin/env bash
# Requests a second of the proved st_run: reads puts and counts from a file, once, twice and four times as many, and writes
# the replies to another. Of three runs each, the quickest counts. The time per request is to stay as it is.
# First build it: (cd crates/st_run && rt run < stdin > /dev/null).
set -eu
cd "$(dirname "$0")/.."
digest=66687aadf862bd776c8fc18b8e9f8e20089714856ee233b3902a591d0d5f2925
program=crates/st_run/out/st_run
folder=$(mktemp -d -p /dev/shm)
trap 'rm -rf "$folder"' EXIT
for count in 100000 200000 400000; do
    python3 bench/requests.py "$count" > "$folder/input"
    times=()
    for _ in 1 2 3; do
        start=$(date +%s.%N)
        "$program" --root "$digest" A B C < "$folder/input" > "$folder/output"
        end=$(date +%s.%N)
        times+=("$end - $start")
    done
    replies=$(grep -o 'HTTP/1.1 200 OK' "$folder/output" | wc -l)
    python3 -c "
seconds = min(${times[0]}, ${times[1]}, ${times[2]})
print(f'$count requests, $replies answered 200: {seconds:.2f} s, {$count / seconds:,.0f} a second, {1e6 * seconds / $count:.2f} us each')"
done
