#!/usr/bin/env bash
# What reads and changes of a table cost, beside a sorted array in plain Rust over the same rows, in turns.
#
# usage: scan.sh [ROWS [LABELS [ORDER]]]: 1,000,000 rows of 16 labels, put in mixed, or in the order of their times where ORDER
# is `rising`. TURNS=3 says how often; PROGRAM=FILE measures another build. Memory is as the unit under deploy/ asks for, in huge
# pages: GLIBC_TUNABLES= takes it as it comes.
# First build it: (cd crates/bench_scan && rt run > /dev/null).
set -eu
cd "$(dirname "$0")/.."
program=${PROGRAM:-crates/bench_scan/out/bench_scan}
rows=${1:-1000000} labels=${2:-16} order=${3:-mixed}
export GLIBC_TUNABLES=${GLIBC_TUNABLES-$(sed -n "s/^Environment=GLIBC_TUNABLES=//p" deploy/fashkiin.service)}
folder=$(mktemp -d -p /dev/shm)
trap 'rm -rf "$folder"' EXIT
python3 bench/scan_data.py points "$rows" "$labels" > "$folder/points"
[ "$order" != rising ] || sort -t, -k4,4n -o "$folder/points" "$folder/points"
python3 bench/scan_data.py boxes "$rows" > "$folder/boxes"
rustc -O -C target-cpu=native -o "$folder/baseline" bench/scan_baseline.rs
for turn in $(seq "${TURNS:-3}"); do
    "$folder/baseline" "$folder/points" "$folder/boxes" > "$folder/array.$turn"
    "$program" "$folder/points" "$folder/boxes" > "$folder/shown.$turn" 2> "$folder/took.$turn"
done
echo "$rows rows of $labels labels, $order; times of a call in microseconds, on average over the boxes of a class"
python3 bench/scan_table.py "$folder"
