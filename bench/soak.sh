#!/usr/bin/env bash
# Two connections of mixed random requests to the proved st_served, for so many seconds (3600): answers a second and the memory of
# the process, at the start, each minute and at the end. First build it: (cd crates/st_served && rt run -- $(cat args)).
set -eu
cd "$(dirname "$0")/.."
digest=66687aadf862bd776c8fc18b8e9f8e20089714856ee233b3902a591d0d5f2925
crates/st_served/out/st_served --root "$digest" --port 47003 --timeout 60 A B C &
trap 'kill %1 2> /dev/null || true' EXIT
sleep 1
python3 bench/soak_clients.py 47003 $! "${1:-3600}"
