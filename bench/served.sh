#!/usr/bin/env bash
# Requests a second of the proved st_served over loopback: counts and puts on 1, 2, 4 and 8 kept connections with as many workers,
# beside a constant of nginx by as many processes; puts of 1, 8 and 64 connections; the time of a count alone and beside a
# connection that puts without pause, which is to be no slower than twice as long, at the 99th percentile too; and counts of 64
# clients through HAProxy. The time that a server's own code and the system took for a request stands behind each line. At the end
# it compares. Counts and the constant take TURNS turns each, one after the other, and the middle of their ratios counts: it is
# chance whether nginx gives two connections to one process or to two, and other work comes and goes.
#
#     served.sh [PROGRAM [SECONDS [TURNS]]]
#
# First build it: (cd crates/st_served && rt run -- $(cat args)). It needs wrk, and leaves out the edge and nginx where HAProxy or nginx is not there.
# It takes (13 + 8 * TURNS) times SECONDS, which are 10 and 3 where they are left out; ports 47001, 47009 and 8080 are to be free.
set -euo pipefail
cd "$(dirname "$0")/.."
digest=66687aadf862bd776c8fc18b8e9f8e20089714856ee233b3902a591d0d5f2925
program=${1:-crates/st_served/out/st_served}
seconds=${2:-10}
turns=${3:-3}
folder=$(mktemp -d)
started=
served=
constant=
edge=
buffer=
trap 'stop; end "$served"; end "$constant"; end "$edge"; end "$buffer"; rm -rf "$folder"' EXIT

# Ends a program, if there is one.
end() {
    if [ -n "$1" ]; then
        kill "$1" 2> /dev/null || true
        wait "$1" 2> /dev/null || true
    fi
}

# Ends the program that was started last.
stop() {
    end "$started"
    started=
}

# Waits until a port of a program takes connections.
until_open() {
    until (: < "/dev/tcp/127.0.0.1/$1") 2> /dev/null; do
        kill -0 "$2"
        sleep 0.1
    done
}

# Starts a server with so many workers.
serve() {
    : > "$folder/served"
    "$program" --root "$digest" --port 47001 --timeout 60 --workers "$1" A > "$folder/served" &
    started=$!
    until grep -q listening "$folder/served"; do
        kill -0 "$started"
        sleep 0.1
    done
}

# Starts nginx with so many processes, which answer with a constant.
serve_constant() {
    cat > "$folder/nginx.conf" << END_OF_FILE
daemon off;
worker_processes $1;
pid $folder/nginx.pid;
error_log $folder/nginx.log;
events {}
http {
    access_log off;
    client_body_temp_path $folder;
    proxy_temp_path $folder;
    fastcgi_temp_path $folder;
    uwsgi_temp_path $folder;
    scgi_temp_path $folder;
    server {
        listen 127.0.0.1:47009;
        keepalive_requests 1000000000;
        location / { default_type application/json; return 200 '{"count":0}'; }
    }
}
END_OF_FILE
    nginx -c "$folder/nginx.conf" -e "$folder/nginx.log" &
    started=$!
    until_open 47009 "$started"
}

# The program that was started last and its processes, one a line with its time in its own code and in the system.
times() {
    { echo "$started"; cat "/proc/$started/task/$started/children"; } | tr ' ' '\n' | grep . | while read -r process; do
        awk '{ sub(/.*\) /, ""); print $12, $13 }' "/proc/$process/stat"
    done
}

# What `wrk` tells of so many connections to a port that ask one kind of request.
drive() {
    local threads=$(($1 < $(nproc) ? $1 : $(nproc)))
    wrk -t "$threads" -c "$1" -d "${seconds}s" --latency -s bench/served.lua "http://127.0.0.1:$2" -- "$3"
}

# The requests a second, and the middle and the 99th percentile of their times, that `wrk` told; then how many microseconds a request
# took of the server's own code and of the system, and how many of its processes were at work. The figures are kept under a name.
told() {
    times > "$folder/after"
    awk -v name="$1" -v what="$2" -v tick="$(getconf CLK_TCK)" -v seconds="$seconds" -v figures="$folder/figures" '
        function microseconds(text) { return text * (text ~ /us$/ ? 1 : text ~ /ms$/ ? 1000 : 1000000) }
        FILENAME ~ /before$/ { own -= $1; kernel -= $2; at[FNR] = $1 + $2; next }
        FILENAME ~ /after$/ { own += $1; kernel += $2; busy += $1 + $2 - at[FNR] > tick * seconds / 20; next }
        /^ +50%/ { middle = $2 }
        /^ +99%/ { most = $2 }
        /requests in/ { number = $1 }
        /Requests\/sec/ { rate = $2 }
        /Non-2xx|Socket errors/ { sub(/^ +/, ""); bad = bad ", " $0 }
        END {
            each = number ? 1000000 / tick / number : 0
            printf "%s: %s a second, %s in the middle, %s for 99 of 100", what, rate, middle, most
            if (name != "beside")  # where the time is that of the puts too
                printf "; %.1f us of its own and %.1f of the system each, %d at work", own * each, kernel * each, busy
            print bad
            print name, rate, microseconds(middle), microseconds(most) > figures
            close(figures)
        }' "$folder/before" "$folder/after" -
    cat "$folder/figures" >> "$folder/all"
}

# Drives so many connections, and tells of it: name, what it is, connections, port, kind.
measure() {
    times > "$folder/before"
    drive "$3" "$4" "$5" > "$folder/wrk"
    told "$1" "$2" < "$folder/wrk"
}

: > "$folder/all"
for number in 1 2 4 8; do
    if command -v nginx > "$folder/which"; then
        serve_constant "$number"
        constant=$started
    fi
    serve "$number"
    served=$started
    for ((turn = 1; turn <= turns; turn++)); do
        started=$served
        measure "counts.$number" "counts of $number connections" "$number" 47001 count
        if [ -n "$constant" ]; then
            started=$constant
            measure "constant.$number" "a constant of nginx on $number connections" "$number" 47009 count
        fi
    done
    end "$constant"
    constant=
    started=$served
    measure "puts.$number" "puts of $number connections" "$number" 47001 put
    stop
    served=
done
for number in 1 8 64; do
    serve 64
    measure "puts64.$number" "puts of $number connections, with 64 workers" "$number" 47001 put
    stop
done
serve 2
measure put "puts of one connection" 1 47001 put
measure alone "counts of one connection over these rows" 1 47001 count
times > "$folder/before"
seconds=$((seconds + 2)) drive 1 47001 put > "$folder/puts" &
puts=$!
sleep 1
drive 1 47001 count > "$folder/wrk"
wait "$puts"
told beside "the same beside a connection that puts" < "$folder/wrk"
awk '/Requests\/sec/ { print "these puts: " $2 " a second" }' "$folder/puts"
stop
if command -v haproxy > "$folder/which" && command -v nginx > "$folder/which"; then
    serve 64
    mkdir "$folder/edge" "$folder/nginx" "$folder/features"
    sed "s,/run/fashkiin,$folder," deploy/nginx.conf > "$folder/edge.conf"
    # Root's nginx would take a user who may not enter the folder.
    nginx -p clients/map -c "$folder/edge.conf" -e "$folder/nginx.log" -g "daemon off; $([ "$(id -u)" != 0 ] || echo 'user root;')" &
    buffer=$!
    FASHKIIN_RUN=$folder FASHKIIN_USER='' FASHKIIN_HTTP=127.0.0.1:8080 FASHKIIN_SERVER=127.0.0.1:47001 \
        haproxy -f deploy/haproxy.cfg > "$folder/haproxy.log" 2>&1 &
    edge=$!
    until_open 8080 "$edge"
    measure edge "counts of 64 clients through the edge" 64 8080 count
fi
awk '{ turn = ++seen[$1]; rate[$1, turn] = $2; middle[$1] = $3; most[$1] = $4 }
    function sort(list, size,    at, place, item) {
        for (at = 2; at <= size; at++) {
            item = list[at]
            for (place = at - 1; place > 0 && list[place] > item; place--) list[place + 1] = list[place]
            list[place + 1] = item
        }
    }
    END {
        for (number = 1; number <= 8; number *= 2) {
            size = seen["constant." number]
            for (turn = 1; turn <= size; turn++) ratio[turn] = rate["counts." number, turn] / rate["constant." number, turn]
            sort(ratio, size)
            if (size)
                printf "counts beside nginx on %d: %.2f in the middle of %d turns, %.2f to %.2f\n", number,
                    (ratio[int((size + 1) / 2)] + ratio[int(size / 2) + 1]) / 2, size, ratio[1], ratio[size]
        }
        printf "a count beside puts: %.2f times as long in the middle, %.2f for 99 of 100 (no more than 2)\n",
            middle["beside"] / middle["alone"], most["beside"] / most["alone"]
    }' "$folder/all"
