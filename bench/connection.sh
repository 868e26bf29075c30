#!/bin/sh
# bench/connection.sh [CONNECTIONS]: how many megabytes a second go through the two ends of one HTTP/2 connection in
# one process, from the client's queue to what the server takes: 1 MB on each of so many connections (1,000), and as
# much on one; and how many the same program copies from one vector to another, in pieces of 16,384 bytes as they are
# queued. It builds the program kn_bench_connection where it is missing or stale.
. "$(dirname "$0")/built.sh"
count=${1:-1000}
built kn_bench_connection

# Megabytes a second of so many bytes, so many times over, in the fastest of ten runs.
speed() {
    best=
    for _ in 1 2 3 4 5 6 7 8 9 10; do
        start=$(date +%s%N)
        came=$("$program" "$1" "$2" "$3") || exit 1
        taken=$(($(date +%s%N) - start))
        if [ "$came" -ne $(($2 * $3)) ]; then
            echo "bench: $came bytes came of $(($2 * $3))" >&2
            exit 1
        fi
        if [ -z "$best" ] || [ "$taken" -lt "$best" ]; then best=$taken; fi
    done
    echo $(($2 * $3 * 1000 / best))
}

few=$(speed connection 1000000 "$count") || exit 1
many=$(speed connection "${count}000000" 1) || exit 1
copied=$(speed copy "${count}000000" 10) || exit 1
echo "connection: $few MB a second at 1 MB, $many at $count MB, ratio $((few * 100 / (many ? many : 1)))/100"
echo "copy: $copied MB a second, $((copied * 10 / (many ? many : 1)))/10 times the connection at $count MB"
