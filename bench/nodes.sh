#!/bin/sh
# bench/nodes.sh [MEGABYTES]: how many megabytes a second go through a client's, a server's and an agent's node in one
# process, from what an app gives to what its destination takes (up) and back (down): so many (400) in one tunnel and in
# 50, each alone and beside 500 idle tunnels, and how many instructions a byte takes, where perf or valgrind can count
# them. It builds the program kn_bench_nodes where it is missing or stale.
. "$(dirname "$0")/built.sh"
megabytes=${1:-400}
built kn_bench_nodes

# Runs the program by these words, and looks whether all bytes came.
carry() {
    came=$("$program" "$1" "$2" "$3" "$4") || exit 1
    if [ "$came" -ne $(($2 * $3)) ]; then
        echo "bench: $came bytes came of $(($2 * $3))" >&2
        exit 1
    fi
}

# Nanoseconds of the fastest of five runs by these words.
fastest() {
    best=
    for _ in 1 2 3 4 5; do
        start=$(date +%s%N)
        carry "$1" "$2" "$3" "$4"
        taken=$(($(date +%s%N) - start))
        if [ -z "$best" ] || [ "$taken" -lt "$best" ]; then best=$taken; fi
    done
    echo "$best"
}

# Megabytes a second through so many tunnels; the time of their opening is taken off.
speed() {
    opening=$(fastest "$1" "$2" 0 "$3") || exit 1
    whole=$(fastest "$1" "$2" $((megabytes * 1000000 / $2)) "$3") || exit 1
    carrying=$((whole > opening ? whole - opening : 1))
    echo $((megabytes * 1000000000 / carrying))
}

# How many instructions a run by these words takes.
instructions() {
    if perf stat -x, -e instructions:u "$program" "$1" "$2" "$3" "$4" 2>&1 >/dev/null | grep -q '^[0-9]'; then
        perf stat -x, -e instructions:u "$program" "$1" "$2" "$3" "$4" 2>&1 >/dev/null | grep '^[0-9]' | cut -d, -f1
    elif command -v valgrind >/dev/null 2>&1; then
        valgrind --tool=callgrind --callgrind-out-file=/dev/null "$program" "$1" "$2" "$3" "$4" 2>&1 >/dev/null |
            sed -n 's/.*Collected : //p'
    fi
}

# Instructions for each byte of at most 4 MB in all, without what the opening takes.
each_byte() {
    counted=$((megabytes < 4 ? megabytes : 4))
    opening=$(instructions "$1" "$2" 0 "$3")
    whole=$(instructions "$1" "$2" $((counted * 1000000 / $2)) "$3")
    [ -n "$opening" ] && [ -n "$whole" ] || { echo "not counted"; return; }
    tenths=$(((whole - opening) / (counted * 100000)))
    echo "$((tenths / 10)).$((tenths % 10))"
}

for way in up down; do
    for tunnels in 1 50; do
        alone=$(speed "$way" "$tunnels" 0) || exit 1
        beside=$(speed "$way" "$tunnels" 500) || exit 1
        echo "$way, tunnels $tunnels: $alone MB a second, $beside beside 500 idle ones, ratio $((beside * 100 / (alone ? alone : 1)))/100"
        echo "$way, tunnels $tunnels: instructions a byte $(each_byte "$way" "$tunnels" 0), $(each_byte "$way" "$tunnels" 500) beside 500 idle ones"
    done
done
