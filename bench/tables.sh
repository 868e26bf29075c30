#!/bin/sh
# bench/tables.sh [ROUNDS]: what a round of insert, find and remove costs in the server's tables that hold 100 and
# 60,000 entries, by so many rounds at each (a million), and the ratio of the two. It builds the program kn_bench where
# it is missing or stale.
. "$(dirname "$0")/built.sh"
rounds=${1:-1000000}
built kn_bench

# Nanoseconds that the words take, the least of three runs.
least() {
    best=
    for _ in 1 2 3; do
        start=$(date +%s%N)
        "$program" "$@" || exit 1
        taken=$(($(date +%s%N) - start))
        if [ -z "$best" ] || [ "$taken" -lt "$best" ]; then best=$taken; fi
    done
    echo "$best"
}

# Nanoseconds of a round, without the start of the program and the filling of the table.
round_cost() {
    filled=$(least "$1" "$2" 0) || exit 1
    all=$(least "$1" "$2" "$rounds") || exit 1
    echo $(((all - filled) / rounds))
}

for table in awaited held; do
    few=$(round_cost "$table" 100) || exit 1
    many=$(round_cost "$table" 60000) || exit 1
    echo "$table: $few ns a round at 100 entries, $many ns at 60000, ratio $((many * 100 / (few ? few : 1)))/100"
done
