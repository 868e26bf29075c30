#!/bin/sh
# bench/route.sh [RUNS [PROGRAM]]: how long `kn route` takes for listings of 16,384 and of 65,536 draining links, the ratio of the
# two, and how long for 65,536 links that do not drain. Each time is that of the fastest of five times so many runs
# (20), without the start of the program.
top=$(cd "$(dirname "$0")/.." && pwd) || exit 1
runs=${1:-20}
program=${2:-$top/crates/kn/out/kn}
[ -n "$2" ] || "$top/kn" --version >/dev/null || exit 1
tmp=$(mktemp -d) || exit 1
trap 'rm -r "$tmp"' EXIT

# Nanoseconds that a run takes over so many equal lines: of five times so many runs, the fastest.
least() {
    yes "$2" | head -n "$1" >"$tmp/listing"
    best=
    for _ in 1 2 3 4 5; do
        start=$(date +%s%N)
        for _ in $(seq "$runs"); do "$program" route default db:80 1 <"$tmp/listing" >"$tmp/choice" || exit 1; done
        taken=$((($(date +%s%N) - start) / runs))
        if [ -z "$best" ] || [ "$taken" -lt "$best" ]; then best=$taken; fi
    done
    echo "$best"
}

begin=$(least 1 '!') || exit 1
few=$(least 16384 '!') || exit 1
many=$(least 65536 '!') || exit 1
plain=$(least 65536 '') || exit 1
few=$((few > begin ? few - begin : 1))
many=$((many - begin))
echo "draining links: $((few / 1000)) microseconds for 16,384, $((many / 1000)) for 65,536, ratio $((many * 100 / few))/100; $(((plain - begin) / 1000)) for 65,536 that do not drain"
