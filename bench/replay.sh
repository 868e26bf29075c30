#!/bin/sh
# bench/replay.sh [RUNS]: how long `kn replay default` takes for scripts of 100 and of 600 apps with every kind of
# close, and the ratio of what an event costs in the two; and how long it takes for the longest script there may be, of
# 10,000 lines. Each time is that of the fastest of five times so many runs (20, ten times more where a run is short),
# without the start of the program.
top=$(cd "$(dirname "$0")/.." && pwd) || exit 1
program=$top/crates/kn/out/kn
runs=${1:-20}
printf '' | "$top/kn" replay default >/dev/null || exit 1
tmp=$(mktemp -d) || exit 1
trap 'rm -r "$tmp"' EXIT

# A script of ten agents, ten clients and so many apps. Of each seven apps one cancels its dial, one is refused,
# one ends, one's destination ends, of one both end at once, one's destination fails, and one is left open; one of
# ten is a CONNECT app. Then links and clients are lost, each end of them on its own. The second number is how many
# lines there are to be at least: sends and answers fill them up.
script() {
    awk -v apps="$1" -v lines="$2" '
        function line(text) { print text; count++ }
        BEGIN {
            for (i = 1; i <= 10; i++) line("agent -")
            for (i = 1; i <= 10; i++) line("client")
            for (k = 1; k <= apps; k++) {
                if (k % 10 == 0) line("connect 10.0.0.1:80")
                else line("app " (k - 1) % 10 + 1 " 10.0.0.1:80")
            }
            line("pass")
            for (k = 1; k <= apps; k++) {
                if (k % 7 == 1) line("end " k)
                line((k % 7 == 2 ? "refuse " : "up ") k)
            }
            line("pass")
            for (round = 0; round < 2; round++) {
                for (k = 1; k <= apps; k++) line("send " k " 68656c6c6f")
                for (k = 1; k <= apps; k++) line("answer " k " 6f6b")
                line("pass")
            }
            while (count + 3 * apps + 50 < lines) {
                line("send " count % apps + 1 " 68656c6c6f")
                line("answer " count % apps + 1 " 6f6b")
                if (count % 50 < 2) line("pass")
            }
            for (k = 1; k <= apps; k++) {
                if (k % 7 == 3 || k % 7 == 5) line("end " k)
                if (k % 7 == 4 || k % 7 == 5) line("hang " k)
                if (k % 7 == 6) line("fail " k)
            }
            line("pass")
            for (i = 1; i <= 2; i++) line("lose server " i)
            for (i = 2; i <= 3; i++) line("lose agent " i)
            for (i = 4; i <= 5; i++) line("lose front " i)
            for (i = 5; i <= 6; i++) line("lose client " i)
            line("pass")
            for (i = 1; i <= 10; i++) line("lose agent " i)
            for (i = 1; i <= 10; i++) line("lose server " i)
            while (count < lines) line("pass 1")
        }'
}

# Nanoseconds that a run over a script takes: of five times so many runs, the fastest.
least() {
    best=
    for _ in 1 2 3 4 5; do
        start=$(date +%s%N)
        for _ in $(seq "$2"); do "$program" replay default <"$1" >"$tmp/report" || exit 1; done
        taken=$((($(date +%s%N) - start) / $2))
        if [ -z "$best" ] || [ "$taken" -lt "$best" ]; then best=$taken; fi
    done
    echo "$best"
}

: >"$tmp/none"
begin=$(least "$tmp/none" $((runs * 10))) || exit 1

# Nanoseconds an event costs in the script of so many apps and lines; the time of one run is told on the way.
event_cost() {
    script "$1" "$2" >"$tmp/script"
    taken=$(least "$tmp/script" "$3") || exit 1
    events=$(wc -l <"$tmp/script")
    echo "$1 apps, $events lines: $(((taken - begin) / 1000)) microseconds" >&2
    echo $(((taken - begin) / events))
}

few=$(event_cost 100 0 $((runs * 10))) || exit 1
many=$(event_cost 600 0 "$runs") || exit 1
long=$(event_cost 600 10000 "$runs") || exit 1
echo "an event: $few ns at 100 apps, $many ns at 600, ratio $((many * 100 / (few ? few : 1)))/100; $long ns in 10,000 lines"
tail -n 2 "$tmp/report"
