#!/bin/sh
# bench/tunnel.sh [PROGRAM [SECONDS]]: what a tunnel through the server's gate of CONNECT and one agent carries, beside
# a connection straight to the destination in the same run: bytes a second each way, microseconds for a byte there and
# back, tunnels a second that are opened and closed; the processor time of server and agent for each gigabyte; the
# server's memory with 100 idle tunnels; and what a tunnel carries with 500 idle ones beside it. All on this machine's
# loopback. Compare the ratios of one run.
here=$(cd "$(dirname "$0")/../examples/processes" && pwd) || exit 1
. "$here/common.sh"
seconds=${2:-5}
measure=$here/measure.py

destination echo
echo_address=$address
destination source
source_address=$address
destination sink
sink_address=$address
start_tunnels "$echo_address"
python3 "$measure" latency "$connect" "$echo_address" 10 >/dev/null 2>&1
tries=0
while ! python3 "$measure" latency "$connect" "$echo_address" 100 >/dev/null 2>&1; do
    tries=$((tries + 1))
    if [ "$tries" -ge 50 ]; then
        echo "FAILED: no tunnel"
        exit 1
    fi
done
memory_idle=$(memory "$server" VmRSS)

# Hundredths of a second that a process has run.
ticks() { awk '{ print $14 + $15 }' "/proc/$1/stat"; }

# what DIRECTION DESTINATION: bytes a second straight and through the tunnel, and processor time for a gigabyte
stream() {
    straight=$(python3 "$measure" "$1" - "$2" "$seconds")
    server_ticks=$(ticks "$server")
    agent_ticks=$(ticks "$agent")
    carried=$(python3 "$measure" "$1" "$connect" "$2" "$seconds")
    if [ -z "$straight" ] || [ -z "$carried" ]; then
        failed "$1"
        return
    fi
    awk -v kind="$1" -v straight="$straight" -v carried="$carried" -v seconds="$seconds" \
        -v server=$(($(ticks "$server") - server_ticks)) -v agent=$(($(ticks "$agent") - agent_ticks)) 'BEGIN {
        size = carried * seconds / 1e9
        printf "%s: %.0f MB/s straight, %.0f MB/s through the tunnel, ratio %.3f; server %.2f and agent %.2f s a GB\n",
            kind, straight / 1e6, carried / 1e6, carried / straight, server / 100 / size, agent / 100 / size
    }'
}

stream down "$source_address"
stream up "$sink_address"

straight=$(python3 "$measure" latency - "$echo_address" 3000)
carried=$(python3 "$measure" latency "$connect" "$echo_address" 3000)
echo "a byte there and back, median and worst in microseconds: $straight straight, $carried through the tunnel"

straight=$(python3 "$measure" churn - "$echo_address" "$seconds")
carried=$(python3 "$measure" churn "$connect" "$echo_address" "$seconds")
echo "opened, used and closed in $seconds s: $straight connections straight, $carried tunnels"

start python3 "$measure" hold "$connect" "$echo_address" 100 "$tmp/held"
await_file "$tmp/held" || failed "100 tunnels"
echo "the server's memory in kB: $memory_idle after the first tunnel, $(memory "$server" VmRSS) with 100 idle tunnels"

start python3 "$measure" hold "$connect" "$echo_address" 400 "$tmp/held.more"
await_file "$tmp/held.more" || failed "500 tunnels"
echo "with 500 idle tunnels beside:"
stream down "$source_address"
stream up "$sink_address"
carried=$(python3 "$measure" latency "$connect" "$echo_address" 3000)
echo "a byte there and back, median and worst in microseconds: $carried through the tunnel"

[ "$failures" -eq 0 ]
