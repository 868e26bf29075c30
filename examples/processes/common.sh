# What the scripts of this folder share: free addresses of this machine's loopback, processes that are ended by
# their numbers, and lines that say what passed.

program=${1:-}
here=${here:-$(cd "$(dirname "$0")" && pwd)} || exit 1
for needed in curl python3; do
    if ! command -v "$needed" >/dev/null 2>&1; then
        echo "not run: $needed is not there"
        exit 0
    fi
done
if [ -z "$program" ]; then
    program=$here/../../crates/kn/out/kn
    "$here/../../kn" --version >/dev/null || exit 1
fi
tmp=$(mktemp -d) || exit 1
started=
failures=0

finish() {
    for process in $started; do kill "$process" 2>/dev/null; done
    for process in $started; do wait "$process" 2>/dev/null; done
    rm -r "$tmp"
}
trap finish EXIT
trap 'exit 1' INT TERM

# Starts a process, whose number is then in $process.
start() {
    "$@" &
    process=$!
    started="$started $process"
}

# Ends a process at once, and waits for it.
stop() {
    kill -KILL "$1" 2>/dev/null
    wait "$1" 2>/dev/null
}

# So many ports of the loopback that were free, below those that the system gives to connections.
free_ports() {
    python3 -c '
import random, socket, sys
held = []
while len(held) < int(sys.argv[1]):
    listener = socket.socket()
    try:
        listener.bind(("127.0.0.1", random.randrange(12000, 32000)))
    except OSError:
        continue
    held.append(listener)
print(*[listener.getsockname()[1] for listener in held])
' "$1"
}

# Waits until a file is there: ten seconds at most.
await_file() {
    python3 -c '
import os, sys, time
for _ in range(1000):
    if os.path.exists(sys.argv[1]):
        sys.exit(0)
    time.sleep(0.01)
sys.exit(1)
' "$1"
}

# Starts a destination of this kind; its address is then in $address.
destination() {
    start python3 "$here/destination.py" "$1" "$tmp/$1.port"
    await_file "$tmp/$1.port" || { echo "FAILED: no destination"; exit 1; }
    address=127.0.0.1:$(cat "$tmp/$1.port")
}

passed() { echo "passed: $1"; }

failed() {
    echo "FAILED: $1"
    failures=$((failures + 1))
}

# same NAME GOT WANTED
same() {
    if [ "$2" = "$3" ]; then passed "$1"; else failed "$1: '$2' in place of '$3'"; fi
}

# A number from /proc of a process, in kilobytes: VmRSS, VmHWM.
memory() { awk -v key="$2:" '$1 == key { print $2 }' "/proc/$1/status"; }

# curl, at most five minutes, tried again for ten seconds while nobody answers
fetch() { curl -sS --max-time 300 --retry 10 --retry-delay 1 --retry-all-errors --retry-connrefused "$@" 2>"$tmp/curl"; }

# Starts a server at three gates, an agent, and a client for the destination $1.
start_tunnels() {
    set -- "$1" $(free_ports 4)
    agents=127.0.0.1:$2 clients=127.0.0.1:$3 connect=127.0.0.1:$4 listen=127.0.0.1:$5
    start "$program" server --agents "$agents" --clients "$clients" --connect "$connect"
    server=$process
    # The gate of CONNECT answers any other request with a refusal: then the server is up.
    fetch -o "$tmp/refusal" "http://$connect/" || { echo "FAILED: the server did not start"; exit 1; }
    start "$program" agent --server "$agents"
    agent=$process
    start "$program" client --server "$clients" --listen "$listen" --address "$1"
    client=$process
}
