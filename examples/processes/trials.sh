#!/bin/sh
# examples/processes/trials.sh [PROGRAM [SECONDS [MEGABYTES]]]: what a person would try by hand on a server, an agent
# and a client that run as processes on this machine's loopback. Says what passed and what was measured, and ends with
# 0, or 1 where something did not pass. One trial opens and closes tunnels for so many seconds, 20 where none are said;
# the long downloads have so many megabytes, 100 where none are said, and the others a tenth and a hundredth of it.
. "$(dirname "$0")/common.sh"
seconds=${2:-20}
megabytes=${3:-100}
much=$((megabytes * 1000000))

sum() { sha256sum | cut -d ' ' -f 1; }
through_connect() { fetch --proxytunnel --proxy "http://$connect" "$@"; }

destination echo
echo_address=$address
destination web
web=$address
start_tunnels "$web"
through_connect -o /dev/null "http://$web/" || failed "no tunnel"

# --- much

wanted=$(curl -sS "http://$web/sum/$much")
begin=$(date +%s%N)
same "$megabytes MB through CONNECT" "$(through_connect "http://$web/$much" | sum)" "$wanted"
echo "measured: $((($(date +%s%N) - begin) / 1000000)) ms for $megabytes MB through CONNECT"
same "$megabytes MB through the client" "$(fetch "http://$listen/$much" | sum)" "$wanted"

head -c $((much / 10)) /dev/urandom >"$tmp/body"
wanted=$(sum <"$tmp/body")
same "$((much / 10)) bytes the other way, through CONNECT" "$(through_connect --data-binary "@$tmp/body" "http://$web/")" "$wanted"
same "$((much / 10)) bytes the other way, through the client" "$(fetch --data-binary "@$tmp/body" "http://$listen/")" "$wanted"

# --- many

wanted=$(curl -sS "http://$web/sum/$((much / 100))")
number=0
downloads=
while [ "$number" -lt 50 ]; do
    number=$((number + 1))
    { through_connect "http://$web/$((much / 100))" | sum >"$tmp/sum.$number"; } &
    downloads="$downloads $!"
done
for process in $downloads; do wait "$process"; done
same "50 downloads of $((much / 100)) bytes at once" "$(sort -u "$tmp"/sum.*)" "$wanted"

# --- a small message beside a stream

idle=$(python3 "$here/measure.py" latency "$connect" "$echo_address" 1000)
{ through_connect -o /dev/null "http://$web/3000000000" --max-time 20; } &
stream=$!
python3 -c 'import time; time.sleep(1)'
busy=$(python3 "$here/measure.py" latency "$connect" "$echo_address" 1000)
stop "$stream"
if [ -n "$idle" ] && [ -n "$busy" ]; then
    echo "measured: a byte there and back, median and worst of 1,000 in microseconds: idle $idle, beside a stream $busy"
    if [ "${busy% *}" -le $((${idle% *} * 10)) ]; then
        passed "a small message is at most ten times slower beside a stream"
    else
        failed "a small message is more than ten times slower beside a stream"
    fi
else
    failed "the echo through CONNECT"
fi

# --- a destination that reads nothing

destination slow
before=$(memory "$server" VmRSS)
sent=$(python3 "$here/measure.py" fill "$connect" "$address" 5)
echo "measured: $sent bytes were taken for a destination that reads nothing; the server has $(memory "$server" VmHWM) kB at most, $before kB before"
if [ -n "$sent" ] && [ "$sent" -lt 100000000 ]; then
    passed "a slow destination holds its app up"
else
    failed "a slow destination does not hold its app up"
fi
same "the web beside it" "$(fetch "http://$listen/")" hello

# --- a client in front of something else than the web

set -- $(free_ports 1)
echo_listen=127.0.0.1:$1
start "$program" client --server "$clients" --listen "$echo_listen" --address "$echo_address"
echo_client=$process
if command -v nc >/dev/null 2>&1; then
    tries=0
    got=
    while [ -z "$got" ] && [ "$tries" -lt 50 ]; do
        tries=$((tries + 1))
        got=$(echo hello | nc -w 2 127.0.0.1 "${echo_listen#*:}" 2>/dev/null)
        [ -n "$got" ] || python3 -c 'import time; time.sleep(0.1)'
    done
    same "nc through a second client" "$got" hello
fi

# --- an agent that is killed

# What the system's buffers hold already still comes: some megabytes, so curl is not to be slow.
curl -sS --max-time 20 --limit-rate 50M -o /dev/null --proxytunnel --proxy "http://$connect" \
    "http://$web/3000000000" 2>"$tmp/cut" &
download=$!
python3 -c 'import time; time.sleep(1)'
stop "$agent"
begin=$(date +%s%N)
wait "$download"
status=$?
taken=$((($(date +%s%N) - begin) / 1000000))
if [ "$status" -ne 0 ] && [ "$taken" -le 1000 ]; then
    passed "curl ends with $status, $taken ms after its agent was killed"
else
    failed "curl ended with $status, $taken ms after its agent was killed"
fi
if kill -0 "$server" 2>/dev/null; then passed "the server goes on"; else failed "the server is gone"; fi
start "$program" agent --server "$agents"
agent=$process
same "a new agent serves" "$(through_connect "http://$web/")" hello

# --- tunnels that open and close, half the time through CONNECT and half through a client

for name in server agent echo_client; do
    eval "number=\$$name"
    eval "${name}_before=\$(memory $number VmRSS)"
done
half=$(((seconds + 1) / 2))
count=$(python3 "$here/measure.py" churn "$connect" "$echo_address" "$half")
more=$(python3 "$here/measure.py" churn - "$echo_listen" "$half")
echo "measured: $count tunnels through CONNECT and $more through a client, one after another in $half s each"
for name in server agent echo_client; do
    eval "number=\$$name before=\$${name}_before"
    after=$(memory "$number" VmRSS)
    if [ -n "$count" ] && [ -n "$more" ] && [ "$after" -le $((before + 2000)) ]; then
        passed "the $name has $before kB before and $after kB after"
    else
        failed "the $name has $before kB before and $after kB after"
    fi
done

# --- a head that is too long

same "a head of over 8,192 bytes" \
    "$(curl -sS --max-time 20 -o /dev/null -w '%{http_connect}' --proxytunnel --proxy "http://$connect" \
        --proxy-header "X: $(head -c 9000 /dev/zero | tr '\0' x)" "http://$web/" 2>/dev/null)" 431

[ "$failures" -eq 0 ]
