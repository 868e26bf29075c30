#!/bin/sh
# examples/tls/run.sh [PROGRAM]: a server, an agent and a client on loopback, a haproxy beside each of them, TLS with
# certificates of both sides between these, and curl through them. It runs the files of this folder, with their ports,
# paths and the server's address replaced. Says what passed; its last line is `ok`, and its status 0, where all did.
tls=$(cd "$(dirname "$0")" && pwd) || exit 1
here=$tls/../processes
for needed in haproxy openssl; do
    if ! command -v "$needed" >/dev/null 2>&1; then
        echo "not run: $needed is not there"
        exit 0
    fi
done
. "$here/common.sh"

sh "$tls/certificates.sh" "$tmp" || { echo "FAILED: no certificates"; exit 1; }
mkdir "$tmp/other"
sh "$tls/certificates.sh" "$tmp/other" || { echo "FAILED: no certificates"; exit 1; }

set -- $(free_ports 9)
replace() {
    sed -e "s|/etc/konnectivity|$tmp|g" -e "s|/run/konnectivity|$tmp|g" \
        -e "s|127.0.0.1:8091|127.0.0.1:$agents|" -e "s|127.0.0.1:8092|127.0.0.1:$clients|" \
        -e "s|127.0.0.1:8093|127.0.0.1:$connect|" -e "s|:8132|:$far_agents|" -e "s|:8133|:$far_clients|" \
        -e "s|:8134|:$far_connect|" -e "s|:8191|:$near_agent|" -e "s|:8192|:$near_client|" \
        -e "s|bind :|bind 127.0.0.1:|" -e "s|far konnectivity.example|far 127.0.0.1|" "$tls/$1" >"$tmp/$1"
}
agents=$1 clients=$2 connect=$3 far_agents=$4 far_clients=$5 far_connect=$6 near_agent=$7 near_client=$8 listen=$9
for file in server agent client; do replace "$file.cfg"; done

# The server's side.
start "$program" server --agents "127.0.0.1:$agents" --clients "127.0.0.1:$clients" --connect "127.0.0.1:$connect"
fetch -o "$tmp/refusal" "http://127.0.0.1:$connect/" || { echo "FAILED: the server did not start"; exit 1; }
start haproxy -db -f "$tmp/server.cfg"

# The agent's side: an agent that finds no server ends, and its supervisor starts it again.
supervise() {
    trap 'kill "$child"; exit' TERM
    while :; do
        "$@" 2>>"$tmp/ends" &
        child=$!
        wait "$child"
        sleep 1
    done
}
start haproxy -db -f "$tmp/agent.cfg"
start supervise "$program" agent --server "127.0.0.1:$near_agent"

# The client's side.
destination web
start haproxy -db -f "$tmp/client.cfg"
start supervise "$program" client --server "127.0.0.1:$near_client" --listen "127.0.0.1:$listen" --address "$address"

same "curl through CONNECT, by TLS" "$(fetch --proxytunnel --proxy "https://konnectivity.example:$far_connect" \
    --resolve "konnectivity.example:$far_connect:127.0.0.1" --proxy-cacert "$tmp/ca.crt" --proxy-cert "$tmp/client.pem" \
    "http://$address/")" hello
same "curl through a client, by TLS" "$(fetch "http://127.0.0.1:$listen/")" hello

# Who has no certificate, or one of another authority, gets nothing.
refused() {
    name=$1
    shift
    if curl -sS --max-time 20 -o /dev/null --proxytunnel --proxy "https://127.0.0.1:$far_connect" --proxy-insecure "$@" \
        "http://$address/" 2>/dev/null; then
        failed "a connection $name gets through"
    else
        passed "a connection $name is refused"
    fi
}
refused "without a certificate"
refused "with a certificate of another authority" --proxy-cert "$tmp/other/client.pem"

# The UNIX socket for clients that speak HTTP CONNECT.
same "CONNECT through a UNIX socket" "$(python3 - "$tmp/connect.socket" "$address" <<'PYTHON'
import socket, sys
connection = socket.socket(socket.AF_UNIX)
connection.settimeout(20)
connection.connect(sys.argv[1])
connection.sendall(f"CONNECT {sys.argv[2]} HTTP/1.1\r\nHost: {sys.argv[2]}\r\n\r\n".encode())
print(connection.recv(1000).split(b"\r\n")[0].decode())
PYTHON
)" "HTTP/1.1 200 Connection Established"

[ "$failures" -eq 0 ] || exit 1
trap - EXIT
finish
echo ok
