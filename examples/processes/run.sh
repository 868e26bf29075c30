#!/bin/sh
# examples/processes/run.sh [PROGRAM]: a server, an agent and a client as processes on this machine's loopback, and
# curl through them to a small web server: through the client's gate, and through the server's gate of CONNECT.
# Says what passed, and ends with 0, or 1 where something did not.
. "$(dirname "$0")/common.sh"

destination web
web=$address
start_tunnels "$web"

same "curl through the client" "$(fetch "http://$listen/")" hello
same "curl through CONNECT" "$(fetch --proxytunnel --proxy "http://$connect" "http://$web/")" hello

wanted=$(curl -sS "http://$web/sum/1000000")
same "1,000,000 bytes through the client" "$(fetch "http://$listen/1000000" | sha256sum | cut -d ' ' -f 1)" "$wanted"
same "1,000,000 bytes through CONNECT" \
    "$(fetch --proxytunnel --proxy "http://$connect" "http://$web/1000000" | sha256sum | cut -d ' ' -f 1)" "$wanted"

head -c 1000000 /dev/urandom >"$tmp/body"
wanted=$(sha256sum <"$tmp/body" | cut -d ' ' -f 1)
same "1,000,000 bytes the other way" "$(fetch --data-binary "@$tmp/body" "http://$listen/")" "$wanted"

# An address where nothing listens: the agent's refusal comes to curl.
status=$(curl -sS --max-time 20 -o /dev/null -w '%{http_connect}' --proxytunnel --proxy "http://$connect" \
    "http://127.0.0.1:$(free_ports 1)/" 2>/dev/null)
case $status in
5??) passed "a destination that refuses: $status" ;;
*) failed "a destination that refuses: '$status'" ;;
esac

for name in server agent client; do
    eval "number=\$$name"
    if kill -0 "$number" 2>/dev/null; then passed "the $name runs on"; else failed "the $name has ended"; fi
done

[ "$failures" -eq 0 ]
