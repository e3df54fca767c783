#!/usr/bin/env bash
# Starts the authorization server of setup.json, asks it for a grant as the client c1, and asks it as the resource server r1 what the token is worth.
# Each request is signed by `gnap sign`, and the very bytes that it prints are sent. A client's request carries a nonce, which the server takes once: the
# same bytes again, as somebody would send them who caught them, are refused. After three connections the server ends by itself.
set -eu
here=$(cd "$(dirname "$0")" && pwd)
gnap=${GNAP:-$here/../../gnap}
setup=$here/setup.json
work=$(mktemp -d)
server=
trap 'rm -rf "$work"; [ -z "$server" ] || kill "$server" 2>/dev/null || true' EXIT

# This builds the program where it isn't built.
"$gnap" replay "$here/../first.jsonl" >/dev/null

# Connects, as soon as somebody listens.
connect() {
    for _ in $(seq 100); do
        if { exec 3<>"/dev/tcp/127.0.0.1/$port"; } 2>/dev/null; then return 0; fi
        kill -0 "$server" 2>/dev/null || return 1
        sleep 0.1
    done
    return 1
}

# Signs the request with this target and body by this key, with a nonce where one stands behind them.
sign() {
    printf 'POST %s HTTP/1.1\r\nHost: as.example\r\nConnection: close\r\nContent-Type: application/json\r\nContent-Length: %s\r\n\r\n%s' \
        "$2" "${#3}" "$3" >"$work/request"
    "$gnap" sign "$setup" "$1" "$(date +%s)" "$work/request" "${@:4}" >"$work/signed"
}

# Sends the request that was signed last, and prints the reply.
send() {
    connect
    cat "$work/signed" >&3
    cat <&3
    exec 3<&- 3>&-
    echo
}

for port in $(shuf -i 20000-60000 -n 10); do
    "$gnap" as "$setup" "127.0.0.1:$port" 1 3 2>/dev/null &
    server=$!
    sleep 0.3
    ! kill -0 "$server" 2>/dev/null || break
done

sign c1 /gnap '{"access_token":{"access":["photos"]},"client":"c1"}' "$(openssl rand -hex 16)"
send | tee "$work/grant"
echo
send | tee "$work/repeated"
grep -q '^HTTP/1.1 401 ' "$work/repeated"
echo
value=$(sed -n 's/.*"value":"\([^"]*\)"},"continue".*/\1/p' "$work/grant")
sign r1 /introspect "{\"access_token\":\"$value\",\"proof\":\"httpsig\",\"resource_server\":\"r1\"}"
send
wait "$server"
server=
