#!/usr/bin/env bash
# Starts the authorization server of setup.json and, with it, the client of client.json: the client asks for `mail`, which a user has to grant; the user
# grants it by the front f1; the client finishes with the interaction reference, exchanges its token for a new one, gives that back, and cancels the
# grant. What the client prints has to be what stands at the end of this file. The relay in between, in Python, shows what a browser would be told: it
# passes the requests on and writes down the replies. The front's requests are signed by `gnap sign`.
set -eu
here=$(cd "$(dirname "$0")" && pwd)
gnap=${GNAP:-$here/../../gnap}
setup=$here/setup.json
work=$(mktemp -d)
pids=
trap 'rm -rf "$work"; [ -z "$pids" ] || kill $pids 2>/dev/null || true' EXIT

# This builds the program where it isn't built.
$gnap replay "$here/../first.jsonl" >/dev/null

# Waits until the file has so many lines.
lines() {
    for _ in $(seq 300); do
        [ "$(wc -l <"$1")" -lt "$2" ] || return 0
        sleep 0.1
    done
    echo "no line $2 in $1" >&2
    return 1
}

# Connects, as soon as somebody listens.
connect() {
    for _ in $(seq 100); do
        if { exec 3<>"/dev/tcp/127.0.0.1/$port"; } 2>/dev/null; then return 0; fi
        sleep 0.1
    done
    return 1
}

# Sends the front's request with this target and body, and prints the reply.
ask() {
    printf 'POST %s HTTP/1.1\r\nHost: as.example\r\nConnection: close\r\nContent-Type: application/json\r\nContent-Length: %s\r\n\r\n%s' \
        "$1" "${#2}" "$2" >"$work/request"
    $gnap sign "$setup" f1 "$(date +%s)" "$work/request" "$(openssl rand -hex 16)" >"$work/signed"
    connect
    cat "$work/signed" >&3
    cat <&3
    exec 3<&- 3>&-
    echo
}

# Has the client do this.
tell() {
    echo "{\"at\":$(date +%s),$1}" >&4
}

# The server takes five connections of the client and two of the front.
for port in $(shuf -i 20000-60000 -n 10); do
    $gnap as "$setup" "127.0.0.1:$port" 1 7 2>/dev/null &
    server=$!
    sleep 0.3
    ! kill -0 "$server" 2>/dev/null || break
done
: >"$work/bodies"
python3 "$here/relay.py" "$port" "$work/bodies" 5 >"$work/relay" &
pids="$server $!"
lines "$work/relay" 1

# The script is a pipe, so that its lines can follow from what came before.
mkfifo "$work/script"
$gnap client "$here/client.json" "127.0.0.1:$(cat "$work/relay")" "$work/script" >"$work/out" &
client=$!
pids="$pids $client"
exec 4<>"$work/script"

nonce=VJLO6A4CATR0KRO
tell "\"do\":\"begin\",\"body\":{\"access_token\":{\"access\":[\"mail\"]},\"client\":\"c1\",\"interact\":{\"start\":[\"redirect\"],\"finish\":{\"method\":\"redirect\",\"uri\":\"https://client.example/back\",\"nonce\":\"$nonce\"}}}"
lines "$work/bodies" 1
handle=$(sed -n '1s/.*"redirect":"https:\/\/front.example\/i\/\([^"]*\)".*/\1/p' "$work/bodies")
ask /front/look "{\"handle\":\"$handle\"}"
ask /front/decide "{\"handle\":\"$handle\",\"verdict\":\"grant\",\"subject\":\"alice\"}" | tee "$work/decided"
hash=$(sed -n 's/.*[?&]hash=\([^&"]*\).*/\1/p' "$work/decided")
reference=$(sed -n 's/.*[?&]interact_ref=\([^&"]*\).*/\1/p' "$work/decided")
tell "\"do\":\"finish\",\"hash\":\"$hash\",\"reference\":\"$reference\""
tell '"do":"rotate","token":0'
tell '"do":"revoke","token":0'
tell '"do":"cancel"'
exec 4>&-
wait "$client" || true
cat "$work/out"
diff - "$work/out" <<'END'
begin ok Pending
finish ok Approved
rotate ok Approved
revoke ok Approved
cancel ok Ended
END
wait "$server"
