#!/usr/bin/env bash
# Starts the authorization server of setup.json, the resource server of rs.json and the client of client.json, each as a process of its own, with something
# like a TLS terminator before the two servers. The client asks for `photos` and `mail`; the user grants it by the front f1; the client finishes, and uses
# its token at the resource server, which shows the text of its route. The same request without its signature is refused. The client cancels the grant,
# and the same signed request as before is refused too. What came of it has to be what stands at the end of this file.
set -eu
here=$(cd "$(dirname "$0")" && pwd)
gnap=${GNAP:-$here/../../gnap}
setup=$here/setup.json
work=$(mktemp -d)
touch "$work/terminator" "$work/requests" "$work/bodies"
pids=
trap 'rm -rf "$work"; [ -z "$pids" ] || kill $pids 2>/dev/null || true' EXIT

# This builds the program where it isn't built.
$gnap replay "$here/../first.jsonl" >/dev/null

# Waits until the file has so many lines.
lines() {
    for _ in $(seq 300); do
        [ "$(grep -c '' "$1" || true)" -lt "$2" ] || return 0
        sleep 0.1
    done
    echo "no line $2 in $1" >&2
    return 1
}

# Sends what stands in the file to the port, and prints the reply.
send() {
    for _ in $(seq 100); do
        if { exec 3<>"/dev/tcp/127.0.0.1/$1"; } 2>/dev/null; then break; fi
        sleep 0.1
    done
    cat "$2" >&3
    cat <&3
    exec 3<&- 3>&-
    echo
}

# Sends the front's request with this target and body, and prints the reply.
ask() {
    printf 'POST %s HTTP/1.1\r\nHost: as.example\r\nConnection: close\r\nContent-Type: application/json\r\nContent-Length: %s\r\n\r\n%s' \
        "$1" "${#2}" "$2" >"$work/request"
    $gnap sign "$setup" f1 "$(date +%s)" "$work/request" "$(openssl rand -hex 16)" >"$work/signed"
    send "$as_port" "$work/signed"
}

# Has the client do this.
tell() {
    echo "{\"at\":$(date +%s),$1}" >&4
}

# A server that runs for these many connections: its name, and the words of its command but for the address that it listens at.
serve() {
    for port in $(shuf -i 20000-60000 -n 10); do
        $gnap "$1" "$2" "127.0.0.1:$port" "${@:3}" 2>/dev/null &
        server=$!
        sleep 0.3
        ! kill -0 "$server" 2>/dev/null || return 0
    done
    return 1
}

# Three connections of the client, two of the front and three of the resource server.
serve as "$setup" 1 8
as_port=$port
pids=$server
# One connection of the client, and two that this script makes.
serve rs "$here/rs.json" "127.0.0.1:$as_port" 3
rs_port=$port
pids="$pids $server"
python3 "$here/terminator.py" "$as_port" "$rs_port" "$work/requests" "$work/bodies" 4 >"$work/terminator" &
pids="$pids $!"
lines "$work/terminator" 1

# The script is a pipe, so that its lines can follow from what came before.
mkfifo "$work/script"
$gnap client "$here/client.json" "127.0.0.1:$(cat "$work/terminator")" "$work/script" >"$work/out" &
client=$!
pids="$pids $client"
exec 4>"$work/script"

nonce=VJLO6A4CATR0KRO
tell "\"do\":\"begin\",\"body\":{\"access_token\":{\"access\":[\"photos\",\"mail\"]},\"subject\":{\"sub_id_formats\":[\"opaque\"]},\"client\":\"c1\",\"interact\":{\"start\":[\"redirect\"],\"finish\":{\"method\":\"redirect\",\"uri\":\"https://client.example/back\",\"nonce\":\"$nonce\"}}}"
lines "$work/bodies" 1
handle=$(sed -n '1s/.*"redirect":"https:\/\/front.example\/i\/\([^"]*\)".*/\1/p' "$work/bodies")
ask /front/look "{\"handle\":\"$handle\"}"
ask /front/decide "{\"handle\":\"$handle\",\"verdict\":\"grant\",\"subject\":\"alice\"}" | tee "$work/decided"
hash=$(sed -n 's/.*[?&]hash=\([^&"]*\).*/\1/p' "$work/decided")
reference=$(sed -n 's/.*[?&]interact_ref=\([^&"]*\).*/\1/p' "$work/decided")
tell "\"do\":\"finish\",\"hash\":\"$hash\",\"reference\":\"$reference\""
tell '"do":"use","token":0,"method":"GET","path":"/photos"'
lines "$work/bodies" 3

# The request of the client as the resource server got it; and the same without its signature.
sed -n '/^GET /,/^=/p' "$work/requests" | sed '/^=/d' | head -c -1 >"$work/used"
sed '/^Signature/d' "$work/used" >"$work/unsigned"
send "$rs_port" "$work/unsigned" | head -1 | tr -d '\r' >"$work/refused"
tell '"do":"cancel"'
lines "$work/bodies" 4
send "$rs_port" "$work/used" | head -1 | tr -d '\r' >>"$work/refused"
exec 4>&-
wait $pids
pids=

sed -n 3p "$work/bodies" | cat - "$work/refused" "$work/out" | tee "$work/all"
diff - "$work/all" <<'END'
{"text":"hello"}
HTTP/1.1 401 Unauthorized
HTTP/1.1 401 Unauthorized
begin ok Pending
finish ok Approved
use ok 200
cancel ok Ended
END
