#!/usr/bin/env bash
# A client made of curl and openssl, as docs/CLIENTS.md tells it, and the servers of setup.json and rs.json on this machine. It asks for `mail`; the user
# grants it by the front f1; the client checks the hash, continues, uses its token at the resource server, exchanges it, moves it to its second key c2, uses
# it with that key, gives it back, and cancels the grant. Then it asks again, with a user code, and polls. The very bytes of this request, sent once more on
# another connection, are refused. What came of each request has to be what stands at the end of this file.
set -eu
here=$(cd "$(dirname "$0")" && pwd)
gnap=${GNAP:-$here/../../gnap}
as=https://as.example
rs=https://rs.example
umask 077
work=$(mktemp -d)
pids=
trap 'rm -rf "$work"; [ -z "$pids" ] || kill $pids 2>/dev/null || true' EXIT

# This builds the program where it isn't built.
"$gnap" replay "$here/../first.jsonl" >/dev/null

# The secret of a key in hexadecimal digits.
secret() {
    sed -n "s/.*\"id\":\"$1\"[^}]*\"secret\":\"\([^\"]*\)\".*/\1/p" "$here/setup.json" | openssl base64 -d -A | od -An -v -tx1 | tr -d ' \n'
}

# Adds to what is signed: the name of a component, its value, and its parameters, where it has some.
cover() {
    printf '"%s"%s: %s\n' "$1" "${3:-}" "$2" >>"$work/covered"
    list="$list${list:+ }\"$1\"${3:-}"
}

# sign_with KEY LABEL MORE: signs what is covered, with MORE behind the other parameters.
sign_with() {
    params="($list);created=$(date +%s);keyid=\"$1\";$3"
    { cat "$work/covered" && printf '"@signature-params": %s' "$params"; } >"$work/base"
    signature=$(openssl dgst -sha256 -mac HMAC -macopt "hexkey:$(secret "$1")" -binary "$work/base" | openssl base64 -A)
    printf 'Signature-Input: %s=%s\nSignature: %s=:%s:\n' "$2" "$params" "$2" "$signature" >>"$work/fields"
}

# sign KEY METHOD URI BODY VALUE: puts the fields of this request into a file. BODY and VALUE may be empty.
sign() {
    list=
    : >"$work/covered"
    : >"$work/fields"
    cover @method "$2"
    cover @target-uri "$3"
    if [ -n "$4" ]; then
        digest="sha-256=:$(printf %s "$4" | openssl dgst -sha256 -binary | openssl base64 -A):"
        cover content-digest "$digest"
        printf 'Content-Type: application/json\nContent-Digest: %s\n' "$digest" >>"$work/fields"
    fi
    if [ -n "$5" ]; then
        cover authorization "GNAP $5"
        echo "Authorization: GNAP $5" >>"$work/fields"
    fi
    sign_with "$1" sig1 "nonce=\"$(openssl rand -hex 16)\";tag=\"gnap\""
}

# sign_again KEY: puts behind them the signature of a new key, over the one that is there.
sign_again() {
    cover signature ":$signature:" ';key="sig1"'
    cover signature-input "$params" ';key="sig1"'
    sign_with "$1" sig2 'tag="gnap-rotate"'
}

# send METHOD URI BODY: sends it with these fields to the server on this machine, without TLS, and prints what came of it.
send() {
    case $2 in
    "$as"/*) port=$as_port host=${as#https://} target=${2#"$as"} ;;
    "$rs"/*) port=$rs_port host=${rs#https://} target=${2#"$rs"} ;;
    esac
    status=$(curl -sS -X "$1" -H "Host: $host" -H @"$work/fields" ${3:+--data-binary "$3"} -o "$work/reply" -w '%{http_code}' "http://127.0.0.1:$port$target")
    echo "$1 $2 $status" | tee -a "$work/all"
    [ "$status" = 204 ] || { cat "$work/reply" && echo; }
    echo
}

# call METHOD URI [BODY [VALUE [KEY]]]
call() {
    sign "${5:-c1}" "$1" "$2" "${3:-}" "${4:-}"
    send "$1" "$2" "${3:-}"
}

# A string of the last reply, by what stands before it.
member() {
    sed -n "s/.*$1\"\([^\"]*\)\".*/\1/p" "$work/reply"
}
onward='"continue":{"access_token":{"value":'
managed='"manage":{"access_token":{"value":'
token='},"value":'

# A server that runs for so many connections: its name, its setup, and the other words of its command.
serve() {
    for port in $(shuf -i 20000-60000 -n 10); do
        "$gnap" "$1" "$2" "127.0.0.1:$port" "${@:3}" 2>/dev/null &
        server=$!
        sleep 0.3
        ! kill -0 "$server" 2>/dev/null || break
    done
    pids="$pids $server"
}
serve as "$here/setup.json" 1 18
as_port=$port
serve rs "$here/rs.json" "127.0.0.1:$as_port" 2
rs_port=$port

: >"$work/fields"
send OPTIONS $as/gnap ''

nonce=$(openssl rand -hex 16)
call POST $as/gnap "{\"access_token\":{\"access\":[\"mail\"]},\"client\":\"c1\",\"interact\":{\"start\":[\"redirect\"],\"finish\":{\"method\":\"redirect\",\"uri\":\"https://client.example/back\",\"nonce\":\"$nonce\"}}}"
value=$(member "$onward")
theirs=$(member '"finish":')
page=$(member '"redirect":')
call POST $as/front/decide "{\"handle\":\"${page##*/}\",\"verdict\":\"grant\"}" '' f1
back=$(member '"uri":')
hash=$(echo "$back" | sed 's/.*[?&]hash=\([^&]*\).*/\1/')
reference=$(echo "$back" | sed 's/.*[?&]interact_ref=\([^&]*\).*/\1/')
meant=$(printf '%s\n%s\n%s\n%s' "$nonce" "$theirs" "$reference" $as/gnap | openssl dgst -sha256 -binary | openssl base64 -A | tr '+/' '-_' | tr -d =)
[ "$hash" = "$meant" ]
call POST $as/continue "{\"interact_ref\":\"$reference\"}" "$value"
value=$(member "$onward")
manage=$(member "$managed")
call GET $rs/mail '' "$(member "$token")"
call POST $as/token '' "$manage"
manage=$(member "$managed")
to_c2='{"key":"c2"}'
sign c1 POST $as/token "$to_c2" "$manage"
sign_again c2
send POST $as/token "$to_c2"
manage=$(member "$managed")
call GET $rs/mail '' "$(member "$token")" c2
call DELETE $as/token '' "$manage" c2
call DELETE $as/continue '' "$value"
call POST $as/continue '' "$value"

asked='{"access_token":{"access":["photos","mail"]},"client":"c1","interact":{"start":["user_code"]}}'
call POST $as/gnap "$asked"
value=$(member "$onward")
shown=$(member '"user_code":')
# The fields are still those of the request before: so does somebody ask who caught it.
send POST $as/gnap "$asked"
call POST $as/continue '' "$value"
call POST $as/front/code "{\"code\":\"$shown\"}" '' f1
call POST $as/front/decide "{\"handle\":\"$(member '"handle":')\",\"verdict\":\"grant\",\"access\":[\"mail\"]}" '' f1
sleep 5
call POST $as/continue '' "$value"
call DELETE $as/continue '' "$(member "$onward")"

wait $pids
pids=
diff - "$work/all" <<'END'
OPTIONS https://as.example/gnap 200
POST https://as.example/gnap 200
POST https://as.example/front/decide 200
POST https://as.example/continue 200
GET https://rs.example/mail 200
POST https://as.example/token 200
POST https://as.example/token 200
GET https://rs.example/mail 200
DELETE https://as.example/token 204
DELETE https://as.example/continue 204
POST https://as.example/continue 401
POST https://as.example/gnap 200
POST https://as.example/gnap 401
POST https://as.example/continue 400
POST https://as.example/front/code 200
POST https://as.example/front/decide 200
POST https://as.example/continue 200
DELETE https://as.example/continue 204
END
