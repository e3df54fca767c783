#!/usr/bin/env bash
# A whole deployment on this machine: nginx with TLS before `gnap as`, `gnap sets`, two `gnap rs` and the consent front, and a client in Python.
#
#     deploy/try.sh [--new-key]                  prints a link; decide in your browser, and see what the client got. With --new-key it rotates
#                                                bound tokens to a second key of its own
#     deploy/try.sh --headless [FOLDER] [--quick]   has Chromium decide as a person would, checks what came of it, and leaves pictures of the
#                                                pages in the folder. It waits ten minutes for a request to expire; --quick leaves that out
#
# GNAP names another program than ./gnap. All that is started ends with this script, and so do its files.
set -euo pipefail
here=$(cd "$(dirname "$0")" && pwd)
python=/usr/bin/python3
PATH=$PATH:/usr/sbin

headless=
new_key=
quick=
pictures=
for word in "$@"; do
    case $word in
    --headless) headless=yes ;;
    --new-key) new_key=--new-key ;;
    --quick) quick=--quick ;;
    -*)
        sed -n '2,/^set/s/^# \{0,1\}//p' "$0" >&2
        exit 2
        ;;
    *) pictures=$word ;;
    esac
done

missing=
# A package of Debian, and what shows that it is there.
need() {
    "${@:2}" >/dev/null 2>&1 || missing="$missing $1"
}
need nginx command -v nginx
need openssl command -v openssl
need python3 test -x "$python"
need python3-flask "$python" -c 'import flask'
need python3-waitress "$python" -c 'import waitress'
if [ -n "$headless" ]; then
    need chromium command -v chromium
    need chromium-driver command -v chromedriver
fi
if [ -n "$missing" ]; then
    echo "These packages are missing: apt-get install$missing" >&2
    exit 1
fi

gnap=$(realpath "$(command -v "${GNAP:-$here/../gnap}")")
# This builds the program where it isn't built.
"$gnap" replay "$here/../examples/first.jsonl" >/dev/null

if [ -n "$headless" ]; then
    pictures=${pictures:-$(mktemp -d)}
    mkdir -p "$pictures"
    pictures=$(realpath "$pictures")
fi

umask 077
work=$(mktemp -d)
pids=()
finish() {
    trap - EXIT INT TERM
    [ ${#pids[@]} -eq 0 ] || kill "${pids[@]}" 2>/dev/null || true
    wait
    # Chromium may write for a moment more than its driver runs.
    rm -rf "$work" 2>/dev/null || { sleep 1 && rm -rf "$work"; }
}
trap finish EXIT
trap 'exit 1' INT TERM

# Runs a part in the background: its name, and its command. What it says goes to its log.
start() {
    "${@:2}" >"$work/logs/$1.log" 2>&1 </dev/null &
    pids+=($!)
}

# Runs what this is all for, so that a signal ends it at once. Its status is the script's.
run() {
    local status=0
    "$@" </dev/null &
    pids+=($!)
    wait $! || status=$?
    unset 'pids[-1]'
    return $status
}

# Waits until the part that was started last listens at this port.
listens() {
    for _ in $(seq 150); do
        if (exec 3<>"/dev/tcp/127.0.0.1/$2") 2>/dev/null; then return 0; fi
        kill -0 "${pids[-1]}" 2>/dev/null || break
        sleep 0.1
    done
    echo "$1 doesn't run; it said:" >&2
    tail -n 20 "$work/logs/$1.log" >&2
    return 1
}

mkdir "$work/logs"
cd "$here"
export PYTHONDONTWRITEBYTECODE=1
eval "$("$python" make_files.py "$work")"
openssl req -x509 -newkey ec -pkeyopt ec_paramgen_curve:P-256 -noenc -days 7 -subj '/CN=localhost' \
    -addext 'subjectAltName=DNS:as.localhost,DNS:rs.localhost,DNS:front.localhost' \
    -keyout "$work/key.pem" -out "$work/certificate.pem" 2>"$work/logs/openssl.log"

start as "$gnap" as "$work/as.json" "127.0.0.1:$AS" "$WORKERS" "$QUOTA" "$work/pairs.json"
listens as "$AS"
start sets "$gnap" sets "$work/as.json" "127.0.0.1:$SETS" "$SET_WORKERS" "$QUOTA"
listens sets "$SETS"
start rs1 "$gnap" rs "$work/rs.json" "127.0.0.1:$RS1" "127.0.0.1:$INNER" "$QUOTA"
listens rs1 "$RS1"
start rs2 "$gnap" rs "$work/rs.json" "127.0.0.1:$RS2" "127.0.0.1:$INNER" "$QUOTA"
listens rs2 "$RS2"
start front "$python" -m front "$work/front.json"
listens front "$FRONT"
start nginx nginx -e "$work/logs/nginx-error.log" -p "$work" -c "$work/nginx.conf"
listens nginx "$TLS"

run "$python" resource_set.py "$work" "$INNER"

if [ -n "$headless" ]; then
    run "$python" -m tour "$work" "$pictures" $quick
else
    browser=
    [ -n "${DISPLAY:-}${WAYLAND_DISPLAY:-}" ] || browser=--no-browser
    echo "Everything runs. The certificate is this script's own, so your browser warns of it once."
    run "$python" -m client "$work/client.json" $browser $new_key
fi
