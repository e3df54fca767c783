#!/bin/sh
# Prints a key, with a new secret, as it stands among the `keys` of the setup of `gnap as`.
#
#     deploy/new_key.sh ID ROLE      ROLE is client, server or front
#
# A client's `auto` and `ask`, and what a server `serves`, are empty: write the rights there. The owner of the key gets its id and its secret.
set -eu
# Letters are those of ASCII.
export LC_ALL=C

refuse() {
    echo "$1" >&2
    sed -n '2,/^set/s/^# \{0,1\}//p' "$0" >&2
    exit 2
}

[ $# -eq 2 ] || refuse "Two words are wanted."
id=$1 role=$2

case $id in
'' | *[!A-Za-z0-9._-]*) refuse "An id has 1 to 64 letters, digits, dots, underscores and hyphens: $id" ;;
esac
[ ${#id} -le 64 ] || refuse "An id has at most 64 characters: $id"

case $role in
client) more=',"auto":[],"ask":[]' ;;
server) more=',"serves":[]' ;;
front) more= ;;
*) refuse "No role: $role" ;;
esac

secret=$(openssl rand -base64 32)
printf '{"id":"%s","role":"%s","secret":"%s"%s}\n' "$id" "$role" "$secret" "$more"
