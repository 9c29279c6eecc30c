#!/usr/bin/env bash
# Compares `yp cat` of a map of 262144 rows, which a C program sends from memory, with
# a C program that reads the same reply and prints its values without any check:
# bench/cat.sh [ROUNDS]
. "$(dirname -- "$(readlink -f -- "$0")")/room.sh"
rounds=${1:-7}

built
compiled cat
cd "$room"
hosts 262144 | "$yp" build m1 lab/hosts.byname

# The reply of a session to a call of ALL with xid 1, with which each client begins.
echo "80000040 00000001 00000000 00000002 000186a4 00000002 00000008 00000000 00000000 00000000 00000000
    00000003 6c616200 0000000c 686f7374 732e6279 6e616d65" | xxd -r -p >call
"$yp" session m1 127.0.0.1:1023 lab/hosts.byname <call >reply

exec 3< <(exec "$room/cat" serve reply $((2 * rounds)))
server=$!
trap 'kill "$server" 2>/dev/null; rm -rf -- "$room"' EXIT
read -r port <&3

echo "a reply of ALL with 262144 rows, $(stat -c %s reply) bytes"
python3 "$top/bench/measure.py" "$room" "$rounds" /dev/null \
    yp "$yp" cat "127.0.0.1:$port" lab hosts.byname ";" "+plain C" "$room/cat" ask "$port"
