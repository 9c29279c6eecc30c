#!/usr/bin/env bash
# Compares `yp xfr` of a map of 262144 rows, which a C program sends from memory, up to
# the synced file, with a C program that reads the same replies, keeps and sorts the
# rows in plain arrays and stores them with the same writes and syncs:
# bench/xfr.sh [ROUNDS]
. "$(dirname -- "$(readlink -f -- "$0")")/room.sh"
rounds=${1:-7}

built
compiled xfr
mkdir "$room/master"
cd "$room/master"
hosts 262144 | "$yp" build m1 lab/hosts.byname
cd "$room"

# call XID PROCEDURE: a call for the map. Its reply by a session goes to reply.XID.
call() {
    printf '80000040 %08x 00000000 00000002 000186a4 00000002 %08x 00000000 00000000 00000000 00000000
        00000003 6c616200 0000000c 686f7374 732e6279 6e616d65' "$1" "$2" | xxd -r -p >call
    (cd master && "$yp" session m1 127.0.0.1:1023 lab/hosts.byname <../call) >"reply.$1"
}
call 1 10
call 2 9
call 3 8
call 4 10

exec 3< <(exec "$room/xfr" serve $((2 * rounds)))
server=$!
trap 'kill "$server" 2>/dev/null; rm -rf -- "$room"' EXIT
read -r port <&3

echo "a transfer of 262144 rows, $(stat -c %s reply.3) bytes of ALL"
python3 "$top/bench/measure.py" --anew ypdata "$room" "$rounds" /dev/null \
    yp "$yp" xfr s1 newer lab/hosts.byname "m1@127.0.0.1:$port" ";" "+plain C" "$room/xfr" fetch "$port"

# The files are the same, and so is the master's.
cmp 0.made/lab/hosts.byname 1.made/lab/hosts.byname
cmp 0.made/lab/hosts.byname master/ypdata/lab/hosts.byname
