#!/usr/bin/env bash
# Compares `yp serve` of two maps, of 20000 and of 262144 rows, with servers in C that have as many threads and answer
# from memory, and with ypserv, where that is installed and a port mapper can be started, under the same load:
# bench/serve.sh [ROUNDS [MILLISECONDS]]
. "$(dirname -- "$(readlink -f -- "$0")")/room.sh"
rounds=${1:-5}
milliseconds=${2:-1000}
workers=8
idle=5000
ulimit -n "$(ulimit -Hn)"
life=forever
maps=(lab/hosts.byname lab/hosts.byaddr)

built
compiled serve
cd "$room"
mkdir ypsrc
hosts 20000 >hosts
hosts 262144 >ypsrc/hosts
"$yp" build m1 lab/hosts.byname <hosts
"$yp" build m1 lab/hosts.byaddr <ypsrc/hosts

# reply PROCEDURE MAP [KEY]: the record of the reply of a session, the last three as hexadecimal words.
reply() {
    local call
    call="00000001 00000000 00000002 000186a4 00000002 0000000$1 00000000 00000000 00000000 00000000
        00000003 6c616200 0000000c $2 ${3:-}"
    call=$(tr -d ' \n' <<<"$call")
    printf '80%06x%s' $((${#call} / 2)) "$call" | xxd -r -p | "$yp" session m1 127.0.0.1:1023 "${maps[@]}"
}
reply 3 "686f7374 732e6279 6e616d65" "0000000a 686f7374 30303030 30300000" >match.reply
reply 8 "686f7374 732e6279 6e616d65" >small.reply
reply 8 "686f7374 732e6279 61646472" >large.reply

# ready PORT: waits until a datagram is answered there.
ready() {
    python3 "$top/examples/post.py" "$1" >ready <<'CALL'
00000001 00000000 00000002 000186a4 00000002 00000000 00000000 00000000 00000000 00000000
CALL
}

# ypserv_answers PORT: starts ypserv over the same maps in a place of its own, with a port mapper where none runs.
ypserv_answers() {
    local maps=$room/ypserv/lab
    [ -x /usr/sbin/ypserv ] && [ -x /usr/lib/yp/makedbm ] && [ -d /var/yp ] && [ "$(id -u)" = 0 ] || return 1
    mkdir -p "$maps"
    awk '{ print $2 "\t" $1, $2 }' hosts | /usr/lib/yp/makedbm - "$maps/hosts.byname" || return 1
    awk '{ print $1 "\t" $1, $2 }' ypsrc/hosts | /usr/lib/yp/makedbm - "$maps/hosts.byaddr" || return 1
    if ! rpcinfo -p 127.0.0.1 >/dev/null 2>&1; then
        mkdir -p /run/rpcbind
        rpcbind -f >/dev/null 2>&1 &
        mapper=$!
        sleep 1
    fi
    # ypserv goes on in the background, and tells its number in a file
    unshare -m sh -c 'mount --bind "$1" /var/yp && exec /usr/sbin/ypserv -p "$2"' - "$room/ypserv" "$1" || return 1
    sleep 1
    ypserv=$(cat /run/ypserv.pid 2>/dev/null) && kill -0 "$ypserv"
}

port=$(python3 "$top/examples/post.py")
"$yp" serve m1 "$port" "$workers" "$life" "$life" "${maps[@]}" >tally &
server=$!
exec 3< <(exec "$room/serve" echo "$workers" match.reply small.reply large.reply)
echo_server=$!
mapper=
ypserv=
trap 'kill $server $echo_server $ypserv $mapper 2>/dev/null; rm -rf -- "$room"' EXIT
read -r few many <&3
other=$(python3 "$top/examples/post.py")
if ! ypserv_answers "$other"; then
    echo "ypserv isn't here, so nothing is compared with it"
    other=
fi
ready "$port"

# memory WHEN: what the server has.
memory() {
    awk -v "when=$1" '/^VmHWM|^VmRSS/ { has[$1] = $2 }
        END { printf "memory %s: %.1f MiB, at most %.1f MiB\n", when, has["VmRSS:"] / 1024, has["VmHWM:"] / 1024 }' \
        "/proc/$server/status"
}
echo "$workers workers; replies of $(stat -c %s match.reply small.reply large.reply | paste -sd ' ') bytes"
memory "before"
"$room/serve" load "$rounds" "$milliseconds" 20000 "$port" "$few" "$many" $other
memory "after the load"
# MAKE of hosts.byaddr: the old version stays until the new one is shown.
python3 "$top/examples/post.py" "$port" 20 >made <<'CALL'
00000002 00000000 00000002 20004e49 00000001 00000001 00000000 00000000 00000000 00000000 00000003 6c616200 00000006
CALL
[ "$(cut -d ' ' -f 7 made)" = 00000001 ]
memory "after a MAKE of the larger map"

# What so many idle connections take, behind as many.
coproc "$room/serve" idle "$port" "$idle"
read -r _ <&"${COPROC[0]}"
resident() { awk '/^VmRSS/ { print $2 * 1024 }' "/proc/$server/status"; }
sleep 3 # the old version is let go
before=$(resident)
echo >&"${COPROC[1]}"
read -r _ <&"${COPROC[0]}"
echo "memory of an idle connection: $((($(resident) - before) / idle)) bytes, and less than 1024 is the goal"
eval "exec ${COPROC[1]}>&-"
wait "$COPROC_PID" || true

# counted ROW ..: the system calls of a server for each call of these loads.
counted() {
    local traced tracer row
    for row; do
        traced=$(python3 "$top/examples/post.py")
        strace -f -c -o counts "$yp" serve m1 "$traced" "$workers" "$life" "$life" "${maps[@]}" >tally 2>/dev/null &
        tracer=$!
        ready "$traced"
        "$room/serve" row "$row" "$traced" "$milliseconds" 20000 >load
        kill "$(cat "/proc/$tracer/task/$tracer/children")"
        wait "$tracer" || true
        awk -v "load=$(cat load)" 'BEGIN { split(load, of, "\t"); printf "%s, %d calls:", of[1], of[3] }
            $4 / of[3] >= 0.05 && $NF != "total" { printf " %s %.2f", $NF, $4 / of[3] }
            END { print "" }' counts
    done
}
kill "$server" && wait "$server" || true
if command -v strace >/dev/null; then
    echo "system calls of yp serve for a call"
    counted 0 3 4 7 9 10 14
else
    echo "strace isn't here, so no system calls are counted"
fi
