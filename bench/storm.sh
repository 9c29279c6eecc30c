#!/usr/bin/env bash
# A boot storm: 1,000 clients within ten seconds, on a master and two slaves on this machine, while the master makes
# and pushes the maps of passwd twice: bench/storm.sh [CLIENTS [SECONDS [USERS]]]
. "$(dirname -- "$(readlink -f -- "$0")")/room.sh"
clients=${1:-1000}
seconds=${2:-10}
users=${3:-5000}
workers=4
maps=(lab/passwd.byname lab/passwd.byuid lab/group.byname lab/hosts.byname lab/hosts.byaddr)
slaves=(s1 s2)
ulimit -n "$(ulimit -Hn)"

built
compiled storm
cd "$room"
declare -A port
servers=()
trap 'kill "${servers[@]}" 2>/dev/null; rm -rf -- "$room"' EXIT

# served NAME [HOST]: starts a server over the maps in the folder of this name, and waits until it answers.
served() {
    local name=$1
    shift
    port[$name]=$(python3 "$top/examples/post.py")
    (cd "$name" && exec "$yp" serve "$name" "${port[$name]}" "$workers" forever forever "${maps[@]}" "$@" >tally) &
    servers+=($!)
    python3 "$top/examples/post.py" "${port[$name]}" >ready <<'CALL'
00000001 00000000 00000002 000186a4 00000002 00000000 00000000 00000000 00000000 00000000
CALL
}

# text EDITION: what the maps of passwd are made of.
text() {
    "$room/storm" text passwd "$users" "$1" >m1/ypsrc/passwd.new
    mv m1/ypsrc/passwd.new m1/ypsrc/passwd
}

mkdir -p m1/ypsrc "${slaves[@]}"
text 0
"$room/storm" text group "$users" 0 >m1/ypsrc/group
"$room/storm" text hosts "$users" 0 >m1/ypsrc/hosts
for map in "${maps[@]}"; do
    kind=${map#lab/}
    (cd m1 && "$yp" build m1 "$map" <"ypsrc/${kind%%.*}" >/dev/null)
done
printf '%s\n' m1 "${slaves[@]}" | (cd m1 && "$yp" build m1 lab/ypservers >/dev/null)
served m1
hosts=()
for slave in "${slaves[@]}"; do
    cp -r m1/ypdata "$slave/"
    rm "$slave/ypdata/lab/ypservers"
    served "$slave" "m1@127.0.0.1:${port[m1]}"
    hosts+=("$slave@127.0.0.1:${port[$slave]}")
done

# change EDITION: makes and pushes both maps of passwd.
change() {
    local map own
    text "$1"
    for map in passwd.byname passwd.byuid; do
        "$yp" make "127.0.0.1:${port[m1]}" lab "$map" >>changes || return 1
    done
    for map in passwd.byname passwd.byuid; do
        own=$(python3 "$top/examples/post.py")
        (cd m1 && "$yp" push m1 "$own" 2 30 "lab/$map" "${hosts[@]}") >>changes || return 1
    done
}
pause=$(python3 -c "print($seconds / 3)")
(sleep "$pause" && change 1 && sleep "$pause" && change 2) 2>>changes &
changes=$!

status=0
"$room/storm" "$clients" "$seconds" "$users" "${port[m1]}" "${port[s1]}" "${port[s2]}" || status=1
wait "$changes" || status=1
addresses=()
for name in m1 "${slaves[@]}"; do
    addresses+=("127.0.0.1:${port[$name]}")
done
"$yp" orders "${addresses[@]}" lab >orders || status=1
echo "meanwhile:" $(grep -c 'made$' changes) "maps made," $(grep -c '^s[12] 1$' changes) "transfers;" \
    "the orders at the end are" $([ "$status" = 0 ] && echo equal || cat changes orders)
exit "$status"
