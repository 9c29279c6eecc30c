#!/usr/bin/env bash
# Shows how the time of `yp innetgr` grows with its map: of a chain of 100000 groups, at the
# end of which is the user who is asked for, and of 2000 groups that all name one another,
# of which the last lists the user; each beside a map of half as many groups, and beside
# `yp cat`, which takes the same reply and looks at no group. And how that of `yp revnet` grows
# with its result: of a chain of 2000 groups with a user each, whose rows together have two
# million groups, and of 100000 groups that name none; each beside half as many groups:
# bench/netgroup.sh [ROUNDS]
. "$(dirname -- "$(readlink -f -- "$0")")/room.sh"
rounds=${1:-7}

built
compiled cat
cd "$room"

# A chain of N groups.
chain() {
    awk -v n="$1" 'BEGIN {
        for (i = 0; i < n - 1; i++) printf "g%06d g%06d\n", i, i + 1
        printf "g%06d (-,joe,)\n", n - 1
    }'
}

# N groups, at most 2000, that all name one another by names of three letters and digits.
full() {
    awk -v n="$1" 'function name(i) { return substr(d, int(i / 1296) + 1, 1) substr(d, int(i / 36) % 36 + 1, 1) substr(d, i % 36 + 1, 1) }
    BEGIN {
        d = "0123456789abcdefghijklmnopqrstuvwxyz"
        for (i = 0; i < n; i++) all = all " " name(i)
        for (i = 0; i < n; i++) print name(i) all (i == n - 1 ? " (-,joe,)" : "")
    }'
}

echo "8000003c 00000001 00000000 00000002 000186a4 00000002 00000008 00000000 00000000 00000000 00000000
    00000003 6c616200 00000008 6e657467 726f7570" | xxd -r -p >call
servers=()
trap 'kill "${servers[@]}" 2>/dev/null; rm -rf -- "$room"' EXIT

# Makes a map of what comes in, and a server of its reply of ALL to so many clients, on $port.
serve() {
    rm -rf ypdata
    "$yp" build m1 lab/netgroup >/dev/null
    "$yp" session m1 127.0.0.1:1023 lab/netgroup <call >"reply.$1"
    exec {port_of}< <(exec "$room/cat" serve "reply.$1" "$2")
    servers+=("$!")
    read -r port <&"$port_of"
}

for shape in "chain 100000 g000000" "full 2000 000"; do
    read -r make count first <<<"$shape"
    "$make" $((count / 2)) >half.text
    "$make" "$count" >whole.text
    serve "$make.half" "$rounds" <half.text
    half=$port
    serve "$make.whole" $((2 * rounds)) <whole.text
    echo "$make: $count groups, a reply of $(stat -c %s "reply.$make.whole") bytes"
    python3 "$top/bench/measure.py" "$room" "$rounds" /dev/null \
        whole "$yp" innetgr "127.0.0.1:$port" lab "$first" '*' joe '*' ";" \
        half "$yp" innetgr "127.0.0.1:$half" lab "$first" '*' joe '*' ";" \
        "cat" "$yp" cat "127.0.0.1:$port" lab netgroup
done

# A chain of N groups with a user each.
users() {
    awk -v n="$1" 'BEGIN { for (i = 0; i < n; i++) printf "g%05d g%05d (-,u%d,)\n", i, i + 1, i }'
}

# N groups that name none, with a user each.
apart() {
    awk -v n="$1" 'BEGIN { for (i = 0; i < n; i++) printf "g%05d (-,u%d,)\n", i, i }'
}

# Makes a map of what comes in, and its reverse, in this folder.
reverse() {
    mkdir -p "$1"
    (cd "$1" && "$yp" build m1 lab/netgroup && "$yp" revnet m1 lab/netgroup.byuser) >/dev/null
    stat -c %s "$1/ypdata/lab/netgroup.byuser"
}

again='cd "$0" && exec "$1" revnet m1 lab/netgroup.byuser >/dev/null'
for shape in "users 2000" "apart 100000"; do
    read -r make count <<<"$shape"
    whole=$("$make" "$count" | reverse "$make.whole")
    half=$("$make" $((count / 2)) | reverse "$make.half")
    echo "$make: $count groups, a reverse of $whole bytes, and of half as many one of $half"
    python3 "$top/bench/measure.py" "$room" "$rounds" /dev/null \
        whole bash -c "$again" "$make.whole" "$yp" ";" half bash -c "$again" "$make.half" "$yp"
done
