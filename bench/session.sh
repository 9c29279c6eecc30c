#!/usr/bin/env bash
# Compares `yp session` over a stored map of 20000 rows, on 200000 match calls and 50
# calls of ALL, with a C program that answers the same calls from an array that is
# sorted by key. Then compares the sending of a whole map of 262144 rows with a C program
# that writes the same bytes from memory: bench/session.sh [ROUNDS]
. "$(dirname -- "$(readlink -f -- "$0")")/room.sh"
rounds=${1:-7}
words=(session m1 127.0.0.1:1023 lab/hosts.byname)

built
compiled session
compiled pieces
cd "$room"
hosts 20000 >hosts
"$yp" build m1 lab/hosts.byname <hosts

# calls MATCHES ALLS: so many calls of MATCH, of which each tenth is for a name that isn't there, and among them those of
# ALL, with the xids from 1 on.
calls() {
    python3 - "$1" "$2" <<'PYTHON'
import struct
import sys


def text(value):
    return struct.pack(f">I{len(value)}s{-len(value) % 4}x", len(value), value)


def call(xid, procedure, *values):
    words = struct.pack(">10I", xid, 0, 2, 100004, 2, procedure, 0, 0, 0, 0)
    body = words + b"".join(map(text, (b"lab", b"hosts.byname") + values))
    return struct.pack(">I", 0x80000000 | len(body)) + body


matches, alls = map(int, sys.argv[1:])
xid = 0
for i in range(matches):
    key = f"none{i:06}" if i % 10 == 9 else f"host{i * 6131 % 20000:06}"
    xid += 1
    sys.stdout.buffer.write(call(xid, 3, key.encode()))
    if (i + 1) % (matches // alls) == 0:
        xid += 1
        sys.stdout.buffer.write(call(xid, 8))
PYTHON
}
calls 200000 50 >calls
calls 10000 2 >fewer

echo "200000 calls of MATCH and 50 of ALL over 20000 rows"
python3 "$top/bench/measure.py" "$room" "$rounds" calls \
    yp "$yp" "${words[@]}" ";" "+plain C" "$room/session" hosts

# counted NAME [WORD ..]: how often a program reads and writes over the fewer calls.
counted() {
    strace -c -f -e trace=read,write -o counts "${@:2}" <fewer >fewer.out
    awk -v name="$1" '$NF == "read" || $NF == "write" { print name ":", $NF, $4 }' counts
}

if command -v strace >/dev/null; then
    echo "system calls over 10000 calls of MATCH and 2 of ALL, $(stat -c %s fewer) bytes of calls"
    counted yp "$yp" "${words[@]}"
    counted "plain C" "$room/session" hosts
else
    echo "strace isn't here, so no system calls are counted"
fi

# The bytes of a map of 262144 rows, again and again, from memory in the same pieces, into a reader behind a pipe.
alls=50
mkdir large
cd large
hosts 262144 | "$yp" build m1 lab/hosts.byname
# all COUNT: so many calls of ALL.
all() {
    for ((i = 0; i < $1; i++)); do
        echo "80000040 00000001 00000000 00000002 000186a4 00000002 00000008 00000000 00000000 00000000 00000000
            00000003 6c616200 0000000c 686f7374 732e6279 6e616d65"
    done | xxd -r -p
}
all 1 | "$yp" "${words[@]}" >reply
all "$alls" >alls
echo "$alls calls of ALL over 262144 rows, $(stat -c %s reply) bytes each, into a pipe"
python3 "$top/bench/measure.py" "$room" "$rounds" alls \
    yp bash -c "'$yp' ${words[*]} | '$room/pieces' read" ";" \
    "+pieces" bash -c "'$room/pieces' send reply $alls | '$room/pieces' read"
