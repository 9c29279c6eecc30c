#!/usr/bin/env bash
# Compares `yp once` over many match calls with cat, and with a C program that
# makes one read and one write for each call: bench/match.sh [ROUNDS]
. "$(dirname -- "$(readlink -f -- "$0")")/room.sh"
rounds=${1:-7}
words=(once lab/hosts.byname "alpha=10.0.0.1 alpha")

built
compiled plain

# calls N: N times the call of examples/first_match, with the xids 1 to N.
calls() {
    python3 - "$top/examples/first_match/input.hex" "$1" <<'PYTHON'
import sys
call = bytes.fromhex(open(sys.argv[1]).read())
sys.stdout.buffer.write(b"".join(call[:4] + xid.to_bytes(4, "big") + call[8:] for xid in range(1, int(sys.argv[2]) + 1)))
PYTHON
}
calls 200000 >"$room/calls"
calls 10000 >"$room/fewer"

echo "200000 calls"
python3 "$top/bench/measure.py" "$room" "$rounds" "$room/calls" \
    yp "$yp" "${words[@]}" ";" cat cat ";" "+plain C" "$room/plain"

if command -v strace >/dev/null; then
    echo "system calls of yp over 10000 calls"
    strace -c -f -e trace=read,write -o "$room/counts" "$yp" "${words[@]}" <"$room/fewer" >"$room/fewer.out"
    awk '$NF == "read" || $NF == "write" { print $NF, $4 }' "$room/counts"
else
    echo "strace isn't here, so no system calls are counted"
fi
