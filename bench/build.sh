#!/usr/bin/env bash
# Compares `yp build` of a hosts text of 262144 lines, up to the synced file, with
# a C program that splits, keeps and sorts the same rows in plain arrays and stores
# them with the same writes and syncs: bench/build.sh [ROUNDS]
. "$(dirname -- "$(readlink -f -- "$0")")/room.sh"
rounds=${1:-7}

built
compiled build
hosts 262144 >"$room/hosts"

echo "a hosts text of 262144 lines"
cd "$room"
python3 "$top/bench/measure.py" --anew ypdata "$room" "$rounds" "$room/hosts" \
    yp "$yp" build m1 lab/hosts.byname ";" "plain C" "$room/build"

# The files are the same but for the order, which is the moment.
for number in 0 1; do
    printf '\0\0\0\0' | dd of="$room/$number.made/lab/hosts.byname" bs=1 seek=68 conv=notrunc status=none
done
cmp "$room/0.made/lab/hosts.byname" "$room/1.made/lab/hosts.byname"
