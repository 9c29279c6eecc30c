#!/usr/bin/env bash
# Compares `yp sample 0 262144` with a C program that makes, sorts and looks up
# the same rows in plain arrays: bench/sample.sh [ROUNDS]
. "$(dirname -- "$(readlink -f -- "$0")")/room.sh"
rounds=${1:-7}

built
compiled sample

echo "262144 rows"
python3 "$top/bench/measure.py" "$room" "$rounds" /dev/null \
    yp "$yp" sample 0 262144 ";" "+plain C" "$room/sample" 0 262144
