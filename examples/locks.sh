#!/usr/bin/env bash
# Lets builds of one map, and builds beside sessions that make it anew, run at the
# same time, and looks each time at what they leave: examples/locks.sh [ROUNDS]
#
# Each build and session must end with status 0, or 10 where the lock didn't come,
# each MAKE with SUCC or FILE, and the file must be sound and hold one of the texts
# whole. TMPDIR says where the files lie.
set -u
top=$(dirname -- "$(dirname -- "$(readlink -f -- "$0")")")
yp=$top/yp
rounds=${1:-100}
map=lab/hosts.byname
"$yp" once domain/map </dev/null || exit 1 # builds it
room=$(mktemp -d) || exit 1
trap 'rm -rf -- "$room"' EXIT
cd -- "$room" && mkdir ypsrc || exit 1

# Five texts, each of rows of one number: four for builds, and one for MAKE.
rows=(2000 2100 2200 2300 2400)
for text in 0 1 2 3 4; do
    for ((i = 0; i < rows[text]; i++)); do
        echo "10.$text.$((i / 256)).$((i % 256)) host$i"
    done >"hosts.$text"
done
cp hosts.4 ypsrc/hosts
# What `yp cat` prints of each: its lines in the order of their names.
export LC_ALL=C
for text in 0 1 2 3 4; do
    sums[text]=$(sort -k 2 "hosts.$text" | cksum)
done

# MAKE of hosts.byname in lab, number 2.
make_call=800000340000000200000000000000022000 && make_call+=4e490000000100000001
make_call+=00000000000000000000000000000000 && make_call+=000000036c61620000000005
declare -A ended=()

# wrong WHAT: tells what isn't as it must be, and ends.
wrong() {
    echo "wrong: $*"
    exit 1
}

build() {
    "$yp" build m1 "$map" <"hosts.$1" >/dev/null 2>&1
    echo "build $?" >"status.$1"
}

make_anew() {
    xxd -r -p <<<"$make_call" | "$yp" session m1 127.0.0.1:40000 "$map" 2>/dev/null >"reply.$1"
    echo "session ${PIPESTATUS[1]} $(tail -c 4 "reply.$1" | xxd -p)" >"status.$1"
}

# look: that each ended as it may, and that the file holds one text whole.
look() {
    local file line text
    for file in status.*; do
        line=$(<"$file")
        case $line in
        'build 0' | 'build 10' | 'session 0 00000001' | 'session 0 fffffff7' | 'session 10 ') ;;
        *) wrong "$line" ;;
        esac
        ended[$line]=$((${ended[$line]:-0} + 1))
    done
    line=$("$yp" check "$map" 2>&1) || wrong "$line"
    local port whole
    port=$(python3 "$top/examples/serve.py" 1 "$yp" session m1 10.0.0.9:40000 "$map")
    whole=$("$yp" cat "127.0.0.1:$port" lab hosts.byname | cksum)
    for text in 0 1 2 3 4; do
        [ "$whole" != "${sums[text]}" ] || return
    done
    wrong "no text whole: $line"
}

for ((round = 0; round < rounds; round++)); do
    rm -f status.* reply.*
    ((round % 4 == 0)) && rm -rf ypdata
    if ((round % 2 == 0)); then
        for text in 0 1 2 3; do build "$text" & done
    else
        for text in 0 1; do build "$text" & done
        for number in 4 5; do make_anew "$number" & done
    fi
    wait
    look
done
for line in "${!ended[@]}"; do
    echo "$line: ${ended[$line]} times"
done | sort
echo "$rounds rounds, 0 wrong"
