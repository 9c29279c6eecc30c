#!/usr/bin/env bash
# Kills `yp build` and `yp xfr` in turn, at random moments, and looks each time
# whether the file then stands for the version before or for the new one:
# examples/kill.sh [KILLS]
#
# The program is killed with signal 9, within the time that a build or a transfer
# took. What it had written stays, since the system still has it: what a crash of the
# machine may leave is for the proofs to say. TMPDIR says where the files lie.
set -u
top=$(dirname -- "$(dirname -- "$(readlink -f -- "$0")")")
yp=$top/crates/yp/out/yp # as ./yp runs it, so that the program itself is what is killed
kills=${1:-100}
map=lab/hosts.byname
"$top/yp" once domain/map </dev/null || exit 1 # builds it
room=$(mktemp -d) || exit 1
trap 'rm -rf -- "$room"' EXIT
cd -- "$room" || exit 1

# Two texts in turn. How many rows there are tells of which one a version is.
python3 - <<'PYTHON'
for rows in 99000, 100000:
    with open(f"hosts.{rows}", "w") as text:
        text.writelines(f"10.{i >> 16}.{i >> 8 & 255}.{i & 255} host{i * 7919 % rows:06}\n" for i in range(rows))
PYTHON

# The bytes that a master of each text gives to a transfer: its replies to ORDER, MASTER, ALL and ORDER.
for rows in 99000 100000; do
    mkdir "$rows" && (cd "$rows" && "$yp" build m1 "$map" <"../hosts.$rows" >line) || exit 1
    for call in 1:a 2:9 3:8 4:a; do
        echo "80000040 0000000${call%:*} 00000000 00000002 000186a4 00000002 0000000${call#*:}"
        echo '00000000 00000000 00000000 00000000 00000003 6c616200 0000000c 686f7374 732e6279 6e616d65'
    done | xxd -r -p >calls
    (cd "$rows" && "$yp" session m1 127.0.0.1:1023 "$map" <../calls) >"replies.$rows" || exit 1
done

# source_of ROWS: the port of a master of that text, for one connection.
source_of() {
    python3 "$top/examples/answer.py" "$room/replies.$1" 2>/dev/null
}

# work KIND ROWS PORT: builds the version of that text, or fetches it from that port, in place of this shell.
work() {
    if [ "$1" = build ]; then
        exec "$yp" build m1 "$map" <"$room/hosts.$2"
    fi
    exec "$yp" xfr s1 force "$map" "m1@127.0.0.1:$3"
}

# standing: the rows and the generation that the file stands for; 0 0 for no version, else the status and the note.
standing() {
    local line status
    line=$("$yp" check "$map" 2>&1)
    status=$?
    case $status in
    0) echo "$line" | sed -E 's/.* rows ([0-9]+) generation ([0-9]+)$/\1 \2/' ;;
    9) echo "0 0" ;;
    *) echo "status $status: $line" ;;
    esac
}

# How long each takes, in microseconds: the longest of three, which are not killed, in a folder of their own.
declare -A longest=([build]=0 [xfr]=0)
mkdir whole && for kind in build xfr build xfr build xfr; do
    port=$(source_of 100000)
    began=${EPOCHREALTIME/./}
    (cd whole && work $kind 100000 "$port" >line) || exit 1
    took=$((${EPOCHREALTIME/./} - began))
    longest[$kind]=$((took > longest[$kind] ? took : longest[$kind]))
done

before="0 0" old=0 new=0 ended=0 wrong=0
for ((kill = 1; kill <= kills; kill++)); do
    rows=100000 kind=build port=0
    [ "${before% *}" = 100000 ] && rows=99000
    ((kill % 4 < 2)) || kind=xfr port=$(source_of $rows)
    after="$rows $((${before#* } + 1))"
    work $kind $rows "$port" >line 2>note &
    # Any moment of it, and each second time one in its last quarter, where the file is written.
    moment=$(((RANDOM << 15 | RANDOM) % longest[$kind]))
    ((kill % 2)) || moment=$((longest[$kind] - moment / 4))
    sleep "$(printf '%d.%06d' $((moment / 1000000)) $((moment % 1000000)))"
    kill -9 $! 2>/dev/null
    wait $! 2>/dev/null
    status=$?
    found=$(standing)
    if [ "$status" -eq 0 ] && [ "$found" = "$after" ]; then
        ended=$((ended + 1))
    elif [ "$status" -eq 137 ] && [ "$found" = "$before" ]; then
        old=$((old + 1))
    elif [ "$status" -eq 137 ] && [ "$found" = "$after" ]; then
        new=$((new + 1))
    else
        echo "$kind $kill: status $status, from $before to $after, and now $found"
        wrong=$((wrong + 1))
        [[ $found == status* ]] && break
    fi
    before=$found
done
echo "$((kill > kills ? kills : kill)) builds of up to $((longest[build] / 1000)) ms and transfers of up to" \
    "$((longest[xfr] / 1000)) ms: killed with the version before $old, killed with the new one $new," \
    "ended before the kill $ended, wrong $wrong"
[ "$wrong" -eq 0 ]
