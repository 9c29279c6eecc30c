#!/usr/bin/env bash
# Prints the most memory that `yp build` has over hosts texts of 262144 lines whose names rise, fall and stand in random
# order, less the text; that of `yp check` of the stored file; and that of a session which serves it: each as a ratio to
# the bytes of the version's body: bench/memory.sh [ROUNDS]
. "$(dirname -- "$(readlink -f -- "$0")")/room.sh"
rounds=${1:-3}
file=ypdata/lab/hosts.byname

built
compiled peak
cd "$room"

# peak INPUT NAME BESIDE WORD ..: the most memory of the runs, without so many bytes, in bodies.
peak() {
    rm -f kib
    for ((round = 0; round < rounds; round++)); do
        "$room/peak" kib "${@:4}" <"$1" >out
    done
    sort -n kib | tail -n 1 | awk -v "name=$2" -v "beside=$3" -v "body=$body" \
        '{ printf "%-24s%8.2f   %5.1f MiB\n", name, ($1 * 1024 - beside) / body, $1 / 1024 }'
}

for order in rising falling random; do
    hosts 262144 "$order" >hosts
    text=$(stat -c %s hosts)
    rm -rf ypdata # over a stored file the body before this one would stay in it
    "$yp" build m1 lab/hosts.byname <hosts >out
    body=$(($(stat -c %s "$file") - 64))
    echo "a text of $text bytes whose names are $order, a body of $body bytes"
    peak hosts "build, less the text" "$text" bash -c 'rm -r ypdata && exec "$0" build m1 lab/hosts.byname' "$yp"
done
echo "the last body"
peak /dev/null "check" 0 "$yp" check lab/hosts.byname
peak /dev/null "a version, in a session" 0 "$yp" session m1 127.0.0.1:1023 lab/hosts.byname
