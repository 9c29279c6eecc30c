#!/usr/bin/env bash
# Compares `yp check` of a stored file of 262144 rows with `cat` of it, and the part
# of `yp build` that stores such a version over another one with a C program that
# makes the same writes and syncs: bench/store.sh [ROUNDS]
. "$(dirname -- "$(readlink -f -- "$0")")/room.sh"
rounds=${1:-7}
file=ypdata/lab/hosts.byname

built
compiled store
hosts 262144 >"$room/hosts"
cd "$room"
"$yp" build m1 lab/hosts.byname <hosts
cp "$file" before
len=$(($(stat -c %s before) - 64))

echo "check of a file of 262144 rows, $((len + 64)) bytes"
python3 "$top/bench/measure.py" "$room" "$rounds" /dev/null yp "$yp" check lab/hosts.byname ";" cat cat "$file"

command -v strace >/dev/null || {
    echo "strace isn't here, so the storing isn't timed"
    exit
}

# traced NAME INPUT [WORD ..]: stores over the file of before. The writes and syncs go to NAME.calls, a line each, and
# the time from the start of the first to the end of the last, in milliseconds, behind the others in NAME.times.
traced() {
    cp before "$file"
    sync "$file"
    strace -f -ttt -T -e trace=pwrite64,fsync,fdatasync -s 0 -o trace "${@:3}" <"$2" >"$1.line"
    # The sync with which a file is loaded comes before the first write.
    sed -n '/pwrite64/,$ p' trace | grep -v ' exited ' >part
    sed -E 's/^[0-9]+ +[0-9.]+ //; s/\([0-9]+(, ""\.*)?/(/; s/ +<.*//; s/ +=/ =/' part >"$1.calls"
    awk '{ sub(/^[0-9]+ +/, "") } NR == 1 { start = $1 } { took = $NF; gsub(/[<>]/, "", took); end = $1 + took }
        END { printf "%.3f\n", (end - start) * 1000 }' part >>"$1.times"
}

for ((round = 0; round < rounds; round++)); do
    traced yp hosts "$yp" build m1 lab/hosts.byname
    cp "$file" after
    tail -c "$len" after >body
    traced plain body "$room/store" "$len"
    cmp after "$file"
    cmp yp.calls plain.calls
done
echo "storing a body of $len bytes over another one, by the calls"
sed 's/^/    /' yp.calls
least() { sort -n "$1.times" | head -n 1; }
most() { sort -n "$1.times" | tail -n 1; }
echo "least of $rounds rounds"
echo "yp / plain C  $(echo "$(least yp) $(least plain)" | awk '{ printf "%8.2f", $1 / $2 }')"
echo "yp:       $(least yp) ms least, $(most yp) ms most"
echo "plain C:  $(least plain) ms least, $(most plain) ms most"
