# What the benchmarks share: top, the repository; yp, the built program, or that which YP names; and room, a new folder in
# memory where that can be written to, or in the folder that BENCH_ROOM names, which is removed at the end.
set -eu
export LC_ALL=C
top=$(dirname -- "$(dirname -- "$(readlink -f -- "$0")")")
yp=${YP:-$top/crates/yp/out/yp} # as ./yp runs it, without the shell's own start

room=${BENCH_ROOM:-/dev/shm}
[ -d "$room" ] && [ -w "$room" ] || room=${TMPDIR:-/tmp}
room=$(mktemp -d "$room/yp-bench.XXXXXX")
trap 'rm -rf -- "$room"' EXIT
echo "files in $(df --output=fstype "$room" | tail -n 1): ${room%/*}"

# built: builds the program, unless YP names one that is to be measured in its place.
built() {
    [ -n "${YP:-}" ] || "$top/yp" once lab/hosts.byname </dev/null
}

# compiled NAME: the C program bench/NAME.c in the room.
compiled() {
    gcc -O2 -Wall -Wextra -o "$room/$1" "$top/bench/$1.c"
}

# hosts ROWS [ORDER]: a hosts text of so many lines, each with a name of its own. ROWS is no multiple of 7919. The names
# are rising, falling or in random order where that is said, and else rise and begin anew some 8000 times.
hosts() {
    python3 - "$@" <<'PYTHON'
import random
import sys

rows = int(sys.argv[1])
order = sys.argv[2] if len(sys.argv) > 2 else ""
names = [i if order else i * 7919 % rows for i in range(rows)]
if order == "falling":
    names.reverse()
elif order == "random":
    random.Random(1).shuffle(names)
for i, name in enumerate(names):
    print(f"10.{i >> 16}.{i >> 8 & 255}.{i & 255}\thost{name:06} # rack {i % 40}")
PYTHON
}
