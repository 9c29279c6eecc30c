#!/usr/bin/env bash
# Runs each command with its memory bounded, at rising steps until it does what it should, and looks at how each run
# ended and what it left: examples/memory.sh [STEP [COMMAND ..]]
#
# STEP is in KiB, 64 where it isn't given. The bound is that of prlimit --as, and begins where the program tells a fault
# of its words. Each run must end with status 7, or do what it does without a bound. The file that it writes must stand
# for the version before or for the new one. A server that has no memory for a MAKE must answer RSRC and go on. It takes
# a few minutes, prints for each command how often memory was refused, and ends with status 1 where anything else came.
# It isn't part of the gate.
set -u
top=$(dirname -- "$(dirname -- "$(readlink -f -- "$0")")")
yp=$top/crates/yp/out/yp # as ./yp runs it, so that the bound is the program's own
rows=20000 groups=400
chosen=" ${*:2} "
. "$top/examples/scarce.sh"
step=${1:-64}
wide=$((step * 8))
most=1048576

# so many KiB
scarce() {
    (cd at && exec prlimit --as=$(($1 * 1024)) "$yp" "${@:3}") <"$2" >out 2>note
}

# The first run that does what it should has enough.
is_enough() {
    true
}

told() {
    echo "with $1 KiB"
}
enough() {
    told "$1"
}

# Where the program begins to tell what it is told. Below, the loader and not the program says what is missing.
fresh .
for ((base = step; base < most; base += step)); do
    scarce "$base" /dev/null 2>/dev/null
    [ $? -eq 2 ] && break
done
echo "the program begins with $base KiB"
try_commands
exit $failed
