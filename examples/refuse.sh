#!/usr/bin/env bash
# Runs each command once for each growth of its memory, which is refused, and looks at how each run ended and what it
# left: examples/refuse.sh [COMMAND ..]
#
# A growth is a call of malloc or realloc that the program makes; refuse.c, which gcc compiles, makes one of them fail.
# Each run must end with status 7, or do what it does where none is refused. The file that it writes must stand for the
# version before or for the new one. A server that has no memory for a MAKE must answer RSRC and go on. Where there is
# none for the buffer of a wire that is dialed, no wire comes. It takes a few minutes, prints for each command how its
# runs ended, and ends with status 1 where anything else came. It isn't part of the gate.
set -u
top=$(dirname -- "$(dirname -- "$(readlink -f -- "$0")")")
yp=$top/crates/yp/out/yp # as ./yp runs it, so that only the program's own growths are refused
rows=300 groups=20
chosen=" $* "
. "$top/examples/scarce.sh"
base=1 step=1 wide=1 most=10000
gcc -O2 -Wall -Wextra -shared -fPIC -o refuse.so "$top/examples/refuse.c" || exit 1

# the growth of this number
scarce() {
    rm -f refused
    (cd at && LD_PRELOAD=$room/refuse.so REFUSE=$1 REFUSED=$room/refused exec "$yp" "${@:3}") <"$2" >out 2>note
}

# Nothing was refused.
is_enough() {
    [ ! -e refused ]
}

told() {
    echo "without growth $1"
}
enough() {
    echo "with its $(($1 - 1)) growths"
}

try_commands
exit $failed
