# For a script that runs `yp serve`. The script reads this file by . "${0%/*}/../serving.sh" and then has these:
#
#     here              where the scripts of the examples are
#     free_port         prints a port that is free for UDP and for TCP
#     start NAME PORT WORKERS CONNECTIONS WORD ..
#                       runs yp serve with these words and TURNS turns in the background, goes on once a datagram is
#                       answered, and leaves its process in `server`; what it writes goes to the file NAME.tally
#     ended NAME PORT   takes the turns that are left by datagrams, waits for the end of `server`, and prints its status
#                       and what it wrote
#     register PORT MAPPER
#                       tells the port mapper at port MAPPER that a server has PORT over TCP and UDP, for YP and for the
#                       make program, as yp-register.service does
#     post PORT [AGAIN] sends calls in datagrams, each a line of words, again after AGAIN seconds, and prints replies
#     may_reserve       whether a program here may have a port under 1,024, as root may
#     match XID KEY     prints the message of MATCH of a key in lab/hosts.byname, and `make XID` that of MAKE of it
TURNS=500
NULL='00000001 00000000 00000002 000186a4 00000002 00000000 00000000 00000000 00000000 00000000'
here=$(readlink -f -- "${BASH_SOURCE[0]%/*}")

free_port() {
    python3 "$here/post.py"
}

post() {
    python3 "$here/post.py" "$@"
}

start() {
    yp serve "$1" "$2" "$3" "$4" "$TURNS" "${@:5}" >"$1.tally" 2>&1 &
    server=$!
    post "$2" <<<"$NULL" >/dev/null
}

ended() {
    while kill -0 "$server" 2>/dev/null; do
        xxd -r -p <<<"$NULL" >"/dev/udp/127.0.0.1/$2"
    done 2>/dev/null
    wait "$server"
    echo "$1 ends with status $?"
    cat "$1.tally"
}

register() {
    local own program
    own=$(free_port)
    for program in '100004 2' '536890953 1'; do
        # shellcheck disable=SC2086 # a program and its version are two words
        "${yp:-yp}" unsetport "$own" 10 "127.0.0.1:$2" $program
        # shellcheck disable=SC2086
        "${yp:-yp}" setport "$own" 10 "127.0.0.1:$2" $program 6 "$1" &&
            "${yp:-yp}" setport "$own" 10 "127.0.0.1:$2" $program 17 "$1" || return
    done
}

may_reserve() {
    python3 -c 'import socket; socket.socket(socket.AF_INET, socket.SOCK_DGRAM).bind(("", 599))' 2>/dev/null
}

# opaque TEXT: the text as XDR has it.
opaque() {
    local digits
    digits=$(printf %s "$1" | xxd -p -c 0)
    printf '%08x %s%.*s ' ${#1} "$digits" $(((8 - ${#digits} % 8) % 8)) 00000000
}

match() {
    printf '%08x 00000000 00000002 000186a4 00000002 00000003 00000000 00000000 00000000 00000000 ' "$1"
    echo "$(opaque lab)$(opaque hosts.byname)$(opaque "$2")"
}

make() {
    printf '%08x 00000000 00000002 20004e49 00000001 00000001 00000000 00000000 00000000 00000000 ' "$1"
    echo "$(opaque lab)00000005"
}
