# What memory.sh and refuse.sh share: the commands that are run with too little memory, what they find, and how they may
# end. A script reads it by . and has set before
#
#     top                    the top of the repository
#     yp                     the program itself
#     rows groups            how many rows hosts.byname has, and how many groups netgroup
#     chosen                 the names of the commands to run, in blanks, or two blanks for all
#
# and then
#
#     base step wide most    the numbers that are tried: the first, the step, that for the server, and where to give up
#     scarce NUMBER INPUT WORD ..
#                            runs the program with these words and this input in the folder `at`, as memory goes with
#                            this number, writes to `out` and `note`, and has its status
#     is_enough              whether the last run wanted nothing
#     told NUMBER            prints how memory went with this number
#     enough NUMBER          the same of one with which nothing was wanted
#
# It has `try_commands`, which runs them and prints a line for each, and leaves 1 in `failed` where one did what it may
# not. What it makes lies in a folder of its own, which goes with its servers at the end.
life=forever
failed=0
"$top/yp" once domain/map </dev/null || exit 1 # builds it
room=$(mktemp -d) || exit 1
servers=()
trap 'kill "${servers[@]}" 2>/dev/null; rm -rf -- "$room"' EXIT
cd -- "$room" && mkdir -p start/ypsrc slave/ypsrc master || exit 1
. "$top/examples/serving.sh"

# hosts NETWORK ROWS: a text of so many hosts.
hosts() {
    awk -v network="$1" -v rows="$2" 'BEGIN {
        for (i = 0; i < rows; i++)
            printf "%d.0.%d.%d host%05d\n", network, i / 256, i % 256, i * 7919 % rows
    }'
}

# kept FOLDER NAME MAP: builds a map of standard input in the folder.
kept() {
    (cd "$1" && "$yp" build "$2" "lab/$3" >/dev/null) || exit 1
}

# What each run begins with: the old versions, and the texts of new ones.
hosts 10 "$rows" >old
hosts 172 "$rows" >start/ypsrc/hosts
kept start m1 hosts.byname <old
kept slave m0 hosts.byname <old
hosts 10 300 | kept slave m0 hosts.byaddr
for ((i = 1; i <= groups; i++)); do echo "g$i (h$i,u$i,) g$((i + 1))"; done | kept start m1 netgroup
printf 'm1\ns1\n' | kept start m1 ypservers
cp -r slave/. start/slave

# The servers that clients ask: a master of newer maps, a slave that is asked to fetch one, and a port mapper.
kept master m0 hosts.byname <start/ypsrc/hosts
hosts 172 400 | kept master m0 hosts.byaddr
cp start/ypdata/lab/netgroup master/ypdata/lab
port=$(free_port) slave_port=$(free_port) mapper_port=$(free_port) own=$(free_port)

# serves FOLDER NAME PORT STORE ..: a server in the folder, in the background, with memory enough.
serves() {
    (cd "$1" && exec "$yp" serve "$2" "$3" 4 "$life" "$life" "${@:4}" >/dev/null) &
    servers+=($!)
    post "$3" <<<"$NULL" >/dev/null
}
serves master m0 "$port" lab/hosts.byname lab/hosts.byaddr lab/netgroup
mkdir far && serves far s1 "$slave_port" lab/hosts.byname "m1@127.0.0.1:$port"
"$yp" portmap "$mapper_port" "$life" >/dev/null &
servers+=($!)
register "$port" "$mapper_port" >/dev/null || exit 1

# fresh FOLDER: what a run begins with, in `at`.
fresh() {
    rm -rf at && cp -r "start/$1" at
}

# standing STORE: what its file stands for; the order, a moment, is left out.
standing() {
    (cd at && "$yp" check "$1" 2>&1) | sed -E 's/order [0-9]+/order N/'
}

# shown: the output of a run, without orders.
shown() {
    sed -E 's/order [0-9]+/order N/' "$1"
}

# wrong NAME NUMBER: tells how a run ended that may not end so.
wrong() {
    echo "$1 $(told "$2"): status $status, $(head -c 200 note | tr '\n' ' '), $(wc -c <out) bytes, $found"
    failed=1
}

# summary NAME NUMBER: tells how often a command ended how, up to this number.
summary() {
    local end line="$1:"
    for end in "${!ends[@]}"; do
        line+=" $end ${ends[$end]} times,"
    done
    if [ "$2" -lt "$most" ]; then
        echo "$line done $(enough "$2")"
    else
        echo "$line not done $(told "$2")" && failed=1
    fi
}

# counts END: one more run ended so.
counts() {
    ends[$1]=$((${ends[$1]:-0} + 1))
}

is_chosen() {
    [[ $chosen == "  " || $chosen == *" $1 "* ]]
}

# Where memory ran out, nothing is written.
is_refused() {
    [ "$status $(cat note)" = '7 yp: no memory' ] && [ ! -s out ]
}

# No wire comes of a dial where there is no memory for its buffer.
has_no_wire() {
    case "$status $(cat note)" in
    '15 yp: cannot dial' | '16 yp: transfer -4') true ;;
    '1 ') [ "$(cat out)" = 's1 -4' ] ;;
    *) false ;;
    esac
}

# row NAME FOLDER STORE INPUT WORD ..: runs these words in a copy of the folder, for each number.
row() {
    local name=$1 folder=$2 store=$3 input=$4 own old new number status found
    local -A ends=()
    is_chosen "$name" || return
    shift 4
    fresh "$folder"
    old=$(standing "$store")
    (cd at && "$yp" "$@") <"$input" >wanted 2>note
    own=$?
    new=$(standing "$store")
    for ((number = base; number < most; number += step)); do
        fresh "$folder"
        scarce "$number" "$input" "$@"
        status=$?
        found=$(standing "$store")
        if [ "$status" -eq "$own" ] && [ "$found" = "$new" ] && cmp -s <(shown wanted) <(shown out); then
            is_enough && break
            counts 'unharmed'
        elif is_refused && { [ "$found" = "$old" ] || [ "$found" = "$new" ]; }; then
            counts 'refused'
        elif has_no_wire && [ "$found" = "$old" ]; then
            counts 'without a wire'
        else
            wrong "$name" "$number"
        fi
    done
    summary "$name" "$number"
}

# record: the message of standard input, words in a line, as a record.
record() {
    local words
    words=$(tr -d ' \n')
    printf '80%06x%s' $((${#words} / 2)) "$words" | xxd -r -p
}

# The calls of a session: MATCH, MAKE and MATCH; and its replies where the map is made, and where there was no memory.
{ match 1 host00000 | record && make 2 | record && match 3 host00000 | record; } >calls
reply='00000001 00000000 00000000 00000000 00000000'
# found XID VALUE: the reply with this value.
found_reply() {
    echo "$1 $reply 00000001 $(opaque "$2")" | record
}
{ found_reply 00000001 '10.0.0.0 host00000' && echo "00000002 $reply 00000001" | record &&
    found_reply 00000003 '172.0.0.0 host00000'; } >made
{ found_reply 00000001 '10.0.0.0 host00000' && echo "00000002 $reply fffffffd" | record &&
    found_reply 00000003 '10.0.0.0 host00000'; } >unmade

# A session, which goes on where a MAKE is refused for memory. Then the file may stand for the version that was made and
# not shown.
session_row() {
    local name=session number status found
    local -A ends=()
    is_chosen $name || return
    for ((number = base; number < most; number += step)); do
        fresh .
        scarce "$number" calls session m1 127.0.0.1:1023 lab/hosts.byname
        status=$?
        found=$(standing lab/hosts.byname)
        if [ "$status ${found##* }" = '0 2' ] && cmp -s out made; then
            is_enough && break
            counts 'unharmed'
        elif [ "$status" -eq 0 ] && [[ ${found##* } == [12] ]] && cmp -s out unmade; then
            counts 'MAKE refused'
        elif is_refused && [ "${found##* }" = 1 ]; then
            counts 'refused'
        else
            wrong $name "$number"
        fi
    done
    summary $name "$number"
}

# asked PORT PROCESS: has the server of this process answer the calls over one connection and the first of them over
# another. It prints what came of each as hexadecimal text, a line, and nothing where the server ended before. Then it
# calls until the server has ended, which may have let a caller go.
asked() {
    python3 -B - "$1" "$2" <<'PYTHON'
import socket, sys, time

port, process = sys.argv[1:]
calls = open("calls", "rb").read()
first = calls[: 4 + (int.from_bytes(calls[:4], "big") & 0xFFFF)]


def is_running():
    try:
        with open(f"/proc/{process}/stat") as stat:
            return stat.read().rsplit(")", 1)[1].split()[0] != "Z"
    except FileNotFoundError:
        return False


# Both connect at first, since a worker that is done waits for the next connection before it closes its own.
connections = []
while len(connections) < 2:
    try:
        connections.append(socket.create_connection(("127.0.0.1", int(port)), 20))
    except ConnectionRefusedError:
        if not is_running():
            sys.exit(0)
        time.sleep(0.01)
for connection, given in zip(connections, (calls, first)):
    came = b""
    try:
        connection.sendall(given)
        connection.shutdown(socket.SHUT_WR)
        while some := connection.recv(65536):
            came += some
    except OSError:
        pass
    connection.close()
    print(came.hex())
sys.stdout.flush()
while is_running():
    time.sleep(0.02)
    try:
        socket.create_connection(("127.0.0.1", int(port)), 1).close()
    except OSError:
        pass
PYTHON
}

# is_front TEXT WHOLE ..: whether the text is a front of one of these.
is_front() {
    local whole
    for whole in "${@:2}"; do
        [[ $whole != "$1"* ]] || return 0
    done
    return 1
}

# A server, which ends before it answers anybody where it has no memory to begin, and else serves two connections, of
# which it may let one go that it has no memory for. Behind its head and number, the reply on the other connection is
# the last one of the first.
serve_row() {
    local name=serve number status found process replies one other made unmade
    local -A ends=()
    is_chosen $name || return
    made=$(xxd -p -c 0 made) unmade=$(xxd -p -c 0 unmade)
    for ((number = base; number < most; number += wide)); do
        fresh .
        scarce "$number" /dev/null serve m1 "$own" 2 2 0 lab/hosts.byname &
        process=$!
        mapfile -t replies < <(asked "$own" "$process")
        wait "$process"
        status=$?
        found=$(standing lab/hosts.byname)
        one=${replies[0]-} other=${replies[1]-}
        other=${other:16}
        if is_refused && [ "${found##* }$one$other" = 1 ]; then
            counts 'refused'
        elif [ "$status ${found##* } $one $other" = "0 2 $made ${made:(-96)}" ]; then
            is_enough && break
            counts 'unharmed'
        elif [ "$status" -ne 0 ] || [[ ${found##* } != [12] ]] || ! is_front "$one" "$made" "$unmade" ||
            ! is_front "$other" "${made:(-96)}" "${unmade:(-96)}"; then
            wrong $name "$number"
        elif [ "$one" = "$unmade" ]; then
            counts 'MAKE refused'
        else
            counts 'caller let go'
        fi
    done
    summary $name "$number"
}

try_commands() {
    local server=127.0.0.1:$port
    match 1 alpha | record >first
    row once . lab/hosts.byname first once lab/hosts.byname 'alpha=10.0.0.1 alpha'
    session_row
    serve_row
    row build . lab/hosts.byname start/ypsrc/hosts build m1 lab/hosts.byname
    row revnet . lab/netgroup.byuser /dev/null revnet m1 lab/netgroup.byuser
    row check . lab/hosts.byname /dev/null check lab/hosts.byname
    row xfr slave lab/hosts.byname /dev/null xfr s1 force lab/hosts.byname "m0@$server"
    row walk slave lab/hosts.byaddr /dev/null walk s1 force lab/hosts.byaddr "m0@$server" "$own" 2000
    row cat . lab/hosts.byname /dev/null cat "$server" lab hosts.byname
    row catk . lab/hosts.byname /dev/null catk "$server" lab hosts.byname
    row match . lab/hosts.byname /dev/null match "$server" lab hosts.byname host00000
    row which . lab/hosts.byname /dev/null which "$server" lab hosts.byname
    row poll . lab/hosts.byname /dev/null poll "$server" lab hosts.byname
    row maps . lab/hosts.byname /dev/null maps "$server" lab
    row innetgr . lab/hosts.byname /dev/null innetgr "$server" lab g1 '*' "u$groups" '*'
    row bind . lab/hosts.byname /dev/null bind "$own" fixed 1 lab "m0@$server"
    row portmap . lab/hosts.byname /dev/null portmap "$own" 1
    row getport . lab/hosts.byname /dev/null getport "$own" 5 "127.0.0.1:$mapper_port" 100004 2 6
    row setport . lab/hosts.byname /dev/null setport "$own" 5 "127.0.0.1:$mapper_port" 100004 2 6 "$port"
    row unsetport . lab/hosts.byname /dev/null unsetport "$own" 5 "127.0.0.1:$mapper_port" 100009 1
    # The first push has the slave fetch the map, and the others find that it has it.
    (cd start && "$yp" push m1 "$own" 1 20 lab/hosts.byname "s1@127.0.0.1:$slave_port" >/dev/null)
    row push . lab/hosts.byname /dev/null push m1 "$own" 1 5 lab/hosts.byname "s1@127.0.0.1:$slave_port"
    row sample . lab/hosts.byname /dev/null sample 0 "$rows"
}
