# What site/lab and site/debian.sh share, which source it: three hosts in network namespaces of this machine, joined by
# veth. Each has its own network, name and processes, and its own files over /etc, /usr/local, /var/yp, /run and others.
# These lie in memory and go with the namespaces, however the script ends.
# shellcheck shell=bash
here=$(dirname -- "$(readlink -f -- "$0")")
files=/run/hosts
declare -A address=([m1]=10.0.0.1 [s1]=10.0.0.2 [c1]=10.0.0.3) keeper=() process=()

fail() {
    echo "site/${0##*/}: $1" >&2
    exit 1
}

# enter PACKAGES WORD ..: looks for what is wanted of this machine, the rights of root and the commands WORD of these
# packages of Debian, and for the program, and begins the script anew, with the word `inside`, in namespaces of its own.
enter() {
    local packages=$1 word
    shift
    [ "$(id -u)" -eq 0 ] || fail 'this takes the rights of root'
    export PATH="$PATH:/usr/sbin:/sbin"
    for word in ip unshare nsenter setpriv systemd-sysusers "$@"; do
        command -v "$word" >/dev/null || fail "$word isn't here: apt-get install $packages"
    done
    [ -n "$(find /lib/ /usr/lib/ -name libnss_nis.so.2 -print -quit)" ] ||
        fail "libnss_nis.so.2 isn't here: apt-get install libnss-nis"
    "$here/../yp" once lab/m </dev/null || fail "the program can't be built"
    exec unshare --net --mount --uts --ipc --pid --fork --kill-child --mount-proc "$BASH" "$0" inside
}

# own HOST PATH [copied]: a folder of the host's own over one of this machine, empty, or with copies of its files.
own() {
    mkdir -p "$files/$1$2"
    [ "${3-}" != copied ] || cp -a "$2/." "$files/$1$2"
    nsenter -t "${process[$1]}" -m mount --bind "$files/$1$2" "$2"
}

# host NAME: makes a host, with a wire to the others, on which the program is installed.
host() {
    local name=$1 folder
    # It lives as long as its first process, which dies with this one.
    unshare --net --mount --uts --pid --fork --kill-child --mount-proc sleep infinity &
    keeper[$name]=$!
    until process[$name]=$(pgrep -P "${keeper[$name]}") && grep -q sleep "/proc/${process[$name]}/comm"; do
        sleep 0.05
    done
    ip link add "to-$name" type veth peer name eth0 netns "${process[$name]}"
    ip link set "to-$name" master wires up
    own "$name" /etc copied
    own "$name" /usr/local
    cp -a "$files/installed/usr/local/." "$files/$name/usr/local"
    for folder in /var/yp /var/log /home /tmp /run; do
        own "$name" "$folder"
    done
    quietly "$name" "
        hostname $name && chmod 1777 /tmp && install -d -o _rpc /run/rpcbind
        ip link set lo up && ip address add ${address[$name]}/24 dev eth0 && ip link set eth0 up
        printf '%s\n' '127.0.0.1 localhost' '${address[m1]} m1' '${address[s1]} s1' '${address[c1]} c1' >/etc/hosts"
}

# quietly HOST COMMAND: runs a command on a host, in /var/yp, for a minute at most.
quietly() {
    nsenter -t "${process[$1]}" --net --mount --uts --pid -- env -i -C /var/yp TERM="${TERM-dumb}" \
        PATH=/usr/local/bin:/usr/local/lib/yp:/usr/sbin:/usr/bin:/sbin:/bin timeout -k 1 "${limit:-60}" bash -c "$2"
}

# wait_for HOST COMMAND: runs a command again and again until it succeeds.
wait_for() {
    local end=$((SECONDS + 30))
    until quietly "$1" "$2" >/dev/null 2>&1; do
        [ $SECONDS -lt $end ] || fail "nothing came of it on $1: $2"
        sleep 0.1
    done
}

# lose HOST: ends a host, with its processes and its network.
lose() {
    kill -9 "${keeper[$1]}"
    wait "${keeper[$1]}" 2>/dev/null || true
}

# end: ends all hosts, where a step went wrong, too.
end() {
    [ $? -eq 0 ] || echo "site/${0##*/}: FAILED" >&2
    kill -9 "${keeper[@]}" 2>/dev/null
}

# make_hosts: makes all hosts.
make_hosts() {
    local name
    trap end EXIT
    trap 'exit 1' INT TERM
    mount -t tmpfs -o mode=755 hosts /run
    mkdir $files
    DESTDIR=$files/installed "$here/install"
    ip link add wires type bridge
    ip link set wires up
    for name in m1 s1 c1; do
        host "$name"
    done
}
