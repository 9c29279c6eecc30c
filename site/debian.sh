#!/usr/bin/env bash
# Tries Debian's programs of NIS with ours, on three hosts in network namespaces of this machine: m1 has our server, s1
# has Debian's ypserv, and c1 is a client of both. As root:
#
#     site/debian.sh [-v]
#
# m1 is the master of the domain `lab`, which s1 fetches, and s1 the master of the domain `old`, which m1 fetches. It
# prints a line for each case, behind one that failed what came and what was wanted, with -v what came behind each, and
# a count. It ends with status 0 where none failed. It takes a minute once the program is built, and leaves nothing
# behind, as site/lab. It needs Debian's packages
#
#     iproute2 rpcbind ypserv ypbind-mt yp-tools libnss-nis python3
#
# whose install starts their servers on this machine, unless /usr/sbin/policy-rc.d ends with status 101 meanwhile:
#
#     printf '#!/bin/sh\nexit 101\n' >/usr/sbin/policy-rc.d && chmod 755 /usr/sbin/policy-rc.d
#     apt-get install --no-install-recommends iproute2 rpcbind ypserv ypbind-mt yp-tools libnss-nis python3
#     rm /usr/sbin/policy-rc.d
# What stands in single quotes is for a host to expand.
# shellcheck disable=SC2016
set -eu
began=$SECONDS
# shellcheck source-path=SCRIPTDIR source=hosts.sh
. "$(dirname -- "$(readlink -f -- "$0")")/hosts.sh"

if [ "${1-}" != inside ]; then
    export all=
    if [ "${1-}" = -v ]; then
        all=yes
        shift
    fi
    [ $# -eq 0 ] || fail 'usage: site/debian.sh [-v]'
    enter 'iproute2 rpcbind ypserv ypbind-mt yp-tools libnss-nis python3' rpcbind rpcinfo ypserv yppush \
        /usr/lib/yp/ypxfr /usr/lib/yp/makedbm ypbind ypset ypcat ypmatch ypwhich yppoll yptest /usr/bin/python3
fi
passed=0 failed=0

# The right to ports under 1,024, with which our server runs as the user yp, and a user who has no rights.
as_yp='setpriv --reuid yp --regid yp --clear-groups --inh-caps +net_bind_service --ambient-caps +net_bind_service'
as_nobody='setpriv --reuid nobody --clear-groups'
# The maps of `lab` that are open. shadow.byname is secure.
lab=(group.bygid group.byname hosts.byaddr hosts.byname netgroup passwd.byname passwd.byuid protocols.bynumber
    services.byname ypservers)
# Where ypserv answers on s1.
old=${address[s1]}:900
# What has the password `open sesame`.
hash='$6$pinthou$.il2N9q4vwVx7Nk9B6LfIoqcBnb1pUcbZyH6MSO948zRmqExEN5qmM2wT3bjZvkAPcp60y2qoPs2djw4TOELy.'

# tried WHAT HOST COMMAND [WANTED]: a case: whether a command ends with status 0, and prints what is wanted, within 10
# seconds.
tried() {
    local came status=0
    came=$(limit=10 quietly "$2" "$3" 2>&1) || status=$?
    if [ $status -eq 0 ] && { [ $# -lt 4 ] || [ "$came" = "$4" ]; }; then
        passed=$((passed + 1))
        echo "passed: $1"
        [ -z "$all" ] || printf '    %s# %s\n    | %s\n' "$2" "$3" "${came//$'\n'/$'\n    | '}"
        return
    fi
    failed=$((failed + 1))
    printf 'FAILED: %s, status %s\n    %s# %s\n    | %s\n' "$1" $status "$2" "$3" "${came//$'\n'/$'\n    | '}"
    [ $# -lt 4 ] || printf '    wanted: %s\n' "${4//$'\n'/$'\n          : '}"
}

# refused WHAT HOST COMMAND: a case: whether a command ends with another status in time, and prints no row of a secure
# map, each of which has the day 20000.
refused() {
    tried "$1" "$2" "came=\$($3); status=\$?; echo \"\$came\"
        [ \$status -ne 0 ] && [ \$status -lt 124 ] && [[ \$came != *:20000:* ]]"
}

# text HOST FILE: writes what comes in to a file of a host.
text() {
    quietly "$1" "cat >'$2'"
}

# register HOST PORT PROG VERS: tells the port mapper of a host the port of a program of ours, over TCP and UDP.
register() {
    quietly "$1" "yp setport 7002 10 127.0.0.1:111 $3 $4 6 $2 && yp setport 7002 10 127.0.0.1:111 $3 $4 17 $2" \
        >/dev/null || fail "$3 isn't set on $1"
}

# register_m1: tells the port mapper of m1 where the server is, and the make program, and where a push hears how a
# transfer went: Debian's ypxfr asks for that, whatever port the push has named.
register_m1() {
    register m1 834 100004 2
    register m1 834 536890953 1
    register m1 7001 1073741824 1
}

# answers_at WHAT ADDRESS PORT PROG: the case of an address of a host that isn't its first: what is called there by a
# datagram, by NULL of RPC for PROG, answers from this address.
answers_at() {
    local head='\0\0\0\1\0\0\0\0\0\0\0\2\0\1' rest='\0\0\0\2\0\0\0\0\0\0\0\0\0\0\0\0\0\0\0\0\0\0\0\0'
    tried "$1 answers at a second address" s1 "exec 3<>/dev/udp/$2/$3 && printf '$head$4$rest' >&3
        timeout 3 head -c 24 <&3 | od -An -v -tx1 -w24 | tr -d ' '" 000000010000000100000000000000000000000000000000
}

# texts: writes the texts of m1. Ann's password is in the map of users, and Bob's in the secure map.
texts() {
    text m1 ypsrc/passwd <<EOT
ann:$hash:5001:5001:Ann:/home/ann:/bin/sh
bob:x:5002:5001:Bob:/home/bob:/bin/sh
EOT
    text m1 ypsrc/group <<EOT
crew:x:5001:
printing:x:5003:ann,bob
EOT
    text m1 ypsrc/hosts <<<'10.0.0.9 printer laser'
    text m1 ypsrc/services <<EOT
postman 7025/tcp letters
postman 7025/udp letters
EOT
    text m1 ypsrc/protocols <<<'pigeons 253 PIGEONS'
    text m1 ypsrc/netgroup <<EOT
trusted (c1,ann,) (,bob,lab)
everyone trusted (s1,,)
EOT
    printf '%s\n' m1 s1 | text m1 ypsrc/ypservers
    text m1 ypsrc/shadow <<<"bob bob:$hash:20000:0:99999:7:::"
    quietly m1 'chown yp: ypsrc/* && chmod 600 ypsrc/*'
}

# asked BY SERVER: the cases of Debian's clients on c1, whose binder is BY and has told SERVER.
asked() {
    tried "by $1: ypwhich" c1 ypwhich "$2"
    tried "by $1: ypcat of a nickname" c1 'ypcat group | sort' 'crew:x:5001:
printing:x:5003:ann,bob'
    tried "by $1: ypcat -k" c1 'ypcat -k netgroup | sort' 'everyone trusted (s1,,)
trusted (c1,ann,) (,bob,lab)'
    tried "by $1: ypmatch" c1 'ypmatch -k laser hosts.byname && ypmatch 253 protocols.bynumber' \
        'laser 10.0.0.9 printer laser
pigeons 253 PIGEONS'
    tried "by $1: ypmatch of no key" c1 'ypmatch eve passwd.byname || echo $?' \
        "Can't match key eve in map passwd.byname. Reason: No such key in map
1"
    tried "by $1: ypwhich -m of a map" c1 'ypwhich -m passwd' m1
    tried "by $1: ypwhich -m of all" c1 'ypwhich -m | sort' "$(printf '%s m1\n' "${lab[@]}" shadow.byname | sort)"
    tried "by $1: yppoll" c1 'yppoll hosts.byname | sed "s/ \[.*//"' "Domain lab is supported.
Map hosts.byname has order number $order.
The master server is m1."
}

# looked_up BY: the cases of the C library on c1, and of what asks it.
looked_up() {
    tried "by $1: getent passwd by name" c1 'getent passwd bob' 'bob:x:5002:5001:Bob:/home/bob:/bin/sh'
    tried "by $1: getent passwd by number" c1 'getent passwd 5002' 'bob:x:5002:5001:Bob:/home/bob:/bin/sh'
    tried "by $1: getent passwd of all" c1 'getent -s passwd:nis passwd | cut -d: -f1 | sort' 'ann
bob'
    tried "by $1: getent group" c1 'getent group crew && getent group 5003' 'crew:x:5001:
printing:x:5003:ann,bob'
    tried "by $1: getent initgroups" c1 'getent initgroups ann | tr -s " "' 'ann 5003'
    tried "by $1: getent hosts by name" c1 'getent hosts laser' '10.0.0.9        printer laser'
    tried "by $1: getent services" c1 'getent services postman/udp && getent services 7025/tcp' \
        'postman               7025/udp letters
postman               7025/tcp letters'
    tried "by $1: getent protocols" c1 'getent protocols 253' 'pigeons               253 PIGEONS'
    tried "by $1: getent netgroup" c1 'getent netgroup everyone' 'everyone              (s1,,) (c1,ann,) ( ,bob,lab)'
    tried "by $1: innetgr" c1 'python3 -c "
import ctypes
c = ctypes.CDLL(None)
for row in ((b\"c1\", b\"ann\", None), (b\"c2\", b\"ann\", None), (None, b\"bob\", b\"lab\"),
            (None, b\"bob\", b\"old\"), (b\"s1\", None, None)):
    print(c.innetgr(b\"trusted\", *row), c.innetgr(b\"everyone\", *row))"' '1 1
0 0
1 1
0 1
1 1'
    tried "by $1: id" c1 'id ann && id bob' 'uid=5001(ann) gid=5001(crew) groups=5001(crew),5003(printing)
uid=5002(bob) gid=5001(crew) groups=5001(crew),5003(printing)'
    tried "by $1: getent shadow, as root" c1 'getent shadow bob' "bob:$hash:20000:0:99999:7:::"
    tried "by $1: getent passwd, and not shadow, as nobody" c1 \
        "$as_nobody getent passwd bob | cut -d: -f1; $as_nobody getent shadow bob || echo \$?" 'bob
2'
    tried "by $1: su by a password of the map of users" c1 \
        "echo 'open sesame' | $as_nobody su - ann -c 'id -un' 2>/dev/null" ann
    tried "by $1: su by a password of the secure map" c1 \
        "echo 'open sesame' | $as_nobody su - bob -c 'id -un' 2>/dev/null" bob
    tried "by $1: no su by a wrong password" c1 \
        "id -un ann; echo wrong | $as_nobody su - ann -c id 2>/dev/null || echo \$?" 'ann
1'
}

make_hosts
for name in m1 s1 c1; do
    quietly $name 'cp /usr/share/yp/templates/var_yp_nicknames nicknames && mkdir -p binding && rpcbind'
done
quietly m1 'ip address add 10.0.0.11/24 dev eth0'
quietly c1 'ip address add 10.0.0.13/24 dev eth0'
quietly m1 'systemd-sysusers /usr/local/lib/sysusers.d/yp.conf
    systemd-tmpfiles --create /usr/local/lib/tmpfiles.d/yp.conf' 2>/dev/null
texts

# s1: Debian's ypserv, the master of `old`. shadow.byname is marked secure by makedbm.
quietly s1 'mkdir old && domainname old && ypserv -p 900'
text s1 old.hosts <<'EOT'
plotter 10.0.0.20 plotter
punch 10.0.0.21 punch
EOT
text s1 old.shadow <<<'eve eve:secret:20000:0:99999:7:::'
printf '%s %s\n' m1 m1 s1 s1 | text s1 old.servers
quietly s1 '/usr/lib/yp/makedbm -m s1 old.hosts old/hosts.byname
    /usr/lib/yp/makedbm -m s1 old.servers old/ypservers
    /usr/lib/yp/makedbm -s -m s1 old.shadow old/shadow.byname'
wait_for s1 'rpcinfo -T udp s1 ypserv 2 && rpcinfo -T tcp s1 ypserv 2'

# Our commands on ypserv, before our server runs.
tried 'yp catk on ypserv' m1 "yp catk $old old hosts.byname" 'plotter 10.0.0.20 plotter
punch 10.0.0.21 punch'
tried 'yp match on ypserv' m1 "yp match $old old hosts.byname punch" '10.0.0.21 punch'
tried 'yp which on ypserv' m1 "yp which $old old hosts.byname" s1
tried 'yp maps on ypserv' m1 "yp maps $old old | sort" 'hosts.byname
shadow.byname
ypservers'
tried 'yp getport at rpcbind' m1 "yp getport 7002 5 ${address[s1]}:111 100004 2 6" 'port 900'
tried 'yp xfr fetches a secure map from ypserv' m1 "$as_yp yp xfr m1 newer old/shadow.byname s1@$old secure >/dev/null
    yp dump old/shadow.byname" 'eve	eve:secret:20000:0:99999:7:::'
refused 'yp xfr from a port over 1,023 gets no secure map from ypserv' m1 "cd /tmp && $as_nobody \\
    yp xfr m1 newer old/shadow.byname s1@$old 2>&1"
tried 'yp walk fetches from ypserv in datagrams' m1 "cd /tmp
    yp walk m1 newer old/hosts.byname s1@$old 7003 20 >/dev/null && yp dump old/hosts.byname" \
    'plotter	10.0.0.20 plotter
punch	10.0.0.21 punch'

# m1: our server, the master of `lab` and a slave of `old`.
quietly m1 "for map in ${lab[*]}; do $as_yp yp build m1 lab/\$map <ypsrc/\${map%%.*} || exit; done
    $as_yp yp load m1 lab/shadow.byname secure <ypsrc/shadow" >/dev/null
quietly m1 "$as_yp yp serve m1 834 4 forever forever $(printf 'lab/%s ' "${lab[@]}" shadow.byname) \\
    old/hosts.byname old/shadow.byname old/ypservers s1@$old >/var/log/yp-serve 2>&1 &"
wait_for m1 'ss -ltn | grep :834'
register_m1

# s1 as a slave of `lab`, by ypxfr and by our push.
tried 'ypxfr fetches all open maps from yp serve' s1 "mkdir lab && for map in ${lab[*]}; do
    /usr/lib/yp/ypxfr -c -d lab -h m1 \$map 2>/dev/null || exit; done; ls lab" "$(printf '%s\n' "${lab[@]}")"
tried 'ypxfr from a port over 1,023 gets no secure map from yp serve' s1 "chmod 777 lab && rm lab/hosts.byaddr
    for map in hosts.byaddr shadow.byname; do $as_nobody /usr/lib/yp/ypxfr -c -d lab -h m1 \$map; done 2>/dev/null
    chmod 755 lab && ls lab | grep -e byaddr -e shadow" hosts.byaddr
tried 'ypxfr fetches a secure map from yp serve' s1 '/usr/lib/yp/ypxfr -c -d lab -h m1 shadow.byname 2>/dev/null
    /usr/lib/yp/makedbm -u lab/shadow.byname | grep -v ^YP_' "bob	bob:$hash:20000:0:99999:7:::"
tried 'yp orders tells that both have the same of all open maps' m1 \
    "yp orders ${address[m1]}:834 $old lab | awk '\$3 != \$4 { print \$1, \$4 }'" 'shadow.byname none'
change="echo 10.0.0.10 scanner >>ypsrc/hosts && yp make 127.0.0.1:834 lab hosts.byname"
push="$as_yp yp push m1 7001 10 9 lab/hosts.byname s1@$old"
tried 'yp push has ypserv fetch a map' m1 "$change && $push" 'lab/hosts.byname made
s1 1'
tried 'yp push tells that ypserv has it already' m1 "$push" 's1 2'
tried 'ypserv has what was pushed' c1 'ypcat -d lab -h s1 -k hosts.byname | sort' 'laser 10.0.0.9 printer laser
printer 10.0.0.9 printer laser
scanner 10.0.0.10 scanner'
tried 'ypserv gives a secure map to root' c1 'ypcat -d lab -h s1 shadow.byname | cut -d: -f1' bob
refused 'ypserv gives no secure map to nobody' c1 "$as_nobody ypcat -d lab -h s1 shadow.byname 2>&1"

# m1 as a slave of `old`, by XFR and by Debian's yppush.
came='m1 has been called.
Status received from ypxfr on m1
	Transfer done: Success'
stayed="m1 has been called.
Status received from ypxfr on m1
	Transfer not done: Master's version not newer"
tried 'yp pull has yp serve fetch a map from ypserv' m1 "yp pull 127.0.0.1:834 old hosts.byname s1 &&
    until yp cat 127.0.0.1:834 old hosts.byname; do sleep 0.1; done 2>/dev/null" 'old/hosts.byname 1 SUCC
10.0.0.20 plotter
10.0.0.21 punch'
# makedbm -c has ypserv read the map anew. Its order is the second at which the text was written.
quietly s1 'sleep 1; echo "loom 10.0.0.22 loom" >>old.hosts && /usr/lib/yp/makedbm -c -m s1 old.hosts old/hosts.byname'
tried 'yppush has yp serve fetch a map' s1 'yppush -v -t 5 -h m1 hosts.byname' "$came"
tried 'yppush is told that yp serve has it already' s1 'yppush -v -t 5 -h m1 hosts.byname' "$stayed"
tried 'yppush is told so at a port of its own' s1 'yppush -v -t 5 --port 7004 -h m1 hosts.byname' "$stayed"
tried 'yp serve has what was pushed' c1 'ypcat -d old -h m1 -k hosts.byname | sort' 'loom 10.0.0.22 loom
plotter 10.0.0.20 plotter
punch 10.0.0.21 punch'
text s1 /etc/yp.conf <<<"domain old server ${address[s1]}"
quietly s1 'ypbind -ping-interval 1; until ypwhich; do sleep 0.1; done' >/dev/null 2>&1
tried 'yppush goes to all of the map ypservers' s1 'yppush -v -t 5 ypservers' "$came"
quietly s1 'echo "ida ida:secret:20000:0:99999:7:::" >>old.shadow
    /usr/lib/yp/makedbm -c -s -m s1 old.shadow old/shadow.byname'
tried 'yppush has yp serve fetch a secure map' s1 'yppush -v -t 5 -h m1 shadow.byname' "$came"
tried 'yp serve gives a secure map to root' c1 'ypcat -d old -h m1 shadow.byname | sort' \
    'eve:secret:20000:0:99999:7:::
ida:secret:20000:0:99999:7:::'
refused 'yp serve gives no secure map to nobody' c1 "$as_nobody ypcat -d old -h m1 shadow.byname 2>&1"

# c1 as a client whose binder is Debian's ypbind.
order=$(quietly m1 'yp poll 127.0.0.1:834 lab hosts.byname' | sed -n 's/^order //p')
quietly c1 "sed -i -E 's/^(passwd|group|shadow|hosts|services|protocols):.*files/& nis/' /etc/nsswitch.conf
    install -d -o 5001 -g 5001 /home/ann && install -d -o 5002 -g 5001 /home/bob && domainname lab"
text c1 /etc/yp.conf <<<"domain lab server ${address[m1]}"
bind='ypbind -ping-interval 1; until ypwhich; do sleep 0.1; done 2>/dev/null'
unbind='kill "$(cat /run/ypbind.pid)"; while pgrep -r D,R,S -x ypbind; do sleep 0.1; done; rm -f binding/*'
tried 'ypbind binds to yp serve' c1 "$bind" "${address[m1]}"
asked ypbind "${address[m1]}"
tried 'by ypbind: yptest' c1 'yptest -q -u ann -m passwd.byname'
looked_up ypbind
# By a binder that has version 2 alone libnss_nis asks for another address, that of the server.
tried 'by ypbind: getent hosts by address' c1 'getent hosts 10.0.0.9' '10.0.0.9        printer laser'
quietly c1 "$unbind" >/dev/null

# Our port mapper in the place of rpcbind on m1, and then rpcbind again, which has itself among its mappings. Ours is
# told that.
quietly m1 'kill "$(pgrep -x rpcbind)" && sleep 0.2
    yp portmap 111 forever >/var/log/yp-portmap 2>&1 & echo $! >/run/yp-portmap.pid && sleep 0.5'
register m1 111 100000 2
register_m1
tried 'rpcinfo asks yp portmap for all' c1 'rpcinfo -p m1 | awk "NR > 1 { print \$1, \$2, \$3, \$4 }" | sort -n' \
    '100000 2 tcp 111
100000 2 udp 111
100004 2 tcp 834
100004 2 udp 834
536890953 1 tcp 834
536890953 1 udp 834
1073741824 1 tcp 7001
1073741824 1 udp 7001'
tried 'rpcinfo finds yp serve by yp portmap' c1 'rpcinfo -T udp m1 ypserv 2 && rpcinfo -T tcp m1 ypserv 2' \
    'program 100004 version 2 ready and waiting
program 100004 version 2 ready and waiting'
tried 'ypbind binds by yp portmap' c1 "$bind" "${address[m1]}"
tried 'ypcat asks by yp portmap' c1 'ypcat -h m1 -k hosts.byaddr' '10.0.0.9 10.0.0.9 printer laser'
tried 'ypxfr tells a push by yp portmap' m1 "$push" 's1 2'
answers_at 'yp portmap' 10.0.0.11 111 '\206\240'
quietly c1 "$unbind" >/dev/null
quietly m1 'kill "$(cat /run/yp-portmap.pid)" && sleep 0.2 && rpcbind'
register_m1

# c1 as a client whose binder is ours.
our_bind="yp bind 1007 ypsetme forever lab m1@${address[m1]}:834"
quietly c1 "$our_bind >/var/log/yp-bind 2>&1 & echo \$! >/run/yp-bind.pid && sleep 1"
register c1 1007 100007 2
asked 'yp bind' m1
looked_up 'yp bind'
tried 'ypset sets the server of yp bind' c1 'ypset s1 2>/dev/null; ypwhich; ypcat -k hosts.byaddr' 's1
10.0.0.9 10.0.0.9 printer laser'
tried 'ypset from another host does not' m1 'ypset -d lab -h c1 m1 2>/dev/null; ypwhich -d lab c1' s1
tried 'ypset sets it back' c1 'ypset m1 2>/dev/null; ypwhich' m1
quietly c1 'kill "$(cat /run/yp-bind.pid)"'

# c1 has our binder again, now with both servers to choose from.
quietly c1 "$our_bind s1@$old >/var/log/yp-bind 2>&1 & sleep 1"
answers_at 'yp serve' 10.0.0.11 834 '\206\244'
answers_at 'yp bind' 10.0.0.13 1007 '\206\247'

# m1 dies, and c1 goes on, whose binder may have had either server before. It asks its server again in a second in which
# nobody asks it.
lose m1
tried 'yp bind goes on by ypserv' c1 'until [ "$(ypwhich)" = s1 ]; do sleep 1.5; done; ypcat -k hosts.byaddr' \
    '10.0.0.9 10.0.0.9 printer laser'
tried 'a user logs in by ypserv' c1 "echo 'open sesame' | $as_nobody su - ann -c 'id -un' 2>/dev/null" ann

echo "$passed passed, $failed failed, in $((SECONDS - began)) seconds"
[ "$failed" -eq 0 ]
