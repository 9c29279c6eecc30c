#!/usr/bin/python3
"""Has the server of this host make, fetch and push its maps while it runs: live.py make|pull|push|orders [STORE ..]

    live.py make [STORE ..]     has maps made anew of their texts in ypsrc (`yp make`): those that are named, or each
                                whose text was changed since it was made here last
    live.py pull [STORE ..]     has maps fetched from the first host behind those of YP_SERVE (XFR): those that are
                                named, or all
    live.py push [STORE ..]     has the slaves of YP_PUSH fetch maps: those that are named, or all. `yp push` tells how
                                that went
    live.py orders [STORE ..]   prints the order of each map at this server, at the hosts behind the maps of YP_SERVE
                                and at the slaves of YP_PUSH; where one isn't as at this server, that didn't go well

The rows of a secure map are given to a slave whose server may have a port under 1,024. STORE is DOMAIN/MAP. It runs in
the folder of the server, and takes YP_SERVE and YP_PUSH from the environment, where it has YP_SERVE, and else from
yp.env. What was done is written to standard output, a line each, and what failed to standard error. It ends with status
0 where all went well, and else with 1. It needs the standard library alone.
"""

import os
import shlex
import socket
import subprocess
import sys

sys.dont_write_bytecode = True
HERE = os.path.dirname(os.path.realpath(__file__))
# Where rpc.py is in a checkout; installed, it is beside this file.
sys.path.append(os.path.join(HERE, "../examples"))
import rpc

WORDS = "/usr/local/etc/yp.env"
INSTALLED = os.path.join(HERE, "../../bin/yp")
PROGRAM = INSTALLED if os.path.exists(INSTALLED) else "yp"
SECONDS = 60
# As many slaves are asked at once, and so many turns taken, at each push.
WINDOW, TURNS = 10, 60
# The text of each map whose text has another name. The netgroups by users and by hosts are made of the netgroups, so
# they come last.
TEXTS = {
    "passwd.byname": "passwd",
    "passwd.byuid": "passwd",
    "group.byname": "group",
    "group.bygid": "group",
    "hosts.byname": "hosts",
    "hosts.byaddr": "hosts",
    "services.byname": "services",
    "protocols.bynumber": "protocols",
    "netgroup.byuser": "netgroup",
    "netgroup.byhost": "netgroup",
}
SUCC, AGE, YPERR = 1, 2, -6
STATUSES = {2: "AGE", -1: "NOMAP", -2: "NODOM", -3: "RSRC", -4: "RPC", -5: "MADDR", -6: "YPERR", -7: "BADARGS"}
STATUSES |= {-8: "DBM", -9: "FILE", -10: "SKEW", -13: "XFRERR", -14: "REFUSED"}
CALL_BACK = 0x40000000

failed = False


def fail(text):
    """Tells what didn't go well."""
    global failed
    failed = True
    print(f"live.py: {text}", file=sys.stderr)


def environment():
    """YP_SERVE and YP_PUSH, each as a list of words."""
    given = os.environ
    if "YP_SERVE" not in given:
        with open(WORDS, encoding="utf-8") as file:
            lines = [word for word in shlex.split(file.read(), comments=True) if "=" in word]
        given = dict(line.split("=", 1) for line in lines)
    return given["YP_SERVE"].split(), given.get("YP_PUSH", "").split()


class Site:
    """What YP_SERVE and YP_PUSH say."""

    def __init__(self):
        serve, push = environment()
        self.name, self.port = serve[0], int(serve[1])
        self.stores = [word for word in serve[5:] if "/" in word]
        self.hosts = [word for word in serve[5:] if "@" in word]
        self.push_port, self.slaves = push[:1], push[1:]
        self.own = f"127.0.0.1:{self.port}"


def number(results):
    """A word of results that has a sign."""
    return int.from_bytes(results[:4], "big", signed=True)


def status_of(results):
    """The status that results begin with, by its name and number."""
    status = number(results)
    return f"{STATUSES.get(status, 'status')} ({status})"


def ask(site, program, procedure, arguments):
    """The results of a call to the server of this host, over a connection."""
    with socket.create_connection(("127.0.0.1", site.port), SECONDS) as server:
        server.settimeout(SECONDS)
        server.sendall(rpc.record(rpc.call(1, program, procedure, arguments)))
        results = rpc.results(rpc.read_message(server.makefile("rb")) or b"", 1)
    if results is None:
        raise OSError("the server gives no results")
    return results


def opaques(*texts):
    return b"".join(rpc.opaque(os.fsencode(text)) for text in texts)


# make


def time_of(path):
    """The moment at which a file was changed, or nothing where it isn't there."""
    try:
        return os.stat(path).st_mtime_ns
    except FileNotFoundError:
        return None


def keep_time(path, moment):
    """Makes a file that was changed at this moment."""
    os.makedirs(os.path.dirname(path), exist_ok=True)
    with open(path, "wb"):
        pass
    os.utime(path, ns=(moment, moment))


def is_made(store, changed):
    """Whether there is a version of a map that was made of its text since that was changed."""
    return changed == time_of(f"made/{store}") and os.path.exists(f"ypdata/{store}")


def is_of_netgroups(store):
    return store.split("/", 1)[1].startswith("netgroup.")


def make(site, stores):
    for store in stores or sorted(site.stores, key=is_of_netgroups):
        domain, name = store.split("/", 1)
        changed = time_of(f"ypsrc/{TEXTS.get(name, name)}")
        if not stores and (changed is None or is_made(store, changed)):
            continue
        status, line, note = run("make", site.own, domain, name)
        if status:
            number, told = line.split()[1:] or ("", "")
            fail(f"{store} isn't made: {note or f'{told} ({number})'}")
        else:
            print(f"{store} made", flush=True)
            if changed is not None:
                keep_time(f"made/{store}", changed)


# pull


def transfer(site, store, peer):
    """The status of a transfer that the server of this host carries out, as the server tells it in a datagram."""
    with socket.socket(socket.AF_INET, socket.SOCK_DGRAM) as hearing:
        hearing.bind(("127.0.0.1", 0))
        hearing.settimeout(SECONDS)
        program = rpc.word(CALL_BACK) + rpc.word(hearing.getsockname()[1])
        arguments = opaques(*store.split("/", 1)) + rpc.word(0) + opaques(peer) + rpc.word(1) + program
        results = ask(site, rpc.YP, rpc.XFR, arguments)[4:]
        if number(results) != SUCC:
            return results
        message, sender = hearing.recvfrom(rpc.DATAGRAM)
        hearing.sendto(message[:4] + rpc.SUCCESS, sender)
        return message[-4:]


def pull(site, stores):
    if not site.hosts:
        raise ValueError("YP_SERVE has no host behind its maps")
    peer = site.hosts[0].split("@")[0]
    for store in stores or site.stores:
        results = transfer(site, store, peer)
        if number(results) == SUCC:
            print(f"{store} fetched", flush=True)
        elif number(results) == YPERR:
            fail(f"{store} isn't given by {peer}, as a secure map isn't to a port over 1,023")
        elif number(results) != AGE:
            fail(f"{store} isn't fetched: {status_of(results)}")


# push


def run(*words):
    """The status with which the program ends, its output and its note."""
    ended = subprocess.run([PROGRAM, *words], capture_output=True, encoding="utf-8", errors="replace")
    return ended.returncode, ended.stdout, ended.stderr.strip()


def push(site, stores):
    if not site.slaves:
        return
    for store in stores or site.stores:
        status, lines, note = run("push", site.name, *site.push_port, str(WINDOW), str(TURNS), store, *site.slaves)
        for line in lines.splitlines():
            print(f"{store} {line}", flush=True)
        if status:
            fail(f"{store} isn't at all slaves" + f": {note}" * bool(note))


# orders


def order(address, store):
    """The order of a map at a server, or `none`."""
    status, lines, _ = run("poll", address, *store.split("/", 1))
    return lines.split()[1] if status == 0 else "none"


def orders(site, stores):
    servers = [f"{site.name}@{site.own}", *site.hosts, *site.slaves]
    for store in stores or site.stores:
        found = [(server.split("@")[0], order(server.split("@")[1], store)) for server in servers]
        print(store, *(f"{name} {shown}" for name, shown in found), flush=True)
        if len({shown for _, shown in found}) > 1:
            fail(f"{store} isn't the same everywhere")


VERBS = {"make": make, "pull": pull, "push": push, "orders": orders}


def main(words):
    if not words or words[0] not in VERBS or not all(word.count("/") == 1 for word in words[1:]):
        sys.exit(__doc__)
    try:
        VERBS[words[0]](Site(), words[1:])
    except (OSError, ValueError, LookupError) as error:
        fail(f"{words[0]} ends: {error}")
    except KeyboardInterrupt:
        fail(f"{words[0]} ends")
    sys.exit(failed)


main(sys.argv[1:])
