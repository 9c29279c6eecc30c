#!/usr/bin/env python3
"""Times look-ups under load while a `yp serve` does what takes long: beside.py [SECONDS]

The server, of its own, has four workers, a map of 20,000 rows, one of 262,144, and one of another master. Eight callers
look up keys of the first one, again and again, four over a connection each and four in datagrams. Meanwhile, one after
the other, nothing else is done; the second map is made for a call over a connection; it is made for one in a datagram;
the third one is fetched, for a datagram, from a master that says nothing for SECONDS, or 5; and it is fetched, for a
call over a connection, from a master that says nothing while the second one is made for another. It prints how many
keys were looked up meanwhile, and the longest that one of these waited for its reply, and ends with status 1 where a
reply is wrong, or took longer than 0.1 seconds, or the map isn't made. It isn't part of the gate.
"""

import contextlib
import os
import socket
import subprocess
import sys
import tempfile
import threading
import time

sys.dont_write_bytecode = True
import rpc
import server

WORKERS = 4
CALLERS = 4  # of each kind
ROWS = 20_000
MOST_ROWS = 262_144
LONGEST = 0.1  # seconds
PAUSE = 0.001
MADE = rpc.word(1)
FOREIGN = b"passwd.byname"


def key_of(number):
    return b"host%05d" % number


def right_reply(xid, number):
    return rpc.word(xid) + rpc.SUCCESS + server.value_of(b"10.0.%d.%d %s" % (number >> 8, number & 255, key_of(number)))


def write_text(room, rows):
    """The text of the maps."""
    os.makedirs(os.path.join(room, "ypsrc"), exist_ok=True)
    with open(os.path.join(room, "ypsrc", "hosts"), "w", encoding="ascii") as file:
        for number in range(rows):
            file.write(f"10.{number >> 16}.{number >> 8 & 255}.{number & 255} host{number:05}\n")


class Caller(threading.Thread):
    """Looks up one key after the other until it is told to end, and keeps how each came out."""

    def __init__(self, ask):
        super().__init__()
        self.ask = ask
        self.is_over = threading.Event()
        self.looked = []
        self.start()

    def run(self):
        xid = 0
        while not self.is_over.wait(PAUSE):
            xid += 1
            number = xid * 7919 % ROWS
            began = time.monotonic()
            try:
                reply = self.ask(server.match_call(xid, key_of(number)))
            except OSError as fault:
                reply = repr(fault).encode()
            ended = time.monotonic()
            self.looked.append((began, ended - began, reply == right_reply(xid, number)))


def over_stream(running, closing):
    """How a caller asks over a connection of its own."""
    connection = closing.enter_context(running.connect())
    stream = closing.enter_context(connection.makefile("rb"))

    def ask(message):
        connection.sendall(rpc.record(message))
        return rpc.read_message(stream)

    return ask


def in_datagrams(running, closing):
    """How a caller asks in datagrams, each of which is sent once."""
    client = closing.enter_context(server.datagrams(running.address))
    client.settimeout(10)

    def ask(message):
        client.send(message)
        return client.recv(rpc.DATAGRAM)

    return ask


def made_over_stream(running):
    with running.connect(60) as connection, connection.makefile("rb") as stream:
        connection.sendall(rpc.record(server.make_call(7, b"hosts.byaddr")))
        return rpc.results(rpc.read_message(stream) or b"", 7) == MADE


def made_in_datagram(running):
    with server.datagrams(running.address) as client:
        client.settimeout(60)
        client.send(server.make_call(8, b"hosts.byaddr"))
        return rpc.results(client.recv(rpc.DATAGRAM), 8) == MADE


def transfer_call():
    arguments = server.of_map(FOREIGN) + rpc.word(0) + rpc.opaque(b"m2") + b"".join(map(rpc.word, (9, 1 << 30, 1)))
    return rpc.call(9, rpc.YP, rpc.XFR, arguments)


def fetched_in_datagram(running, silent, meanwhile):
    """Asks for a transfer, does this while the source is silent, and tells whether both were done."""
    with server.datagrams(running.address) as client:
        client.settimeout(10)
        client.send(transfer_call())
        is_taken = rpc.results(client.recv(rpc.DATAGRAM), 9) is not None
    with silent.accept()[0]:
        return meanwhile() and is_taken


def fetched_over_stream(running, silent, meanwhile):
    """The same over a connection."""
    with running.connect(60) as connection, connection.makefile("rb") as stream:
        connection.sendall(rpc.record(transfer_call()))
        is_taken = rpc.results(rpc.read_message(stream) or b"", 9) is not None
        with silent.accept()[0]:
            return meanwhile() and is_taken


def looked_beside(callers, name, work):
    """Does this, and tells whether it was done, and each key was looked up right and in time meanwhile."""
    began = time.monotonic()
    is_done = work()
    ended = time.monotonic()
    time.sleep(LONGEST)
    looked = [it for caller in callers for it in caller.looked if began <= it[0] <= ended]
    longest = max((seconds for _, seconds, _ in looked), default=0)
    wrong = sum(not is_right for _, _, is_right in looked)
    print(f"{name:52} {ended - began:5.1f} s  {len(looked):7,} look-ups  longest {longest * 1000:6.1f} ms", flush=True)
    is_well = is_done and len(looked) > 0 and wrong == 0 and longest <= LONGEST
    if not is_well:
        print(f"  not as it must be: {wrong} wrong replies, {'done' if is_done else 'not done'}", flush=True)
    return is_well


def waited(seconds):
    time.sleep(seconds)
    return True


def main(seconds=5):
    server.build()
    with contextlib.ExitStack() as closing:
        room = closing.enter_context(tempfile.TemporaryDirectory())
        write_text(room, ROWS)
        with open(os.path.join(room, "ypsrc", "hosts"), "rb") as text:
            build = [server.PROGRAM, "build", "m1", "lab/hosts.byname"]
            subprocess.run(build, stdin=text, cwd=room, check=True, stdout=subprocess.DEVNULL)
        build = [server.PROGRAM, "build", "m2", f"lab/{FOREIGN.decode()}"]
        subprocess.run(build, input=b"a:x:1:1::/:\n", cwd=room, check=True, stdout=subprocess.DEVNULL)
        write_text(room, MOST_ROWS)
        silent = closing.enter_context(socket.create_server((server.HOST, 0)))
        source = f"m2@{server.HOST}:{silent.getsockname()[1]}"
        further = [f"lab/{FOREIGN.decode()}", source]
        running = server.Server(room, server.free_port(), WORKERS, further)
        closing.callback(running.kill)
        asks = [kind(running, closing) for kind in (over_stream, in_datagrams) for _ in range(CALLERS)]
        callers = [Caller(ask) for ask in asks]
        try:
            wells = [
                looked_beside(callers, "beside nothing", lambda: waited(1)),
                looked_beside(
                    callers,
                    f"while a map of {MOST_ROWS:,} rows is made, by stream",
                    lambda: made_over_stream(running),
                ),
                looked_beside(
                    callers,
                    f"while a map of {MOST_ROWS:,} rows is made, by datagram",
                    lambda: made_in_datagram(running),
                ),
                looked_beside(
                    callers,
                    "while a source says nothing",
                    lambda: fetched_in_datagram(running, silent, lambda: waited(float(seconds))),
                ),
                looked_beside(
                    callers,
                    "while a source says nothing and that map is made",
                    lambda: fetched_over_stream(running, silent, lambda: made_over_stream(running)),
                ),
            ]
            is_running = running.is_running()
        finally:
            for caller in callers:
                caller.is_over.set()
            for caller in callers:
                caller.join()
    return 0 if all(wells) and is_running else 1


if __name__ == "__main__":
    sys.exit(main(*sys.argv[1:]))
