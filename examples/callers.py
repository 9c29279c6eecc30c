#!/usr/bin/env python3
"""Holds thousands of connections of a `yp serve`, and times who calls beside them: callers.py [IDLE [UNREAD]]

The server, of its own, has eight workers and a map of 20,000 rows. It is held, one after the other, by IDLE callers, or
5,000, who bring nothing; who bring half a call; who were answered and stay; by 64 who bring a byte of a call each
second; by UNREAD, or 1,000, who ask for the whole map and don't read it; and by one who has a map of 262,144 rows made.
Meanwhile MATCH is asked twenty times, each time over a new connection, and twenty times in a datagram. It prints the
longest that each waited for its reply, and the memory of the server, and ends with status 1 where a reply is wrong, or
took longer than 0.2 seconds, or the server has more than 300 MiB. It isn't part of the gate.
"""

import os
import resource
import socket
import sys
import tempfile
import threading
import time

sys.dont_write_bytecode = True
import rpc
import server

WORKERS = 8
ROWS = 20_000
MOST_ROWS = 262_144
ASKED = 20
LONGEST = 0.2  # seconds
MEMORY = 300 * 1024  # KiB
DRIPPING = 64
SPARE = 200  # descriptors beside those of the callers
KEY, VALUE = b"host00007", b"10.0.0.7 host00007"


def write_text(room, rows):
    """The text of the maps."""
    os.makedirs(os.path.join(room, "ypsrc"), exist_ok=True)
    with open(os.path.join(room, "ypsrc", "hosts"), "w", encoding="ascii") as file:
        for number in range(rows):
            file.write(f"10.{number >> 16}.{number >> 8 & 255}.{number & 255} host{number:05}\n")


def make_map(running, name):
    """Has the server make a map."""
    with running.connect(60) as connection, connection.makefile("rb") as stream:
        connection.sendall(rpc.record(server.make_call(7, name)))
        reply = rpc.read_message(stream)
    if reply is None or not reply.endswith(rpc.word(1)):
        raise RuntimeError(f"the map isn't made: {reply}")


def right_reply(xid):
    return rpc.word(xid) + rpc.SUCCESS + server.value_of(VALUE)


def asked_by_stream(running, xid):
    """How long MATCH takes over a new connection, and whether its reply is right."""
    began = time.monotonic()
    with running.connect() as connection, connection.makefile("rb") as stream:
        connection.sendall(rpc.record(server.match_call(xid, KEY)))
        reply = rpc.read_message(stream)
    return time.monotonic() - began, reply == right_reply(xid)


def asked_by_datagram(client, xid):
    """How long MATCH takes in a datagram that is sent once, and whether its reply is right."""
    began = time.monotonic()
    client.send(server.match_call(xid, KEY))
    try:
        reply = client.recv(rpc.DATAGRAM)
    except TimeoutError:
        reply = b""
    return time.monotonic() - began, reply == right_reply(xid)


class Dripping:
    """Callers who bring a byte of a call each second."""

    def __init__(self, held):
        self.held = held
        self.is_over = threading.Event()
        self.thread = threading.Thread(target=self.run)
        self.thread.start()

    def run(self):
        for byte in rpc.record(server.match_call(9, KEY)):
            for connection in self.held:
                try:
                    connection.send(bytes((byte,)))
                except OSError:
                    pass  # let go, as ten seconds were over
            if self.is_over.wait(1):
                return

    def end(self):
        self.is_over.set()
        self.thread.join()


def hold(running, count, given, is_read, room=None):
    """So many connections, each of which has brought this, and taken its reply where that is said."""
    held = []
    for _ in range(count):
        connection = socket.socket()
        if room is not None:
            connection.setsockopt(socket.SOL_SOCKET, socket.SO_RCVBUF, room)
        connection.settimeout(30)
        connection.connect(running.address)
        connection.sendall(given)
        if is_read:
            with connection.makefile("rb") as stream:
                if rpc.read_message(stream) is None:
                    raise RuntimeError("a caller who is to stay got no reply")
        held.append(connection)
    return held


def longest(running, ask):
    """The longest of so many calls, and how many replies were wrong."""
    taken = [ask(xid) for xid in range(1000, 1000 + ASKED)]
    return max(seconds for seconds, _ in taken), sum(not is_right for _, is_right in taken)


def look(running, name):
    """Asks beside those who are held, and tells whether all was well."""
    by_stream, wrong = longest(running, lambda xid: asked_by_stream(running, xid))
    with server.datagrams(running.address) as client:
        client.settimeout(10)
        by_datagram, wrong_too = longest(running, lambda xid: asked_by_datagram(client, xid))
    memory, threads, descriptors = running.used()
    print(
        f"{name:44} stream {by_stream * 1000:7.1f} ms  datagram {by_datagram * 1000:7.1f} ms"
        f"  {memory / 1024:6.1f} MiB  {threads} threads  {descriptors} descriptors",
        flush=True,
    )
    is_well = wrong + wrong_too == 0 and max(by_stream, by_datagram) <= LONGEST and memory <= MEMORY
    if not is_well:
        print(f"  not as it must be: {wrong + wrong_too} wrong replies", flush=True)
    return is_well


def held_so(running, name, count, given, is_read=False, room=None, drips=False):
    """Holds so many, and looks."""
    held = hold(running, count, given, is_read, room)
    dripping = Dripping(held) if drips else None
    time.sleep(0.5)
    is_well = look(running, f"{count:,} {name}")
    if dripping is not None:
        dripping.end()
    for connection in held:
        connection.close()
    return is_well


def made_beside(running, room):
    """Has a map of as many rows made as there may be, and looks until it is."""
    write_text(room, MOST_ROWS)
    maker = threading.Thread(target=make_map, args=(running, b"hosts.byaddr"))
    maker.start()
    is_well = True
    while maker.is_alive():
        is_well = look(running, f"while a map of {MOST_ROWS:,} rows is made") and is_well
    maker.join()
    return is_well


def main(idle=5000, unread=1000):
    idle, unread = int(idle), int(unread)
    limit = max(idle, unread) + SPARE
    resource.setrlimit(resource.RLIMIT_NOFILE, (limit, resource.getrlimit(resource.RLIMIT_NOFILE)[1]))
    server.build()
    call = rpc.record(server.match_call(8, KEY))
    with tempfile.TemporaryDirectory() as room:
        write_text(room, ROWS)
        running = server.Server(room, server.free_port(), WORKERS)
        try:
            make_map(running, b"hosts.byname")
            wells = [
                look(running, "nobody"),
                held_so(running, "who bring nothing", idle, b""),
                held_so(running, "who bring half a call", idle, call[:50]),
                held_so(running, "who were answered and stay", idle, call, is_read=True),
                held_so(running, "who bring a byte a second", DRIPPING, b"", drips=True),
                held_so(running, "who don't read a map of 20,000 rows", unread,
                    rpc.record(server.all_call(8, b"hosts.byname")), room=4096),
                look(running, "nobody"),
                made_beside(running, room),
            ]
            is_running = running.is_running()
        finally:
            running.kill()
    return 0 if all(wells) and is_running else 1


if __name__ == "__main__":
    sys.exit(main(*sys.argv[1:]))
