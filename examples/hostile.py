#!/usr/bin/env python3
"""Sends random and bent calls to a `yp serve`, and looks at what it has afterwards: hostile.py [CALLS [SEED]]

The server, of its own, has two maps, and every worker is in use. By streams and by datagrams it gets at least CALLS
calls, or 100,000, of these kinds: calls of every procedure with random arguments; sound calls with bits turned, bytes
cut, left out or put in; fragments of any size, records over the limits; bytes of no form. Some connections are cut in
the middle of a call, some ask for whole maps and don't read, and for each 50 calls one comes and goes. A call that is
sound is sent between, and must have its reply. Afterwards the server must answer MATCH over a connection and in a
datagram, with the threads that it had, with no descriptors more but those of a connection for each worker, and with
no more memory than it had behind a first attack of as many calls but a mebibyte: the most that a thread ever had stays
with it. It prints its seed, what was sent and what the server has, and ends with status 1 where that isn't so. It isn't
part of the gate.
"""

import os
import random
import socket
import struct
import subprocess
import sys
import tempfile
import threading
import time

sys.dont_write_bytecode = True
import rpc
import server

WORKERS = 8
ROWS = 2000
STREAMS = 6
BATCH = 200
WINDOW = 50
COMING = 50  # calls for each connection that comes and goes
SECONDS = 20
SLACK = 1024
KEY, VALUE = b"host00000", b"10.0.0.0 host00000"
PROGRAMS = (rpc.YP, rpc.MAKE_PROGRAM, rpc.PORT_MAPPER, (100007, 2), (100004, 1), (100004, 3), (rpc.MAKE_PROGRAM[0], 2))
NAMES = (b"lab", b"hosts.byname", b"hosts.byaddr", b"", b"nomap", b"x" * 64, b"y" * 65, b"..", b"a/b", b"\0\xff", KEY)
NUMBERS = (0, 1, 2, 5, 255, 1023, 65535, 65536, 262144, 0x7FFFFFFF, 0x80000000, 0xFFFFFFFF)


class Wrong(Exception):
    """What isn't as it must be."""


class Caller:
    """One that makes up calls, by a random source of its own."""

    def __init__(self, seed):
        self.random = random.Random(seed)

    def arguments(self):
        """Names, numbers and bytes, some of which are no items."""
        parts = []
        for _ in range(self.random.randrange(8)):
            kind = self.random.randrange(10)
            if kind < 5:
                parts.append(rpc.opaque(self.random.choice(NAMES)))
            elif kind < 8:
                parts.append(rpc.word(self.random.choice(NUMBERS)))
            else:
                parts.append(self.random.randbytes(self.random.randrange(40)))
        return b"".join(parts)

    def sound(self):
        """A sound call of YP for one of the maps, most for a key."""
        name = self.random.choice(list(server.KINDS))
        procedure = self.random.choice((rpc.MATCH, rpc.MATCH, 4, 5, 9, rpc.ORDER))
        return rpc.call(self.random.getrandbits(32), rpc.YP, procedure, server.of_map(name, KEY))

    def bent(self):
        """A sound call with a few bytes that aren't as they were."""
        message = bytearray(self.sound())
        for _ in range(self.random.randrange(1, 5)):
            at = self.random.randrange(len(message))
            kind = self.random.randrange(5)
            if kind == 0:
                message[at] ^= 1 << self.random.randrange(8)
            elif kind == 1:
                message[at : at + 4] = rpc.word(self.random.choice(NUMBERS))
            elif kind == 2:
                del message[at : at + self.random.randrange(1, 9)]
            elif kind == 3:
                message[at:at] = self.random.randbytes(self.random.randrange(9))
            else:
                del message[at + 4 :]
            if not message:
                return b"\0"
        return bytes(message)

    def message(self):
        """Any message: a bent call in one half of the cases."""
        kind = self.random.randrange(10)
        if kind < 5:
            return self.bent()
        if kind < 8:
            # ALL, whose replies are long, has callers of its own.
            procedure = self.random.choice([number for number in (*range(14), 255, 0xFFFFFFFF) if number != rpc.ALL])
            xid = self.random.getrandbits(32)
            return rpc.call(xid, self.random.choice(PROGRAMS), procedure, self.arguments())
        if kind < 9:
            return self.sound()
        return self.random.randbytes(self.random.randrange(1, 200))

    def fragments(self, message):
        """The message as a record, cut into any fragments."""
        parts = []
        while len(message) > 1 and self.random.randrange(4) == 0:
            at = self.random.randrange(len(message))
            parts.append(rpc.word(at) + message[:at])
            message = message[at:]
        return b"".join(parts) + rpc.record(message)

    def ending(self):
        """What ends a connection: half a call, a record over a limit, or bytes of no form."""
        whole = rpc.record(self.sound())
        return self.random.choice(
            (
                whole[: self.random.randrange(1, len(whole))],
                rpc.word(rpc.LAST | 262145),
                rpc.word(0) * 1025,
                rpc.word(self.random.choice(NUMBERS)) + self.random.randbytes(100),
                self.random.randbytes(self.random.randrange(1, 300)),
                b"",
            )
        )


class Attack:
    """What a server gets until so many calls were sent."""

    def __init__(self, served, seed, calls):
        self.served = served
        self.seed = seed
        self.left = {"stream": calls * 2 // 3, "datagram": calls - calls * 2 // 3, "coming": calls // COMING}
        self.sent = {"stream": 0, "datagram": 0, "half": 0, "unread": 0, "coming": 0}
        self.wrong = []
        self.lock = threading.Lock()

    def count(self, kind, number=1):
        with self.lock:
            self.sent[kind] += number

    def is_wanted(self, kind):
        return self.sent[kind] < self.left[kind] and not self.wrong

    def run(self):
        jobs = [self.streams] * STREAMS + [self.datagrams, self.unread, self.coming]
        threads = [threading.Thread(target=self.guard, args=(job, number)) for number, job in enumerate(jobs)]
        for thread in threads:
            thread.start()
        for thread in threads:
            thread.join()
        if self.wrong:
            raise Wrong("; ".join(self.wrong))

    def guard(self, job, number):
        try:
            job(Caller(self.seed * 1000 + number))
        except (OSError, Wrong) as error:
            self.wrong.append(f"{job.__name__}: {error!r}")

    def streams(self, caller):
        """Connections with many calls each, a last sound one, and an end of any form."""
        while self.is_wanted("stream"):
            with self.served.connect(SECONDS) as connection, connection.makefile("rb") as stream:
                calls = [caller.fragments(caller.message()) for _ in range(BATCH)]
                xid = 0xFFFF0000 + caller.random.randrange(0xFFFF)
                calls.append(rpc.record(server.match_call(xid, KEY)))
                connection.sendall(b"".join(calls))
                self.await_match(stream, xid)
                self.count("stream", len(calls))
                if ending := caller.ending():
                    connection.sendall(ending)
                    self.count("half")
                # Some are cut, so that what is under way is lost.
                if caller.random.randrange(2):
                    connection.setsockopt(socket.SOL_SOCKET, socket.SO_LINGER, struct.pack("ii", 1, 0))

    def await_match(self, stream, xid):
        """Reads replies up to the one of this number, which must have the value."""
        while (reply := rpc.read_message(stream)) is not None:
            if reply[:4] == rpc.word(xid) and rpc.results(reply, xid) == server.value_of(VALUE):
                return
        raise Wrong("a sound call behind others had no reply")

    def datagrams(self, caller):
        """Datagrams of any form, with a sound one behind each few, whose reply is awaited so that none is lost."""
        with server.datagrams(self.served.address) as client:
            client.settimeout(SECONDS)
            while self.is_wanted("datagram"):
                for _ in range(WINDOW):
                    client.send(caller.message() if caller.random.randrange(50) else caller.random.randbytes(20000))
                xid = 0xFFFF0000 + caller.random.randrange(0xFFFF)
                client.send(server.match_call(xid, KEY))
                while (reply := client.recv(rpc.DATAGRAM))[:4] != rpc.word(xid):
                    pass
                if rpc.results(reply, xid) != server.value_of(VALUE):
                    raise Wrong("a sound datagram has another reply")
                self.count("datagram", WINDOW + 1)

    def unread(self, caller):
        """Callers that ask for whole maps and don't read, and are gone after a while."""
        while self.is_wanted("stream"):
            with socket.socket() as connection:
                connection.setsockopt(socket.SOL_SOCKET, socket.SO_RCVBUF, 4096)
                connection.settimeout(SECONDS)
                connection.connect(self.served.address)
                calls = [rpc.record(server.all_call(xid, b"hosts.byname")) for xid in range(200)]
                connection.sendall(b"".join(calls))
                self.count("unread", len(calls))
                time.sleep(caller.random.random())

    def coming(self, caller):
        """Connections that come and go, with a call, with a part of one, or with nothing."""
        while self.is_wanted("coming"):
            with self.served.connect(SECONDS) as connection:
                call = rpc.record(caller.sound())
                connection.sendall(call[: caller.random.choice((0, 1, 50, len(call)))])
                if caller.random.randrange(2):
                    connection.setsockopt(socket.SOL_SOCKET, socket.SO_LINGER, struct.pack("ii", 1, 0))
            self.count("coming")


def begun(served):
    """What the server has once it has answered, and all its threads were started."""
    answers(served)
    used = served.used()
    for _ in range(SECONDS):
        time.sleep(0.5)
        before, used = used, served.used()
        if used[1] == before[1]:
            break
    return used


def settled(served, idle):
    """What the server has once its callers are gone, or after a while. Each worker may have its last connection yet: it
    closes it once it may accept the next one."""
    for _ in range(SECONDS * 10):
        used = served.used()
        if used[2] <= idle[2] + 2 * WORKERS:
            break
        time.sleep(0.1)
    return used


def answers(served):
    """That MATCH is answered over a connection and in a datagram."""
    with served.connect(SECONDS) as connection, connection.makefile("rb") as stream:
        connection.sendall(rpc.record(server.match_call(7, KEY)))
        over_stream = rpc.read_message(stream) or b""
    in_datagram = rpc.ask(server.match_call(7, KEY), served.address, SECONDS) or b""
    for reply in over_stream, in_datagram:
        if rpc.results(reply, 7) != server.value_of(VALUE):
            raise Wrong("MATCH isn't answered")


def attack(served, seed, calls):
    """Attacks a server twice, with as many calls, and prints what it got and has."""
    idle = begun(served)
    Attack(served, seed, calls).run()
    before = settled(served, idle)
    began = time.monotonic()
    main_attack = Attack(served, seed + 1, calls)
    main_attack.run()
    took = time.monotonic() - began
    answers(served)
    after = settled(served, idle)
    sent = main_attack.sent
    print(
        f"{sent['stream']} calls by stream and {sent['datagram']} by datagram in {took:.0f} s, {sent['half']} bad ends,"
        f" {sent['unread']} calls of ALL that weren't read, {sent['coming']} connections that came and went"
    )
    for moment, (memory, threads, descriptors) in ("at first", idle), ("before", before), ("after", after):
        print(f"{moment}: {memory} KiB, {threads} threads, {descriptors} descriptors")
    if after[1] != idle[1] or after[2] > idle[2] + 2 * WORKERS or after[0] > before[0] + SLACK:
        raise Wrong("the server has more than it had")


def run(seed, calls):
    """Starts a server, attacks it, and ends it."""
    text = "".join(f"10.0.{i >> 8}.{i & 255} host{i:05}\n" for i in range(ROWS)).encode()
    os.mkdir("ypsrc")
    with open("ypsrc/hosts", "wb") as file:
        file.write(text)
    for name in server.KINDS:
        words = [server.PROGRAM, "build", "m1", f"lab/{name.decode()}"]
        subprocess.run(words, input=text, stdout=subprocess.DEVNULL, check=True)
    served = server.Server(".", server.free_port(), WORKERS)
    try:
        attack(served, seed, calls)
        if not served.is_running():
            raise Wrong("the server has ended")
    finally:
        served.kill()


def main(calls=100000, seed=None):
    seed = random.randrange(1 << 32) if seed is None else int(seed)
    print(f"seed {seed}", flush=True)
    server.build()
    with tempfile.TemporaryDirectory() as room:
        os.chdir(room)
        try:
            run(seed, int(calls))
        except Wrong as error:
            sys.exit(f"wrong: {error}")


if len(sys.argv) > 3:
    sys.exit(__doc__)
main(*sys.argv[1:])
