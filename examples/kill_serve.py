#!/usr/bin/env python3
"""Kills `yp serve` under load at random moments, and starts it again: kill_serve.py [KILLS [SEED]]

The server has two maps of 4,000 hosts. Until it is killed by signal 9, within half a second, four callers look up
names over connections, two take whole maps, and one has the maps made anew by datagrams, of two texts in turn. After
each kill each file must stand for the version whose making was answered last, or for the one that was being made, and
the server that is started then must give the rows of that text, whole. It kills 100 times where KILLS isn't given,
takes a few minutes at most, prints how often it found which, and ends with status 1 at the first that may not be. It
isn't part of the gate.
"""

import os
import random
import subprocess
import sys
import tempfile
import threading
import time

sys.dont_write_bytecode = True
import rpc
import server

ROWS = 4000
WORKERS = 6
LOOKERS, TAKERS = 4, 2
LONGEST = 0.5
SUCC = rpc.word(1)
# The texts: the hosts of two networks. The second has a row more, so that the number of rows tells the text.
NETWORKS = (10, 172)


def lines(text):
    """The lines of a text, 0 or 1."""
    network = NETWORKS[text]
    return [f"{network}.0.{i >> 8}.{i & 255} host{i * 7919 % ROWS:05}".encode() for i in range(ROWS)] + [
        f"{network}.1.0.0 more".encode()
    ] * text


def all_results(text, name):
    """The results of ALL for a map of this text."""
    word = 1 if name == b"hosts.byname" else 0
    rows = sorted((line.split()[word], line) for line in lines(text))
    return b"".join(rpc.word(1) + rpc.word(1) + rpc.opaque(line) + rpc.opaque(key) for key, line in rows) + rpc.word(0)


WHOLE = {name: [all_results(text, name) for text in (0, 1)] for name in server.KINDS}
LINES = [lines(text) for text in (0, 1)]


class Wrong(Exception):
    """What isn't as it must be."""


class Load:
    """The callers of a server, until it has ended."""

    def __init__(self, served):
        self.served = served
        self.is_ending = self.is_over = False
        self.calls = 0
        self.wrong = []
        # Of each map: how often its making was answered, the text of the last that was, and that of one without answer.
        self.made = {name: [0, None, None] for name in server.KINDS}
        jobs = [self.look_up] * LOOKERS + [self.take] * TAKERS + [self.make]
        self.threads = [threading.Thread(target=self.run, args=(job,)) for job in jobs]
        for thread in self.threads:
            thread.start()

    def run(self, job):
        """Does a job, in which the server may end."""
        try:
            job()
        except OSError as error:
            if not self.is_ending:
                self.wrong.append(f"{job.__name__}: {error}")
        except Wrong as error:
            self.wrong.append(f"{job.__name__}: {error}")

    def kill(self):
        """Kills the server, and gives its status once all callers have seen that."""
        self.is_ending = True
        ended = self.served.kill()
        self.is_over = True
        for thread in self.threads:
            thread.join()
        return ended

    def exchanged(self, connection, stream, xid, call):
        """The results for a call."""
        connection.sendall(rpc.record(call))
        reply = rpc.read_message(stream)
        if reply is None:
            raise ConnectionError("the reply isn't whole")
        self.calls += 1
        return rpc.results(reply, xid)

    def look_up(self):
        with self.served.connect() as connection, connection.makefile("rb") as stream:
            for xid in range(1, 1 << 32):
                number = random.randrange(ROWS)
                key = LINES[0][number].split()[1]
                found = self.exchanged(connection, stream, xid, server.match_call(xid, key))
                if found not in [server.value_of(text[number]) for text in LINES]:
                    raise Wrong(f"{key} has {found}")

    def take(self):
        for xid in range(1, 1 << 32):
            with self.served.connect() as connection, connection.makefile("rb") as stream:
                name = random.choice(list(server.KINDS))
                taken = self.exchanged(connection, stream, xid, server.all_call(xid, name))
                if taken not in WHOLE[name]:
                    raise Wrong(f"ALL of {name} gives no version whole")

    def make(self):
        for xid in range(2, 1 << 32):
            text = xid // 2 % 2
            with open("ypsrc/next", "wb") as file:
                file.writelines(line + b"\n" for line in LINES[text])
            os.replace("ypsrc/next", "ypsrc/hosts")
            for name in server.KINDS:
                made = self.made[name]
                made[2] = text
                reply = self.posted(server.make_call(xid, name))
                if reply is None:
                    return
                if rpc.results(reply, xid) != SUCC:
                    raise Wrong(f"making {name} has {reply.hex()}")
                made[:] = made[0] + 1, text, None
                self.calls += 1

    def posted(self, message):
        """The reply to a datagram, or nothing once the server has ended. It is sent once, so that it is done once."""
        with server.datagrams(self.served.address) as client:
            client.send(message)
            while not self.is_over:
                try:
                    return client.recv(rpc.DATAGRAM)
                except TimeoutError:
                    pass
        return None


def standing(name):
    """The rows and the generation of the version that the file of a map stands for."""
    words = [server.PROGRAM, "check", f"lab/{name.decode()}"]
    check = subprocess.run(words, capture_output=True, text=True, check=False)
    told = check.stdout.split()
    if check.returncode != 0 or told[5] != "rows":
        raise Wrong(f"the file of {name}: status {check.returncode}, {check.stdout}{check.stderr}")
    return int(told[6]) - ROWS, int(told[8])


def look(load, before):
    """What each file stands for behind a kill: the version before, or the one that was being made."""
    found = {}
    for name, (answered, last, pending) in load.made.items():
        text, generation = before[name]
        text = text if last is None else last
        old, new = (text, generation + answered), (pending, generation + answered + 1)
        found[name] = standing(name)
        if found[name] not in (old, new):
            raise Wrong(f"{name} stands for {found[name]}, and not for {old} or {new}")
    return found


def take_all(served, standing_texts):
    """Has a server that was started give each map, whole."""
    for name, (text, _) in standing_texts.items():
        with served.connect() as connection, connection.makefile("rb") as stream:
            connection.sendall(rpc.record(server.all_call(1, name)))
            reply = rpc.read_message(stream)
            if reply is None or rpc.results(reply, 1) != WHOLE[name][text]:
                raise Wrong(f"{name} isn't the one that its file stands for")


def run(kills):
    """Kills so many servers."""
    os.mkdir("ypsrc")
    for name in server.KINDS:
        text = b"".join(line + b"\n" for line in LINES[0])
        words = [server.PROGRAM, "build", "m1", f"lab/{name.decode()}"]
        subprocess.run(words, input=text, stdout=subprocess.DEVNULL, check=True)
    stands = {name: standing(name) for name in server.KINDS}
    port = server.free_port()
    calls = made = new = 0
    for kill in range(1, kills + 1):
        served = server.Server(".", port, WORKERS)
        try:
            take_all(served, stands)
            load = Load(served)
            time.sleep(random.uniform(0, LONGEST))
            ended = load.kill()
        finally:
            served.kill()
        if load.wrong or ended != -9:
            raise Wrong(f"kill {kill}: status {ended}, {load.wrong}")
        answered = {name: stands[name][1] + load.made[name][0] for name in server.KINDS}
        stands = look(load, stands)
        new += sum(stands[name][1] > answered[name] for name in server.KINDS)
        calls += load.calls
        made += sum(answered for answered, _, _ in load.made.values())
    print(f"{kills} kills after {calls} calls, {made} of MAKE: {new} files with the version that was being made,")
    print(f"{kills * len(server.KINDS) - new} with the one before, 0 wrong")


def main(kills=100, seed=None):
    seed = random.randrange(1 << 32) if seed is None else seed
    print(f"seed {seed}")
    random.seed(int(seed))
    server.build()
    with tempfile.TemporaryDirectory() as room:
        os.chdir(room)
        try:
            run(int(kills))
        except Wrong as error:
            sys.exit(f"wrong: {error}")


if len(sys.argv) > 3:
    sys.exit(__doc__)
main(*sys.argv[1:])
