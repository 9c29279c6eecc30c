"""A `yp serve` for the scripts outside the gate, which they start, look at and end."""

import os
import random
import re
import socket
import subprocess

import rpc

TOP = os.path.dirname(os.path.dirname(os.path.realpath(__file__)))
PROGRAM = os.path.join(TOP, "crates/yp/out/yp")  # as ./yp runs it, so that a signal reaches the program itself
HOST = "127.0.0.1"
LIFE = "forever"  # connections, and turns: as many as there may be
DOMAIN = b"lab"
KINDS = {b"hosts.byname": 5, b"hosts.byaddr": 6}

# Ports that the system gives to nobody by itself.
PORTS = range(10000, 32768)


def build():
    """Builds the program, where it isn't built yet or a source is newer."""
    subprocess.run([os.path.join(TOP, "yp"), "once", "domain/map"], stdin=subprocess.DEVNULL, check=True)


def is_free(port, kind):
    """Whether nobody has this port."""
    with socket.socket(socket.AF_INET, kind) as tried:
        try:
            tried.bind(("0.0.0.0", port))
            return True
        except OSError:
            return False


def free_port():
    """A port that is free for UDP and for TCP."""
    while True:
        port = random.choice(PORTS)
        if is_free(port, socket.SOCK_DGRAM) and is_free(port, socket.SOCK_STREAM):
            return port


def of_map(name, *further):
    """The arguments of a call for a map: the domain, the map, and a key where there is one."""
    return b"".join(map(rpc.opaque, (DOMAIN, name) + further))


def match_call(xid, key):
    return rpc.call(xid, rpc.YP, rpc.MATCH, of_map(b"hosts.byname", key))


def all_call(xid, name):
    return rpc.call(xid, rpc.YP, rpc.ALL, of_map(name))


def make_call(xid, name):
    return rpc.call(xid, rpc.MAKE_PROGRAM, rpc.MAKE, rpc.opaque(DOMAIN) + rpc.word(KINDS[name]))


def datagrams(address):
    """A socket for datagrams to this address, which waits for a moment."""
    client = socket.socket(socket.AF_INET, socket.SOCK_DGRAM)
    client.settimeout(0.1)
    client.connect(address)
    return client


def value_of(value):
    """The results of MATCH that found this value."""
    return rpc.word(1) + rpc.opaque(value)


class Server:
    """A server of the maps in the folder ROOM, and of what FURTHER words name, which has answered a datagram."""

    def __init__(self, room, port, workers, further=()):
        self.address = (HOST, port)
        stores = [f"{DOMAIN.decode()}/{name.decode()}" for name in KINDS]
        words = [PROGRAM, "serve", "m1", port, workers, LIFE, LIFE, *stores, *further]
        self.process = subprocess.Popen(list(map(str, words)), cwd=room)
        if rpc.ask(rpc.call(1, rpc.YP, rpc.NULL), self.address, 60) is None:
            self.kill()
            raise RuntimeError("the server answers nothing")

    def connect(self, seconds=30):
        return socket.create_connection(self.address, seconds)

    def is_running(self):
        return self.process.poll() is None

    def used(self):
        """What the server has of the system: the KiB of its memory, its threads, and its descriptors."""
        with open(f"/proc/{self.process.pid}/status", encoding="ascii") as file:
            status = file.read()
        memory, threads = (int(re.search(rf"^{word}:\s+(\d+)", status, re.M)[1]) for word in ("VmRSS", "Threads"))
        return memory, threads, len(os.listdir(f"/proc/{self.process.pid}/fd"))

    def kill(self):
        self.process.kill()
        return self.process.wait()
