#!/usr/bin/env python3
"""Is many callers at once that stop in the middle of a map: hold.py PORT CALLERS DOMAIN MAP COMMAND [WORD ..]

Each caller asks the server at 127.0.0.1, that port, for the whole map by ALL, and reads the first bytes of the reply
alone. Its connection takes few bytes ahead, so the server has to wait with the others where the map is large. Once each
has its first bytes COMMAND is run, and then each reads on to the end. The values of caller N are lines of the file
caller.N, in the order of the reply. It ends with status 1 where a reply isn't whole, or not one of ALL.
"""

import socket
import subprocess
import sys

sys.dont_write_bytecode = True
import rpc

SECONDS = 30
# A connection with short segments and little room on this side has little room on the other side, too.
SEGMENT, ROOM = 536, 4096
MORE_ROOM = 65536


def calls(port, xid, domain, name):
    """A connection on which the map was asked for, and the first bytes of the reply."""
    connection = socket.socket()
    connection.setsockopt(socket.IPPROTO_TCP, socket.TCP_MAXSEG, SEGMENT)
    connection.setsockopt(socket.SOL_SOCKET, socket.SO_RCVBUF, ROOM)
    connection.settimeout(SECONDS)
    connection.connect(("127.0.0.1", port))
    arguments = rpc.opaque(domain.encode()) + rpc.opaque(name.encode())
    connection.sendall(rpc.record(rpc.call(xid, rpc.YP, rpc.ALL, arguments)))
    stream = connection.makefile("rb")
    stream.peek()
    return connection, stream


def values(reply, xid):
    """The values of the rows in a reply to ALL."""
    rows = rpc.results(reply, xid)
    at = 0

    def number():
        nonlocal at
        at += 4
        return int.from_bytes(rows[at - 4 : at], "big")

    def data():
        nonlocal at
        size = number()
        start = at
        at += (size + 3) // 4 * 4
        return rows[start : start + size]

    while number():
        if number() != 1:
            raise ValueError("an item without a row")
        yield data()
        data()
    if at != len(rows):
        raise ValueError("more than the rows")


def main(port, callers, domain, name, *command):
    streams = [calls(int(port), xid, domain, name) for xid in range(1, int(callers) + 1)]
    subprocess.run(command, check=True)
    for xid, (connection, stream) in enumerate(streams, 1):
        connection.setsockopt(socket.SOL_SOCKET, socket.SO_RCVBUF, MORE_ROOM)
        reply = rpc.read_message(stream)
        if reply is None:
            sys.exit(f"hold.py: the reply to caller {xid} isn't whole")
        with open(f"caller.{xid}", "wb") as out:
            out.writelines(value + b"\n" for value in values(reply, xid))


if len(sys.argv) < 6:
    sys.exit(__doc__)
main(*sys.argv[1:])
