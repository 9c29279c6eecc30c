#!/usr/bin/env python3
"""Sends calls to a server on 127.0.0.1, each once the reply to the one before has come.

    ask.py PORT <CALLS >REPLIES

CALLS are records (RFC 5531, section 11) of calls that have replies, and so are
REPLIES. It ends with status 1 where a reply doesn't come within 10 seconds.
"""

import socket
import sys

sys.dont_write_bytecode = True
import rpc

SECONDS = 10


def main(port):
    with socket.create_connection(("127.0.0.1", int(port)), SECONDS) as connection:
        replies = connection.makefile("rb")
        while call := rpc.read_record(sys.stdin.buffer):
            connection.sendall(call)
            try:
                reply = rpc.read_record(replies)
            except TimeoutError:
                reply = b""
            if not reply:
                sys.exit(f"ask.py: no reply to the call of xid {call[4:8].hex()}")
            sys.stdout.buffer.write(reply)


if len(sys.argv) != 2:
    sys.exit(__doc__)
main(sys.argv[1])
