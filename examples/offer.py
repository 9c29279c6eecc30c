#!/usr/bin/env python3
"""A server of a domain for examples: offer.py FILE

It takes a free UDP port of 127.0.0.1, prints it, and goes on in the background. Whatever is sent there is answered as
a call of DOMAIN_NONACK of a domain that it serves: its number, and TRUE. Once it has answered the first time FILE is
there, with what came, as hexadecimal words. It ends after 30 seconds.
"""

import os
import socket
import sys
import time

sys.dont_write_bytecode = True
import rpc

SECONDS = 30
TRUE = bytes.fromhex("00000001 00000000 00000000 00000000 00000000 00000001")


def serve(server, file):
    """Answers each call."""
    end = time.monotonic() + SECONDS
    while time.monotonic() < end:
        server.settimeout(max(end - time.monotonic(), 0.001))
        call, caller = server.recvfrom(8192)
        server.sendto(call[:4] + TRUE, caller)
        if not os.path.exists(file):
            with open(f"{file}.part", "w", encoding="ascii") as out:
                out.write(rpc.words(call) + "\n")
            os.rename(f"{file}.part", file)


def main(file):
    with socket.socket(socket.AF_INET, socket.SOCK_DGRAM) as server:
        server.bind(("127.0.0.1", 0))
        print(server.getsockname()[1], flush=True)
        if os.fork() != 0:
            return
        # Who reads the port waits for the end of standard output.
        os.dup2(os.open(os.devnull, os.O_RDWR), 1)
        try:
            serve(server, file)
        except TimeoutError:
            pass


if len(sys.argv) != 2:
    sys.exit(__doc__)
main(sys.argv[1])
