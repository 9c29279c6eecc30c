#!/usr/bin/env python3
"""A server over datagrams that gives fixed replies, for examples: reply.py

It takes a free UDP port of 127.0.0.1, prints it, and goes on in the background. Each line of standard input is a
datagram in hexadecimal words. What is sent to the port is answered by the line that begins with the same word, twice,
but the first datagram is lost. It ends after 30 seconds, or with the last line.
"""

import os
import socket
import sys
import time

SECONDS = 30


def serve(server, replies):
    """Answers each call but the first, until the last reply went out."""
    end = time.monotonic() + SECONDS
    is_lost = True
    while time.monotonic() < end:
        server.settimeout(max(end - time.monotonic(), 0.001))
        call, caller = server.recvfrom(8192)
        if is_lost:
            is_lost = False
            continue
        for reply in replies:
            if reply[:4] == call[:4]:
                server.sendto(reply, caller)
                server.sendto(reply, caller)
        if call[:4] == replies[-1][:4]:
            return


def main():
    replies = [bytes.fromhex(line) for line in sys.stdin if line.strip()]
    with socket.socket(socket.AF_INET, socket.SOCK_DGRAM) as server:
        server.bind(("127.0.0.1", 0))
        print(server.getsockname()[1], flush=True)
        if os.fork() != 0:
            return
        # Who reads the port waits for the end of standard output.
        os.dup2(os.open(os.devnull, os.O_RDWR), 1)
        try:
            serve(server, replies)
        except TimeoutError:
            pass


if len(sys.argv) != 1:
    sys.exit(__doc__)
main()
