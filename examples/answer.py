#!/usr/bin/env python3
"""A server for examples, which gives fixed bytes and doesn't look at what it is asked.

    answer.py FILE [FILE ..]

It listens on a free port of 127.0.0.1, prints that port, and goes on in the
background. Each connection in turn is given the bytes of a FILE, one for each, and
their end, and is closed once the other side has closed it. Whatever is left after 60
seconds is ended.
"""

import os
import socket
import sys
import time

SECONDS = 60


def give(connection, answer):
    """Gives the answer, and waits for the end of the other side, which may come early."""
    try:
        connection.sendall(answer)
        connection.shutdown(socket.SHUT_WR)
        while connection.recv(65536):
            pass
    except (BrokenPipeError, ConnectionResetError):
        pass


def serve(listener, answers):
    """Serves one connection after the other."""
    end = time.monotonic() + SECONDS
    for answer in answers:
        listener.settimeout(max(end - time.monotonic(), 0.001))
        connection, _ = listener.accept()
        connection.settimeout(max(end - time.monotonic(), 0.001))
        with connection:
            give(connection, answer)


def content(name):
    with open(name, "rb") as file:
        return file.read()


def main(*names):
    answers = [content(name) for name in names]
    with socket.create_server(("127.0.0.1", 0)) as listener:
        print(listener.getsockname()[1], flush=True)
        if os.fork() != 0:
            return
        # Who reads the port waits for the end of standard output.
        os.dup2(os.open(os.devnull, os.O_RDWR), 1)
        try:
            serve(listener, answers)
        except TimeoutError:
            sys.exit("answer.py: out of time")


if len(sys.argv) < 2:
    sys.exit(__doc__)
main(*sys.argv[1:])
