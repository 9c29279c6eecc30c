#!/usr/bin/env python3
"""A super-server for examples: runs a command for each connection, as inetd does.

    serve.py COUNT COMMAND [WORD ..]

It listens on a free port of 127.0.0.1, prints that port, and goes on in the
background. Each connection in turn is the standard input and output of a run of the
command, for COUNT connections. A word {peer} stands for the address and port of the
other side. What a run writes to standard error, and its status where that isn't 0,
come out on standard error. Whatever is left after 60 seconds is ended.
"""

import os
import socket
import subprocess
import sys
import time

SECONDS = 60


def serve(listener, count, command):
    """Serves one connection after the other."""
    end = time.monotonic() + SECONDS

    def left():
        return max(end - time.monotonic(), 0.001)

    for number in range(1, count + 1):
        listener.settimeout(left())
        connection, (host, port) = listener.accept()
        words = [word.replace("{peer}", f"{host}:{port}") for word in command]
        with connection:
            run = subprocess.run(words, stdin=connection, stdout=connection, timeout=left(), check=False)
        if run.returncode != 0:
            print(f"connection {number}: status {run.returncode}", file=sys.stderr)


def main(count, *command):
    with socket.create_server(("127.0.0.1", 0)) as listener:
        print(listener.getsockname()[1], flush=True)
        if os.fork() != 0:
            return
        # Who reads the port waits for the end of standard output.
        os.dup2(os.open(os.devnull, os.O_RDWR), 1)
        try:
            serve(listener, int(count), command)
        except (TimeoutError, subprocess.TimeoutExpired):
            sys.exit("serve.py: out of time")


if len(sys.argv) < 3:
    sys.exit(__doc__)
main(*sys.argv[1:])
