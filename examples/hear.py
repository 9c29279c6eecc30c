#!/usr/bin/env python3
"""Hears one datagram for examples: hear.py FILE

It takes a free UDP port of 127.0.0.1, prints it, and goes on in the background. The first datagram that comes is written
to FILE as hexadecimal words, a line, once it is whole. Where none comes within 20 seconds, FILE is left away.
"""

import os
import socket
import sys

sys.dont_write_bytecode = True
import rpc

SECONDS = 20


def main(file):
    with socket.socket(socket.AF_INET, socket.SOCK_DGRAM) as heard:
        heard.bind(("127.0.0.1", 0))
        print(heard.getsockname()[1], flush=True)
        if os.fork() != 0:
            return
        # Who reads the port waits for the end of standard output.
        os.dup2(os.open(os.devnull, os.O_RDWR), 1)
        heard.settimeout(SECONDS)
        try:
            data = heard.recv(8192)
        except TimeoutError:
            sys.exit("hear.py: nothing came")
        with open(f"{file}.part", "w", encoding="ascii") as out:
            out.write(rpc.words(data) + "\n")
        os.rename(f"{file}.part", file)


if len(sys.argv) != 2:
    sys.exit(__doc__)
main(sys.argv[1])
