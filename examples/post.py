#!/usr/bin/env python3
"""A client over datagrams for examples: post.py [PORT [AGAIN]]

With a PORT each line of standard input is a datagram in hexadecimal words. It is sent to that port of 127.0.0.1,
again after each AGAIN seconds, or 0.2, until a reply comes, and the reply is written as words, a line. Where none
comes within 20 seconds, it ends with status 1. Without a PORT it prints a port that is free for UDP and for TCP.
"""

import sys

sys.dont_write_bytecode = True
import rpc
import server


def main(port, again=rpc.AGAIN):
    for line in sys.stdin:
        reply = rpc.ask(bytes.fromhex(line), ("127.0.0.1", int(port)), again=float(again))
        if reply is None:
            sys.exit("post.py: nothing came")
        print(rpc.words(reply))


if len(sys.argv) > 3:
    sys.exit(__doc__)
if len(sys.argv) == 1:
    print(server.free_port())
else:
    main(*sys.argv[1:])
