"""Calls of RPC and their replies, for the scripts here that are clients (RFC 5531, sections 8 to 11).

A program is a pair of its number and its version. A message is what a datagram holds; a record is a message with the
words of its fragments, as a stream has it.
"""

import socket
import time

YP = (100004, 2)
MAKE_PROGRAM = (536890953, 1)
PORT_MAPPER = (100000, 2)
NULL, MATCH, XFR, ALL, ORDER = 0, 3, 6, 8, 10
MAKE = 1
SUCCESS = bytes.fromhex("00000001 00000000 00000000 00000000 00000000")
LAST = 0x80000000
DATAGRAM = 65536
AGAIN = 0.2


def word(number):
    return number.to_bytes(4, "big")


def opaque(data):
    """Bytes with their length in front, and zeros behind them up to a whole word."""
    return word(len(data)) + data + bytes(-len(data) % 4)


def call(xid, program, procedure, arguments=b""):
    """The message of a call, with an empty credential and verifier."""
    number, version = program
    return b"".join(map(word, (xid, 0, 2, number, version, procedure, 0, 0, 0, 0))) + arguments


def record(message):
    """The message as a record of one fragment."""
    return word(LAST | len(message)) + message


def read_fragment(stream):
    """The next fragment of a stream as it came, with the word in front of it, or no bytes at its end."""
    head = stream.read(4)
    return head + stream.read(int.from_bytes(head, "big") & ~LAST)


def read_record(stream):
    """The next record of a stream as it came, or what is left of it, with the words of its fragments."""
    parts = []
    while fragment := read_fragment(stream):
        parts.append(fragment)
        if fragment[0] & 0x80:
            break
    return b"".join(parts)


def read_message(stream):
    """The message of the next record of a stream, or nothing where the stream ends before it is whole."""
    parts = []
    while len(head := stream.read(4)) == 4:
        size = int.from_bytes(head, "big")
        part = stream.read(size & ~LAST)
        parts.append(part)
        if len(part) < size & ~LAST:
            return None
        if size & LAST:
            return b"".join(parts)
    return None


def results(reply, xid):
    """The results in a reply to the call of this number, or nothing where it is another reply or a refusal."""
    if reply[:24] != word(xid) + SUCCESS:
        return None
    return reply[24:]


def ask(message, to, seconds=20, again=AGAIN):
    """Sends a datagram again and again until one with its number comes back, and gives that, or nothing.

    A port that isn't open yet refuses, or loses, what is sent there.
    """
    end = time.monotonic() + seconds
    with socket.socket(socket.AF_INET, socket.SOCK_DGRAM) as client:
        client.settimeout(again)
        client.connect(to)
        while time.monotonic() < end:
            try:
                client.send(message)
                reply = client.recv(DATAGRAM)
                if reply[:4] == message[:4]:
                    return reply
            except (TimeoutError, ConnectionRefusedError):
                time.sleep(AGAIN / 10)
    return None


def words(data):
    """The bytes as words of eight digits."""
    digits = data.hex()
    return " ".join(digits[at : at + 8] for at in range(0, len(digits), 8))
