#!/usr/bin/env python3
"""Plays several clients on one connection to a filter with the rules of clients.rules: a mail server sends K (QUIT_NC)
between them, which miltertest can't. What the first client had is gone then, and what was negotiated stays.

    python3 tests/interop/clients.py ADDRESS

ADDRESS is as milter_tool takes it. There are two connections, in whole packets and byte by byte. It prints nothing, or
what was replied that should not be, with status 1.
"""
import struct
import sys

import peers

NOTHING = b''


def packet(code, payload=b''):
    """A packet."""
    return struct.pack('>I', 1 + len(payload)) + code + payload


def client(host):
    """The packet of a client."""
    return packet(b'C', host + b'\0' + b'4' + struct.pack('>H', 25) + b'192.0.2.1\0')


CONTINUE, REJECT, TEMPFAIL = packet(b'c'), packet(b'r'), packet(b't')
SENDER, RECIPIENT = packet(b'M', b'<ada@example.org>\0'), packet(b'R', b'<bob@example.net>\0')
# What is sent, and the reply to it.
CONVERSATION = [
    (packet(b'O', struct.pack('>III', 6, 0x1ff, 0x1fffff)), packet(b'O', struct.pack('>III', 6, 0, 0))),
    (packet(b'D', b'Cj\0first\0') + client(b'first.example.org'), CONTINUE),
    (packet(b'H', b'first.example.org\0'), TEMPFAIL),
    (packet(b'K') + client(b'second.example.org'), REJECT),
    (packet(b'K') + client(b'third.example.org'), CONTINUE),
    (packet(b'H', b'third.example.org\0'), CONTINUE),
    (SENDER, CONTINUE),
    (RECIPIENT, CONTINUE),
    (packet(b'K') + packet(b'K'), NOTHING),
    (SENDER, CONTINUE),
    (packet(b'Q'), NOTHING),
]


def received(connection, count):
    """The next so many bytes, or fewer where the filter ends before."""
    reply = b''
    while len(reply) < count:
        piece = connection.recv(count - len(reply))
        if not piece:
            break
        reply += piece
    return reply


def play(address, cut):
    """Plays a connection, each part in pieces of so many bytes."""
    with peers.connected(address) as connection:
        for sent, expected in CONVERSATION:
            for at in range(0, len(sent), cut):
                connection.sendall(sent[at:at + cut])
            reply = received(connection, len(expected))
            if reply != expected:
                sys.exit('%r was replied to by %r, not by %r' % (sent, reply, expected))
        if connection.recv(1):
            sys.exit('more came after the last packet')


if __name__ == '__main__':
    play(sys.argv[1], 65536)
    play(sys.argv[1], 1)
