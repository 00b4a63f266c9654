#!/usr/bin/env python3
"""Sends the packets of the smallest message to a filter that lets all mail go on, and compares its replies.

    python3 examples/send_smallest.py 127.0.0.1:8891

They are sent twice, each time on a connection of its own: first as a mail server does, which sends nothing more before
the reply has come, and then all 81 bytes at once. An address with a slash is the path of a Unix socket. It prints
`2 connections, 52 bytes each`, or what was replied that should not be, with status 1.
"""
import socket
import sys

CONTINUE = '0000000163'
# Each packet to the filter, and its reply.
CONVERSATION = [
    ('0000000d4f00000006000000ff000ff7ff', '0000000d4f000000060000000000000000'),
    ('0000000c43682e6578616d706c650055', CONTINUE),
    ('00000006486d61696c00', CONTINUE),
    ('000000054d61407800', CONTINUE),
    ('000000055262407900', CONTINUE),
    ('0000000154', CONTINUE),
    ('000000014e', CONTINUE),
    ('0000000145', CONTINUE),
    ('0000000151', ''),
]
SECONDS = 10


def connected(address):
    """A socket that is connected to the address."""
    if '/' in address:
        connection = socket.socket(socket.AF_UNIX)
        connection.settimeout(SECONDS)
        connection.connect(address)
        return connection
    host, _, port = address.rpartition(':')
    return socket.create_connection((host, int(port)), SECONDS)


def received(connection, count):
    """The next so many bytes, or fewer where the filter ends before."""
    reply = b''
    while len(reply) < count:
        piece = connection.recv(count - len(reply))
        if not piece:
            break
        reply += piece
    return reply


def wrong_reply(address, conversation):
    """Sends these on one connection, and answers a reply that should not be, or None."""
    with connected(address) as connection:
        for packet, expected in conversation:
            connection.sendall(bytes.fromhex(packet))
            reply = received(connection, len(bytes.fromhex(expected)))
            if reply.hex() != expected:
                return '%s was replied to by %s, and not by %s' % (packet, reply.hex() or 'nothing', expected)
        more = connection.recv(1)
    return 'more came after the end: ' + more.hex() if more else None


def main():
    if len(sys.argv) != 2:
        sys.exit(__doc__)
    at_once = [tuple(''.join(parts) for parts in zip(*CONVERSATION))]
    for conversation in (CONVERSATION, at_once):
        wrong = wrong_reply(sys.argv[1], conversation)
        if wrong is not None:
            sys.exit(wrong)
    print('2 connections, %d bytes each' % len(bytes.fromhex(at_once[0][1])))


if __name__ == '__main__':
    main()
