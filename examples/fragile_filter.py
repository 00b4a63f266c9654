#!/usr/bin/env python3
"""A filter with two faults, by which `milter_tool probe` shows what it finds.

    python3 examples/fragile_filter.py 127.0.0.1:8891 &
    milter_tool probe inet:8891@127.0.0.1 examples/policy.session

It refuses messages for more than two recipients, and serves one connection after another. Its faults are:

  1. where a connection ends within a packet it dies;
  2. where a message is given up it goes on counting recipients, and refuses the next message for those of both.

An address with a slash is the path of a Unix socket.
"""
import os
import socket
import struct
import sys

# The most recipients of a message.
RECIPIENTS = 2
# The longest packet, without its length.
LENGTH_MAX = 65536
# The commands that are answered, but for the offer and the end of a message.
ANSWERED = b'CHMRTLNBU'
CONTINUE, REJECT = b'c', b'r'


def listening(address):
    """A socket that listens at the address."""
    if '/' not in address:
        host, _, port = address.rpartition(':')
        return socket.create_server((host, int(port)))
    listener = socket.socket(socket.AF_UNIX)
    if os.path.exists(address):
        os.unlink(address)
    listener.bind(address)
    listener.listen()
    return listener


def packets_of(stream):
    """The packets that come, each as its code and its payload, up to the end of the connection or a wrong length."""
    while head := stream.read(4):
        length, = struct.unpack('>I', head)  # the first fault: an end within the length ends the program ..
        if not 0 < length <= LENGTH_MAX:
            return
        content = stream.read(length)
        if len(content) < length:
            raise EOFError('the connection ended within a packet')  # .. and one within the rest
        yield content[:1], content[1:]


def reply_to(code, recipients):
    """The reply to a command, or none."""
    if code == b'O':
        return b'O' + struct.pack('>III', 2, 0, 0)
    if code == b'E':
        return REJECT if recipients > RECIPIENTS else CONTINUE
    return CONTINUE if code in ANSWERED else None


def serve(connection):
    """Answers the commands of a connection."""
    recipients = 0
    with connection, connection.makefile('rb') as stream:
        for code, _ in packets_of(stream):
            if code == b'Q':
                return
            recipients += code == b'R'
            reply = reply_to(code, recipients)
            if code in (b'E', b'K'):  # the second fault: an abort, A, is missing here
                recipients = 0
            if reply is not None:
                connection.sendall(struct.pack('>I', len(reply)) + reply)


def main():
    if len(sys.argv) != 2:
        sys.exit(__doc__)
    with listening(sys.argv[1]) as listener:
        while True:
            connection, _ = listener.accept()
            try:
                serve(connection)
            except ConnectionError:
                pass


if __name__ == '__main__':
    main()
