#!/usr/bin/env python3
"""Plays messages on a filter, as a mail server does that sends nothing more before the reply has come.

    python3 bench/filter.py CONNECTIONS COUNT BODY SOCKET|- COMMAND..

starts the command, connects to its Unix socket, or with `-` hands it a socket as standard input and output, and plays
so many messages on each of so many connections, one after another: sixteen commands each, with ten header fields and a
body of so many bytes (more than 65,535 are more commands). The command has to end after them; with a `+` after
CONNECTIONS it is ended. What it prints is dropped. It prints the nanoseconds that the messages took, and those of
processor time that the filter took in all.
"""
import resource
import socket
import struct
import subprocess
import sys
import time

FIELDS = [
    ('Received', 'from mail.example.org (mail.example.org [192.0.2.17])\n\t'
                 'by mx.example.net with ESMTPS id 4BxYz12345'),
    ('From', 'Ada <ada@example.org>'), ('To', 'Bob <bob@example.net>'),
    ('Subject', 'A message of an ordinary length, to be measured'), ('Date', 'Mon, 23 Nov 2026 14:00:00 +0000'),
    ('Message-ID', '<20261123140000.1234@example.org>'), ('MIME-Version', '1.0'),
    ('Content-Type', 'text/plain; charset=utf-8'), ('Content-Transfer-Encoding', '8bit'), ('User-Agent', 'Example/1.0')]
CHUNK = 65535


def packet(code, payload=b''):
    """A packet."""
    return struct.pack('>I', 1 + len(payload)) + code + payload


def strings(*texts):
    """Texts, each with its NUL."""
    return b''.join(text.encode() + b'\0' for text in texts)


def opening():
    """The packets before the first message."""
    yield packet(b'O', struct.pack('>III', 6, 0x1ff, 0x1fffff))
    yield packet(b'C', strings('mail.example.org') + b'4' + struct.pack('>H', 12345) + strings('192.0.2.17'))
    yield packet(b'H', strings('mail.example.org'))


def message(size):
    """The packets of a message whose body has so many bytes."""
    yield packet(b'M', strings('<ada@example.org>', 'SIZE=%d' % size))
    yield packet(b'R', strings('<bob@example.net>'))
    yield packet(b'T')
    for field in FIELDS:
        yield packet(b'L', strings(*field))
    yield packet(b'N')
    body = bytes((7 * at + 3) % 251 + 1 for at in range(min(size, CHUNK))) * (size // CHUNK + 1)
    for at in range(0, size, CHUNK):
        yield packet(b'B', body[at:min(at + CHUNK, size)])
    yield packet(b'E')


def connected(path):
    """A connection to the Unix socket, once a filter listens there."""
    connection = socket.socket(socket.AF_UNIX)
    while True:
        try:
            connection.connect(path)
            return connection
        except (FileNotFoundError, ConnectionRefusedError):
            time.sleep(0.05)


def started(path, command):
    """The filter, and the first connection to it."""
    if path == '-':
        connection, other = socket.socketpair()
        process = subprocess.Popen(command, stdin=other, stdout=other)
        other.close()
        return process, connection
    process = subprocess.Popen(command, stdout=subprocess.DEVNULL)
    return process, connected(path)


def play(connection, packets):
    """Sends these packets, and receives the reply to each before the next."""
    for sent in packets:
        connection.sendall(sent)
        reply = connection.recv(CHUNK)
        if sent[4:5] != b'O' and reply not in (packet(b'c'), packet(b'a')):
            sys.exit('%r was replied to by %r' % (sent[:50], reply))


def play_messages(connection, count, packets):
    """Plays so many messages on a connection, and waits until the filter closes it; answers their nanoseconds."""
    play(connection, opening())
    start = time.monotonic_ns()
    for _ in range(count):
        play(connection, packets)
    took = time.monotonic_ns() - start
    connection.sendall(packet(b'Q'))
    connection.recv(CHUNK)
    connection.close()
    return took


def main():
    connections, path = int(sys.argv[1].removesuffix('+')), sys.argv[4]
    count, packets = int(sys.argv[2]), list(message(int(sys.argv[3])))
    process, connection = started(path, sys.argv[5:])
    took = play_messages(connection, count, packets)
    for _ in range(1, connections):
        took += play_messages(connected(path), count, packets)
    if sys.argv[1].endswith('+'):
        process.terminate()
        process.wait()
    elif process.wait() != 0:
        sys.exit('the filter ended with status %d' % process.returncode)
    used = resource.getrusage(resource.RUSAGE_CHILDREN)
    print(took, round(1e9 * (used.ru_utime + used.ru_stime)))


if __name__ == '__main__':
    main()
