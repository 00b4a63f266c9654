#!/usr/bin/env python3
"""Measures what a filter that asks for as many edits as it can costs `milter_tool mta`: for lists of edits of 16 MiB, the
most that a message takes, and of a tenth of that, of the shortest edits of each kind and of mixed ones, the seconds of
processor time, the least of three runs, and the most memory of `mta`. Status 1 where a list takes more than 5 seconds
or 600 MiB, or the whole list more than fifteen times what its tenth takes.

    python3 bench/hostile.py PROGRAM
"""
import os
import random
import socket
import struct
import subprocess
import sys
import tempfile
import threading

MIB = 1048576
# Less than 16 MiB by what is in the list besides.
GREATEST = 16 * MIB - 64
MOST_SECONDS = 5
MOST_MIB = 600
MOST_GROWTH = 15
# How often each list is played.
RUNS = 3
# Less time than this is mostly that of the program's start.
SHORTEST = 0.05
SESSION = ('client U "mail.example.org"\nhelo "mail.example.org"\nmessage\nsender "<ada@example.org>"\n'
           'recipient "<bob@example.net>"\nheader "A" ""\nend\n')
VERSION, ACTIONS, PROTOCOL = 6, 0xff, 0
# What is printed of a message after its edits.
EDITED = 'message 1 filter released'
UNANSWERED = b'DAQ'


def packet(code, payload=b''):
    return struct.pack('>I', len(payload) + 1) + code + payload


def add(name=b'A', value=b''):
    return packet(b'h', name + b'\0' + value + b'\0')


def insert(index=0, name=b'A', value=b''):
    return packet(b'i', struct.pack('>I', index) + name + b'\0' + value + b'\0')


def change(index=1, name=b'A', value=b''):
    return packet(b'm', struct.pack('>I', index) + name + b'\0' + value + b'\0')


def short_name(number):
    """A name that no other number has, whatever the case."""
    digits = b'abcdefghijklmnopqrstuvwxyz0123456789'
    name = b''
    while number or not name:
        number, digit = divmod(number, len(digits))
        name += digits[digit:digit + 1]
    return name


RECIPIENT, ABSENT_RECIPIENT = packet(b'+', b'\0'), packet(b'-', b'x\0')
# Each makes the edits of a step; `at` is the number of the step.
KINDS = {
    'adds': lambda at: add(),
    'inserts at the front': lambda at: insert(),
    'inserts anywhere': lambda at: insert(random.randrange(at + 1)),
    'inserts anywhere, and one change': lambda at: insert(random.randrange(at + 1)) + (b'' if at else change(name=b'B')),
    'inserts anywhere, and changes of 2,000 names': lambda at: insert(random.randrange(at + 1)) + (
        change(name=short_name(at)) if at < 2000 else b''),
    'changes of no field': lambda at: change(name=b'B'),
    'changes of one field': lambda at: change(value=b'v'),
    'adds and changes of no field': lambda at: add() + change(name=b'B'),
    'inserts and changes anywhere': lambda at: insert(random.randrange(at + 1)) + change(
        1 + random.randrange(at + 1), value=b'v'),
    'inserts and deletions anywhere': lambda at: insert(random.randrange(at + 1)) * 2 + change(
        1 + random.randrange(at + 1)),
    'adds of names of their own, and changes': lambda at: add(short_name(at)) + change(
        name=short_name(at).upper(), value=b'v'),
    'changes of names of their own': lambda at: change(name=short_name(at)),
    'new recipients': lambda at: RECIPIENT,
    'deletions of no recipient': lambda at: ABSENT_RECIPIENT,
    'recipients, added and deleted': lambda at: RECIPIENT + ABSENT_RECIPIENT,
    'all kinds': lambda at: add(short_name(at % 1000)) + insert(random.randrange(at + 1)) + change(
        1 + random.randrange(at + 1), value=b'v') + change(1, short_name(at % 1000)) + RECIPIENT + ABSENT_RECIPIENT,
}


def of_size(size, kind):
    """A list of at most so many bytes of the edits of a kind."""
    random.seed(0)
    edits, left, at = [], size, 0
    while True:
        step = kind(at)
        left -= len(step)
        if left < 0:
            return b''.join(edits)
        edits.append(step)
        at += 1


def received(connection, size):
    """So many bytes of a connection."""
    found = b''
    while len(found) < size:
        more = connection.recv(size - len(found))
        if not more:
            raise EOFError
        found += more
    return found


def serve(listener, edits):
    """One connection: each command goes on, and at the end of the message these edits are asked for."""
    connection, _ = listener.accept()
    with connection:
        while True:
            size, code = struct.unpack('>Ic', received(connection, 5))
            received(connection, size - 1)
            if code == b'Q':
                return
            if code == b'O':
                connection.sendall(packet(b'O', struct.pack('>III', VERSION, ACTIONS, PROTOCOL)))
            elif code not in UNANSWERED:
                connection.sendall((edits if code == b'E' else b'') + packet(b'c'))


def measure(program, folder, edits):
    """Plays the message to such a filter: the seconds of processor time, and the MiB."""
    path, session = os.path.join(folder, 'socket'), os.path.join(folder, 'session')
    with open(session, 'w', encoding='ascii') as file:
        file.write(SESSION)
    with socket.socket(socket.AF_UNIX) as listener:
        listener.bind(path)
        listener.listen()
        filter_end = threading.Thread(target=serve, args=(listener, edits))
        filter_end.start()
        with subprocess.Popen([program, 'mta', 'unix:' + path, session, '--timeout', '3600'],
                              stdout=subprocess.PIPE) as process:
            first = process.stdout.readline().decode().strip()
            while process.stdout.read(MIB):
                pass
            _, status, usage = os.wait4(process.pid, 0)
            process.returncode = status
        filter_end.join()
    os.remove(path)
    if first != EDITED:
        sys.exit('not all edits were made: %s' % first)
    return usage.ru_utime + usage.ru_stime, usage.ru_maxrss / 1024


def least(program, folder, edits):
    """The least seconds and the most MiB of some runs: what else a machine does makes a run longer, and none shorter."""
    runs = [measure(program, folder, edits) for _ in range(RUNS)]
    return min(seconds for seconds, _ in runs), max(mib for _, mib in runs)


def main():
    program, = sys.argv[1:]
    within = True
    with tempfile.TemporaryDirectory() as folder:
        for name, kind in KINDS.items():
            tenth, _ = least(program, folder, of_size(GREATEST // 10, kind))
            whole, mib = least(program, folder, of_size(GREATEST, kind))
            growth = whole / max(tenth, SHORTEST)
            print('%-40s %6.2f s, a tenth %5.2f s: %5.1f times, %6.1f MiB' % (name, whole, tenth, growth, mib), flush=True)
            within &= whole <= MOST_SECONDS and mib <= MOST_MIB and growth <= MOST_GROWTH
    return 0 if within else 1


if __name__ == '__main__':
    sys.exit(main())
