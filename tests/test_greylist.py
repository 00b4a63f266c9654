#!/usr/bin/env python3
"""Speaks milter to examples/python/greylist.py over TCP and over Unix sockets: a first try is deferred, a later one
passes, also after a restart; networks, senders and recipients count as they are to; what the allow list has passes;
connections at once; and a database that is locked, damaged, in no folder, or on a full file system, in which no mail
passes that wasn't known. The library for C is proved and built where it isn't there, or it is made of the archive that
is the argument.

Counted are the runs.
"""
import contextlib
import os
import resource
import signal
import sqlite3
import struct
import subprocess
import sys
import tempfile
import time

from lib import c_library, c_plays, checks, packets, programs, serving
from lib.checks import checked, expect
from lib.conversations import CONTINUE, OFFER, QUIT, options, packet

# What it negotiates: connect, sender and recipient are sent, and only the recipient and the end are answered. A stage
# that isn't sent may have the bit by which it isn't answered too, as HELO has.
OPTIONS = options(0, 0x02 | 0x2000 | 0x200 | 0x20 | 0x40 | 0x10 | 0x100 | 0x1000 | 0x4000)
TEMPFAIL = packet(b't')
DELAY = 2


def deferred(seconds):
    """The reply that defers mail for so many seconds."""
    return packet(b'y', b'451 4.7.1 Greylisted, try again in %d seconds' % seconds)


class Greylist:
    """A run of the program."""

    def __init__(self, program, kind, folder, database, *words, delay=DELAY, limit=None):
        self.at, address = serving.place_of(kind, folder)
        self.process = subprocess.Popen(
            [*program, '--listen', address, '--database', database, '--delay', str(delay), *words],
            bufsize=0, stdin=subprocess.DEVNULL, stdout=subprocess.PIPE, stderr=subprocess.PIPE, preexec_fn=limit)

    def __enter__(self):
        return self

    def __exit__(self, *_):
        self.process.kill()
        self.errors = self.process.communicate()[1]

    def connected(self):
        """A connection, made as soon as the program listens."""
        return serving.connected(self.at, lambda: self.process.poll() is not None)


def client(address, family=b'4', host=b'mail.example'):
    """The packet of a client."""
    return packets.packet_of(b'C' + host + b'\0' + family + struct.pack('>H', 25) + address + b'\0')


def mail_from(sender):
    """The packet of a sender."""
    return packet(b'M', sender)


def expect_reply(connection, recipient, *replies):
    """The reply to a recipient is one of these."""
    connection.sendall(packet(b'R', recipient))
    head = serving.received(connection, 4)
    found = head + serving.received(connection, struct.unpack('>I', head)[0]) if len(head) == 4 else head
    expect('reply to ' + recipient.decode(), found, found if found in replies else list(replies))


@contextlib.contextmanager
def opened(served, address=b'192.0.2.7', sender=b'<ada@example.org>', **client_words):
    """A connection with a client and a sender."""
    with served.connected() as connection:
        connection.sendall(OFFER)
        serving.expect_replies(connection, OPTIONS)
        connection.sendall(client(address, **client_words) + mail_from(sender))
        yield connection
        connection.sendall(QUIT)
        serving.expect_closed(connection)


def try_once(served, *replies, recipient=b'<brook@example.net>', **words):
    """One try, which has one of these replies."""
    with opened(served, **words) as connection:
        expect_reply(connection, recipient, *replies)


FIRST = [deferred(DELAY)]
WAITS = [deferred(seconds) for seconds in range(1, DELAY + 1)]


def tries(program, kind, folder, database):
    """A first try is deferred and a second one passes, of the same network, in any case of letters."""
    with Greylist(program, kind, folder, database) as served:
        try_once(served, *FIRST)
        try_once(served, *WAITS, address=b'192.0.2.200')
        try_once(served, *FIRST, address=b'192.0.3.7')
        try_once(served, *FIRST, sender=b'<eve@example.org>')
        try_once(served, *FIRST, recipient=b'<cleo@example.net>')
        try_once(served, *FIRST, address=b'2001:db8::1', family=b'6')
        try_once(served, *WAITS, address=b'IPv6:2001:db8::2', family=b'6')
        try_once(served, *FIRST, address=b'2001:db8:0:1::1', family=b'6')
        time.sleep(DELAY + 0.2)
        try_once(served, CONTINUE, address=b'192.0.2.200')
        try_once(served, CONTINUE, sender=b'ADA@Example.ORG', recipient=b'BROOK@example.NET')
        try_once(served, CONTINUE, address=b'2001:db8::ffff', family=b'6')
        try_once(served, *FIRST, address=b'198.51.100.1')
    expect('errors', served.errors, b'')


def restarted(program, kind, folder, database):
    """What was seen is known after a stop at any time."""
    for sent in [signal.SIGTERM, signal.SIGKILL]:
        with Greylist(program, kind, folder, database) as served:
            try_once(served, *FIRST, sender=b'<%d@example.org>' % sent)
            served.process.send_signal(sent)
            served.process.wait(serving.SECONDS)
    time.sleep(DELAY + 0.2)
    with Greylist(program, kind, folder, database) as served:
        for sent in [signal.SIGTERM, signal.SIGKILL]:
            try_once(served, CONTINUE, sender=b'<%d@example.org>' % sent)


def at_once(program, kind, folder, database):
    """Connections at once, each of which has its own answers, in order."""
    with Greylist(program, kind, folder, database) as served, contextlib.ExitStack() as stack:
        connections = [stack.enter_context(opened(served, sender=b'<%d@x>' % at)) for at in range(40)]
        for replies in [FIRST, WAITS]:
            for connection in connections:
                connection.sendall(packet(b'R', b'<b@y>') + packet(b'R', b'<c@y>'))
            for connection in connections:
                found = serving.received(connection, 2 * len(FIRST[0]))
                expect('two replies', found, found if found in [a + b for a in replies for b in replies] else replies)
        time.sleep(DELAY + 0.2)
        for connection in connections:
            expect_reply(connection, b'<c@y>', CONTINUE)


def allowed(program, kind, folder, database):
    """What the allow list has passes at once."""
    path = programs.written(os.path.join(folder, 'allow'), (
        '# clients\n192.0.2.0/28\n198.51.100.9\n2001:db8::/32\n\nexample.com\n@example.edu\npostmaster@example.net\n'))
    with Greylist(program, kind, folder, database, '--allow', path) as served:
        try_once(served, CONTINUE, address=b'192.0.2.15')
        try_once(served, *FIRST, address=b'192.0.2.16')
        try_once(served, CONTINUE, address=b'198.51.100.9')
        try_once(served, CONTINUE, address=b'2001:db8:ffff::1', family=b'6')
        try_once(served, CONTINUE, address=b'203.0.113.1', host=b'out.mail.Example.com')
        try_once(served, *FIRST, address=b'203.0.113.1', host=b'out.badexample.com')
        try_once(served, CONTINUE, address=b'203.0.113.2', recipient=b'<any@example.edu>')
        try_once(served, CONTINUE, address=b'203.0.113.2', recipient=b'<Postmaster@example.net>')
        try_once(served, *FIRST, address=b'203.0.113.2', recipient=b'<notpostmaster@example.net>')


def locked(program, kind, folder, database):
    """While another program has the database locked each try has the default, and then goes on."""
    with Greylist(program, kind, folder, database) as served:
        try_once(served, *FIRST)
    other = sqlite3.connect(database, isolation_level=None)
    other.execute('BEGIN IMMEDIATE')
    with Greylist(program, kind, folder, database) as served:
        time.sleep(DELAY + 0.2)
        try_once(served, TEMPFAIL)
        try_once(served, TEMPFAIL, sender=b'<new@x>')
        other.execute('ROLLBACK')
        other.close()
        time.sleep(1.1)
        try_once(served, CONTINUE)
        try_once(served, *FIRST, sender=b'<new@x>')
    expect('errors', served.errors.startswith(b'database: '), True)


def damaged(program, kind, folder, database):
    """A database that is none, and one in no folder: the default, also as it is asked for."""
    programs.written(database, 'no database ' * 1000)
    nowhere = os.path.join(folder, 'none', 'database')
    for path in [database, nowhere]:
        for words, reply in [((), TEMPFAIL), (('--on-error', 'accept'), CONTINUE)]:
            with Greylist(program, kind, folder, path, *words) as served:
                try_once(served, reply)
                try_once(served, reply)


def full(program, kind, folder, database):
    """A file that can't grow: what is known passes, and nothing passes that wasn't."""
    def limit():
        signal.signal(signal.SIGXFSZ, signal.SIG_IGN)
        resource.setrlimit(resource.RLIMIT_FSIZE, (1 << 16, 1 << 16))

    with Greylist(program, kind, folder, database, delay=1, limit=limit) as served:
        replies = [deferred(1), TEMPFAIL]
        with opened(served) as connection:
            for at in range(400):
                expect_reply(connection, b'<%d@%s>' % (at, 100 * b'x'), *replies)
    expect('errors', served.errors.startswith(b'database: '), True)


def words_refused(program, kind, folder, database):
    """Wrong words."""
    for words in [[], ['--listen', 'nowhere', '--database', database], ['--listen', 'unix:/x'],
                  ['--listen', 'unix:/x', '--database', database, '--delay', '0']]:
        status, out, err = programs.ended([*program, *words], timeout=serving.SECONDS)
        expect('status', (status, out, bool(err)), (2, b'', True))


def groups(library, folder):
    """The groups of checks, each with the program and the kind of sockets that it is run with."""
    os.environ.update(c_plays.of_binding(library))
    program = [sys.executable, os.path.join(c_plays.PYTHON, 'greylist.py')]
    for kind in serving.KINDS:
        yield kind, runs, (program, kind, tempfile.mkdtemp(dir=folder))


def runs(program, kind, folder):
    """Each run in a folder of its own."""
    for run in [tries, restarted, at_once, allowed, locked, damaged, full, words_refused]:
        place = tempfile.mkdtemp(dir=folder)
        yield checked(run.__name__, run, program, kind, place, os.path.join(place, 'database'))


if __name__ == '__main__':
    c_library.need()
    with tempfile.TemporaryDirectory() as work:
        made = c_library.made(c_library.built(*sys.argv[1:]), work)
        sys.exit(checks.run_all(groups(made, work)))
