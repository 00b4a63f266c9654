"""examples/python/greylist.py behind a Postfix of its own, for tests/interop.sh: a first try of mail is deferred and a
later one is delivered, also by another process of smtpd and after the filter was started again; and while its database
is locked, damaged or can't grow, no mail passes that wasn't known.

Both ports of Postfix have the one filter. Its library is made as in library.py.
"""
import concurrent.futures
import contextlib
import os
import resource
import signal
import sqlite3
import subprocess
import sys
import tempfile
import time
from unittest import mock

import mail_server
import peers
import postfix
from lib import c_library, c_plays
from mail_server import FROM, MESSAGE

DELAY, AT_ONCE = 3, 8
GREYLISTED = '451 4.7.1 Greylisted'
# The text of a verdict without one of its own.
DEFERRED = postfix.Postfix.deferred


class Greylist:
    """A run of the program at this address, over this database; where it may not grow a file, under that limit."""

    def __init__(self, address, database, limit=None):
        command = [sys.executable, os.path.join(c_plays.PYTHON, 'greylist.py'), '--listen', address, '--database',
                   database, '--delay', str(DELAY)]
        self.address = address
        self.process = subprocess.Popen(command, stdout=subprocess.DEVNULL, stderr=subprocess.DEVNULL, preexec_fn=limit)

    def __enter__(self):
        peers.listening(self.address)
        return self

    def __exit__(self, *_):
        self.process.send_signal(signal.SIGTERM)
        self.process.wait(peers.SECONDS)


def tried(server, kind, recipient):
    """How the reply to one try of a message begins."""
    with server.connected(kind) as client:
        reply = mail_server.reply(client.sendmail, FROM, [recipient], MESSAGE)
    return GREYLISTED if reply.startswith(GREYLISTED) else reply


def tried_at_once(server, recipients):
    """The same of many at once, by turns over both ports, which have processes of smtpd of their own."""
    kinds = list(server.ports)
    with concurrent.futures.ThreadPoolExecutor(AT_ONCE) as running:
        return list(running.map(lambda at: tried(server, kinds[at % len(kinds)], recipients[at]),
                                range(len(recipients))))


@contextlib.contextmanager
def locked(database):
    """The database while another process writes."""
    connection = sqlite3.connect(database, isolation_level=None)
    connection.execute('BEGIN EXCLUSIVE')
    try:
        yield
    finally:
        connection.execute('ROLLBACK')
        connection.close()


def no_growth():
    """No file may grow from now on."""
    signal.signal(signal.SIGXFSZ, signal.SIG_IGN)
    resource.setrlimit(resource.RLIMIT_FSIZE, (0, 0))


def play_tries(checks, server, address, database):
    """A first try and later ones, at once, and after a start in between."""
    recipients = ['%d@example.net' % at for at in range(2 * AT_ONCE)]
    with Greylist(address, database):
        for kind in server.ports:
            checks.check('greylist, %s: first try' % kind, tried(server, kind, kind + '@example.net'), GREYLISTED)
            checks.check('greylist, %s: too early' % kind, tried(server, kind, kind + '@example.net'), GREYLISTED)
        checks.check('greylist: first tries at once', tried_at_once(server, recipients), len(recipients) * [GREYLISTED])
    time.sleep(DELAY + 1)
    with Greylist(address, database):
        for kind in server.ports:
            checks.check('greylist, %s: later' % kind, tried(server, kind, kind + '@example.net'), 'taken')
        checks.check('greylist: later ones at once', tried_at_once(server, recipients), len(recipients) * ['taken'])
        checks.check('greylist: delivered', len(server.received(2 + len(recipients))), 2 + len(recipients))


def play_faults(checks, server, address, database):
    """A database that fails: mail that isn't known never passes."""
    kind = 'inet'
    with contextlib.ExitStack() as stack:
        with locked(database):
            stack.enter_context(Greylist(address, database))
            checks.check('greylist, locked: unknown', tried(server, kind, 'new@example.net'), DEFERRED)
            checks.check('greylist, locked: known', tried(server, kind, 'inet@example.net'), DEFERRED)
        time.sleep(2)
        checks.check('greylist, free again: first try', tried(server, kind, 'new@example.net'), GREYLISTED)
        checks.check('greylist, free again: known', tried(server, kind, 'inet@example.net'), 'taken')
    with Greylist(address, database, no_growth):
        checks.check('greylist, full: unknown', tried(server, kind, 'full@example.net'), DEFERRED)
    with open(database, 'r+b') as file:
        file.write(b'no database')
    with Greylist(address, database):
        checks.check('greylist, damaged: known before', tried(server, kind, 'inet@example.net'), DEFERRED)
    checks.check('greylist: delivered once more', len(server.received(1)), 1)


def play(checks):
    """Builds the library, starts a Postfix, and plays all of it."""
    with tempfile.TemporaryDirectory() as library, tempfile.TemporaryDirectory() as work:
        c_library.made(c_library.proved(os.environ.get('ARCHIVE')), library)
        os.chmod(work, 0o755)
        address = 'inet:%d@127.0.0.1' % peers.free_port()
        database = os.path.join(work, 'greylist.sqlite')
        in_python = mock.patch.dict(os.environ, c_plays.of_binding(library))
        with in_python, postfix.Postfix(work, address, address) as server:
            play_tries(checks, server, address, database)
            play_faults(checks, server, address, database)
