#!/usr/bin/env python3
"""Plays a mail server and the look-up server of `milter_tests_driver host`, as both compilers built it, over TCP and
over Unix sockets: answers that come later, in any order and in pieces; the default where none comes in time, and
progress meanwhile; answers that come too late, that can't be, or come twice; mail servers that hang up, are reset or
idle while a question is open; and a look-up server that is gone.

Counted are the runs.
"""
import contextlib
import os
import select
import socket
import subprocess
import sys
import tempfile
import time

from lib import checks, programs, serving
from lib.checks import checked, expect
from lib.conversations import ABORT, CONTINUE, QUIT, opening, packet, quit_all, say

SENDER, RECIPIENT, DATA, END = packet(b'M', b'<a@x>'), packet(b'R', b'<b@y>'), packet(b'T'), packet(b'E')
ACCEPT, REJECT, TEMPFAIL, PROGRESS = packet(b'a'), packet(b'r'), packet(b't'), packet(b'p')
REPLIES = {'accept': ACCEPT, 'continue': CONTINUE, 'reject': REJECT, 'tempfail': TEMPFAIL}
# How many questions are asked on a connection up to its first recipient.
ASKED = 4
# How many connections have a question open at once, and how many answers are given one after the other.
MANY, TURNS = 50, 20
# By how much a time may be beyond its bounds on a loaded machine, in seconds: sooner, where the program waits for a
# processor between a look at its clock and what it does then, and later.
SOONER, LATER = 0.5, 5


class Host:
    """A run of the program with these limits, and its look-up server."""

    def __init__(self, program, kind, folder, answer=30, progress=0, timeout=60):
        path = os.path.join(tempfile.mkdtemp(dir=folder), 'look_up')
        self.at, address = serving.place_of(kind, folder)
        with socket.socket(socket.AF_UNIX) as listener:
            listener.bind(path)
            listener.listen()
            listener.settimeout(serving.SECONDS)
            self.process = subprocess.Popen(
                program + [address, path, str(answer), str(progress), str(timeout)],
                stdin=subprocess.DEVNULL, stdout=subprocess.DEVNULL, stderr=subprocess.DEVNULL)
            self.server = listener.accept()[0]
        self.server.settimeout(serving.SECONDS)
        self.lines = self.server.makefile('rb')

    def __enter__(self):
        return self

    def __exit__(self, *_):
        self.process.kill()
        self.process.wait()
        self.hang_up()

    def hang_up(self):
        """The look-up server goes."""
        self.lines.close()
        self.server.close()

    def connected(self):
        """A connection, made as soon as the program listens, on which a sender is taken."""
        connection = serving.connected(self.at, lambda: self.process.poll() is not None)
        say(connection, opening(1) + [(SENDER, CONTINUE)])
        return connection

    def expect_lines(self, *lines):
        """The next lines that the look-up server gets."""
        for line in lines:
            expect('line', self.lines.readline(), line.encode() + b'\n')

    def expect_no_line(self, seconds):
        """The look-up server gets no line for so long."""
        expect('a line', select.select([self.server], [], [], seconds)[0], [])

    def answer(self, text):
        """The look-up server gives answers."""
        self.server.sendall(text.encode())

    def give(self, question, verdict, word='taken'):
        """Gives an answer, of which this becomes."""
        self.answer('%d %s\n' % (question, verdict))
        self.expect_lines('given %d %s' % (question, word))


@contextlib.contextmanager
def asking(served, question=0, number=1, given=RECIPIENT, stage='rcpt'):
    """A connection that has this question open."""
    with served.connected() as connection:
        connection.sendall(given)
        served.expect_lines('asked %d %d %s' % (question, number, stage))
        yield connection


def expect_since(start, least, most):
    """So many seconds have passed."""
    seconds = time.monotonic() - start
    expect('time %r' % seconds, least - SOONER < seconds < most + LATER, True)


def later(program, kind, folder):
    """Each answer is sent as soon as it comes, and the next question is asked then alone."""
    with Host(program, kind, folder) as served, served.connected() as connection:
        connection.sendall(TURNS * RECIPIENT)
        start = time.monotonic()
        for at in range(TURNS):
            verdict = ['continue', 'reject', 'tempfail'][at % 3]
            served.expect_lines('asked %d 1 rcpt' % at)
            served.give(at, verdict)
            serving.expect_replies(connection, REPLIES[verdict])
        # Not once a second.
        expect('time', time.monotonic() - start < TURNS / 2, True)
        connection.sendall(2 * RECIPIENT)
        served.expect_lines('asked %d 1 rcpt' % TURNS)
        served.expect_no_line(0.3)
        for byte in '%d continue\n' % TURNS:
            served.answer(byte)
            time.sleep(0.01)
        served.expect_lines('given %d taken' % TURNS, 'asked %d 1 rcpt' % (TURNS + 1))
        served.give(TURNS + 1, 'continue')
        serving.expect_replies(connection, 2 * CONTINUE)
        connection.sendall(QUIT)
        serving.expect_closed(connection)
        served.expect_lines('ended 1 quit after %d' % (ASKED + TURNS + 1))


def at_once(program, kind, folder):
    """Many connections have a question open, and are answered in another order, all in one piece; another goes on
    meanwhile."""
    with Host(program, kind, folder) as served, contextlib.ExitStack() as stack:
        connections = [stack.enter_context(asking(served, at, at + 1)) for at in range(MANY)]
        with served.connected() as other:
            say(other, [(DATA, CONTINUE), (ABORT, b''), (SENDER, CONTINUE)])
            quit_all([other])
        served.expect_lines('ended %d quit after %d' % (MANY + 1, ASKED + 1))
        verdicts = [['continue', 'reject', 'tempfail'][at % 3] for at in range(MANY)]
        served.answer(''.join('%d %s\n' % (at, verdicts[at]) for at in reversed(range(MANY))))
        served.expect_lines(*('given %d taken' % at for at in reversed(range(MANY))))
        for connection, verdict in zip(connections, verdicts):
            serving.expect_replies(connection, REPLIES[verdict])


def by_default(program, kind, folder):
    """A question that stays open has the host's default in time, or Tempfail where the stage can't have that; the
    answer to it comes too late, also while another question is open."""
    limit = 2

    def expect_default(given, line, reply):
        start = time.monotonic()
        connection.sendall(given)
        served.expect_lines(line)
        serving.expect_replies(connection, reply)
        expect_since(start, limit - 1, limit + 1)

    with Host(program, kind, folder, answer=limit) as served, served.connected() as connection:
        expect_default(RECIPIENT, 'asked 0 1 rcpt', REJECT)
        served.give(0, 'continue', 'too late')
        connection.sendall(RECIPIENT)
        served.expect_lines('asked 1 1 rcpt')
        served.give(0, 'continue', 'too late')
        served.give(1, 'tempfail')
        serving.expect_replies(connection, TEMPFAIL)
        say(connection, [(DATA, CONTINUE)])
        expect_default(END, 'asked 2 1 eob', TEMPFAIL)
        say(connection, [(SENDER, CONTINUE)])


def progress(program, kind, folder):
    """While the end of a message is looked up progress is reported, and at other stages it isn't."""
    limit = 5
    with Host(program, kind, folder, answer=limit, progress=1) as served, asking(served) as connection:
        expect('progress at a recipient', select.select([connection], [], [], 2.5)[0], [])
        served.give(0, 'continue')
        say(connection, [(b'', CONTINUE), (DATA, CONTINUE)])
        connection.sendall(END)
        served.expect_lines('asked 1 1 eob')
        for _ in range(2):
            start = time.monotonic()
            serving.expect_replies(connection, PROGRESS)
            expect_since(start, 0, 2)
        served.give(1, 'accept')
        found = replies_to(connection, ACCEPT)
        expect('replies', found.count(PROGRESS) < limit, True)
        connection.sendall(SENDER + RECIPIENT)
        served.expect_lines('asked 2 1 rcpt')
        served.give(2, 'continue')
        connection.sendall(END)
        served.expect_lines('asked 3 1 eob')
        serving.expect_replies(connection, 2 * CONTINUE)
        found = replies_to(connection, TEMPFAIL)
        expect('reports of progress', 1 <= found.count(PROGRESS) < limit, True)


def replies_to(connection, last):
    """The replies up to this one, before which there are reports of progress alone."""
    found = []
    while not found or found[-1] == PROGRESS:
        found.append(serving.received(connection, len(PROGRESS)))
    expect('last reply', found[-1], last)
    return found


def hung_up(program, kind, folder):
    """A mail server that hangs up while a question is open: the host is notified, the service goes on, and the answer
    is too late, also for another connection in that place."""
    def goes(connection, how):
        if how == 'half':
            connection.shutdown(socket.SHUT_WR)
            serving.expect_closed(connection)
        elif how == 'reset':
            serving.reset_at_end(connection)
        connection.close()

    with Host(program, kind, folder) as served, asking(served) as other:
        question, number = 1, 2
        for how in ['whole', 'half'] + ['reset'] * (kind == 'inet'):
            with asking(served, question, number) as connection:
                goes(connection, how)
                served.expect_lines('ended %d by a read fault after %d' % (number, ASKED))
            served.give(question, 'reject', 'too late')
            with asking(served, question + 1, number + 1) as connection:
                served.give(question, 'reject', 'too late')
                served.give(question + 1, 'continue')
                say(connection, [(b'', CONTINUE), (QUIT, b'')])
                served.expect_lines('ended %d quit after %d' % (number + 1, ASKED))
            question, number = question + 2, number + 2
        served.give(0, 'continue')
        say(other, [(b'', CONTINUE), (DATA, CONTINUE)])


def refused(program, kind, folder):
    """An answer that a stage can't have leaves the question open, and a second one is too late."""
    with Host(program, kind, folder) as served, asking(served) as connection:
        served.give(0, 'skip', 'refused')
        served.give(0, 'continue')
        served.give(0, 'reject', 'too late')
        say(connection, [(b'', CONTINUE), (DATA, CONTINUE)])


def idle(program, kind, folder):
    """A connection isn't closed as idle while its question is open, and is after that."""
    limit = 1
    with Host(program, kind, folder, timeout=limit) as served, asking(served) as connection:
        expect('closed', select.select([connection], [], [], limit + 2.5)[0], [])
        start = time.monotonic()
        served.give(0, 'continue')
        say(connection, [(b'', CONTINUE)])
        serving.expect_closed(connection)
        expect_since(start, limit, limit + 2)
        served.expect_lines('ended 1 by a read fault after %d' % ASKED)


def alone(program, kind, folder):
    """Where the look-up server is gone, questions have the default."""
    with Host(program, kind, folder, answer=1) as served, asking(served) as connection:
        served.hang_up()
        serving.expect_replies(connection, REJECT)
        say(connection, [(RECIPIENT, REJECT), (DATA, CONTINUE)])
        quit_all([connection])
        expect('it runs', served.process.poll(), None)


def groups(folder):
    """The groups of checks, each with the program and the kind of sockets that it is run with."""
    for build in programs.BUILDS:
        program = programs.command_of('host', build)
        for kind in serving.KINDS:
            name = '%s at %s' % (os.path.basename(program[0]), kind)
            for run in [later, at_once, by_default, progress, hung_up, refused, idle, alone]:
                yield '%s, %s' % (name, run.__name__), runs, (run, program, kind, folder)


def runs(run, program, kind, folder):
    """One run, in a folder of its own."""
    yield checked('run', run, program, kind, tempfile.mkdtemp(dir=folder))


if __name__ == '__main__':
    programs.need('host')
    with tempfile.TemporaryDirectory() as work:
        sys.exit(checks.run_all(groups(work)))
