#!/usr/bin/env python3
"""Records connections by `milter_tool record`, as both compilers built it, over TCP and Unix sockets, and compares the
traces with what was said.

The filters are `milter_tool answer`, `milter_tool serve`, and peers of this file's own. Connections overlap, are reset
by either end, end in one direction before the other, or find no filter; one is sent much more than its far end takes;
and the recorder is ended while one is open. What is recorded of sessions by `milter_tool mta` is printed by
`milter_tool trace` and sent to the filter again by `milter_tool replay`, and loads by `milter_tool load` come through.
"""
import json
import os
import signal
import socket
import subprocess
import sys
import tempfile
import threading

from lib import checks, conversations, programs, recording, serving
from lib.checks import checked, expect

# More than all buffers between two ends have, by their kind, within how many seconds it comes, and the KiB of memory
# that a recorder takes at most meanwhile.
MUCH = {'inet': 12 * 1024 * 1024, 'unix': 1024 * 1024}
MUCH_SECONDS = 120
MEMORY_MAX = 16 * 1024
# What is sent in one direction of a connection, and then in the other.
FIRST, SECOND = b'\0\0\0\1Q', b'\0\0\0\1c'


def ended(program, *words):
    """How a run ended: its status, output and errors."""
    done = subprocess.run([program, *words], stdin=subprocess.DEVNULL, capture_output=True, timeout=serving.SECONDS,
                          check=False)
    return done.returncode, done.stdout.decode(), done.stderr.decode()


class Peer:
    """A filter that takes one connection, of which it makes this."""

    def __init__(self, kind, folder, act):
        place, self.address = serving.place_of(kind, folder)
        self.listener = socket.socket(socket.AF_UNIX) if kind == 'unix' else socket.create_server(place)
        if kind == 'unix':
            self.listener.bind(place)
            self.listener.listen()
        self.act, self.wrong = act, None
        self.thread = threading.Thread(target=self.serve, daemon=True)
        self.thread.start()

    def serve(self):
        """Takes the connection."""
        connection, _ = self.listener.accept()
        connection.settimeout(serving.SECONDS)
        with connection:
            try:
                self.act(connection)
            except (checks.Wrong, OSError) as wrong:
                self.wrong = wrong

    def __enter__(self):
        return self

    def __exit__(self, *_):
        self.listener.close()

    def expect_done(self, seconds=serving.SECONDS):
        """Waits until the peer has done what it is to do."""
        self.thread.join(seconds)
        expect('what was wrong at the filter', (self.thread.is_alive(), self.wrong), (False, None))


def said(recorder, count):
    """The first lines of standard error, up to their reasons."""
    lines = [recorder.process.stderr.readline().decode() for _ in range(count)]
    return [line[:line.index(': ', line.index(': ') + 1)] for line in lines]


def several(program, kind, folder):
    """Connections that overlap, and a directory that has traces then."""
    one, two, three = map(recording.conversation_of, ('one', 'two', 'three'))
    place, address = serving.place_of(kind, folder)
    directory = os.path.join(tempfile.mkdtemp(dir=folder), 'new', 'traces')

    def overlapping():
        with recording.Answers(program, kind, place), \
                recording.Recorder(program, kind, folder, address, directory) as recorder:
            with recorder.connected() as first, recorder.connected() as second:
                recording.say(first, one[:4])
                recording.say(second, two[:6])
                recording.say(first, one[4:])
                serving.expect_closed(first)
                with recorder.connected() as third:
                    recording.say(third, three)
                    recording.say(second, two[6:])
                    serving.expect_closed(second)
                    serving.expect_closed(third)
            expect('the end', recorder.end(signal.SIGINT), (-signal.SIGINT, '', ''))
        recording.expect_traces(program, directory, one, two, three)

    def again():
        with recording.Recorder(program, kind, folder, address, directory) as recorder:
            expect('the end', recorder.end(), (1, '', 'cannot record\n'))
        recording.expect_traces(program, directory, one, two, three)

    yield checked('connections that overlap', overlapping)
    yield checked('a directory with traces', again)


def broken(program, kind, folder):
    """Connections that break, and others beside them."""
    one, two = map(recording.conversation_of, ('one', 'two'))
    place, address = serving.place_of(kind, folder)

    def without_a_filter():
        directory = tempfile.mkdtemp(dir=folder)
        with recording.Recorder(program, kind, folder, address, directory) as recorder:
            with recorder.connected() as first:
                serving.expect_closed(first)
            expect('what is said', said(recorder, 1), ['connection 1: cannot connect'])
            with recording.Answers(program, kind, place), recorder.connected() as second:
                recording.say(second, two)
                serving.expect_closed(second)
            expect('the end', recorder.end(signal.SIGTERM), (-signal.SIGTERM, '', ''))
        recording.expect_traces(program, directory, [], two)

    def reset_by_the_mail_server():
        place, address = serving.place_of('inet', folder)
        directory = tempfile.mkdtemp(dir=folder)
        with recording.Answers(program, 'inet', place), \
                recording.Recorder(program, 'inet', folder, address, directory) as recorder:
            with recorder.connected() as second:
                with recorder.connected() as first:
                    recording.say(second, two[:3])
                    recording.say(first, one[:3])
                    serving.reset_at_end(first)
                expect('what is said', said(recorder, 1), ['connection 2: mail server lost'])
                recording.say(second, two[3:5])
                expect('the end', recorder.end(signal.SIGTERM), (-signal.SIGTERM, '', ''))
                serving.expect_closed(second)
        recording.expect_traces(program, directory, two[:5], one[:3])

    def reset_by_the_filter():
        directory = tempfile.mkdtemp(dir=folder)

        def act(connection):
            serving.received(connection, len(FIRST))
            serving.reset_at_end(connection)

        with Peer('inet', folder, act) as peer, \
                recording.Recorder(program, kind, folder, peer.address, directory) as recorder:
            with recorder.connected() as connection:
                connection.sendall(FIRST)
                serving.expect_closed(connection)
            expect('what is said', said(recorder, 1), ['connection 1: filter lost'])
            expect('the end', recorder.end(signal.SIGTERM), (-signal.SIGTERM, '', ''))
        expect('the trace', recording.traces_in(directory), {'1.trace': '> %s\n' % FIRST.hex()})

    def file_that_is_there():
        directory = tempfile.mkdtemp(dir=folder)
        programs.written(os.path.join(directory, '2.trace'), 'kept\n')
        with recording.Answers(program, kind, place + '2' if kind == 'unix' else place), recording.Recorder(
                program, kind, folder, address + '2' if kind == 'unix' else address, directory) as recorder:
            with recorder.connected() as first, recorder.connected() as second:
                serving.expect_closed(second)
                expect('what is said', said(recorder, 1), ['connection 2: cannot make its file'])
                recording.say(first, one)
                serving.expect_closed(first)
            expect('the end', recorder.end(signal.SIGTERM), (-signal.SIGTERM, '', ''))
        expect('the traces', recording.traces_in(directory), {'1.trace': recording.trace_of(one), '2.trace': 'kept\n'})

    yield checked('without a filter', without_a_filter)
    yield checked('reset by the mail server', reset_by_the_mail_server)
    yield checked('reset by the filter', reset_by_the_filter)
    yield checked('a file that is there', file_that_is_there)


def directions(program, kind, folder):
    """Connections of which one direction ends before the other, and more than an end takes."""

    def mail_server_ends_first():
        directory = tempfile.mkdtemp(dir=folder)

        def act(connection):
            expect('what came to the filter', serving.received(connection, 100), FIRST)
            connection.sendall(SECOND)

        with Peer(kind, folder, act) as peer, \
                recording.Recorder(program, kind, folder, peer.address, directory, '--count', '1') as recorder:
            with recorder.connected() as connection:
                connection.sendall(FIRST)
                connection.shutdown(socket.SHUT_WR)
                expect('what came back', serving.received(connection, 100), SECOND)
            peer.expect_done()
            expect('the end', recorder.end(), (0, '', ''))
        expect('the trace', recording.traces_in(directory), {'1.trace': '> %s\n< %s\n' % (FIRST.hex(), SECOND.hex())})

    def filter_ends_first():
        directory = tempfile.mkdtemp(dir=folder)

        def act(connection):
            connection.sendall(SECOND)
            connection.shutdown(socket.SHUT_WR)
            expect('what came to the filter', serving.received(connection, 100), FIRST)

        with Peer(kind, folder, act) as peer, \
                recording.Recorder(program, kind, folder, peer.address, directory, '--count', '1') as recorder:
            with recorder.connected() as connection:
                expect('what came', serving.received(connection, 100), SECOND)
                connection.sendall(FIRST)
                connection.shutdown(socket.SHUT_WR)
                peer.expect_done()
            expect('the end', recorder.end(), (0, '', ''))
        expect('the trace', recording.traces_in(directory), {'1.trace': '< %s\n> %s\n' % (SECOND.hex(), FIRST.hex())})

    def much():
        directory = tempfile.mkdtemp(dir=folder)
        may_read = threading.Event()
        sent = bytes(range(256)) * (MUCH[kind] // 256)

        def act(connection):
            may_read.wait(serving.SECONDS)
            expect('whether all came', serving.received(connection, len(sent) + 1) == sent, True)

        with Peer(kind, folder, act) as peer, \
                recording.Recorder(program, kind, folder, peer.address, directory, '--count', '1') as recorder:
            with recorder.connected() as connection:
                connection.settimeout(0.5)
                taken = sent_until_full(connection, sent)
                expect('whether not all is taken', taken < len(sent), True)
                may_read.set()
                connection.settimeout(MUCH_SECONDS)
                connection.sendall(sent[taken:])
                expect('whether it takes little memory', recorder.memory() < MEMORY_MAX, True)
                connection.shutdown(socket.SHUT_WR)
                peer.expect_done(MUCH_SECONDS)
            expect('the end', recorder.end(), (0, '', ''))
        trace = recording.traces_in(directory)['1.trace']
        expect('whether all is recorded', recording.bytes_of(trace, '>') == sent, True)

    yield checked('the mail server ends first', mail_server_ends_first)
    yield checked('the filter ends first', filter_ends_first)
    yield checked('more than is taken', much)


def sent_until_full(connection, sent):
    """Sends as much of this as is taken without a pause; how much that was."""
    count = 0
    try:
        while count < len(sent):
            count += connection.send(sent[count:count + 65536])
    except TimeoutError:
        pass
    return count


def played(program, kind, folder):
    """Sessions and loads that are played through a recorder to `milter_tool serve`."""
    session = os.path.join(programs.TOP, 'examples', 'two_messages.session')
    rules = conversations.rules_file(folder, 'at eob do add-header "X-Seen" "yes"\n')

    def sent_again():
        directory = tempfile.mkdtemp(dir=folder)
        with serving.Service(program, kind, folder, rules) as served, \
                recording.Recorder(program, kind, folder, served.address, directory, '--count', '2') as recorder:
            serving.listening(served)
            serving.listening(recorder)
            expected = ended(program, 'mta', served.address, session)
            for _ in range(2):
                expect('the end of mta', ended(program, 'mta', recorder.address, session), expected)
            expect('the end', recorder.end(), (0, '', ''))
            for number in 1, 2:
                path = os.path.join(directory, '%d.trace' % number)
                status, out, err = ended(program, 'trace', path)
                expect('the trace', (status, err, out.count('> Q')), (0, '', 1))
                status, _, err = ended(program, 'replay', served.address, path)
                expect('what is sent again', (status, err), (0, ''))

    def loaded():
        directory = tempfile.mkdtemp(dir=folder)
        with serving.Service(program, kind, folder, rules) as served, \
                recording.Recorder(program, kind, folder, served.address, directory) as recorder:
            serving.listening(served)
            serving.listening(recorder)
            status, out, err = ended(program, 'load', recorder.address, session, '--at-once', '20', '--messages', '200',
                                     '--json')
            expect('the end of load', (status, err), (0, ''))
            found = json.loads(out)
            expect('the messages', (found['messages'], found['connections']['lost']), (200, 0))
            expect('the end', recorder.end(signal.SIGTERM), (-signal.SIGTERM, '', ''))
        expect('the number of traces', len(os.listdir(directory)), found['connections']['made'])

    yield checked('sessions that are sent again', sent_again)
    yield checked('a load', loaded)


def refused(program, folder):
    """What can't be recorded."""
    place = os.path.join(folder, 'socket')
    path = programs.written(os.path.join(folder, 'file'), '')
    for name, words, expected in [
            ('a directory that is a file', ['unix:' + place, 'unix:' + place, path], (1, '', 'cannot record\n')),
            ('a directory within a file', ['unix:' + place, 'unix:' + place, path + '/a'], (1, '', 'cannot record\n')),
            ('no listener', ['unix:' + os.path.join(folder, 'none', 'socket'), 'unix:' + place,
                             os.path.join(folder, 'new')], (1, '', 'cannot listen\n'))]:
        yield checked(name, lambda: expect('the end', ended(program, 'record', *words), expected))


def groups(folder):
    """Groups of checks: of each its name, its function, and what that is called with."""
    for build in programs.BUILDS:
        program, name = programs.tool(build), 'milter_tool' + build
        yield '%s, refused' % name, refused, (program, tempfile.mkdtemp(dir=folder))
        for kind in serving.KINDS:
            for group in several, broken, directions, played:
                given = program, kind, tempfile.mkdtemp(dir=folder)
                yield '%s, %s at %s' % (name, group.__name__, kind), group, given


if __name__ == '__main__':
    programs.need('tool')
    with tempfile.TemporaryDirectory() as work:
        sys.exit(checks.run_all(groups(work)))
