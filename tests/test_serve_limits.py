#!/usr/bin/env python3
"""Has `milter_tool serve` meet what a mail server, a client or a system can do to it, as both compilers built it, over
TCP and over Unix sockets: peers that don't read, that send without end, that are slow, idle or too many; descriptors
that are used up; a stop and a start again; and the sockets, options and lines that can't be. What is run is what `rt
ci` built; nothing is proved here.

Counted are the connections and the runs.
"""
import fcntl
import os
import random
import re
import resource
import select
import signal
import socket
import stat
import statistics
import subprocess
import sys
import tempfile
import time

import test_sockets
from lib import checks, programs, serving
from lib.checks import checked, expect
from lib.conversations import (
    ABORT, CONTINUE, KEYS, OFFER, OPTIONS, QUIT, filled, message, opening, packet, quit_all, rules_file, rules_of_keys,
    run_to_end, say)

# How many connections of one message each are made, after those that are made before the memory is looked at: over a
# Unix socket to the program as the C compiler built it, and else.
WARMED, MOST, MANY = 2000, 98000, 18000
# How many connections are played at once, and how many files this process may have open for that.
CROWD, FILES = 1000, 4096
# The line that says how many were lost.
LOST = {'stdout': rb'lost ([0-9]+)\n', 'stderr': rb'event="lost" lines="([0-9]+)"\n'}
BAD_MODES = ['8', '689', '768']
BAD_OPTIONS = [
    ['--mode=1000'], ['--mode=rw'], ['--mode='], ['--mode=-1'], ['--at-once=0'], ['--at-once=10001'], ['--at-once=one'],
    ['--timeout=0'], ['--timeout=86401'], ['--timeout=1.5'], ['--count=1'], ['--lenient'], ['--mode=660', '--mode=660']]


def unread(program, kind, folder):
    """Peers that don't read while they send much: the memory is bounded, others are served, and all replies come."""
    text = b'550 5.1.1 ' + 450 * b'x'
    recipient = (packet(b'R', b'<b@y>', 100 * b'x'), packet(b'y', text))
    message_of_50 = [(packet(b'M', b'<a@x>'), CONTINUE)] + 50 * [recipient] + [(ABORT, b'')]
    conversation = [(OFFER, OPTIONS)] + 2000 * message_of_50
    given = b''.join(given for given, _ in conversation)

    def run():
        words = rules_file(folder, 'at rcpt do code "%s"\n' % text.decode())
        with serving.Service(program, kind, folder, words) as served, served.connected() as other:
            say(other, conversation[:53])
            before = served.memory()
            connections = [served.connected() for _ in range(4)]
            sent = []
            for connection in connections:
                connection.setblocking(False)
                sent.append(filled(connection, given, 0.3))
            expect('all is sent', [count < len(given) for count in sent], [True] * 4)
            expect('memory', served.memory() - before < 4096, True)
            seconds = served.seconds()
            time.sleep(0.5)
            expect('it waits', served.seconds() - seconds < 0.2, True)
            say(other, conversation[1:53])
            connections[0].settimeout(serving.SECONDS)
            expected = expected_of(conversation, sent[0])
            expect('replies', received(connections[0], len(expected)) == expected, True)
            for connection in connections:
                connection.close()
            say(other, conversation[1:53])
            expect('memory after that', served.memory() - before < 4096, True)

    yield checked('4 peers that do not read', run)


def received(connection, count):
    """So many bytes of a connection, in large pieces."""
    pieces = []
    while count and (piece := connection.recv(min(count, 1 << 20))):
        pieces.append(piece)
        count -= len(piece)
    return b''.join(pieces)


def expected_of(conversation, sent):
    """The replies to the packets of a conversation that are whole within so many bytes."""
    replies = []
    for given, reply in conversation:
        sent -= len(given)
        if sent < 0:
            break
        replies.append(reply)
    return b''.join(replies)


def flood(place):
    """Sends messages without end, and reads what is replied."""
    connection = serving.connection_to(place)
    connection.sendall(b''.join(given for given, _ in opening(1)))
    given = 100 * b''.join(given for given, _ in message(1))
    connection.setblocking(False)
    rest = given
    while True:
        readable, writable, _ = select.select([connection], [connection], [])
        if readable and not connection.recv(1 << 16):
            return
        if writable:
            rest = rest[connection.send(rest):] or given


def times_of(connection, count):
    """How long each of so many messages took."""
    times = []
    for _ in range(count):
        start = time.monotonic()
        say(connection, message(2))
        times.append(time.monotonic() - start)
    return times


def flooded(program, kind, folder):
    """A peer that sends without end beside one that waits for replies: this one is served about as fast as alone."""

    def run():
        with serving.Service(program, kind, folder, rules_of_keys(folder)) as served, served.connected() as other:
            say(other, opening(2))
            alone = statistics.median(times_of(other, 50))
            place = served.at if isinstance(served.at, str) else '%s %d' % served.at
            flooder = subprocess.Popen([sys.executable, os.path.abspath(__file__), 'flood', place])
            try:
                serving.waited_for(lambda: served.seconds() > 0.2)
                beside = times_of(other, 50)
                expect('the flood goes on', flooder.poll(), None)
            finally:
                flooder.kill()
                flooder.wait()
            # Each of its seven packets waits for a turn of the other one at most, which is what 64 KiB take.
            expect('times %r %r' % (alone, max(beside)), statistics.median(beside) < 10 * alone + 0.1, True)
            expect('longest', max(beside) < 1, True)

    yield checked('a peer that sends without end', run)


def crowd(program, kind, folder):
    """A thousand connections, all but one of which say a byte now and then, while that one is served at once."""

    def run():
        words = rules_of_keys(folder) + ['--at-once=%d' % (CROWD + 100)]
        with serving.Service(program, kind, folder, words, files=FILES) as served:
            connections = [served.connected() for _ in range(CROWD)]
            one, slow = connections[0], connections[1:]
            conversations = [b''.join(given for given, _ in opening(at) + message(at % KEYS)) for at in range(1, CROWD)]
            replies = [b''.join(reply for _, reply in opening(at) + message(at % KEYS)) for at in range(1, CROWD)]
            said = [0] * len(slow)
            say(one, opening(0))
            times = []
            for turn in range(60):
                for at in range(turn % 10, len(slow), 10):
                    slow[at].sendall(conversations[at][said[at]:said[at] + 1])
                    said[at] += 1
                times += times_of(one, 1)
            expect('time of a message %r' % max(times), max(times) < 0.5, True)
            expect('lines', served.lines(), [])
            for connection, conversation, count in zip(slow, conversations, said):
                connection.sendall(conversation[count:])
            for connection, reply in zip(slow, replies):
                serving.expect_replies(connection, reply)
            quit_all(connections)
            served.expect_all(b'quit')

    yield checked('%d connections' % CROWD, run)


def queue(program, kind, folder):
    """As many connections as are allowed at once: the next one waits, and is served when one of them ends."""

    def waits(connection):
        connection.sendall(OFFER)
        expect('it waits', select.select([connection], [], [], 0.3)[0], [])

    def run():
        with serving.Service(program, kind, folder, ['--at-once=2']) as served:
            first, second, third, fourth = [served.connected() for _ in range(4)]
            say(first, [(OFFER, OPTIONS)])
            say(second, [(OFFER, OPTIONS)])
            waits(third)
            waits(fourth)
            seconds = served.seconds()
            time.sleep(0.5)
            expect('it does not spin', served.seconds() - seconds < 0.2, True)
            quit_all([second])
            serving.expect_replies(third, OPTIONS)
            expect('the fourth waits', select.select([fourth], [], [], 0.2)[0], [])
            say(first, [(packet(b'H', b'h'), CONTINUE)])
            quit_all([first])
            serving.expect_replies(fourth, OPTIONS)
            quit_all([third, fourth])
            served.expect_all(b'quit')

    yield checked('two at once', run)


def idle(program, kind, folder):
    """Connections that are idle for too long are closed, and busy ones are not."""

    def run():
        with serving.Service(program, kind, folder, ['--timeout=1']) as served:
            silent, idle_one, *busy = [served.connected() for _ in range(12)]
            say(idle_one, [(OFFER, OPTIONS)])
            for connection in busy:
                say(connection, [(OFFER, OPTIONS), (packet(b'H', b'h'), CONTINUE)])
            start, ends = time.monotonic(), {}
            while time.monotonic() < start + 4.2:
                for connection in busy:
                    say(connection, [(packet(b'M', b'<a@x>'), CONTINUE), (ABORT, b'')])
                    time.sleep(0.02)
                for connection in select.select([it for it in (silent, idle_one) if it not in ends], [], [], 0)[0]:
                    serving.expect_closed(connection)
                    ends[connection] = time.monotonic() - start
            expect('ends %r' % list(ends.values()), len(ends) == 2 and all(1 < at < 4 for at in ends.values()), True)
            served.expect_line(1, b'read fault')
            served.expect_line(2, b'read fault')
            expect('lines', len(served.lines()), 2)
            quit_all(busy)
            served.expect_all(b'quit', b'read fault')

    yield checked('idle for a second', run)


def released(program, kind, folder):
    """Connections that are idle give back the room for a packet that was cut, and not before it is whole. The C library
    has to take room of that size from the system, and give it back, or nothing would be seen of it."""
    count, room = 100, 64
    given = packet(b'H', 1000 * b'h')

    def run():
        started = {'env': {**os.environ, 'MALLOC_MMAP_THRESHOLD_': '32768'}}
        with serving.Service(program, kind, folder, **started) as served:
            connections = [served.connected() for _ in range(count)]
            for connection in connections:
                say(connection, [(OFFER, OPTIONS)])
            time.sleep(2.5)
            before = served.reserved()
            for connection in connections:
                connection.sendall(given[:500])
            time.sleep(3.5)
            expect('room for packets that are cut', served.reserved() - before >= count * room, True)
            for connection in connections:
                say(connection, [(given[500:], CONTINUE)])
            left = serving.waited_for(lambda: served.reserved() - before < count * room // 10)
            expect('room when they are whole', left, True)
            quit_all(connections)
            served.expect_all(b'quit')

    yield checked('%d packets that are cut' % count, run)


def given_back(program, kind, folder):
    """After a load of connections, each of which ends within a packet, most of their memory goes back to the system,
    whichever ends first: with what the unit of `serve` sets for the C library. Without it nearly all of it stays."""
    count, room = 500, 55
    kept = count * room // 3
    begun = OFFER + b''.join(given for given, _ in opening(0)[1:]) + packet(b'M', b'<a@x>') + packet(b'R', b'<b@y>')
    cut = packet(b'B', 60000 * b'x')[:-1]

    def run():
        started = {'env': {**os.environ, 'MALLOC_MMAP_THRESHOLD_': '32768'}}
        with serving.Service(program, kind, folder, ['--at-once=%d' % count], **started) as served:
            with served.connected() as connection:
                say(connection, [(OFFER, OPTIONS)])
            time.sleep(2.5)
            before = served.memory()
            connections = [served.connected() for _ in range(count)]
            for connection in connections:
                connection.sendall(begun + cut)
            expect('under load', serving.waited_for(lambda: served.memory() - before >= count * room), True)
            random.Random(1).shuffle(connections)
            for connection in connections:
                connection.close()
            left = serving.waited_for(lambda: served.memory() - before < kept)
            expect('%d KiB are left' % (served.memory() - before), left, True)

    yield checked('%d connections whose memory goes back' % count, run)


def few_descriptors(program, kind, folder):
    """Where descriptors are used up, connections wait until one ends; one line of the log is about all of them, and it
    doesn't spin. Where they allow fewer connections than are allowed at once, the log says it at the start."""

    def run():
        with serving.Service(program, kind, folder, files=10) as served:
            connections = [served.connected() for _ in range(12)]
            for connection in connections:
                connection.sendall(OFFER)
            serving.expect_replies(connections[0], OPTIONS)
            time.sleep(0.3)
            taken = [at for at, it in enumerate(connections) if at == 0 or select.select([it], [], [], 0)[0]]
            expect('taken', taken == list(range(len(taken))) and 2 <= len(taken) < 10, True)
            seconds = served.seconds()
            time.sleep(1)
            expect('it does not spin', served.seconds() - seconds < 0.1, True)
            for connection in connections[1:len(taken)]:
                serving.expect_replies(connection, OPTIONS)
            for before, connection in zip(connections, connections[len(taken):]):
                expect('it waits', select.select([connection], [], [], 0.05)[0], [])
                say(connections[len(taken) - 1], [(ABORT, b'')])
                expect('lines', [ending for _, ending in served.lines() if ending != b'quit'], [])
                if before is connections[len(taken) - 1]:
                    break
                quit_all([before])
                serving.expect_replies(connection, OPTIONS)
            served.expect_goes_on()
            expect('log', served.log_lines(), [b'event="full" of="descriptors"\n'])

    def said(files, allowed):
        with serving.Service(program, kind, folder, ['--at-once', '5'], files=files) as served:
            serving.listening(served)
            line = b' at-once="5" connections="%d"' % allowed
            expect('start', line + b' count="0"\n' in served.process.stderr.readline(), True)
            if allowed < 5:
                expect('limit', served.process.stderr.readline(), b'event="limit"' + line + b'\n')
            expect('listen', served.process.stderr.readline()[:14], b'event="listen"')
            if allowed:
                connections = [served.connected() for _ in range(min(allowed, 5))]
                for connection in connections:
                    say(connection, [(OFFER, OPTIONS)])
                quit_all(connections)

    yield checked('few descriptors', run)
    # Standard input, output and error, the listener and the wait for sockets have one each.
    for files, allowed in [(5, 0), (6, 1), (9, 4), (10, 5), (20, 15)]:
        yield checked('%d descriptors' % files, said, files, allowed)


def many(program, kind, folder):
    """Many connections of one message each, after which the memory is what it was, and no descriptor is left."""

    def one(served, at):
        conversation = opening(at) + message(at % KEYS)
        with served.connected() as connection:
            connection.sendall(b''.join(given for given, _ in conversation) + QUIT)
            expected = b''.join(reply for _, reply in conversation)
            expect('replies', serving.received(connection, len(expected) + 1), expected)

    count = MOST if kind == 'unix' and program == programs.tool('') else MANY

    def run():
        with serving.Service(program, kind, folder, rules_of_keys(folder)) as served:
            for at in range(WARMED):
                one(served, at)
            served.expect_all(b'quit')
            memory, descriptors = served.memory(), served.descriptors()
            for at in range(count):
                one(served, at)
            served.expect_all(b'quit')
            expect('memory %d, %d' % (memory, served.memory()), served.memory() - memory < 512, True)
            expect('descriptors', served.descriptors(), descriptors)

    yield checked('%d connections' % (WARMED + count), run)


def stopped(program, kind, folder):
    """A run that is stopped and goes on serves what has come meanwhile, also where nothing had come."""

    def run():
        with serving.Service(program, kind, folder) as served:
            with served.connected() as connection:
                say(connection, [(OFFER, OPTIONS)])
                for _ in range(3):
                    served.process.send_signal(signal.SIGSTOP)
                    serving.waited_for(lambda: state_of(served.process.pid) == 'T')
                    served.process.send_signal(signal.SIGCONT)
                    time.sleep(0.05)
                served.expect_goes_on()
                say(connection, [(packet(b'H', b'h'), CONTINUE), (QUIT, b'')])
            served.expect_line(1, b'quit')

    yield checked('stopped and continued', run)


def state_of(process):
    """The letter of a process's state."""
    with open('/proc/%d/stat' % process) as stat_file:
        return stat_file.read().rpartition(')')[2].split()[0]


def restarted(program, kind, folder):
    """A run at the place of one that was killed, with connections left."""

    def run():
        with serving.Service(program, kind, folder) as served:
            connections = [served.connected() for _ in range(3)]
            say(connections[0], [(OFFER, OPTIONS)])
            quit_all(connections[:1])
            served.process.kill()
            served.process.wait()
            with open(os.path.join(folder, 'lines'), 'wb') as lines:
                again = subprocess.Popen([program, 'serve', served.address], stdout=lines, stderr=subprocess.PIPE)
            try:
                with serving.connected(served.at, lambda: again.poll() is not None) as connection:
                    say(connection, [(OFFER, OPTIONS)])
            finally:
                again.kill()
                again.communicate()

    yield checked('restarted', run)


def unwritten(program, kind, folder):
    """Lines that can't be written, on standard output or standard error, or that nobody reads, end nothing, and hold
    nothing: each connection is served. Lines that didn't go out are counted in the next one that does."""
    words = rules_file(folder, 'at mail do reject\n') + ['--log']
    refused = [(OFFER, OPTIONS), (packet(b'M', b'<a@x>'), packet(b'r')), (QUIT, b'')]

    def served_once(place, process):
        with serving.connected(place, lambda: process.poll() is not None) as connection:
            say(connection, refused)
            serving.expect_closed(connection)

    def goes_on(streams, before=None):
        place, address = serving.place_of(kind, folder)
        served = subprocess.Popen([program, 'serve', address, '--all-stages'] + words, preexec_fn=before, **streams)
        try:
            for _ in range(5):
                served_once(place, served)
            expect('it goes on', served.poll(), None)
        finally:
            served.kill()
            served.wait()

    def pipe_without_reader():
        reader, writer = os.pipe()
        os.close(reader)
        return writer

    def count_of(name, text):
        """How many lines these are, and how many more they say were lost."""
        lost = [int(number) for number in re.findall(LOST[name], text)]
        return len(text.splitlines()) - len(lost), lost

    def stopped(name):
        """A reader that doesn't read until many lines are there."""
        place, address = serving.place_of(kind, folder)
        reader, writer = os.pipe()
        fcntl.fcntl(writer, fcntl.F_SETPIPE_SZ, 8192)
        streams = {'stdout': subprocess.DEVNULL, 'stderr': subprocess.DEVNULL, name: writer}
        served = subprocess.Popen([program, 'serve', address, '--all-stages'] + words, **streams)
        os.close(writer)
        try:
            for _ in range(500):
                served_once(place, served)
            text = os.read(reader, 1 << 16)
            served_once(place, served)
            text += read_until(reader, LOST[name] + b'.*\n')
            lines, lost = count_of(name, text)
            served.kill()
            text = b''
            while piece := os.read(reader, 1 << 16):
                text += piece
            expect('one count', len(lost), 1)
            begun = 2 if name == 'stderr' else 0
            expect('all lines', lines + len(text.splitlines()) + lost[0], 501 + begun)
        finally:
            served.kill()
            served.wait()
            os.close(reader)

    def read_until(reader, pattern):
        """What there is to read, up to a whole line after this pattern."""
        text, until = b'', time.monotonic() + serving.SECONDS
        while not re.search(pattern, text) and time.monotonic() < until:
            if select.select([reader], [], [], 1)[0]:
                text += os.read(reader, 1 << 16)
        return text

    null = {'stdout': subprocess.DEVNULL, 'stderr': subprocess.DEVNULL}
    for name, number in [('stdout', 1), ('stderr', 2)]:
        with open('/dev/full', 'wb') as full:
            yield checked(name + ' is full', goes_on, {**null, name: full})
        writer = pipe_without_reader()
        yield checked('nobody reads ' + name, goes_on, {**null, name: writer})
        os.close(writer)
        yield checked(name + ' is closed', goes_on, null, lambda number=number: os.close(number))
        yield checked(name + ' is not read', stopped, name)
    yield checked('all are closed', goes_on, null, lambda: os.closerange(0, 3))


def words_refused(program, folder):
    """Addresses, modes and numbers that are none, and rules that are not read."""
    path = os.path.join(folder, 'socket')

    def refused(words, status, err):
        found = programs.ended([program, 'serve', 'unix:' + path] + words, timeout=serving.SECONDS)
        expect('end', (found[0], found[1], found[2][:len(err)]), (status, b'', err))
        expect('the path', os.path.lexists(path), False)

    for address in test_sockets.BAD_ADDRESSES:
        yield checked('address %r' % address, run_to_end, program, [address], (2, b'', b'bad address\n'))
    for mode in BAD_MODES:
        yield checked('mode ' + mode, refused, ['--mode', mode], 2, b'bad mode\n')
    for words in BAD_OPTIONS:
        yield checked(repr(words), refused, words, 2, b'error: ')
    yield checked('no rules', refused, ['--rules', os.path.join(folder, 'no file')], 1, b'cannot read rules\n')
    yield checked('a fault', refused, rules_file(folder, 'at mail do nothing\n'), 1, b'rules line 1: fault 4\n')


def sockets(program, folder):
    """The modes of Unix sockets, those that are replaced, and the files that are kept."""

    def path_of(name):
        return os.path.join(tempfile.mkdtemp(dir=folder), name)

    def served_at(path, words, mode, umask):
        with open(os.devnull, 'wb') as lines:
            served = subprocess.Popen([program, 'serve', 'unix:' + path] + words, stdout=lines, stderr=subprocess.PIPE,
                                      preexec_fn=lambda: os.umask(umask))
        try:
            with serving.connected(path, lambda: served.poll() is not None) as connection:
                say(connection, [(OFFER, OPTIONS)])
            found = os.lstat(path).st_mode
            expect('mode', (stat.S_ISSOCK(found), stat.S_IMODE(found)), (True, mode))
        finally:
            served.kill()
            served.communicate()

    def replaced():
        path = path_of('left')
        with socket.socket(socket.AF_UNIX) as left:
            left.bind(path)
            left.listen()
        served_at(path, [], 0o660, 0o022)

    def kept(make):
        path = path_of('kept')
        made = make(path)
        before = os.lstat(path)
        try:
            run_to_end(program, ['unix:' + path], (1, b'', b'cannot listen\n'))
            after = os.lstat(path)
            for name in ['st_ino', 'st_mode', 'st_size', 'st_mtime_ns']:
                expect('the path', getattr(after, name), getattr(before, name))
        finally:
            if made is not None:
                made.close()

    def in_use():
        with serving.Service(program, 'unix', folder) as served:
            with served.connected() as connection:
                say(connection, [(OFFER, OPTIONS)])
                run_to_end(program, [served.address], (1, b'', b'cannot listen\n'))
                say(connection, [(packet(b'H', b'h'), CONTINUE)])
            with served.connected() as connection:
                say(connection, [(OFFER, OPTIONS)])

    def file(path):
        with open(path, 'wb') as made:
            made.write(b'a file\n')

    def link_to_left(path):
        with socket.socket(socket.AF_UNIX) as left:
            left.bind(path + '.left')
        os.symlink(path + '.left', path)

    def listening(path):
        made = socket.socket(socket.AF_UNIX)
        made.bind(path)
        made.listen()
        return made

    def datagrams(path):
        made = socket.socket(socket.AF_UNIX, socket.SOCK_DGRAM)
        made.bind(path)
        return made

    for words, mode in [([], 0o660), (['--mode', '600'], 0o600), (['--mode=666'], 0o666), (['--mode', '0770'], 0o770)]:
        for umask in [0, 0o022, 0o077]:
            yield checked('mode %r, %o' % (words, umask), served_at, path_of('socket'), words, mode, umask)
    yield checked('a socket that is left', replaced)
    yield checked('a socket in use', in_use)
    kinds = {
        'a file': file, 'a folder': os.mkdir, 'a pipe': os.mkfifo, 'a link': lambda path: os.symlink(folder, path),
        'a link to nothing': lambda path: os.symlink(path + '.no', path), 'a link to a socket': link_to_left,
        'a listener': listening, 'datagrams': datagrams}
    for name, make in kinds.items():
        yield checked(name + ' is kept', kept, make)
    for path in [os.path.join(folder, 'no folder', 'socket'), os.path.join(folder, 'x' * 108)]:
        yield checked(path, run_to_end, program, ['unix:' + path], (1, b'', b'cannot listen\n'))
    with socket.socket() as taken:
        taken.bind(('127.0.0.1', 0))
        taken.listen()
        for host in ['%d@127.0.0.1' % taken.getsockname()[1], '8890@192.0.2.1', '8890@host.invalid']:
            yield checked(host, run_to_end, program, ['inet:' + host], (1, b'', b'cannot listen\n'))


def groups(folder):
    """Groups of checks: of each its name, its function, and what that is called with. The long ones come first."""
    found = []
    for build in programs.BUILDS:
        program = programs.tool(build)
        name = os.path.basename(program)
        for kind in serving.KINDS:
            for group in [many, idle, released, given_back, crowd, unread, flooded, few_descriptors, queue, stopped,
                          restarted, unwritten]:
                found.append(('%s at %s' % (name, kind), group, (program, kind, tempfile.mkdtemp(dir=folder))))
        for group in [sockets, words_refused]:
            found.append((name, group, (program, tempfile.mkdtemp(dir=folder))))
    order = [many, idle, crowd]
    return sorted(found, key=lambda it: order.index(it[1]) if it[1] in order else len(order))


def main():
    if sys.argv[1:2] == ['flood']:
        place = sys.argv[2].split()
        flood(place[0] if len(place) == 1 else (place[0], int(place[1])))
        return 0
    programs.need('tool')
    resource.setrlimit(resource.RLIMIT_NOFILE, (FILES, FILES))
    with tempfile.TemporaryDirectory() as work:
        return checks.run_all(groups(work))


if __name__ == '__main__':
    sys.exit(main())
