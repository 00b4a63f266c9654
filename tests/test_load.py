#!/usr/bin/env python3
"""Puts loads on filters by `milter_tool load`, as both compilers built it, over TCP and Unix sockets, and compares what
is printed with what the filter did.

The filters are `milter_tool serve` with rules, of which each message of a session has another outcome, and peers of this
file's own, which end a connection, keep silent, reply twice or late at one command. Looked at are the counts of
messages, outcomes, causes and connections, how many messages a rate made in a time, that a latency counts from when its
message was due, and that the JSON object says the same as the lines.
"""
import json
import os
import socket
import subprocess
import sys
import tempfile
import threading
import time

from lib import checks, conversations, programs, serving
from lib.checks import checked, expect
from lib.packets import code_of

# The commands to which a peer replies, and how many messages a load has where the test says nothing else.
REPLIED = 'CHMRTLNBEU'
MESSAGES = 40
# The senders of a session's messages, and what rules make of each.
OUTCOMES = {'released': None, 'discarded': 'at eob when sender is "<discarded@x>" do discard',
            'refused': 'at mail when sender is "<refused@x>" do reject',
            'no-recipients': 'at rcpt when sender is "<no-recipients@x>" do reject'}
# The names of the latencies, in order.
TIMED = ['negotiate', 'connect', 'helo', 'mail', 'rcpt', 'data', 'header', 'eoh', 'body', 'eob', 'message']
PERCENTILES = ['p50', 'p90', 'p99', 'p99.9', 'most']


def session_in(folder, senders):
    """The path of a session with a message of each of these senders, with two recipients."""
    path = os.path.join(tempfile.mkdtemp(dir=folder), 'session')
    with open(path, 'w') as session:
        session.write('client 4 "h.example" 25 "192.0.2.1"\nhelo "h.example"\n')
        for sender in senders:
            session.write('message\nsender "<%s@x>"\nrecipient "<b@y>"\nrecipient "<c@y>"\n'
                          'header "Subject" " a load"\nbody "Hi\\r\\n"\nend\n' % sender)
    return path


def ended(program, address, session, *words):
    """How a run ended: its status, output and errors."""
    done = subprocess.run([program, 'load', address, session, *words], stdin=subprocess.DEVNULL, capture_output=True,
                          timeout=serving.SECONDS, check=False)
    return done.returncode, done.stdout, done.stderr


def loaded(program, address, session, *words, status=0):
    """What a load printed as JSON."""
    found = ended(program, address, session, '--json', *words)
    expect('status and errors', (found[0], found[2]), (status, b''))
    return json.loads(found[1])


def expect_counts(found, settled, default, made, lost=0, failed=0):
    """Compares what was counted; an outcome or a cause that isn't named has none."""
    expect('settled', {name: count for name, count in found['settled'].items() if count}, settled)
    expect('default', {name: count for name, count in found['default'].items() if count}, default)
    expect('messages', found['messages'], sum(settled.values()) + sum(default.values()))
    expect('connections', found['connections'], {'made': made, 'failed': failed, 'lost': lost})


class Peer:
    """A filter that takes connections, and replies to each command that it lets go on. `act` is called with the number
    of the connection, of its message, and the code of a command: it may answer 'closes', 'is silent' or 'replies
    twice', or wait."""

    def __init__(self, kind, folder, act=lambda connection, message, code: None):
        place, self.address = serving.place_of(kind, folder)
        self.listener = socket.socket(socket.AF_UNIX) if kind == 'unix' else socket.create_server(place)
        if kind == 'unix':
            self.listener.bind(place)
            self.listener.listen()
        self.act, self.made = act, 0
        threading.Thread(target=self.serve, daemon=True).start()

    def __enter__(self):
        return self

    def __exit__(self, *_):
        self.listener.close()

    def serve(self):
        """Takes connections until it is closed."""
        try:
            while True:
                connection, _ = self.listener.accept()
                self.made += 1
                threading.Thread(target=self.converse, args=(connection, self.made), daemon=True).start()
        except OSError:
            pass

    def converse(self, connection, number):
        """Replies on a connection until its far end closes it."""
        message = 0
        with connection:
            if connection.family != socket.AF_UNIX:
                connection.setsockopt(socket.IPPROTO_TCP, socket.TCP_NODELAY, 1)
            while True:
                head = serving.received(connection, 4)
                packet = head + serving.received(connection, int.from_bytes(head, 'big'))
                if len(packet) < 5:
                    return
                code = code_of(packet)
                message += code == 'M'
                reply = conversations.OPTIONS if code == 'O' else conversations.CONTINUE if code in REPLIED else b''
                then = self.act(number, message, code) if reply else None
                if then == 'closes':
                    return
                if reply and then != 'is silent':
                    connection.sendall(2 * reply if then == 'replies twice' else reply)


def at(connection, message, code, then):
    """What a peer does at one command."""
    return lambda *here: then if here == (connection, message, code) else None


# ---- groups of checks

def play_outcomes(program, address, session, at_once):
    """Each message of a session has another outcome."""
    found = loaded(program, address, session, '--messages', '%d' % MESSAGES, '--at-once', '%d' % at_once)
    expect('messages', found['messages'], MESSAGES)
    expect('connections', found['connections'], {'made': at_once, 'failed': 0, 'lost': 0})
    if at_once == 1:
        expect_counts(found, {name: MESSAGES // len(OUTCOMES) for name in OUTCOMES}, {}, 1)
    expect('latencies', list(found['latency']), TIMED)
    counts = {name: latency['count'] for name, latency in found['latency'].items()}
    expect('connects', (counts['negotiate'], counts['connect'], counts['helo']), (at_once,) * 3)
    expect('messages and senders', (counts['message'], counts['mail']), (MESSAGES, MESSAGES))
    expect('recipients', counts['rcpt'], 2 * (MESSAGES - found['settled']['refused']))
    expect('ends', counts['eob'], found['settled']['released'] + found['settled']['discarded'])
    for latency in found['latency'].values():
        expect('percentiles', sorted(latency[name] for name in PERCENTILES), [latency[name] for name in PERCENTILES])


def play_lines(program, address, session):
    """The lines have the names and the order that help explains."""
    status, out, err = ended(program, address, session, '--messages', '%d' % MESSAGES)
    expect('status and errors', (status, err), (0, b''))
    lines = [line.split() for line in out.decode().splitlines()]
    expect('first words', [line[0] for line in lines if line[0] not in ('settled', 'latency')],
           ['seconds', 'messages', 'sent', 'received'] + ['connections'] * 3)
    expect('settled', [line[1:] for line in lines if line[0] == 'settled'],
           [[name, '%d' % (MESSAGES // len(OUTCOMES))] for name in OUTCOMES])
    expect('latencies', [line[1] for line in lines if line[0] == 'latency'], TIMED)
    expect('messages', lines[1][:2], ['messages', '%d' % MESSAGES])


def to_serve(program, kind):
    """Loads are put on `milter_tool serve`."""
    with tempfile.TemporaryDirectory() as folder:
        session = session_in(folder, OUTCOMES)
        rules = conversations.rules_file(folder, ''.join(rule + '\n' for rule in OUTCOMES.values() if rule))
        with serving.Service(program, kind, folder, rules) as served:
            served.connected().close()
            for at_once in 1, 3, 16:
                yield checked('%d at once' % at_once, play_outcomes, program, served.address, session, at_once)
            yield checked('lines', play_lines, program, served.address, session)
        rules = conversations.rules_file(folder, 'at connect do reject\n')
        with serving.Service(program, kind, folder, rules) as served:
            served.connected().close()
            yield checked('refused at connection', lambda: expect_counts(
                loaded(program, served.address, session, '--messages', '5'), {'refused-at-connection': 5}, {}, 5))


def play_end(program, kind, folder, session, end):
    """The filter is lost at the end of the second message."""
    then, cause, seconds = end
    with Peer(kind, folder, at(1, 2, 'E', then)) as peer:
        found = loaded(program, peer.address, session, '--messages', '6', '--timeout', seconds)
        # What is sent twice is a reply too much, after the verdict.
        default, released = ({}, 6) if then == 'replies twice' else ({cause: 1}, 5)
        expect_counts(found, {'released': released}, default, 2, 1)


def play_never(program, kind, folder, session):
    """No filter listens."""
    _, address = serving.place_of(kind, folder)
    found = ended(program, address, session, '--messages', '1')
    expect('end', (found[0], found[1], found[2].splitlines()[0]), (1, b'', b'cannot connect'))


def play_all_lost(program, kind, folder, session):
    """Each connection is lost at its first message: none is settled by the filter."""
    with Peer(kind, folder, lambda _, message, code: 'closes' if code == 'M' else None) as peer:
        found = loaded(program, peer.address, session, '--messages', '4', status=1)
        expect_counts(found, {}, {'reset': 4}, 4, 4)


def play_no_offer(program, kind, folder, session, then):
    """No offer is answered: the load ends, though each time a connection was open for a while."""
    def act(_connection, _message, code):
        if code == 'O':
            time.sleep(0.3)
        return then

    with Peer(kind, folder, act) as peer:
        found = loaded(program, peer.address, session, '--messages', '4', '--timeout', '1', status=1)
        expect('messages', found['messages'], 0)
        made, lost = (found['connections'][name] for name in ('made', 'lost'))
        expect('made again', made > 1 and made - lost in (0, 1), True)


def losses(program, kind):
    """Filters are lost."""
    with tempfile.TemporaryDirectory() as folder:
        session = session_in(folder, ['released'])
        for end in ('closes', 'reset', '30'), ('is silent', 'timeout', '1'), ('replies twice', 'fault', '30'):
            yield checked(end[0], play_end, program, kind, folder, session, end)
        yield checked('all are lost', play_all_lost, program, kind, folder, session)
        for then in 'closes', 'is silent':
            yield checked('no offer is answered: %s' % then, play_no_offer, program, kind, folder, session, then)
        yield checked('no filter', play_never, program, kind, folder, session)


def play_rate(program, kind, folder, session):
    """A rate is kept."""
    with Peer(kind, folder) as peer:
        found = loaded(program, peer.address, session, '--rate', '50', '--messages', '51', '--at-once', '2')
        expect_counts(found, {'released': 51}, {}, 2)
        expect('seconds', 1 <= found['seconds'] < 2, True)


def play_due(program, kind, folder, session):
    """A latency counts from when its message was due: one that is late makes those behind it late."""
    with Peer(kind, folder, lambda _, message, code: time.sleep(1) if (message, code) == (1, 'E') else None) as peer:
        found = loaded(program, peer.address, session, '--rate', '100', '--messages', '51')
        latency = found['latency']['message']
        expect('half of them wait', latency['p50'] > 500_000, True)
        expect('no more than that', latency['most'] < 2_000_000, True)
        expect('commands of a message', found['latency']['rcpt']['p99'] < 500_000, True)


def play_time(program, kind, folder, session):
    """A load ends after a time."""
    with Peer(kind, folder) as peer:
        begun = time.monotonic()
        found = loaded(program, peer.address, session, '--for', '1', '--at-once', '3')
        expect('time', 1 <= time.monotonic() - begun < 5, True)
        expect('messages', found['messages'] == found['settled']['released'] > 1, True)
        found = loaded(program, peer.address, session, '--for', '1', '--rate', '10')
        expect('messages by a rate', 9 <= found['messages'] <= 11, True)


def times(program, kind):
    """Loads are limited by a time or a rate."""
    with tempfile.TemporaryDirectory() as folder:
        session = session_in(folder, ['released'])
        for name, play in ('rate', play_rate), ('due', play_due), ('time', play_time):
            yield checked(name, play, program, kind, folder, session)


def play_nothing(program, folder):
    """A session without messages is no load."""
    found = loaded(program, 'unix:/nowhere', session_in(folder, []), status=1)
    expect_counts(found, {}, {}, 0)


def faults(program):
    """Wrong uses."""
    with tempfile.TemporaryDirectory() as folder:
        session = session_in(folder, ['released'])
        yield checked('bad address', lambda: expect('end', ended(program, 'nowhere', session), (2, b'', b'bad address\n')))
        yield checked('no session', lambda: expect(
            'end', ended(program, 'unix:/nowhere', folder + '/none'), (1, b'', b'cannot read session\n')))
        yield checked('no message', play_nothing, program, folder)


def groups():
    """The groups of checks: of each its name, its function, and what it is called with."""
    for build in programs.BUILDS:
        for kind in serving.KINDS:
            for group in to_serve, losses, times:
                yield '%s over %s%s' % (group.__name__, kind, build), group, (programs.tool(build), kind)
        yield 'faults%s' % build, faults, (programs.tool(build),)


if __name__ == '__main__':
    programs.need('tool')
    sys.exit(checks.run_all(groups()))
