#!/usr/bin/env python3
"""Tries filters by `milter_tool probe`, as both compilers built it, over TCP and over Unix sockets: `milter_tool serve`
and `milter_tool filter` with rules, in which nothing breaks; examples/fragile_filter.py, whose two faults are found by
name; and filters of this file's own, which keep what is sent to them. What is sent in each trial is compared with what
is worked out here from the packets of the plain session. The others of this file's own close, keep silent, give another
verdict, reply twice or to any offer alike, or are away for a while. Counted are the runs.
"""
import os
import re
import socket
import struct
import subprocess
import sys
import tempfile
import threading
import time

from lib import checks, programs, serving
from lib.checks import checked, expect
from lib.packets import code_of, packet_of, packets_of

KINDS = [
    'cut-sent', 'cut-came', 'byte-by-byte', 'ahead', 'offer', 'abort', 'second-message', 'second-client', 'mutated']
# How many offers are tried, and how many trials a kind has at most.
OFFERS, TRIALS_MAX = 32, 2000
# The session of this file: its messages have two recipients each.
MESSAGE = '''message
sender "<ada@example.org>"
recipient "<brook@example.net>"
recipient "<cleo@example.net>"
header "Subject" " Lunch"
body "At one?\\r\\n"
end
'''
CLIENT = 'client 4 "mail.example.org" 49152 "192.0.2.1"\nhelo "mail.example.org"\n'
OPTIONS = packet_of(b'O' + struct.pack('>III', 6, 0, 0))
CONTINUE, REJECT = packet_of(b'c'), packet_of(b'r')
ABORT, NEXT_CLIENT = packet_of(b'A'), packet_of(b'K')
REPLIED = 'CHMRTLNBEU'
# How long an own filter is away, and for how long a filter is waited for where it comes back, and where it doesn't.
AWAY, LONG, SHORT = 0.3, '20', '1'


# ---- filters

def reply_to(packet):
    """The reply of a filter that lets all mail go on."""
    if code_of(packet) == 'O':
        return OPTIONS
    return CONTINUE if code_of(packet) in REPLIED else b''


class Filter:
    """A filter that takes one connection after another, and keeps what is sent on each. The reply to a packet is
    what `reply` answers for the number of the connection, from 0, and the packet; the connection is closed where that
    is None. After the connection with the number `away` it doesn't listen for a while."""

    def __init__(self, kind, folder, reply=lambda number, packet: reply_to(packet), away=None):
        self.place, self.address = serving.place_of(kind, folder)
        self.reply, self.away = reply, away
        self.sent, self.ended = [], 0
        self.listen()
        threading.Thread(target=self.serve, daemon=True).start()

    def listen(self):
        """Begins to listen."""
        if isinstance(self.place, str):
            self.listener = socket.socket(socket.AF_UNIX)
            self.listener.bind(self.place)
            self.listener.listen(100)
        else:
            self.listener = socket.create_server(self.place, backlog=100)

    def serve(self):
        """Takes the connections."""
        while True:
            connection, _ = self.listener.accept()
            number = len(self.sent)
            self.sent.append(b'')
            if number == self.away:
                self.listener.close()
                if isinstance(self.place, str):
                    os.unlink(self.place)
            with connection:
                try:
                    self.converse(connection, number)
                except OSError:
                    pass
            self.ended += 1
            if number == self.away:
                time.sleep(AWAY)
                self.listen()

    def sent_in(self, trials):
        """What was sent plainly, and what was sent in so many trials, once all of it was read."""
        expect('connections', serving.waited_for(lambda: self.ended == 1 + 2 * trials), True)
        return self.sent[::2], self.sent[1::2]

    def converse(self, connection, number):
        """Replies until the connection ends."""
        connection.settimeout(serving.SECONDS)
        if connection.family != socket.AF_UNIX:
            connection.setsockopt(socket.IPPROTO_TCP, socket.TCP_NODELAY, 1)
        unread = b''
        while piece := connection.recv(65536):
            self.sent[number] += piece
            unread += piece
            while len(unread) >= 4 and len(unread) >= 4 + int.from_bytes(unread[:4], 'big') > 4:
                end = 4 + int.from_bytes(unread[:4], 'big')
                reply = self.reply(number, unread[:end])
                if reply is None:
                    return
                connection.sendall(reply)
                unread = unread[end:]


class Fragile:
    """A run of examples/fragile_filter.py."""

    def __init__(self, kind, folder):
        self.at, self.address = serving.place_of(kind, folder)
        place = self.at if kind == 'unix' else '%s:%d' % self.at
        script = os.path.join(programs.TOP, 'examples', 'fragile_filter.py')
        self.process = subprocess.Popen([sys.executable, script, place], stdin=subprocess.DEVNULL,
                                        stdout=subprocess.DEVNULL, stderr=subprocess.DEVNULL)

    def __enter__(self):
        serving.listening(self)
        return self

    def __exit__(self, *_):
        self.process.kill()
        self.process.wait()


# ---- runs

def session_in(folder, text):
    """The path of a new session file."""
    with tempfile.NamedTemporaryFile('w', dir=folder, suffix='.session', delete=False) as session:
        session.write(text)
    return session.name


def ended(program, address, session, *words):
    """How a run ended: its status, its lines and its errors. It waits for long where no word says otherwise."""
    timeout = [] if '--timeout' in words else ['--timeout', LONG]
    done = subprocess.run([program, 'probe', address, session, *words, *timeout], stdin=subprocess.DEVNULL,
                          capture_output=True, timeout=20 * serving.SECONDS, check=False)
    return done.returncode, done.stdout.decode().splitlines(), done.stderr


def tallied(name, made, broke=0):
    """The last line of a kind."""
    return '%s %d trials %d broke' % (name, made, broke)


def expect_run(program, address, session, words, lines):
    """A run prints these lines, and its status says whether something broke."""
    status = 0 if all(line.endswith(' 0 broke') for line in lines) else 1
    expect('run', ended(program, address, session, *words), (status, lines, b''))


def expect_well(program, address, session):
    """Each kind has trials, and nothing breaks."""
    status, lines, errors = ended(program, address, session)
    expect('names', [line.split()[0] for line in lines], KINDS)
    expect('others', [line for line in lines if not re.fullmatch(r'\S+ [1-9]\d* trials 0 broke', line)], [])
    expect('end', (status, errors), (0, b''))


# ---- what is sent in each trial, worked out from the packets of the plain session

def messages_of(packets):
    """Of each message the index of its first packet, and the one after its last."""
    starts = [place for place, packet in enumerate(packets) if code_of(packet) == 'M']
    ends = [place + 1 for place, packet in enumerate(packets) if code_of(packet) == 'E']
    return list(zip(starts, ends))


def trials_of(name, packets):
    """What is sent in the trials of a kind, each as bytes."""
    plain, messages = b''.join(packets), messages_of(packets)
    if name == 'cut-sent':
        return [plain[:count] for count in range(1, len(plain) + 1)]
    if name == 'byte-by-byte':
        return [plain]
    if name == 'ahead':
        return [plain] * (len(packets) - 1)
    if name == 'abort':
        return [b''.join(packets[:place + 1] + [ABORT] + packets[start:])
                for start, end in messages for place in range(start, end - 1)]
    if name == 'second-message':
        return [b''.join(packets[:end] + packets[start:]) for start, end in messages]
    return [b''.join(packets[:-1] + [NEXT_CLIENT] + packets[1:])]


def play_kind(program, kind, folder, name):
    """The trials of a kind are those that are worked out, and after each the session is sent plainly."""
    peer = Filter(kind, folder)
    session = session_in(folder, CLIENT + 2 * MESSAGE)
    end = ended(program, peer.address, session, '--only', name)
    trials = trials_of(name, list(packets_of(peer.sent[0])))
    expect('run', end, (0, [tallied(name, len(trials))], b''))
    plainly, sent = peer.sent_in(len(trials))
    expect('plainly', [it for it in plainly if it != plainly[0]], [])
    expect('trials', sent, trials)


def play_came(program, kind, folder):
    """The connection is closed after each byte that comes."""
    peer = Filter(kind, folder)
    session = session_in(folder, CLIENT + MESSAGE)
    end = ended(program, peer.address, session, '--only', 'cut-came')
    came = sum(len(reply_to(packet)) for packet in packets_of(peer.sent[0]))
    expect('run', end, (0, [tallied('cut-came', came)], b''))
    plainly, sent = peer.sent_in(came)
    expect('plainly', [it for it in plainly if it != plainly[0]], [])
    expect('trials', [it for it in sent if not plainly[0].startswith(it)], [])


def offers():
    """The offers of the trials: of version 2, of no bits, and of each action and each protocol bit alone."""
    yield 2, 0x3f, 0x7f
    yield 6, 0, 0
    for bit in range(9):
        yield 6, 1 << bit, 0x1fffff
    for bit in range(21):
        yield 6, 0x1ff, 1 << bit


def play_offers(program, kind, folder):
    """Each offer is made."""
    peer = Filter(kind, folder, lambda number, packet: packet_of(b'O' + struct.pack('>III', 2, 0, 0))
                  if code_of(packet) == 'O' else reply_to(packet))
    session = session_in(folder, CLIENT + MESSAGE)
    expect_run(program, peer.address, session, ['--only', 'offer'], [tallied('offer', OFFERS)])
    _, sent = peer.sent_in(OFFERS)
    expect('offers', [struct.unpack('>III', it[5:17]) for it in sent], list(offers()))


def mutants(program, kind, folder, seed):
    """What is sent in the trials of mutated packets by this seed."""
    peer = Filter(kind, folder)
    session = session_in(folder, CLIENT + MESSAGE)
    status, lines, errors = ended(program, peer.address, session, '--only', 'mutated', '--seed', seed)
    made = int(lines[-1].split()[1])
    expect('run', (status, lines, errors), (0, [tallied('mutated', made)], b''))
    plainly, sent = peer.sent_in(made)
    expect('mutated', [it for it in sent if plainly[0].startswith(it)], [])
    return sent


def play_seeds(program, kind, folder):
    """A seed gives the same packets again, and another one gives others."""
    first, again, other = (mutants(program, kind, folder, seed) for seed in ('7', '7', '8'))
    expect('the same seed', first == again, True)
    expect('another seed', first == other, False)


def play_many(program, kind, folder):
    """Of more than 2,000 trials of a kind some are made."""
    peer = Filter(kind, folder)
    session = session_in(folder, CLIENT + MESSAGE.replace('At one?', 'At one?' * 400))
    expect_run(program, peer.address, session, ['--only', 'cut-sent'], [tallied('cut-sent', TRIALS_MAX)])
    plainly, sent = peer.sent_in(TRIALS_MAX)
    steps = {len(after) - len(before) for before, after in zip(sent, sent[1:])}
    expect('spread', (len(sent[-1]), steps <= {1, 2}), (len(plainly[0]), True))


# ---- what breaks

def play_broken(program, kind, folder, reply, name, messages, timeout, lines, away=None):
    """A filter of this file's own breaks in these ways."""
    peer = Filter(kind, folder, reply, away)
    session = session_in(folder, CLIENT + messages * MESSAGE)
    expect_run(program, peer.address, session, ['--only', name, '--timeout', timeout], lines)


def at_once(number, packet):
    """A filter that closes all connections after the first."""
    return None if number else reply_to(packet)


def from_second(number, packet):
    """A filter that is silent on all connections after the first."""
    return b'' if number else reply_to(packet)


def for_two(number, packet):
    """A filter that closes the second and the third connection."""
    return None if number in (1, 2) else reply_to(packet)


def other_later(number, packet):
    """A filter that refuses each client from the third connection on."""
    return REJECT if number > 1 and code_of(packet) == 'C' else reply_to(packet)


def twice(number, packet):
    """A filter that replies to a client twice on the second connection."""
    return reply_to(packet) * (2 if number == 1 and code_of(packet) == 'C' else 1)


def same_offer(_, packet):
    """A filter that wants the same two actions at each offer."""
    return packet_of(b'O' + struct.pack('>III', 6, 0x11, 0)) if code_of(packet) == 'O' else reply_to(packet)


# (the offer of no bits, 2, may be taken for one of version 1)
SAME_OFFER = ['offer 1 in version not supported at offer']
SAME_OFFER += ['offer %d in actions that were not offered at offer' % number for number in range(3, 12)]
# Filters that break: of each a name, its replies, the kind of the trials, the messages, --timeout, and the lines.
BROKEN = [
    ('silent at first', lambda number, packet: b'', 'abort', 1, SHORT, ['reference timeout at offer']),
    ('closes at first', lambda number, packet: None, 'abort', 1, SHORT, ['reference connection lost at offer']),
    ('closes', at_once, 'byte-by-byte', 1, SHORT, [
        'byte-by-byte 1 in connection lost at offer', 'byte-by-byte 1 after connection lost at offer',
        tallied('byte-by-byte', 1, 1)]),
    ('is silent', from_second, 'byte-by-byte', 1, SHORT, [
        'byte-by-byte 1 in timeout at offer', 'byte-by-byte 1 after timeout at offer', tallied('byte-by-byte', 1, 1)]),
    ('closes two', for_two, 'second-message', 2, LONG, [
        'second-message 1 in connection lost at offer', 'second-message 1 after connection lost at offer',
        tallied('second-message', 2, 1)]),
    ('another verdict', other_later, 'byte-by-byte', 1, LONG, [
        'byte-by-byte 1 after reject in place of continue at connect', tallied('byte-by-byte', 1, 1)]),
    ('two replies', twice, 'byte-by-byte', 1, LONG, [
        'byte-by-byte 1 in reply before its command at connect', tallied('byte-by-byte', 1, 1)]),
    ('the same at each offer', same_offer, 'offer', 1, LONG, SAME_OFFER + [tallied('offer', OFFERS, 10)])]


def play_away(program, kind, folder):
    """A filter is away for a while after the first trial."""
    lines = ['second-message 1 after no connection', tallied('second-message', 2, 1)]
    play_broken(program, kind, folder, lambda number, packet: reply_to(packet), 'second-message', 2, LONG, lines, 1)


def play_fragile(program, kind, folder, name, made, lines):
    """The faults of the example are found by its name, and no others."""
    session = session_in(folder, CLIENT + MESSAGE)
    with Fragile(kind, folder) as peer:
        broken = len(lines)
        expect_run(program, peer.address, session, ['--only', name], lines + [tallied(name, made, broken)])


def play_dying(program, kind, folder):
    """The example dies at the first cut within a packet, and isn't there any more."""
    session = session_in(folder, CLIENT + MESSAGE)
    with Fragile(kind, folder) as peer:
        status, lines, errors = ended(program, peer.address, session, '--only', 'cut-sent', '--timeout', SHORT)
        expect('end', (status, lines[1:], errors), (1, [tallied('cut-sent', 1, 1)], b''))
        expect('line', bool(re.fullmatch(
            r'cut-sent 1 after (no connection|connection lost at (offer|connect))', lines[0])), True)
        peer.process.wait(serving.SECONDS)


# ---- groups of checks

def by_packets(program, kind):
    """What is sent in the trials."""
    with tempfile.TemporaryDirectory() as folder:
        for name in KINDS:
            if name not in ('cut-came', 'offer', 'mutated'):
                yield checked(name, play_kind, program, kind, folder, name)
        for name, play in [('cut-came', play_came), ('offer', play_offers), ('seeds', play_seeds), ('many', play_many)]:
            yield checked(name, play, program, kind, folder)


def by_breaking(program, kind):
    """Filters that break."""
    with tempfile.TemporaryDirectory() as folder:
        for name, *given in BROKEN:
            yield checked(name, play_broken, program, kind, folder, *given)
        yield checked('away', play_away, program, kind, folder)


def by_example(program, kind):
    """The example with two faults: its commands are numbered from the offer, 1, to the end of the message, 10."""
    refused = ['abort %d in reject in place of continue at eob' % number for number in range(5, 10)]
    runs = [('abort', 6, refused), ('byte-by-byte', 1, []), ('ahead', 10, []), ('offer', OFFERS, []),
            ('second-message', 1, []), ('second-client', 1, [])]
    with tempfile.TemporaryDirectory() as folder:
        for name, made, lines in runs:
            yield checked(name, play_fragile, program, kind, folder, name, made, lines)
        yield checked('cut-sent', play_dying, program, kind, folder)


def by_rules(program, kind):
    """`serve` and `filter` with the rules of the examples, in which nothing breaks."""
    rules = ['--rules', os.path.join(programs.TOP, 'examples', 'mail.rules')]
    session = os.path.join(programs.TOP, 'examples', 'policy.session')
    with tempfile.TemporaryDirectory() as folder:
        runs = [('serve', serving.Service, rules), ('serve without rules', serving.Service, ['--all-stages']),
                ('filter', one_by_one, rules)]
        for name, run, options in runs:
            with run(program, kind, folder, options) as peer:
                serving.listening(peer)
                yield checked(name, expect_well, program, peer.address, session)


def one_by_one(program, kind, folder, options):
    """A run of `milter_tool filter` for all connections, whose lines nobody reads."""
    return serving.Filter(program, kind, folder, options + ['--count', '1000000'], stdout=subprocess.DEVNULL)


def by_words(program):
    """Wrong uses, and a filter that isn't there."""
    with tempfile.TemporaryDirectory() as folder:
        session = session_in(folder, CLIENT + MESSAGE)
        place = 'unix:' + os.path.join(folder, 'none')
        for name, words, end in [
                ('no kind', [place, session, '--only', 'cut'], (2, [], b'bad value for --only\n')),
                ('no address', ['here', session], (2, [], b'bad address\n')),
                ('no session', [place, os.path.join(folder, 'none')], (1, [], b'cannot read session\n')),
                ('no filter', [place, session], (1, [], b'cannot connect\n'))]:
            yield checked(name, lambda: expect('run', ended(program, *words), end))


def groups():
    """The groups of checks: of each its name, its function, and what it is called with."""
    for build in programs.BUILDS:
        yield 'words' + build, by_words, (programs.tool(build),)
        for kind in serving.KINDS:
            for name, group in [('packets', by_packets), ('breaking', by_breaking), ('example', by_example),
                                ('rules', by_rules)]:
                yield '%s over %s%s' % (name, kind, build), group, (programs.tool(build), kind)


if __name__ == '__main__':
    programs.need('tool')
    sys.exit(checks.run_all(groups()))
