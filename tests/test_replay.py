#!/usr/bin/env python3
"""Sends traces to filters again by `milter_tool replay`, as both compilers built it, over TCP and Unix sockets, and
compares what is sent and printed with what is worked out here from the packets.

The captured conversations cases/captures/* are sent to a filter of this file's own, which gives the recorded replies,
whole or byte by byte: as they were captured, with the packets of the two sides in any other order in which each reply
comes after its command, and with each packet cut over two lines. It also gives another verdict than was recorded, ends
the connection, resets it, keeps silent, or replies twice, each after any of its replies. And they are sent to
`milter_tool serve` without rules, and a conversation whose two recipients have macros of their own to `serve` with
rules that look at these. Counted are the runs.
"""
import collections
import os
import random
import socket
import struct
import subprocess
import sys
import tempfile
import threading

from lib import captures, checks, conversations, packets, programs, serving
from lib.checks import checked, expect
from lib.packets import packet_of, packets_of

# A command of a trace: the number of its line, its packet and its text, and the packets and texts of the replies to it.
Exchange = collections.namedtuple('Exchange', 'line command text replies')
# How many orders of the packets of a capture are chosen by chance.
ORDERS = 8
# What an own filter gives that no capture has.
TEMPFAIL = packet_of(b't'), '< t'
CONTINUE = packet_of(b'c'), '< c'
OPTIONS = packet_of(b'O' + struct.pack('>III', 6, 0, 0)), '< O version 6 actions 00000000 protocol 00000000'
# The codes of the commands to which a filter without rules replies.
REPLIED = b'CHMRTLNBEU'
# How an own filter may end, with the cause that is printed, and the seconds that it may take.
ENDS = [('closes', 'connection lost', '30'), ('resets', 'connection lost', '30'), ('is silent', 'timeout', '1'),
        ('replies twice', 'reply before its command', '30')]


# ---- what is sent and printed

def exchanges_of(path):
    """The commands of a capture, each with the replies to it."""
    found = []
    with open(path, encoding='ascii') as trace, open(os.path.join(os.path.dirname(path), 'stdout')) as texts:
        for number, line in enumerate(trace, 1):
            mark, digits = line.split()
            for packet in packets_of(bytes.fromhex(digits)):
                text = next(texts).rstrip('\n')
                if mark == '>':
                    found.append(Exchange(number, packet, text, []))
                elif packets.code_of(packet) != 'p':
                    found[-1].replies.append((packet, text))
    return found


def count_of_first(ones, others):
    """How many of the first of these are the same."""
    count = 0
    while count < min(len(ones), len(others)) and ones[count] == others[count]:
        count += 1
    return count


def lines_of(exchange, came, is_sent=True):
    """The lines of a command and of the replies to it, of which these came."""
    recorded = exchange.replies
    first = count_of_first(recorded, came)
    last = count_of_first(recorded[first:][::-1], came[first:][::-1])
    lines = [('  ' if is_sent else '- ') + exchange.text]
    lines += ['  ' + text for _, text in came[:first]]
    lines += ['- ' + text for _, text in recorded[first:len(recorded) - last]]
    lines += ['+ ' + text for _, text in came[first:len(came) - last]]
    return lines + ['  ' + text for _, text in came[len(came) - last:]]


def end_of(exchanges, came, lost=None):
    """The status, output and errors of a run in which these replies came to the first commands, one list for each;
    after the last of them the filter is lost for this cause, if it is."""
    lines, differs = [], None
    for exchange, replies in zip(exchanges, came):
        lines += lines_of(exchange, replies)
        if differs is None and replies != exchange.replies:
            differs = exchange.line
    if lost is not None:
        lines.append('! ' + lost)
        differs = differs or exchanges[len(came) - 1].line
    for exchange in exchanges[len(came):]:
        lines += lines_of(exchange, [], False)
    errors = b'' if differs is None else b'differs at line %d\n' % differs
    return (0 if differs is None else 1), ''.join(line + '\n' for line in lines).encode(), errors


# ---- traces

def trace_lines(exchanges):
    """A trace with a line for each packet."""
    for exchange in exchanges:
        yield '>', exchange.command
        for packet, _ in exchange.replies:
            yield '<', packet


def in_any_order(exchanges, chance):
    """A trace in whose lines are packets of one side; each reply comes after its command, and else in any order."""
    commands = [exchange.command for exchange in exchanges]
    replies = [(place, packet) for place, exchange in enumerate(exchanges) for packet, _ in exchange.replies]
    sent = given = 0
    while sent < len(commands) or given < len(replies):
        count = min(chance.choice([0, 1, 2, 5, len(commands)]), len(commands) - sent)
        if count:
            yield '>', b''.join(commands[sent:sent + count])
        sent += count
        due = [packet for place, packet in replies[given:] if place < sent]
        count = min(chance.choice([0, 1, 2, len(replies)]), len(due))
        if count:
            yield '<', b''.join(due[:count])
        given += count


def cut(exchanges):
    """A trace in which each packet is cut over two lines."""
    for mark, packet in trace_lines(exchanges):
        half = len(packet) // 2
        yield mark, packet[:half]
        yield mark, packet[half:]


def written(folder, lines):
    """The path of a new file with this trace."""
    with tempfile.NamedTemporaryFile('w', dir=folder, suffix='.trace', delete=False) as trace:
        for mark, piece in lines:
            for at in range(0, len(piece), 100000):
                trace.write('%s %s\n' % (mark, piece[at:at + 100000].hex()))
    return trace.name


def renumbered(exchanges):
    """The same commands in a trace with a line for each packet."""
    number, found = 0, []
    for exchange in exchanges:
        found.append(exchange._replace(line=number + 1))
        number += 1 + len(exchange.replies)
    return found


# ---- filters

class Filter:
    """A filter that takes one connection, reads these commands, and after each of them sends these replies, byte by
    byte where it is to; then it does this."""

    def __init__(self, kind, folder, commands, came, then, by_bytes=False):
        place, self.address = serving.place_of(kind, folder)
        self.listener = socket.socket(socket.AF_UNIX) if kind == 'unix' else socket.create_server(place)
        if kind == 'unix':
            self.listener.bind(place)
            self.listener.listen()
        self.listener.settimeout(serving.SECONDS)
        self.commands, self.came, self.then, self.by_bytes = commands, came, then, by_bytes
        self.wrong = 'no connection'
        self.thread = threading.Thread(target=self.serve, daemon=True)
        self.thread.start()

    def serve(self):
        """Takes the connection."""
        try:
            connection, _ = self.listener.accept()
            with connection:
                connection.settimeout(serving.SECONDS)
                if connection.family != socket.AF_UNIX:
                    connection.setsockopt(socket.IPPROTO_TCP, socket.TCP_NODELAY, 1)
                self.converse(connection)
            self.wrong = None
        except Exception as wrong:  # whatever it is, the test says it
            self.wrong = repr(wrong)
        finally:
            self.listener.close()

    def converse(self, connection):
        """Reads the commands, and replies."""
        for command, replies in zip(self.commands, self.came):
            expect('command', serving.received(connection, len(command)), command)
            sent = b''.join(packet for packet, _ in replies)
            for at in range(len(sent)) if self.by_bytes else [0] if sent else []:
                connection.sendall(sent[at:at + 1] if self.by_bytes else sent)
        if self.then == 'resets':
            serving.reset_at_end(connection)
        elif self.then != 'closes':
            expect('after the last command', connection.recv(1), b'')

    def end(self):
        """Waits until the connection was served."""
        self.thread.join(serving.SECONDS)
        expect('filter', self.wrong, None)


def ended(program, address, trace, *words):
    """How a run ended: its status, output and errors."""
    done = subprocess.run([program, 'replay', address, trace, '--wait', '30', *words], stdin=subprocess.DEVNULL,
                          capture_output=True, timeout=serving.SECONDS, check=False)
    return done.returncode, done.stdout, done.stderr


def compare(found, expected):
    """Compares how a run ended."""
    wrong = programs.compared('run', found, expected)
    if wrong is not None:
        raise checks.Wrong(wrong)


# ---- groups of checks

def play(program, kind, folder, trace, exchanges, by_bytes):
    """A filter gives the recorded replies."""
    came = [exchange.replies for exchange in exchanges]
    peer = Filter(kind, folder, [exchange.command for exchange in exchanges], came, 'goes on', by_bytes)
    compare(ended(program, peer.address, trace), end_of(exchanges, came))
    peer.end()


def as_recorded(program, kind, path):
    """A capture is sent to a filter that gives the recorded replies, with its packets in other orders too."""
    exchanges = exchanges_of(path)
    with tempfile.TemporaryDirectory() as folder:
        traces = {'as captured': path, 'cut': written(folder, cut(exchanges))}
        for seed in range(ORDERS):
            traces['order %d' % seed] = written(folder, in_any_order(exchanges, random.Random(seed)))
        for number, (name, trace) in enumerate(traces.items()):
            yield checked(name, play, program, kind, folder, trace, exchanges, number % 2 == 1)


def play_other(program, kind, folder, exchanges, place):
    """A filter gives another verdict on one command."""
    came = [list(exchange.replies) for exchange in exchanges]
    came[place][-1] = TEMPFAIL
    peer = Filter(kind, folder, [exchange.command for exchange in exchanges], came, 'goes on')
    compare(ended(program, peer.address, written(folder, trace_lines(exchanges))), end_of(exchanges, came))
    peer.end()


def play_lost(program, kind, folder, exchanges, place, end):
    """A filter is lost at one command."""
    then, cause, seconds = end
    came = [exchange.replies for exchange in exchanges[:place]]
    came.append(exchanges[place].replies + [CONTINUE] if then == 'replies twice' else [])
    commands = [exchange.command for exchange in exchanges[:place + 1]]
    peer = Filter(kind, folder, commands, came, then)
    trace = written(folder, trace_lines(exchanges))
    compare(ended(program, peer.address, trace, '--timeout', seconds), end_of(exchanges, came, cause))
    peer.end()


def otherwise(program, kind, path):
    """A capture is sent to filters that answer one command otherwise, each command in turn, or are lost at it."""
    exchanges = renumbered(exchanges_of(path))
    places = [place for place, exchange in enumerate(exchanges) if exchange.replies]
    with tempfile.TemporaryDirectory() as folder:
        for place in places[1:]:
            yield checked('another verdict at %d' % place, play_other, program, kind, folder, exchanges, place)
        for place in places:
            for end in ENDS:
                # One that is silent takes a second, so one of them is.
                if end[0] != 'is silent' or place == places[-1]:
                    yield checked('%s at %d' % (end[0], place), play_lost, program, kind, folder, exchanges, place, end)


def reply_without_rules(command):
    """What a filter without rules replies to a command."""
    if command[4:5] == b'O':
        return [OPTIONS]
    return [CONTINUE] if command[4:5] in REPLIED else []


def play_to_serve(program, kind, folder, trace, exchanges, came, options):
    """A run of `milter_tool serve` with these options gives these replies."""
    with serving.Service(program, kind, folder, options) as served:
        compare(ended(program, served.address, written(folder, trace)), end_of(exchanges, came))


def to_serve(program, kind):
    """The captures are sent to `milter_tool serve` without rules."""
    with tempfile.TemporaryDirectory() as folder:
        for path in captures.paths():
            exchanges = renumbered(exchanges_of(path))
            came = [reply_without_rules(exchange.command) for exchange in exchanges]
            yield checked(os.path.basename(os.path.dirname(path)), play_to_serve, program, kind, folder,
                          trace_lines(exchanges), exchanges, came, [])


def macros(stage, *texts):
    """A packet of macros for a stage, and its text."""
    text = '> D %s %s' % (stage.decode(), ' '.join('"%s"' % text.decode() for text in texts))
    return packet_of(b'D' + stage + b''.join(text + b'\0' for text in texts)), text


REFUSED = packet_of(b'y550 5.1.1 Not here\0'), '< y "550 5.1.1 Not here"'
# Two recipients of a message, each with macros of its own: the second one is refused by them.
RECIPIENTS = [
    ((packet_of(b'O' + struct.pack('>III', 6, 0x1ff, 0x1fffff)), '> O version 6 actions 000001ff protocol 001fffff'),
     [OPTIONS]),
    (macros(b'C', b'j', b'mx.example.net'), []),
    ((packet_of(b'Ch.example\x004\0\x19192.0.2.1\0'), '> C "h.example" 4 25 "192.0.2.1"'), [CONTINUE]),
    ((packet_of(b'Hh.example\0'), '> H "h.example"'), [CONTINUE]),
    ((packet_of(b'M<a@example.org>\0'), '> M "<a@example.org>"'), [CONTINUE]),
    (macros(b'R', b'{rcpt_mailer}', b'local'), []),
    ((packet_of(b'R<b@example.net>\0'), '> R "<b@example.net>"'), [CONTINUE]),
    (macros(b'R', b'{rcpt_mailer}', b'relay'), []),
    ((packet_of(b'R<c@example.net>\0'), '> R "<c@example.net>"'), [REFUSED]),
    ((packet_of(b'T'), '> T'), [CONTINUE]), ((packet_of(b'N'), '> N'), [CONTINUE]),
    ((packet_of(b'E'), '> E 0'), [CONTINUE]), ((packet_of(b'Q'), '> Q'), [])]


def to_rules(program, kind):
    """A conversation whose recipients have macros of their own is sent to rules that look at these."""
    exchanges = renumbered([Exchange(0, command, text, replies) for (command, text), replies in RECIPIENTS])
    recorded = [exchange.replies for exchange in exchanges]
    first, second = (place for place, exchange in enumerate(exchanges) if exchange.command[4:5] == b'R')
    swapped = list(recorded)
    swapped[first], swapped[second] = recorded[second], recorded[first]
    runs = [('relay', trace_lines(exchanges), recorded), ('relay', in_any_order(exchanges, random.Random(1)), recorded),
            ('local', trace_lines(exchanges), swapped)]
    with tempfile.TemporaryDirectory() as folder:
        for mailer, trace, came in runs:
            options = conversations.rules_file(
                folder, 'at rcpt when macro "{rcpt_mailer}" is "%s" do code "550 5.1.1 Not here"\n' % mailer)
            yield checked(mailer, play_to_serve, program, kind, folder, trace, exchanges, came, options)


def groups():
    """The groups of checks: of each its name, its function, and what it is called with."""
    for build in programs.BUILDS:
        for kind in serving.KINDS:
            for path in captures.paths():
                name = '%s over %s%s' % (os.path.basename(os.path.dirname(path)), kind, build)
                yield name, as_recorded, (programs.tool(build), kind, path)
                yield name, otherwise, (programs.tool(build), kind, path)
            yield 'serve over %s%s' % (kind, build), to_serve, (programs.tool(build), kind)
            yield 'rules over %s%s' % (kind, build), to_rules, (programs.tool(build), kind)


if __name__ == '__main__':
    programs.need('tool')
    sys.exit(checks.run_all(groups()))
