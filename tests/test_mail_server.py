#!/usr/bin/env python3
"""Plays sessions by `milter_tool mta`, as both compilers built it, to filters over TCP and over Unix sockets: to
`milter_tool filter` with the rules of the rows in lib/reports.py and in the tables of `play`, which are played in
memory too, and with each of its allocations refused in turn; and to filters of this file's own that close, reset or
keep silent after each of their replies, or that send what is no reply. Besides, reports that are printed while later
messages wait, what is printed of a negotiation, the macros of a command line, connections that are closed after so many
bytes, addresses where nothing listens, and a standard output that is full.

Counted are the runs.
"""
import os
import re
import socket
import struct
import subprocess
import sys
import tempfile
import textwrap
import threading

from lib import checks, preloaded, programs, reports, serving, tables
from lib.checks import checked, expect
from lib.packets import packet_of

MESSAGES = 2
# What may become of a message whose filter is lost.
ON_LOSS = ['tempfail', 'reject', 'accept']
# The tables of rows that are played in memory, and over sockets with the same result.
PLAYED = ['play_verdicts', 'play_edits', 'play_negotiations']
# The codes of the packets that no filter replies to.
UNANSWERED = b'DAQ'
# So long a filter may keep silent, in seconds; and the time that a filter may take, where none keeps silent.
SHORT, LONG = '1', '30'


def options(version, actions, protocol, more=b''):
    """The reply to an offer."""
    return packet_of(b'O' + struct.pack('>III', version, actions, protocol) + more)


OPTIONS = options(6, 0, 0)
CONTINUE = packet_of(b'c')
# Each fault by its number, with the replies that a filter sends up to it, the last one at once with the one before
# where that is early.
FAULTS = [
    (1, 'a length of 0', [b'\0\0\0\0']), (1, 'a length that is too great', [b'\0\x01\0\x01']),
    (1, 'an unknown code', [OPTIONS, packet_of(b'4')]), (1, 'a payload after continue', [OPTIONS, packet_of(b'cx')]),
    (1, 'options that are too short', [packet_of(b'O\0\0\0\6')]), (2, 'version 7', [options(7, 0, 0)]),
    (2, 'version 1', [options(1, 0, 0)]), (3, 'an action that was not offered', [options(6, 0x200, 0)]),
    (4, 'a protocol bit that was not offered', [options(6, 0, 0x800)]), (5, 'a verdict on the offer', [CONTINUE]),
    (5, 'options again', [OPTIONS, OPTIONS]), (5, 'an edit of the client', [options(6, 1, 0), packet_of(b'hX\0y\0')]),
    (5, 'discard of the client', [OPTIONS, packet_of(b'd')]),
    (6, 'an edit that was not negotiated', [OPTIONS] + [CONTINUE] * 10 + [packet_of(b'hX\0y\0')]),
    (8, 'two replies', [OPTIONS, CONTINUE + CONTINUE])]


class Stub:
    """A filter that takes one connection after another, and does with each what the next of these functions does."""

    def __init__(self, kind, folder, functions):
        place, self.address = serving.place_of(kind, folder)
        self.listener = socket.socket(socket.AF_UNIX) if kind == 'unix' else socket.create_server(place)
        if kind == 'unix':
            self.listener.bind(place)
            self.listener.listen()
        self.listener.settimeout(serving.SECONDS)
        self.thread = threading.Thread(target=self.serve, args=(functions,), daemon=True)
        self.thread.start()

    def serve(self, functions):
        """Takes the connections."""
        for function in functions:
            try:
                connection, _ = self.listener.accept()
                with connection:
                    function(connection)
            except (OSError, EOFError):
                pass
        self.listener.close()

    def end(self):
        """Waits until all connections were taken."""
        self.thread.join(serving.SECONDS)
        expect('the connections were taken', self.thread.is_alive(), False)


def take(connection, size):
    """So many bytes."""
    found = serving.received(connection, size)
    if len(found) < size:
        raise EOFError
    return found


def take_asked(connection, macros):
    """Reads up to a packet that is replied to, and adds the macros before it to these."""
    while True:
        size = struct.unpack('>I', take(connection, 4))[0]
        packet = take(connection, size)
        if packet[0] not in UNANSWERED:
            return
        if packet[:1] == b'D':
            macros.append(packet[1:])


def reply(replies, then, by_bytes=False, macros=None):
    """A function that sends these replies, each to the next packet, and then ends the connection so. The macros that
    come are added to those that are given."""

    def function(connection):
        for sent in replies:
            take_asked(connection, [] if macros is None else macros)
            for at in range(len(sent)) if by_bytes else [slice(None)]:
                connection.sendall(sent[at:at + 1] if by_bytes else sent[at])
        if then == 'silent':
            while connection.recv(1 << 16):
                pass
        elif then == 'reset':
            serving.reset_at_end(connection)

    return function


def written(folder, text):
    """The path of a new file with this text."""
    with tempfile.NamedTemporaryFile(dir=folder, delete=False) as file:
        file.write(text.encode() if isinstance(text, str) else text)
    return file.name


def ended(program, address, folder, text, words=(), stdout=subprocess.PIPE):
    """How `milter_tool mta` ended with this session: its status, and what it printed."""
    command = [program, 'mta', address, written(folder, text), *words]
    status, out, err = programs.ended(command, stdout=stdout, timeout=4 * serving.SECONDS)
    return status, None if out is None else out.decode(), err.decode()


def expect_reports(program, address, folder, expected, words=(), text=None):
    """Plays a session, and compares what is printed of it."""
    end = ended(program, address, folder, text or reports.session(MESSAGES), words)
    expect('the run', end, (0, expected, ''))


def defaults(cause, acted=0, on_loss='tempfail', first=1, count=MESSAGES):
    """The reports of messages whose filter was lost after so many verdicts."""
    lines = [reports.acted(*command) for command in reports.commands(reports.BODY)[:acted]]
    lines += [reports.released()] if on_loss == 'accept' else []
    return ''.join(reports.by_default(number, cause, lines, on_loss) for number in range(first, first + count))


def rows(program, kind, folder):
    """The rows, each played to a filter with its rules."""

    def run(row):
        with serving.Filter(program, kind, folder, ['--rules', written(folder, row.rules)]) as served:
            serving.listening(served)
            words = row.options + ['--timeout', LONG]
            expect_reports(program, served.address, folder, row.expected, words, row.session)
            if row.expected:
                served.expect_line(b'quit')

    for row in reports.rows():
        yield checked(row.name, run, row)


def in_memory(program, kind, folder):
    """The rows, each played in memory by its rules: the same is printed."""

    def run(row):
        words = ['--rules', written(folder, row.rules), *row.options]
        end = programs.ended([program, 'play', written(folder, row.session), *words], timeout=serving.SECONDS)
        expect('the run', end, (0, row.expected.encode(), b''))

    for row in reports.rows():
        yield checked(row.name, run, row)


def of_play(program, kind, folder):
    """The rows of the tables of `play` that have no events and no fault, each played to a filter with its rules: the
    same is printed."""

    def run(contents, options):
        with serving.Filter(program, kind, folder, ['--rules', written(folder, contents['rules'])]) as served:
            serving.listening(served)
            words = options + ['--timeout', LONG]
            expect_reports(program, served.address, folder, contents['out'].decode(), words, contents['given'])
            if contents['out']:
                served.expect_line(b'quit')

    for table in PLAYED:
        for row in tables.rows_of(table):
            contents = tables.contents_of('play', row.lines, None)
            if not contents['err'] and not any(mark == b'~' for mark, _ in row.lines):
                options = [text.decode() for mark, text in row.lines if mark == b'$']
                yield checked(tables.row_name(row), run, contents, options)


def documented(program, kind, folder):
    """The example of docs/TESTING.md, which has what is printed."""
    with open(os.path.join(programs.TOP, 'docs', 'TESTING.md'), encoding='utf-8') as file:
        block = re.search(r'(?:^    (?:message|acted|sender|recipient|header|body|end).*\n)+', file.read(), re.M)[0]
    examples = os.path.join(programs.TOP, 'examples')

    def run():
        with open(os.path.join(examples, 'policy.session'), encoding='utf-8') as file:
            session = file.read()
        with serving.Filter(program, kind, folder, ['--rules', os.path.join(examples, 'mail.rules')]) as served:
            serving.listening(served)
            expect_reports(program, served.address, folder, textwrap.dedent(block), text=session)
            served.expect_line(b'quit')

    yield checked('the example of the document', run)


def losses(program, kind, folder):
    """Filters that end the connection, or keep silent, after each of their replies."""

    def run(functions, expected, words):
        stub = Stub(kind, folder, functions)
        expect_reports(program, stub.address, folder, expected, words)
        stub.end()

    every = len(reports.commands(reports.BODY)) + 1
    for count in range(every):
        replies = [OPTIONS] + [CONTINUE] * (count - 1) if count else []
        for then in ['close', 'reset']:
            lost = defaults('reset', max(count - 1, 0))
            yield checked('%s after %d' % (then, count), run, [reply(replies, then)] * MESSAGES, lost, [])
    for count in [0, 1, 4]:
        replies = [OPTIONS] + [CONTINUE] * (count - 1) if count else []
        lost = defaults('timeout', max(count - 1, 0))
        yield checked('silent after %d' % count, run, [reply(replies, 'silent')] * MESSAGES, lost, ['--timeout', SHORT])
    for on_loss in ON_LOSS:
        lost = defaults('reset', 2, on_loss)
        yield checked('loss ' + on_loss, run, [reply([OPTIONS] + [CONTINUE] * 2, 'close')] * MESSAGES, lost,
                      ['--loss', on_loss])
    whole = [OPTIONS] + [CONTINUE] * len(reports.commands(reports.BODY))
    for by_bytes in [False, True]:
        again = defaults('reset', 0, count=1) + reports.expected(1).replace('message 1', 'message 2')
        yield checked('the second connection stays, %s' % ('by bytes' if by_bytes else 'by replies'), run,
                      [reply([], 'close'), reply(whole, 'silent', by_bytes)], again, [])


def settled(program, kind, folder):
    """The report of a message is printed while the next one waits; and the verdict on a client that is refused on a later
    connection stands before the first message that it settles."""
    whole = [OPTIONS] + [CONTINUE] * len(reports.commands(reports.BODY))

    def waits():
        stub = Stub(kind, folder, [reply(whole, 'silent')])
        command = [program, 'mta', stub.address, written(folder, reports.session(MESSAGES)), '--timeout', LONG]
        due = reports.expected(1).encode()
        with subprocess.Popen(command, stdout=subprocess.PIPE) as process:
            found = process.stdout.read(len(due))
            is_over = process.poll() is not None
            process.kill()
        stub.end()
        expect('what is printed', (found, is_over), (due, False))

    def refused_later():
        lost, refused = reply([OPTIONS] + [CONTINUE] * 2, 'close'), reply([OPTIONS, packet_of(b'r')], 'silent')
        stub = Stub(kind, folder, [lost, refused])
        expect_reports(program, stub.address, folder, defaults('reset', 2, count=1) + (
            'connection reject\nmessage 2 connection refused-at-connection\nacted connect 1 reject\n'))
        stub.end()

    yield checked('a report before the next message is settled', waits)
    yield checked('a client is refused after a loss', refused_later)


def faults(program, kind, folder):
    """Filters that send what can't be taken."""

    def run(number, replies):
        stub = Stub(kind, folder, [reply(replies, 'silent')] * MESSAGES)
        acted = len(replies) - 2 + (number == 8) if len(replies) > 1 else 0
        expect_reports(program, stub.address, folder, defaults('fault %d' % number, acted))
        stub.end()

    for number, name, replies in FAULTS:
        yield checked(name, run, number, replies)


def negotiations(program, kind, folder):
    """What --show-negotiation prints before the reports, by what is offered and replied on the first connection."""
    words = ['--show-negotiation', '--actions', 'ADDHDRS|QUARANTINE|SETSYMLIST', '--protocol', 'NOBODY|HDR_LEADSPC']
    offered = '> O version 6 actions 00000121 ADDHDRS|QUARANTINE|SETSYMLIST protocol 00100010 NOBODY|HDR_LEADSPC\n'
    replied = '< O version 6 actions 00000001 ADDHDRS protocol 00000000 none\n'
    symbols = '< O version 6 actions 00000100 SETSYMLIST protocol 00000000 none symbols 1 "j i"\n'
    version = '< O version 7 actions 00000000 none protocol 00000000 none\n'
    answers = [CONTINUE] * len(reports.commands(reports.BODY))
    added = options(6, 1, 0)

    def run(functions, expected, more=()):
        stub = Stub(kind, folder, functions)
        expect_reports(program, stub.address, folder, expected, words + list(more), reports.session(len(functions)))
        stub.end()

    whole = reports.expected(1)
    again = defaults('reset', 0, count=1) + whole.replace('message 1', 'message 2')
    lists = options(6, 0x100, 0, b'\0\0\0\1j i\0')
    for by_bytes in [False, True]:
        name = 'by bytes' if by_bytes else 'by packets'
        yield checked('negotiated, ' + name, run, [reply([added] + answers, 'silent', by_bytes)],
                      offered + replied + whole)
    yield checked('symbols', run, [reply([lists] + answers, 'silent')], offered + symbols + whole)
    yield checked('expected reports', run, [reply([added] + answers, 'silent')], offered + replied,
                  ['--expect', written(folder, whole)])
    yield checked('not negotiated', run, [reply([options(7, 0, 0)], 'silent')],
                  offered + version + defaults('fault 2', count=1))
    # The first filter closes once it has the offer, so that this is sent.
    yield checked('no reply on the first connection', run, [reply([b''], 'close'), reply([added] + answers, 'silent')],
                  offered + again)
    yield checked('the first of two connections', run, [reply([added], 'close'), reply([OPTIONS] + answers, 'silent')],
                  offered + replied + again)


def macros(program, kind, folder):
    """The macros of the command line beside those of a session, and one for which no packet has room."""
    words = ['--macro', 'connect:j=other.example.org', '--macro=connect:{daemon_name}=a=b', '--macro', 'helo:x=',
             '--macro', 'connect:j=last.example.org']
    expected = [
        b'C{tls_version}\0TLSv1.3\0{daemon_name}\0a=b\0j\0last.example.org\0', b'Hx\0\0', b'Mi\x004BxYz12345\0']

    def run():
        found = []
        answers = [CONTINUE] * len(reports.commands(reports.BODY))
        stub = Stub(kind, folder, [reply([OPTIONS] + answers, 'silent', macros=found)])
        expect_reports(program, stub.address, folder, reports.expected(1), words, reports.session())
        stub.end()
        expect('the macros', found, expected)

    def too_long():
        _, address = serving.place_of(kind, folder)
        found = ended(program, address, folder, reports.session(), ['--macro', 'connect:j=' + 'x' * 65536])
        expect('the run', found, (2, '', 'bad value for --macro\n'))

    yield checked('macros of the command line', run)
    yield checked('a macro that is too long', too_long)


def whole_packets(stream):
    """The packets of a stream that are whole."""
    while len(stream) >= 4 and (end := 4 + int.from_bytes(stream[:4], 'big')) <= len(stream):
        yield stream[:end]
        stream = stream[end:]


def recorded(found):
    """A function that replies to what comes, and adds all of it to these once the connection has ended."""

    def function(connection):
        stream, end = b'', 0
        try:
            while piece := connection.recv(1 << 16):
                stream += piece
                for packet in whole_packets(stream[end:]):
                    end += len(packet)
                    if packet[4] not in UNANSWERED:
                        connection.sendall(OPTIONS if packet[4:5] == b'O' else CONTINUE)
        except ConnectionError:
            # It was closed before the reply was read; nothing was sent after the command.
            pass
        found.append(stream)

    return function


def closings(program, kind, folder):
    """Connections that --at-loss closes: the filter gets that many bytes and no more, and the message after the one
    that is lost comes over a new connection, whole."""

    def streams_of(functions, found, words=()):
        stub = Stub(kind, folder, functions)
        end = ended(program, stub.address, folder, reports.session(MESSAGES), words)
        stub.end()
        return found, end

    found = []
    whole, = streams_of([recorded(found)], found)[0]
    found = []
    second, = streams_of([reply([], 'close'), recorded(found)], found)[0]
    ends, end = [], 0
    for packet in whole_packets(whole):
        end += len(packet)
        ends.append((end, packet[4]))
    answered = [end for end, code in ends if code not in UNANSWERED]
    settled = [end for end, code in ends if code == ord('E')]

    def run(count):
        streams = [whole[:count]]
        lost = count <= settled[0]
        if lost:
            # Each reply to a command before the last byte is read, and the first of them is no verdict.
            acted = max(sum(end < count for end in answered) - 1, 0)
            expected = defaults('reset', acted, count=1) + reports.expected(1).replace('message 1', 'message 2')
            streams.append(second)
        elif count <= settled[1]:
            acted = len(reports.commands(reports.BODY)) - 1
            expected = reports.expected(1) + defaults('reset', acted, first=2, count=1)
        else:
            expected = reports.expected(MESSAGES)
        found = []
        result = streams_of([recorded(found)] * len(streams), found, ['--at-loss', str(count)])
        expect('the run', result, (streams, (0, expected, '')))

    first = answered[0]
    counts = {0, 1, 3, 4, 5, first - 1, first, first + 1, settled[0] - 1, settled[0], settled[1] - 1, settled[1]}
    counts.update(answered[1:6])
    counts.update(end + 2 for end in answered[1:6])
    for count in sorted(counts | {len(whole) - 1, len(whole), len(whole) + 1, (1 << 32) - 1}):
        yield checked('closed after %d bytes' % count, run, count)


def unheard(program, kind, folder):
    """Addresses where nothing listens, and a standard output that is full."""
    _, address = serving.place_of(kind, folder)
    for on_loss in ON_LOSS:
        yield checked('nothing listens, ' + on_loss, expect_reports, program, address, folder,
                      defaults('reset', on_loss=on_loss), ['--loss', on_loss])

    def full():
        with open('/dev/full', 'wb') as file:
            found = ended(program, address, folder, reports.session(), stdout=file)
        expect('the run', found, (1, None, 'write fault\n'))

    yield checked('standard output is full', full)


def refused(program, kind, folder):
    """Runs with an allocation refused, the first one, then the second one, until a run makes fewer allocations."""
    refuser = preloaded.compiled('refuse.c', folder)
    whole = reports.expected(MESSAGES)
    session = written(folder, reports.session(MESSAGES))

    def is_default(out):
        """Each message is reported as in the run without refusals, or by default for refused memory, after a beginning
        of the verdicts; and one is by default."""
        found, expected = (re.split(r'(?=^message )', text, flags=re.M)[1:] for text in (out, whole))
        acted = ''.join(re.findall(r'^acted .*\n', expected[0], flags=re.M))
        firsts = [reports.by_default(number, 'memory') for number in range(1, MESSAGES + 1)]
        by_default = [pair for pair, other in zip(zip(firsts, found), expected) if pair[1] != other]
        return len(found) == len(expected) and by_default and all(
            report.startswith(first) and acted.startswith(report.removeprefix(first)) for first, report in by_default)

    def run(number):
        with serving.Filter(program, kind, folder, ['--count=9']) as served:
            serving.listening(served)
            command = [program, 'mta', served.address, session]
            (status, out, err), was_refused = preloaded.refused(command, b'', refuser, number)
        ends = [(0, whole.encode(), b''), (1, b'', b'out of memory\n')]
        if (status, out, err) not in ends and not (status == 0 and not err and is_default(out.decode())):
            # (a text may have been printed in part where memory was refused for it)
            expect('the run', (status, whole.encode().startswith(out), err), (1, True, b'out of memory\n'))
        return was_refused

    yield from checks.with_each_refused(run)


def groups(folder):
    """Groups of checks: of each its name, its function, and what that is called with."""
    for build in programs.BUILDS:
        program = programs.tool(build)
        for kind in serving.KINDS:
            name = '%s at %s' % (os.path.basename(program), kind)
            for group in [rows, in_memory, of_play, documented, losses, settled, faults, negotiations, macros,
                          closings, unheard, refused]:
                yield name, group, (program, kind, tempfile.mkdtemp(dir=folder))


if __name__ == '__main__':
    programs.need('tool')
    with tempfile.TemporaryDirectory() as work:
        sys.exit(checks.run_all(groups(work)))
