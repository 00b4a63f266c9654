#!/usr/bin/env python3
"""Serves mail servers by `milter_tool filter`, as both compilers built it, over TCP and over Unix sockets: the rows of
tables of `milter_tool answer`, as connections; connections whose far end goes before, within and after each packet of a
conversation; each allocation refused in turn; hosts, numbers of connections, addresses that are none, sockets that
can't be bound, connections that can't be taken, and lines that can't be written.

The line of each connection is read before the next one is made. What a row expects on standard error is the same
ending as a line of `filter`: a fault, or bytes of a packet that is not whole.

Counted are the connections and the runs.
"""
import errno
import os
import re
import socket
import sys
import tempfile
import threading

from lib import checks, preloaded, programs, serving, tables
from lib.checks import checked, expect

TABLES = ['answer_replies', 'answer_faults']
RULE_TABLES = ['answer_rules', 'answer_lists']
ENDINGS = [(rb'filter fault (\d+)\n', b'failed %s'), (rb'input truncated (\d+) bytes\n', b'ended %s')]
OFFER = b'O {00}{00}{00}{06}{00}{00}{01}{ff}{00}{1f}{f7}{ff}'
OPTIONS = b'O {00}{00}{00}{06}{00}{00}{00}{00}{00}{00}{00}{00}'
# The packets of a connection that ends by none of them, each with its reply, where it has one.
CONVERSATION = [
    (OFFER, OPTIONS), (b'D Cj{00}mx{00}', None), (b'C h.example{00}4{c0}{00}192.0.2.1{00}', b'c'),
    (b'H mail{00}', b'c'), (b'M a@x{00}SIZE=1{00}', b'c'), (b'R b@y{00}', b'c'), (b'T', b'c'),
    (b'L Subject{00} hi{00}', b'c'), (b'N', b'c'), (b'B {body*9}', b'c'), (b'E', b'c'), (b'M c@x{00}', b'c'),
    (b'A', None), (b'U XYZ{00}', b'c'), (b'K', None), (b'C {00}U', b'c'), (b'H again{00}', b'c')]
BAD_ADDRESSES = [
    '', 'inet', 'unix', 'inet:', 'unix:', 'inet:8890', 'inet:8890@', 'inet:@127.0.0.1', 'inet:0@127.0.0.1',
    'inet:000@127.0.0.1', 'inet:65536@127.0.0.1', 'inet:4294967297@127.0.0.1', 'inet:18446744073709551617@127.0.0.1',
    'inet:+8890@127.0.0.1', 'inet:-1@127.0.0.1', 'inet: 8890@127.0.0.1', 'inet:8890 @127.0.0.1', 'inet:0x22@127.0.0.1',
    'inet:127.0.0.1:8890', 'inet:127.0.0.1@8890', 'inet:8890x@127.0.0.1', 'inet6:8890@::1', 'INET:8890@127.0.0.1',
    'Unix:/x', 'local:/x', ' unix:/x', '8890@127.0.0.1', '/x', '@', ':', ':8890@127.0.0.1', 'inet::8890@127.0.0.1']
BAD_COUNTS = ['0', '1000001', '4294967297', '18446744073709551616', 'one', '', '1.5', ' 1', '1 ', '0x1', '1_000']


def pieces_of(lines, code):
    """What the mail server sends in the row of these lines, each piece with the replies to it."""
    pieces = []
    for number, (mark, text) in enumerate(lines):
        times = int(text) if mark == b'&' else 1
        mark, text = lines[number - 1] if mark == b'&' else (mark, text)
        part = tables.part_of('answer', mark, text, code)
        if part is not None and part[0] == 'given':
            pieces += [[part[1], b'']] * times
        elif part is not None and part[0] == 'out':
            pieces[-1] = [pieces[-1][0], pieces[-1][1] + part[1] * times]
    return pieces


def ending_of(lines, code):
    """How the line of a connection ends that has what the row of these lines has, or None where its rules have a
    fault."""
    err = tables.contents_of('answer', lines, code)['err']
    for pattern, ending in ENDINGS:
        found = re.fullmatch(pattern, err)
        if found:
            return ending % found[1]
    if err.startswith(b'rules line'):
        return None
    expect('a row', err, b'')
    return b'quit' if (b'>', b'Q') in lines else b'ended 0'


def send(connection, given):
    """Sends this; where the filter has closed the connection, it is not taken."""
    try:
        connection.sendall(given)
    except (BrokenPipeError, ConnectionResetError):
        pass


def play(served, pieces, ending):
    """A connection that sends these pieces, and reads the replies to each before it sends the next."""
    try:
        with served.connected() as connection:
            for given, replies in pieces:
                send(connection, given)
                serving.expect_replies(connection, replies)
            if ending.startswith(b'ended'):
                connection.shutdown(socket.SHUT_WR)
            serving.expect_closed(connection)
    finally:
        served.expect_line(ending)


def rows_of(table):
    """Of each row of a table its name, its lines, the pieces, all in one piece, and the ending."""
    for row in tables.rows_of(table):
        for code in row.codes:
            name = '%s %s' % (tables.row_name(row), '' if code is None else tables.name_of(code))
            # A row whose rules have a fault may have no packets.
            pieces = pieces_of(row.lines, code) or [[b'', b'']]
            given, replies = (b''.join(part) for part in zip(*pieces))
            yield name, row.lines, pieces, [[given, replies]], ending_of(row.lines, code)


def rows(program, kind, folder):
    """The rows without rules, as connections of one run."""
    found = [row for table in TABLES for row in rows_of(table)]
    with serving.Filter(program, kind, folder, ['--count', str(2 * len(found))]) as served:
        for name, _, pieces, whole, ending in found:
            yield checked(name, play, served, pieces, ending)
            yield checked(name + ' at once', play, served, whole, ending)
        yield checked('rows', served.expect_end, 0, b'', b'')


def rows_with_rules(program, kind, folder):
    """The rows with rules, each as a run of one connection, or of none where the rules have a fault."""

    def run(lines, pieces, ending):
        options = tables.further_words('answer', lines, os.path.join(folder, 'row'))
        with serving.Filter(program, kind, folder, options) as served:
            if ending is None:
                served.expect_end(1, b'', tables.contents_of('answer', lines, None)['err'])
            else:
                play(served, pieces, ending)
                served.expect_end(0, b'', b'')

    for table in RULE_TABLES:
        for name, lines, pieces, _, ending in rows_of(table):
            yield checked(name, run, lines, pieces, ending)


def packets():
    """The packets of the conversation, and the reply to each."""
    packet = lambda text: b'' if text is None else tables.packet_of(text, None)
    return [(packet(given), packet(reply)) for given, reply in CONVERSATION]


def part_way(served, count, last=b''):
    """A connection after so many packets of the conversation, and these bytes."""
    connection = served.connected()
    for given, reply in packets()[:count]:
        connection.sendall(given)
        serving.expect_replies(connection, reply)
    connection.sendall(last)
    return connection


def close(connection, resets):
    """Closes a connection, or resets it."""
    if resets:
        serving.reset_at_end(connection)
    connection.close()


def goes_before(served, count, resets):
    """The far end goes before the next packet."""
    close(part_way(served, count), resets)
    served.expect_line(b'read fault' if resets else b'ended 0')


def goes_within(served, count, size, resets):
    """The far end goes after so many bytes of the next packet."""
    close(part_way(served, count, packets()[count][0][:size]), resets)
    served.expect_line(b'read fault' if resets else b'ended %d' % size)


def goes_with_a_reply(served, count):
    """The far end goes when the reply to the next packet has come, and does not read it."""
    given, reply = packets()[count]
    connection = part_way(served, count, given)
    connection.recv(len(reply), socket.MSG_PEEK | socket.MSG_WAITALL)
    connection.close()
    served.expect_line(b'read fault')


def goes_before_it_is_taken(served, count, kind):
    """The far end has sent so many packets, and goes before the connection is taken, which waits for another one. A
    Unix socket takes no reply then, while TCP takes it, and may notice later."""
    with served.connected() as other:
        connection = served.connected()
        connection.sendall(b''.join(given for given, _ in packets()[:count]))
        connection.close()
        other.sendall(tables.packet_of(b'Q', None))
        serving.expect_closed(other)
    served.expect_line(b'quit')
    endings = [b'write fault', b'ended 0', b'read fault'] if kind == 'inet' else [b'write fault']
    served.expect_line(*(endings if count else [b'ended 0']))


def far_ends(program, kind, folder):
    """Connections of one run whose far end goes."""
    with serving.Filter(program, kind, folder, ['--count=1000000']) as served:
        for count in range(len(packets()) + 1):
            given, reply = (packets() + [(b'', b'')])[count]
            for resets in [False, True] if kind == 'inet' else [False]:
                how = ' is reset' if resets else ' ends'
                yield checked('before packet %d%s' % (count, how), goes_before, served, count, resets)
                for size in sorted({1, 3, 4, 5, len(given) - 1}):
                    if 0 < size < len(given):
                        what = 'byte %d of packet %d%s' % (size, count, how)
                        yield checked(what, goes_within, served, count, size, resets)
            if reply:
                yield checked('reply to packet %d' % count, goes_with_a_reply, served, count)
            yield checked('%d packets at first' % count, goes_before_it_is_taken, served, count, kind)
        yield checked('the next', play, served, packets() + [(tables.packet_of(b'Q', None), b'')], b'quit')


def counts(program, kind, folder):
    """Runs of some connections, and what is no number of them."""

    def run(options, count):
        with serving.Filter(program, kind, folder, options) as served:
            for _ in range(count):
                play(served, [[tables.packet_of(b'Q', None), b'']], b'quit')
            served.expect_end(0, b'', b'')
            expect('the path', kind == 'inet' or os.path.exists(served.at), True)

    def refused(options):
        with serving.Filter(program, kind, folder, options) as served:
            _, err = served.process.communicate(timeout=serving.SECONDS)
            expect('end', (served.process.returncode, err[:7]), (2, b'error: '))
            expect('the path', kind == 'unix' and os.path.exists(served.at), False)

    for options, count in [([], 1), (['--count', '1'], 1), (['--count=3'], 3), (['--count', '007'], 7)]:
        yield checked(repr(options), run, options, count)
    for count in BAD_COUNTS:
        yield checked('count %r' % count, refused, ['--count=' + count])
    yield checked('two counts', refused, ['--count=1', '--count=1'])


def hosts(program, folder):
    """A host by its name, and by an IPv6 address where the machine has one."""

    def run(host):
        with serving.Filter(program, 'inet', folder, [], host=host) as served:
            play(served, [[tables.packet_of(b'Q', None), b'']], b'quit')
            served.expect_end(0, b'', b'')

    yield checked('localhost', run, 'localhost')
    with socket.socket(socket.AF_INET6) as tried:
        has_ipv6 = tried.connect_ex(('::1', 9)) == errno.ECONNREFUSED
    if has_ipv6:
        yield checked('::1', run, '::1')


def untaken(program, kind, folder):
    """Connections that can't be taken: no file is free for them."""

    def run(count):
        with serving.Filter(program, kind, folder, ['--count', str(count)], files=4) as served:
            lines = b''.join(b'connection %d read fault\n' % (number + 1) for number in range(count))
            served.expect_end(0, lines, b'')

    for count in [1, 3]:
        yield checked('%d connections are not taken' % count, run, count)


def unwritten(program, kind, folder):
    """A line that isn't written ends the run, and the next connection is not taken."""

    def run(path):
        with open(path, 'wb') as full, serving.Filter(program, kind, folder, ['--count=2'], stdout=full) as served:
            with served.connected() as connection:
                connection.sendall(tables.packet_of(b'Q', None))
                serving.expect_closed(connection)
            served.expect_end(1, None, b'write fault\n')

    yield checked('standard output is full', run, '/dev/full')


def converse(place, is_over, count, found):
    """So many connections with the conversation and its end; adds the replies to each that is made to the list."""
    given = b''.join(given for given, _ in packets()) + tables.packet_of(b'Q', None)
    for _ in range(count):
        try:
            with serving.connected(place, is_over) as connection:
                found.append(b'')
                connection.sendall(given)
                while piece := connection.recv(1 << 16):
                    found[-1] += piece
        except (checks.Wrong, ConnectionError):
            pass


def expect_out_of_memory(end, found):
    """A run of two connections, of which an allocation was refused, ended as ever, was given up, or gave up one of
    them; what was replied is right as far as it goes."""
    replies = b''.join(reply for _, reply in packets())
    ends = [(b'quit', b'quit'), (b'failed 7', b'quit'), (b'quit', b'failed 7')]
    if end in [(0, b'connection 1 %s\nconnection 2 %s\n' % both, b'') for both in ends]:
        whole = [not line.endswith(b'quit') or reply == replies for line, reply in zip(end[1].split(b'\n'), found)]
        expect('replies', all(whole) and len(found) == 2, True)
    else:
        given_up = [(1, lines, b'out of memory\n') for lines in [b'', b'connection 1 quit\n']]
        expect('end', end, end if end in given_up else given_up)
    expect('replies', all(replies.startswith(reply) for reply in found), True)


def refused(program, kind, folder):
    """Runs of two connections with an allocation refused, the first one, then the second one, until a run makes fewer
    allocations."""
    refuser = preloaded.compiled('refuse.c', folder)

    def run(number):
        place, address = serving.place_of(kind, folder)
        found, over = [], threading.Event()
        client = threading.Thread(target=converse, args=(place, over.is_set, 2, found))
        client.start()
        command = [program, 'filter', address, '--count=2']
        end, was_refused = preloaded.refused(command, b'', refuser, number)
        over.set()
        client.join()
        expect_out_of_memory(end, found)
        return was_refused

    yield from checks.with_each_refused(run)


def run_to_end(program, words, expected):
    """A run that serves no connection."""
    end = programs.ended([program, 'filter'] + words, timeout=serving.SECONDS)
    expect('end', end, expected)


def addresses(program, folder):
    """Texts that are no address, which is looked at before the rules are."""
    for address in BAD_ADDRESSES:
        for words in [[address], [address, '--rules', os.path.join(folder, 'no file')]]:
            yield checked('address %r' % words, run_to_end, program, words, (2, b'', b'bad address\n'))


def unread_rules(program, folder):
    """Rules are read before the socket is bound."""
    path = os.path.join(tempfile.mkdtemp(dir=folder), 'socket')

    def run(rules):
        run_to_end(program, ['unix:' + path, '--rules', rules], (1, b'', b'cannot read rules\n'))
        expect('the path', os.path.lexists(path), False)

    for rules in [os.path.join(folder, 'no file'), folder, '']:
        yield checked('rules %r' % rules, run, rules)
    yield checked('rules, and a path that exists', run_to_end, program,
                  ['unix:' + folder, '--rules', folder], (1, b'', b'cannot read rules\n'))


def unbound(program, folder):
    """Sockets that can't be bound, and paths that exist and are left as they are."""

    def kept(path):
        before = os.lstat(path)
        run_to_end(program, ['unix:' + path], (1, b'', b'cannot listen\n'))
        after = os.lstat(path)
        for name in ['st_ino', 'st_mode', 'st_size', 'st_mtime_ns']:
            expect('the path', getattr(after, name), getattr(before, name))

    paths = {name: os.path.join(folder, name) for name in ['a file', 'a folder', 'a socket', 'a link']}
    with open(paths['a file'], 'wb') as file:
        file.write(b'a file\n')
    os.mkdir(paths['a folder'])
    os.symlink(os.path.join(folder, 'nothing'), paths['a link'])
    with socket.socket(socket.AF_UNIX) as listening, socket.socket() as taken:
        listening.bind(paths['a socket'])
        taken.bind(('127.0.0.1', 0))
        taken.listen()
        for name, path in paths.items():
            yield checked('the path of ' + name, kept, path)
        hosts = ['%d@127.0.0.1' % taken.getsockname()[1], '8890@192.0.2.1', '8890@host.invalid']
        others = ['inet:' + host for host in hosts] + ['unix:' + os.path.join(folder, *rest) for rest in [
            ['no folder', 'socket'], ['a file', 'socket'], ['x' * 108]]]
        for address in others:
            yield checked(address, run_to_end, program, [address], (1, b'', b'cannot listen\n'))


def groups(folder):
    """Groups of checks: of each its name, its function, and what that is called with."""
    for build in programs.BUILDS:
        program = programs.tool(build)
        name = os.path.basename(program)
        for group in [addresses, unread_rules, unbound, hosts]:
            yield name, group, (program, tempfile.mkdtemp(dir=folder))
        for kind in serving.KINDS:
            for group in [rows, rows_with_rules, far_ends, refused, counts, untaken, unwritten]:
                yield '%s at %s' % (name, kind), group, (program, kind, tempfile.mkdtemp(dir=folder))


if __name__ == '__main__':
    programs.need('tool')
    with tempfile.TemporaryDirectory() as work:
        sys.exit(checks.run_all(groups(work)))
