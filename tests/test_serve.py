#!/usr/bin/env python3
"""Serves many mail servers at once by `milter_tool serve`, as both compilers built it, over TCP and over Unix sockets:
the rows of tables of `milter_tool answer`; streams of random packets, beside `answer --lenient`; connections that are
interleaved, each of which gets its own replies; greetings and senders within a message; and far ends that go, are half
closed or reset.

The rows of a table that end by a greeting or a sender within a message are left out: `serve` takes them.

Counted are the connections and the runs.
"""
import contextlib
import os
import random
import select
import socket
import sys
import tempfile

import test_sockets
from lib import checks, packets, programs, serving
from lib.checks import checked, expect
from lib.conversations import (
    ABORT, CONTINUE, GREETED_AGAIN, KEYS, LENIENTLY, OFFER, OPTIONS, QUIT, STRICTLY, filled, message, opening, options,
    packet, quit_all, rules_file, rules_of_keys, run_to_end, say)

# What is said of a line of a rule file with another action, and without a stage.
ACTIONS = b'continue, accept, reject, tempfail, discard, skip, code, add-header, insert-header, change-header, add-rcpt, ' \
          b'add-rcpt-par, del-rcpt, change-from, replace-body, quarantine and progress'
STAGES = b'connect, helo, mail, rcpt, data, header, eoh, body and eob'


def is_lenient(lines):
    """Whether a row ends by a greeting or a sender within a message."""
    given = [text[:1] for mark, text in lines if mark == b'>']
    return (b'!', b'filter fault 3') in lines and given[-1] in (b'H', b'M')


def play(served, pieces, ending):
    """A connection that sends these pieces, and reads the replies to each before it sends the next."""
    with served.connected() as connection:
        number = served.made
        for given, replies in pieces:
            test_sockets.send(connection, given)
            serving.expect_replies(connection, replies)
        if ending.startswith(b'ended'):
            connection.shutdown(socket.SHUT_WR)
        serving.expect_closed(connection)
    served.expect_line(number, ending)


def rows(program, kind, folder):
    """The rows without rules, as connections of one run."""
    with serving.Service(program, kind, folder) as served:
        for table in test_sockets.TABLES:
            for name, lines, pieces, whole, ending in test_sockets.rows_of(table):
                if not is_lenient(lines):
                    yield checked(name, play, served, pieces, ending)
                    yield checked(name + ' at once', play, served, whole, ending)
        yield checked('rows', served.expect_goes_on)


def rows_with_rules(program, kind, folder):
    """The rows with rules, each as a run of one connection, or of none where the rules have a fault."""

    def run(lines, pieces, ending):
        words = test_sockets.tables.further_words('answer', lines, os.path.join(folder, 'row'))
        if ending is None:
            err = test_sockets.tables.contents_of('answer', lines, None)['err']
            run_to_end(program, ['unix:' + os.path.join(folder, 'none')] + words, (1, b'', err))
        else:
            with serving.Service(program, kind, folder, words) as served:
                play(served, pieces, ending)

    for table in test_sockets.RULE_TABLES:
        for name, lines, pieces, _, ending in test_sockets.rows_of(table):
            if not is_lenient(lines):
                yield checked(name, run, lines, pieces, ending)


def replies_and_ending(program, words, given):
    """What `answer --lenient` replies to these bytes, and how a line of `serve` ends after them."""
    status, out, err = programs.ended([program, 'answer', '--lenient'] + words, given, timeout=serving.SECONDS)
    for pattern, ending in test_sockets.ENDINGS:
        found = test_sockets.re.fullmatch(pattern, err)
        if found:
            return out, ending % found[1]
    expect('answer', (status, err), (0, b''))
    return out, b'quit or ended 0'


def random_stream(chosen):
    """Packets in any order, most of which are whole."""
    conversation = [given for given, _ in opening(1) + message(1) + message(2)] + [
        packet(b'M', b'<s3@x>'), packet(b'H', b'again'), packet(b'H', b'again'), ABORT, packet(b'K'),
        packet(b'U', b'X'), packet(b'D', b'Mi', b'9') + packet(b'M', b'<s4@x>'),
        packet(b'D', b'Hi', b'9') + packet(b'H', b'h')]
    order = opening(1) + message(chosen.randrange(KEYS))
    given = [sent for sent, _ in order[:chosen.randrange(1, len(order) + 1)]]
    given += [chosen.choice(conversation[1:]) for _ in range(chosen.randrange(8))]
    if chosen.random() < 0.1:
        given.append(chosen.choice([b'\0\0\0\0', b'\0\1\0\1', b'\0\0\0\1x', OFFER, packet(b'M')]))
    stream = b''.join(given)
    return stream[:chosen.randrange(len(stream))] if chosen.random() < 0.2 else stream


def streams(program, kind, folder):
    """Streams of random packets in pieces of any size: the replies and the ends are those of `answer --lenient`."""
    words = rules_of_keys(folder)

    def run(served, chosen):
        given = random_stream(chosen)
        replies, ending = replies_and_ending(program, words, given)
        with served.connected() as connection:
            number, at = served.made, 0
            while at < len(given):
                size = chosen.choice([1, 3, 5, 17, 400])
                test_sockets.send(connection, given[at:at + size])
                at += size
            with contextlib.suppress(OSError):
                connection.shutdown(socket.SHUT_WR)
            serving.expect_replies(connection, replies)
            serving.expect_closed(connection)
        served.expect_line(number, *([b'quit', b'ended 0'] if ending.startswith(b'quit') else [ending]))

    with serving.Service(program, kind, folder, words) as served:
        for seed in range(60):
            yield checked('stream %d' % seed, run, served, random.Random(seed))


def in_pieces(connections, conversations, chosen):
    """Plays these conversations, piece by piece of a packet, in any order of the connections."""
    rest = [list(conversation) for conversation in conversations]
    unsent = [b''] * len(conversations)
    while open_ones := [at for at, conversation in enumerate(rest) if conversation]:
        at = chosen.choice(open_ones)
        unsent[at] = unsent[at] or rest[at][0][0]
        size = chosen.choice([1, 4, 5, 20, 1000])
        connections[at].sendall(unsent[at][:size])
        unsent[at] = unsent[at][size:]
        if not unsent[at]:
            serving.expect_replies(connections[at], rest[at].pop(0)[1])


def side_by_side(connections, conversations):
    """Plays these conversations packet by packet: each sends its packet before one of them reads its reply."""
    for parts in zip(*conversations):
        for connection, (given, _) in zip(connections, parts):
            connection.sendall(given)
        for connection, (_, reply) in zip(connections, parts):
            serving.expect_replies(connection, reply)


def interleaved(program, kind, folder):
    """Connections that are interleaved, each of which gets its own replies."""
    words = rules_of_keys(folder)

    def run(count, how, *given):
        conversations = [opening(at) + message(at % KEYS) + message((at + 1) % KEYS) for at in range(count)]
        with serving.Service(program, kind, folder, words) as served:
            connections = [served.connected() for _ in range(count)]
            how(connections, conversations, *given)
            expect('lines', served.lines(), [])
            quit_all(connections)
            served.expect_all(b'quit')

    for count in [2, 7, 150]:
        yield checked('%d side by side' % count, run, count, side_by_side)
    for count, seeds in [(2, 8), (60, 2)]:
        for seed in range(seeds):
            yield checked('%d in pieces, %d' % (count, seed), run, count, in_pieces, random.Random(seed))


def greeted_again(program, kind, folder):
    """A greeting within a message is a fault in the strict order alone; a message that a rule refuses is refused after
    it all the same, and a sender before any message takes nothing away."""

    def answers(words, expected):
        end = programs.ended([program, 'answer'] + words, GREETED_AGAIN, timeout=serving.SECONDS)
        expect('end', end, expected)

    def filters(words, replies, line):
        with serving.Filter(program, kind, folder, words) as served:
            with served.connected() as connection:
                connection.sendall(GREETED_AGAIN)
                serving.expect_replies(connection, replies)
                connection.shutdown(socket.SHUT_WR)
                serving.expect_closed(connection)
            served.expect_line(line)

    def serves(rules, conversation, ending=b'quit'):
        with serving.Service(program, kind, folder, rules_file(folder, rules)) as served:
            with served.connected() as connection:
                say(connection, conversation + [(QUIT, b'')])
                serving.expect_closed(connection)
            served.expect_line(1, ending)

    yield checked('answer', answers, [], (1, STRICTLY, b'filter fault 3\n'))
    yield checked('answer --lenient', answers, ['--lenient'], (0, LENIENTLY, b''))
    yield checked('filter', filters, [], STRICTLY, b'failed 3')
    yield checked('filter --lenient', filters, ['--lenient'], LENIENTLY, b'ended 0')
    yield checked('serve', serves, '', [(GREETED_AGAIN, LENIENTLY)])
    reject = packet(b'r')
    begin = [(OFFER, OPTIONS), (packet(b'H', b'one'), CONTINUE)]
    sender, recipient = packet(b'M', b'<a@x>'), packet(b'R', b'<b@y>')
    again = begin + [(sender, CONTINUE), (packet(b'H', b'two'), CONTINUE)]
    at_rcpt = 'at rcpt when rcpt is "<b@y>" do reject\n'
    at_data = 'at data when rcpt is "<b@y>" do reject\n'
    yield checked('refused at rcpt', serves, at_rcpt, again + [(sender, CONTINUE), (recipient, reject)])
    yield checked('refused at data', serves, at_data, again + [
        (sender, CONTINUE), (recipient, CONTINUE), (packet(b'T'), reject)])
    yield checked('refused at data after a recipient', serves, at_data, begin + [
        (sender, CONTINUE), (recipient, CONTINUE), (packet(b'H', b'two'), CONTINUE), (sender, CONTINUE),
        (packet(b'R', b'<c@y>'), CONTINUE), (packet(b'T'), CONTINUE), (packet(b'E'), CONTINUE),
        (sender, CONTINUE), (recipient, CONTINUE), (packet(b'T'), reject)])
    # DATA that is refused ends nothing: what was shown stays, and more recipients may come.
    yield checked('DATA again', serves, at_data, begin + [
        (sender, CONTINUE), (recipient, CONTINUE), (packet(b'T'), reject), (packet(b'T'), reject),
        (packet(b'R', b'<c@y>'), CONTINUE), (packet(b'T'), CONTINUE)])
    yield checked('the sender after refused DATA', serves, at_data + 'at eoh when sender is "<a@x>" do reject\n', begin + [
        (sender, CONTINUE), (recipient, CONTINUE), (packet(b'T'), reject), (packet(b'R', b'<c@y>'), CONTINUE),
        (packet(b'T'), CONTINUE), (packet(b'N'), reject)])
    # Postfix sends the abort after the greeting.
    yield checked('an abort after it', serves, at_rcpt, again + [
        (ABORT, b''), (sender, CONTINUE), (recipient, reject)])
    # The greeting that is shown to rules is the last one.
    yield checked('the last greeting', serves, 'at mail when helo is "two" do reject\n', again + [(sender, reject)])
    yield checked('not the first greeting', serves, 'at mail when helo is "one" do reject\n', begin + [
        (sender, reject), (packet(b'H', b'two'), CONTINUE), (sender, CONTINUE)])
    yield checked('a greeting refused', serves, 'at helo when helo is "two" do reject\n', begin + [
        (sender, CONTINUE), (packet(b'H', b'two'), reject)])
    # What the message had that it ends is not shown to rules.
    yield checked('other recipients', serves, 'at eob when rcpt is "<b@y>" do reject\n', begin + [
        (sender, CONTINUE), (recipient, CONTINUE), (sender, CONTINUE), (packet(b'R', b'<c@y>'), CONTINUE),
        (packet(b'E'), CONTINUE)])
    # A sender before any message: what came before it is shown to rules.
    first = [(OFFER, OPTIONS), (packet(b'D', b'Hj', b'mx') + packet(b'H', b'one'), CONTINUE)]
    yield checked('the first sender', serves, 'at mail when helo is "one" and macro "j" is "mx" do reject\n', first + [
        (packet(b'D', b'Mi', b'1') + sender, reject)])
    yield checked('macros of the first sender', serves, 'at mail when macro "i" is "1" do reject\n', first + [
        (packet(b'D', b'Mi', b'1') + sender, reject)])
    # The macros that are sent before a sender or a greeting stay: the message ends before them.
    yield checked('macros of a sender within a message', serves, 'at mail when macro "i" is "2" do reject\n', first + [
        (packet(b'D', b'Mi', b'1') + sender, CONTINUE), (recipient, CONTINUE),
        (packet(b'D', b'Mi', b'2') + sender, reject)])
    yield checked('macros of a greeting within a message', serves, 'at helo when macro "t" is "2" do reject\n', first
                  + [(packet(b'D', b'Mi', b'1') + sender, CONTINUE),
                     (packet(b'D', b'Ht', b'2') + packet(b'H', b'two'), reject)])


def far_ends(program, kind, folder):
    """Connections of one run whose far end goes before, within and after each packet, is reset, or half closed."""

    def goes(served, count, last, resets, *endings):
        connection = served.connected()
        number = served.made
        for given, reply in test_sockets.packets()[:count]:
            connection.sendall(given)
            serving.expect_replies(connection, reply)
        connection.sendall(last)
        test_sockets.close(connection, resets)
        served.expect_line(number, *endings)

    def goes_with_a_reply(served, count):
        given, reply = test_sockets.packets()[count]
        connection = served.connected()
        number = served.made
        for before, replies in test_sockets.packets()[:count]:
            connection.sendall(before)
            serving.expect_replies(connection, replies)
        connection.sendall(given)
        connection.recv(len(reply), socket.MSG_PEEK | socket.MSG_WAITALL)
        connection.close()
        served.expect_line(number, b'read fault')

    def half_closed(served, times):
        given = b''.join(given for given, _ in opening(1) + times * message(1))
        replies = b''.join(reply for _, reply in opening(1) + times * message(1))
        found = b''
        with served.connected() as connection:
            number = served.made
            connection.setblocking(False)
            while len(found) < len(replies):
                readable, writable, _ = select.select([connection], [connection] if given else [], [], serving.SECONDS)
                if writable:
                    given = given[connection.send(given[:1 << 16]):]
                    if not given:
                        connection.shutdown(socket.SHUT_WR)
                if readable and not (piece := connection.recv(1 << 16)):
                    break
                found += piece if readable else b''
            expect('replies', found == replies, True)
            connection.settimeout(serving.SECONDS)
            serving.expect_closed(connection)
        served.expect_line(number, b'ended 0')

    def reset_in_replies(served):
        given = b''.join(given for given, _ in opening(1)) + 2000 * b''.join(given for given, _ in message(1))
        connection = served.connected()
        number = served.made
        connection.setblocking(False)
        filled(connection, given, 0.05)
        serving.reset_at_end(connection)
        connection.close()
        served.expect_line(number, b'read fault', b'write fault')

    with serving.Service(program, kind, folder, rules_of_keys(folder)) as served, served.connected() as other:
        say(other, opening(3))
        for count in range(len(test_sockets.packets()) + 1):
            given, reply = (test_sockets.packets() + [(b'', b'')])[count]
            for resets in [False, True] if kind == 'inet' else [False]:
                how = ' is reset' if resets else ' ends'
                yield checked('before packet %d%s' % (count, how), goes, served, count, b'', resets,
                              b'read fault' if resets else b'ended 0')
                for size in sorted({1, 4, len(given) - 1}):
                    if 0 < size < len(given):
                        yield checked('byte %d of packet %d%s' % (size, count, how), goes, served, count, given[:size],
                                      resets, b'read fault' if resets else b'ended %d' % size)
            if reply:
                yield checked('reply to packet %d' % count, goes_with_a_reply, served, count)
        for times in [0, 1, 3000]:
            yield checked('half closed after %d messages' % times, half_closed, served, times)
        for _ in range(5):
            yield checked('reset within replies', reset_in_replies, served)
        yield checked('the other', say, other, message(3) + message(4))
        yield checked('the other quits', quit_all, [other])
        yield checked('the lines', served.expect_line, 1, b'quit')


def several_addresses(program, kind, folder):
    """One run that listens at addresses of both kinds; a wrong address among several is a wrong use, and nothing is
    bound then."""
    other, address = serving.place_of('unix' if kind == 'inet' else 'inet', folder)
    free, path = serving.place_of('unix', folder)

    def at_both():
        words = [address, '--at-once', '2'] + rules_of_keys(folder)
        with serving.Service(program, kind, folder, words) as served, served.connected() as one:
            with serving.connected(other, lambda: served.process.poll() is not None) as two:
                side_by_side([one, two], [opening(1) + message(1), opening(2) + message(2)])
                quit_all([one, two])
            served.made += 1
            served.expect_all(b'quit')

    def wrong(words):
        run_to_end(program, words, (2, b'', b'bad address\n'))
        expect('the path', os.path.exists(free), False)

    def taken_twice():
        run_to_end(program, [path, path], (1, b'', b'cannot listen\n'))

    yield checked('at both', at_both)
    yield checked('the second is wrong', wrong, [path, 'unix:'])
    yield checked('the first is wrong', wrong, ['8890', path])
    yield checked('the third is wrong', wrong, [path, path, 'inet:8890'])
    yield checked('twice the same', taken_twice)


LOGGED_RULES = (
    'at helo when helo is "h3" do reject\n'
    'at mail when sender is "<s4@x>" do tempfail\n'
    'at rcpt when rcpt is "<b@y>" do code "550 5.1.1 \\"no\\""\n'
    'at eob when sender is "<s1@x>" do discard\n'
    'at eob when sender is "<s2@x>" do accept\n')


# The end of the line of a message that the rule in the fourth line discards, and of one by that in the first.
DISCARDED = b'stage="eob" line="4" verdict="discard"\n'
DISCARDED_FIRST = b'stage="eob" line="1" verdict="discard"\n'


def named_line(key, rest, number=None):
    """A line of the log about the client of this key, on the connection of this number, with the rest of it."""
    return b'connection="%d" host="h%d.example" address="192.0.2.1" %s' % (number or key, key, rest)


def logged(program, kind, folder):
    """The log has a line for each decision that isn't to go on, and names the connection, its client and the message."""
    words = rules_file(folder, LOGGED_RULES)
    refused = packet(b'y', b'550 5.1.1 "no"')

    def conversation(key, end):
        """A message of which a recipient is refused, and which ends so."""
        return opening(key) + [
            (packet(b'D', b'Mi', b'Q%d' % key) + packet(b'M', b'<s%d@x>' % key), CONTINUE),
            (packet(b'R', b'<b@y>'), refused), (packet(b'R', b'<c@y>'), CONTINUE), (packet(b'T'), CONTINUE),
            (packet(b'E'), packet(end))]

    def expect_logged(served, *of_connections):
        """The lines of each of these connections come in their order, beside those of the others."""
        rest = [list(lines) for lines in of_connections]
        while any(rest):
            line = served.log_line()
            expect('log', line, line if [line] in [lines[:1] for lines in rest] else rest)
            next(lines for lines in rest if lines[:1] == [line]).pop(0)

    def two_connections():
        with serving.Service(program, kind, folder, words + ['--log']) as served:
            with served.connected() as one, served.connected() as two:
                side_by_side([one, two], [conversation(1, b'd'), conversation(2, b'a')])
                no = b'stage="rcpt" line="3" verdict="code" text="550 5.1.1 \\"no\\""\n'
                expect_logged(served, [named_line(1, b'id="Q1" ' + end) for end in (no, DISCARDED)],
                              [named_line(2, b'id="Q2" ' + end) for end in (no, b'stage="eob" line="5" verdict="accept"\n')])
                quit_all([one, two])
            served.expect_all(b'quit')

    def no_message():
        with serving.Service(program, kind, folder, ['--log'] + words) as served, served.connected() as one:
            say(one, opening(3)[:-1] + [(packet(b'H', b'h3'), packet(b'r'))])
            expect_logged(served, [named_line(3, b'stage="helo" line="1" verdict="reject"\n', number=1)])
            say(one, [(packet(b'H', b'h4'), CONTINUE), (packet(b'M', b'<s4@x>'), packet(b't'))])
            expect_logged(served, [named_line(3, b'sender="<s4@x>" stage="mail" line="2" verdict="tempfail"\n', number=1)])

    def named():
        # No rule looks at the client, the sender or a recipient, or stands at DATA. All are sent, and not replied to.
        discarded = (packet(b'E'), packet(b'd'))
        client = packets.packet_of(b'Ch1.example\0004\0\x19192.0.2.1\0')
        sender, data = packet(b'M', b'<a@x>'), packet(b'R', b'<b"@y>') + packet(b'T')
        words = rules_file(folder, 'at eob do discard\n') + ['--log']
        with serving.Service(program, kind, folder, words, all_stages=False) as served, served.connected() as one:
            # As Sendmail names a message: before its sender.
            begun = client + packet(b'D', b'Mi', b'Q1') + sender + data
            say(one, [(OFFER, options(0, 0xff1f2)), (begun, b''), discarded])
            expect_logged(served, [named_line(1, b'id="Q1" ' + DISCARDED_FIRST)])
            # As Postfix names one: before DATA.
            say(one, [(sender + packet(b'D', b'Ti', b'Q2') + data, b''), discarded])
            expect_logged(served, [named_line(1, b'id="Q2" ' + DISCARDED_FIRST)])
            say(one, [(sender + data, b''), discarded])
            expect_logged(served, [named_line(1, b'sender="<a@x>" recipient="<b\\"@y>" ' + DISCARDED_FIRST)])

    def unknown():
        # Of a client of which nothing is known there is the name; without its stage there is nothing.
        words = rules_file(folder, 'at helo when helo is "h" do reject\n') + ['--log']
        client = packets.packet_of(b'Cunknown\0U')
        greeted = (packet(b'H', b'h'), packet(b'r'))
        with serving.Service(program, kind, folder, words, all_stages=False) as served:
            with served.connected() as one, served.connected() as two:
                say(one, [(OFFER, options(0, 0xfd1f0)), greeted])
                expect_logged(served, [b'connection="1" stage="helo" line="1" verdict="reject"\n'])
                say(two, [(OFFER, options(0, 0xfd1f0)), (client, b''), greeted])
                expect_logged(served, [b'connection="2" host="unknown" stage="helo" line="1" verdict="reject"\n'])

    def no_log():
        with serving.Service(program, kind, folder, words) as served, served.connected() as one:
            say(one, conversation(1, b'd'))
            expect('log', served.log_lines(), [])

    def edits():
        # Edits are named in their order, also where the message goes on, and nothing else that does.
        rules = rules_file(folder, (
            'at eob when sender is "<s1@x>" do add-header "X" "y"\nat eob when sender is "<s1@x>" do quarantine "q"\n'
            'at eob when sender is "<s2@x>" do del-rcpt "<b@y>"\nat eob when sender is "<s2@x>" do accept\n'))
        added = packets.packet_of(b'hX\0y\0') + packets.packet_of(b'qq\0')
        removed = packets.packet_of(b'-<b@y>\0')
        # Header fields, recipients that are deleted, and quarantine.
        begun = [(OFFER, options(0x29, 0))] + opening(1)[1:]
        with serving.Service(program, kind, folder, rules + ['--log']) as served, served.connected() as one:
            for key, replies in [(1, added + CONTINUE), (2, removed + packet(b'a')), (3, CONTINUE)]:
                sent = [(packet(b'D', b'Mi', b'Q%d' % key) + packet(b'M', b'<s%d@x>' % key), CONTINUE),
                        (packet(b'R', b'<b@y>'), CONTINUE), (packet(b'T'), CONTINUE), (packet(b'E'), replies)]
                say(one, (begun if key == 1 else []) + sent)
            end = b'id="Q%d" stage="eob"%s verdict="%s"%s\n'
            expect_logged(served, [
                named_line(1, end % (1, b'', b'continue', b' edit="add-header" edit="quarantine"')),
                named_line(1, end % (2, b' line="4"', b'accept', b' edit="del-rcpt"'))])
            quit_all([one])
            expect('no more lines', served.log_lines(), [])

    def messages():
        # Each message has a line, also those that only go on; one that is ended before has that of its end alone.
        with serving.Service(program, kind, folder, words + ['--log', 'all']) as served, served.connected() as one:
            say(one, conversation(5, b'c') + conversation(1, b'd')[len(opening(1)):])
            no = b'stage="rcpt" line="3" verdict="code" text="550 5.1.1 \\"no\\""\n'
            end = [b'id="Q5" ' + no, b'id="Q5" stage="eob" verdict="continue"\n', b'id="Q1" ' + no, b'id="Q1" ' + DISCARDED]
            expect_logged(served, [named_line(5, line, number=1) for line in end])
            quit_all([one])
            expect('no more lines', served.log_lines(), [])

    def unread():
        with serving.Service(program, kind, folder, words + ['--log']) as served, served.connected() as one:
            served.process.stderr.close()
            served.process.stderr = None
            say(one, conversation(1, b'd') + [(packet(b'M', b'<s2@x>'), CONTINUE), (packet(b'R', b'<b@y>'), refused)])
            quit_all([one])
            served.expect_all(b'quit')

    yield checked('log of two connections', two_connections)
    yield checked('log of no message', no_message)
    yield checked('log of messages that no rule looks at', named)
    yield checked('log of clients that are not known', unknown)
    yield checked('log of edits', edits)
    yield checked('log of all messages', messages)
    yield checked('no log', no_log)
    yield checked('a log that nobody reads', unread)


def changed_rules(program, kind, folder):
    """A file of rules that changes holds for the connections that come after; a fault in it is reported once, and the
    rules before it stay. A connection keeps the rules that it began with."""
    path = os.path.join(folder, 'changing.rules')
    sender = packet(b'M', b'<a@x>')

    def write(text):
        """Puts a file of another time in place of the one that is there."""
        with open(path + '.new', 'w') as rules:
            rules.write(text)
        write.count += 1
        os.utime(path + '.new', (write.count, write.count))
        os.replace(path + '.new', path)

    write.count = 1_000_000_000

    def answers(connection, reply):
        say(connection, [(sender, reply), (ABORT, b'')])

    def expect_said(served, *errors):
        """The log has a line for each change: with this error, or, where there is none, of rules that were read."""
        for error in errors:
            line = served.log_line()
            expect('log', line.split(b' ', 1)[0], b'event="no-rules"' if error else b'event="rules"')
            expect('error', serving.faults_in(line), error)
        expect('more lines', select.select([served.process.stderr], [], [], 0)[0], [])

    def play(served):
        def begun(reply):
            connection = served.connected()
            say(connection, opening(1))
            answers(connection, reply)
            return connection

        connections = [begun(packet(b'r'))]
        write('at mail do tempfail\n')
        connections.append(begun(packet(b't')))
        answers(connections[0], packet(b'r'))
        expect_said(served, b'')
        for text, number, explained in [
                ('at mail do nothing\n', 4, b'action "nothing" isn\'t known; known are ' + ACTIONS),
                ('at', 2, b'stage is missing after at; known are ' + STAGES)]:
            write(text)
            connections += [begun(packet(b't')), begun(packet(b't'))]
            expect_said(served, b'rules line 1: fault %d\n%s:1: %s\n' % (number, path.encode(), explained))
        os.remove(path)
        connections += [begun(packet(b't')), begun(packet(b't'))]
        reason = b'no such file: its path begins in the folder where the program is started, or with /'
        expect_said(served, b'cannot read rules\n%s: %s\n' % (path.encode(), reason))
        write('at mail do code "550 5.7.1 Other"\n')
        connections.append(begun(packet(b'y', b'550 5.7.1 Other')))
        write('')
        connections.append(begun(CONTINUE))
        for count in range(200):
            write('at mail do code "550 5.7.1 Number %d"\n' % count)
            connections.append(begun(packet(b'y', b'550 5.7.1 Number %d' % count)))
        answers(connections[0], packet(b'r'))
        answers(connections[1], packet(b't'))
        quit_all(connections)
        served.expect_all(b'quit')

    def run():
        write('at mail do reject\n')
        with serving.Service(program, kind, folder, ['--rules', path, '--at-once', '1000']) as served:
            play(served)

    yield checked('changed rules', run)


# Rules, options, and the protocol bits that are asked for: without a stage that no rule looks at, and without replies
# where no rule stands. With a log the client, the sender, recipients and DATA are sent all the same.
AT_RCPT = 'at rcpt when rcpt is "<b@y>" do reject\n'
ASKED_FOR = [
    ('no rule', '', [], 0xff3ff), ('recipients', AT_RCPT, [], 0xf73f3),
    ('the end alone', 'at eob do discard\n', [], 0xff3ff),
    ('a body at the end', 'at eob when body has "x" do reject\n', [], 0xff3eb),
    ('all stages', AT_RCPT, ['--all-stages'], 0), ('stated bits', 'protocol NOHELO\n' + AT_RCPT, [], 2),
    ('names', '', ['--log'], 0xff1f2), ('recipients and names', AT_RCPT, ['--log'], 0xf71f2),
    ('the end and names', 'at eob do discard\n', ['--log'], 0xff1f2),
    ('a reply to the sender and names', 'at mail do reject\n', ['--log'], 0xfb1f2),
    ('all stages and names', AT_RCPT, ['--all-stages', '--log'], 0),
    ('stated bits and names', 'protocol NOHELO\n' + AT_RCPT, ['--log'], 2)]


def asked_for(program, kind, folder):
    """What is asked for by the rules of a file."""

    def asks(rules, words, bits):
        words = rules_file(folder, rules) + words
        with serving.Service(program, kind, folder, words, all_stages=False) as served, served.connected() as one:
            say(one, [(OFFER, options(0, bits)), (QUIT, b'')])
            serving.expect_closed(one)

    for name, rules, words, bits in ASKED_FOR:
        yield checked('asks for ' + name, asks, rules, words, bits)


GROUPS = [
    rows_with_rules, rows, far_ends, interleaved, streams, greeted_again, several_addresses, logged, changed_rules,
    asked_for]


def groups(folder):
    """The groups of checks, each with the program and the kind of sockets that it is run with."""
    found = []
    for build in programs.BUILDS:
        program = programs.tool(build)
        for kind in serving.KINDS:
            for group in GROUPS:
                name = '%s at %s' % (os.path.basename(program), kind)
                found.append((name, group, (program, kind, tempfile.mkdtemp(dir=folder))))
    return found


def main():
    programs.need('tool')
    with tempfile.TemporaryDirectory() as work:
        return checks.run_all(groups(work))


if __name__ == '__main__':
    sys.exit(main())
