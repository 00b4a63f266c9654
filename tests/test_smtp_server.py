#!/usr/bin/env python3
"""Sends mail to examples/python/mail_server.py, by smtplib and by lines that are written at once: with no filter; to
`milter_tool serve` with rules that refuse, edit, hold and throw away; to two of these, of which the second is shown the
edits of the first; to filters that are lost, that are silent, that report progress, and that aren't there; with
commands in a wrong order, too long or too many; with a Maildir that can't be written; and where each call of the
library in turn answers that memory is refused. What is compared is each reply, and each file of the Maildir, byte for
byte. The library for C is proved and built where it isn't there, or it is made of the archive that is the argument.

Where the machine has them, mail is also sent by swaks, signed by OpenDKIM, and shown to a filter on libmilter.

Counted are the sessions.
"""
import os
import re
import shutil
import signal
import socket
import sys
import tempfile

from lib import c_library, c_plays, checks, in_process, programs, serving, smtp_peers
from lib.checks import checked, expect
from lib.packets import packet_of
from lib.smtp import (
    CONTINUE, DEFAULTS, MOVED, NOT_STORED, OK_MAIL, OK_RCPT, RECIPIENTS, REFUSES_ONE, SENDER, TEXT, Packets, Server,
    data, expect_taken, filed, files_in, filtering, goes_on, made_maildir, options, says, send, sent)
from lib.smtp_rows import ADDED, ADDS, BEGUN, DIALOGUES, EHLO, HELD, MAIL, ROWS


def dialogues(program, _tool, folder):
    """The dialogues, without a filter, all with one server, and with a filter that lets all go on, which is shown the
    mails."""

    def run(server, given, expected, texts):
        server.remove_files()
        says(server, b'EHLO client.example.org\r\n' + given, '220 %s %s' % (EHLO, expected))
        server.expect_files(filed(text, RECIPIENTS[:1]) for text in texts)

    def run_with_filter(*dialogue):
        with Server(program, folder, Packets(folder, goes_on).words) as server:
            run(server, *dialogue)

    with Server(program, folder) as one_server:
        for name, *dialogue in DIALOGUES:
            yield checked(name, run, one_server, *dialogue)
    for name, *dialogue in DIALOGUES:
        yield checked(name + ', with a filter', run_with_filter, *dialogue)


def greetings(program, _tool, folder):
    """MAIL before a greeting, HELO, and a connection that ends at once."""

    def run(given, expected):
        with Server(program, folder) as server:
            says(server, given, expected)

    yield checked('no greeting', run, BEGUN, '220 503 503')
    yield checked('HELO', run, b'HELO client\r\n' + BEGUN, '220 250 250 250')
    yield checked('nothing', run, b'', '220')

    def by_smtplib():
        with Server(program, folder) as server:
            replies, end = sent(server, TEXT + b'.\r\n..\r\n')
            expect('replies', replies, [OK_MAIL] + [OK_RCPT] * 3)
            expect_taken(end)
            server.expect_files([filed(TEXT + b'.\r\n..\r\n')])

    yield checked('smtplib', by_smtplib)


def rules(program, tool, folder):
    """The rows, each as a session of two mails and one of a mail, to a filter with its rules, and to this between two
    that let all go on."""

    def run(rows_rules, refused, end, new, held):
        with filtering(tool, folder, *rows_rules) as (_, words), Server(program, folder, words) as server:
            for mails in [2, 1]:
                with server.client() as client:
                    client.ehlo()
                    for _ in range(mails):
                        replies, found = send(client)
                        expect('recipients', replies, [OK_MAIL] + [refused.get(nth, OK_RCPT) for nth in range(3)])
                        expect('the end', found, end) if end else expect_taken(found)
                        client.rset()
            server.expect_files(new * 3, held * 3)

    for name, text, refused, end, new, held in ROWS:
        yield checked(name, run, [text], refused, end, new, held)
        yield checked(name + ', and another', run, ['', text, ''], refused, end, new, held)


def refusals(program, tool, folder):
    """Refusals of the client, its greeting and its commands, which hold for what follows them."""

    def run(text, expected):
        with filtering(tool, folder, text) as (_, words), Server(program, folder, words) as server:
            says(server, b'EHLO a\r\n' + BEGUN + b'DATA\r\nQUIT\r\n', expected)

    yield checked('the client', run, 'at connect do reject\n', '550 550 550 503 503 221')
    yield checked('the greeting', run, 'at helo do tempfail\n', '220 451 451 503 503 221')
    yield checked('the sender', run, 'at mail do reject\n', '220 %s 550 503 503 221' % EHLO)
    yield checked('DATA', run, 'at data do code "554 5.7.1 No"\n', '220 %s 250 250 554 221' % EHLO)


def in_turn(program, tool, folder):
    """Two filters, of which the second is shown what the first left."""
    first = 'at eob do add-header "X-First" "yes"\nat eob do replace-body "new\\r\\n"\n'
    second = 'at eob when header "X-First" is "yes" and body is "new\\r\\n" do add-header "X-Second" "seen"\n'
    text = b'Subject: Lunch\r\nX-Note: one\r\n\ttwo\r\nX-First: yes\r\nX-Second: seen\r\n\r\nnew\r\n'

    def edits():
        with filtering(tool, folder, first, second) as (_, words), Server(program, folder, words) as server:
            expect_taken(sent(server)[1])
            server.expect_files([filed(text)])

    def held():
        with filtering(tool, folder, HELD, first) as (_, words), Server(program, folder, words) as server:
            expect_taken(sent(server)[1])
            expect('the fields', b'X-First: yes' in server.files('.Quarantine/new')[0], True)
            server.expect_files([], server.files('.Quarantine/new'))

    def shown(verdict, at, codes):
        """What the others are shown of a mail that the second of three filters ends."""
        others = [Packets(folder, goes_on), Packets(folder, goes_on)]
        with filtering(tool, folder, 'at %s do %s\n' % (at, verdict)) as (_, words):
            with Server(program, folder, others[0].words + words + others[1].words) as server:
                sent(server, recipients=RECIPIENTS[:1])
        expect('what is shown', tuple(other.codes() for other in others), codes)

    def accepted():
        """The first filter accepts, and the second is asked all the same."""
        with filtering(tool, folder, 'at mail do accept\n', REFUSES_ONE) as (_, words):
            with Server(program, folder, words) as server:
                expect('the replies', sent(server)[0], [OK_MAIL, OK_RCPT, MOVED, OK_RCPT])

    yield checked('accept by the first', accepted)
    yield checked('edits', edits)
    yield checked('quarantine by the first', held)
    yield checked('shown, discard at rcpt', shown, 'discard', 'rcpt', (b'OCHMRAQ', b'OCHMAQ'))
    yield checked('shown, reject at mail', shown, 'reject', 'mail', (b'OCHMAQ', b'OCHQ'))
    yield checked('shown, reject at rcpt', shown, 'reject', 'rcpt', (b'OCHMRAQ', b'OCHMAQ'))
    yield checked('shown, reject at data', shown, 'reject', 'data', (b'OCHMRTAQ', b'OCHMRAQ'))
    yield checked('shown, reject at eoh', shown, 'reject', 'eoh', (b'OCHMRTLLNBEQ', b'OCHMRTAQ'))
    yield checked('shown, accept at mail', shown, 'accept', 'mail', (b'OCHMRTLLNBEQ', b'OCHMRTLLNBEQ'))


def unknown(program, _tool, folder):
    """Commands that the server doesn't know, of which a filter refuses, accepts or discards one."""

    def run(reply, given, expected, new):
        packets = Packets(folder, lambda code, payload: reply if b'FROB' in payload else goes_on(code))
        with Server(program, folder, packets.words) as server:
            found = says(server, b'HELO a\r\nVRFY ada\r\n' + given + b'ETRN b\r\n', '220 250 502 ' + expected + ' 500')
            expect('the text', b'550 5.7.1 Not here\r\n' in found, reply[4:5] == b'y')
            server.expect_files(new)
        packets.codes()
        shown = [packet for packet in packets.seen if packet[:1] == b'U']
        expect('what is shown', shown[:2], [b'UVRFY ada\0', b'UFROB x\0'])

    frob, mail, file = b'FROB x\r\n', BEGUN + b'DATA\r\n' + TEXT + b'.\r\n', [filed(recipients=RECIPIENTS[:1])]
    within = BEGUN + frob + b'DATA\r\n' + TEXT + b'.\r\n'
    refuses = packet_of(b'y550 5.7.1 Not here\0')
    for name, reply, code, new in [
            ('refused', refuses, 550, file), ('accepted', packet_of(b'a'), 500, file),
            ('discarded', packet_of(b'd'), 500, [])]:
        yield checked(name + ' within a message', run, reply, within, '250 250 %d 354 250' % code, new)
        yield checked(name + ' before a message', run, reply, frob + mail, '%d 250 250 354 250' % code, file)


def losses(program, tool, folder):
    """A filter that is killed within a message, one that closes after each packet, one that isn't there, one that is
    silent and one that sends what is no reply; beside one that adds a field, which goes on."""
    def expect_default(on_loss, reply):
        if DEFAULTS[on_loss]:
            expect('the reply', reply, DEFAULTS[on_loss])
        else:
            expect('the code', reply[0], 250)

    def killed(on_loss):
        with filtering(tool, folder, HELD, ADDS) as (runs, words):
            with Server(program, folder, words + ['--on-loss', on_loss]) as server, server.client() as client:
                client.ehlo()
                client.mail(SENDER)
                expect('the first', client.rcpt(RECIPIENTS[0]), OK_RCPT)
                runs[0].process.send_signal(signal.SIGKILL)
                runs[0].process.wait()
                expect_default(on_loss, client.rcpt(RECIPIENTS[1]))
                if on_loss == 'accept':
                    expect('the third', client.rcpt(RECIPIENTS[2]), OK_RCPT)
                    expect_taken(data(client))
                client.rset()
                expect_default(on_loss, client.mail(SENDER))
                server.expect_files([filed(ADDED)] if on_loss == 'accept' else [])

    def closed(on_loss, at):
        packets = Packets(folder, lambda code, _: None if code == at else goes_on(code))
        with filtering(tool, folder, ADDS) as (_, words):
            with Server(program, folder, packets.words + words + ['--on-loss', on_loss]) as server:
                replies, end = sent(server, recipients=RECIPIENTS[:1])
                late = at in b'TLNBE'
                expect('early replies', all(code == 250 for code, _ in replies), late or on_loss == 'accept')
                expect_default(on_loss, end) if late else None
                server.expect_files([filed(ADDED, RECIPIENTS[:1])] if on_loss == 'accept' else [])

    def absent(on_loss):
        _, address = serving.place_of('inet', folder)
        with Server(program, folder, ['--filter', address, '--on-loss', on_loss]) as server:
            with server.client() as client:
                expect('greeting', client.ehlo()[0], 250)
                expect_default(on_loss, client.mail(SENDER))

    def edits_lost(on_loss):
        """A filter that is lost after an edit: the edit doesn't count."""

        def reply_of(code, _):
            edit = packet_of(b'hX-Lost\0yes\0') + b'\0'
            return options(0x1ff) if code == b'O' else edit if code == b'E' else goes_on(code)

        packets = Packets(folder, reply_of)
        words = packets.words + ['--on-loss', on_loss, '--wait', '1']
        with Server(program, folder, words) as server:
            expect_default(on_loss, sent(server)[1])
            server.expect_files([filed()] if on_loss == 'accept' else [])

    def silent(on_loss):
        packets = Packets(folder, lambda code, _: b'' if code == b'M' else goes_on(code))
        with Server(program, folder, packets.words + ['--on-loss', on_loss, '--wait', '1']) as server:
            with server.client() as client:
                client.ehlo()
                expect_default(on_loss, client.mail(SENDER))

    for on_loss in DEFAULTS:
        yield checked('killed, ' + on_loss, killed, on_loss)
        yield checked('absent, ' + on_loss, absent, on_loss)
        yield checked('silent, ' + on_loss, silent, on_loss)
        yield checked('lost after an edit, ' + on_loss, edits_lost, on_loss)
        for at in [b'O', b'C', b'H', b'M', b'R', b'T', b'L', b'N', b'B', b'E']:
            yield checked('closed at %s, %s' % (at.decode(), on_loss), closed, on_loss, at)


def verdict_and_end(program, _tool, folder):
    """A verdict at the end with an edit, and then the end of the connection, or a packet that is no reply: the verdict
    counts. And progress, after which the time begins again."""
    edits, edit = options(0x1ff), packet_of(b'hX-Added\0yes\0')

    def run(last, second):
        packets = Packets(folder, lambda code, _: edits if code == b'O' else last if code == b'E' else goes_on(code))
        with Server(program, folder, packets.words) as server, server.client() as client:
            client.ehlo()
            expect('the first sender', client.mail(SENDER), OK_MAIL)
            for name in RECIPIENTS:
                client.rcpt(name)
            expect_taken(data(client))
            expect('the second sender', client.mail(SENDER), second)
            server.expect_files([filed(ADDED)])

    def progress():
        works = [packet_of(b'p')] * 4 + [CONTINUE]
        packets = Packets(folder, lambda code, _: works if code == b'E' else goes_on(code))
        with Server(program, folder, packets.words + ['--wait', '1']) as server:
            expect_taken(sent(server)[1])
            server.expect_files([filed()])

    yield checked('a verdict', run, edit + CONTINUE, OK_MAIL)
    yield checked('a verdict, and a packet after it', run, edit + CONTINUE + CONTINUE, DEFAULTS['tempfail'])
    yield checked('progress', progress)


def maildirs(program, tool, folder):
    """Maildirs that aren't there, whose parts aren't there or are files, and a disk that is full."""

    def run(change, words=()):
        with Server(program, folder, words) as server:
            change(server.maildir)
            before = list(os.walk(server.maildir))
            expect('replies', sent(server), ([OK_MAIL] + [OK_RCPT] * 3, NOT_STORED))
            expect('what is left', list(os.walk(server.maildir)), before)

    def without(name):
        return lambda maildir: shutil.rmtree(os.path.join(maildir, name))

    def replaced(name):
        def change(maildir):
            path = os.path.normpath(os.path.join(maildir, name))
            shutil.rmtree(path)
            programs.written(path, 'a file')
        return change

    for name in ['', 'tmp', 'new']:
        yield checked('without ' + name, run, without(name))
        yield checked('a file in place of ' + name, run, replaced(name))

    def no_quarantine():
        with filtering(tool, folder, HELD) as (_, words):
            run(without('.Quarantine'), words)

    yield checked('no quarantine', no_quarantine)
    yield checked('a small limit of files', full, program, folder)


def full(program, folder):
    """A file that can't be written to its end: the limit of a file's size is lower."""
    limited = os.path.join(tempfile.mkdtemp(dir=folder), 'limited')
    programs.written(limited, '#!/bin/bash\ntrap "" XFSZ\nulimit -f 1\nexec "$@"\n')
    with Server(['bash', limited, *program], folder) as server:
        expect('the end', sent(server, TEXT + b'x' * 500 + b'\r\n')[1][0], 250)
        expect('the end', sent(server, TEXT + (b'x' * 990 + b'\r\n') * 10)[1], NOT_STORED)
        expect('files', (len(server.files()), server.files('tmp')), (1, []))


def refused(_program, tool, folder):
    """Sessions in which a call of the library answers that memory is refused, the first one, then the second one, until
    a session makes fewer calls: a mail is stored whole, with the edits, where the reply says that it is queued, and
    else not at all."""
    def run(words, text, number):
        maildir = made_maildir(folder)
        out, was_refused = in_process.session(
            [*words, '--maildir', maildir], b'EHLO client.example.org\r\n' + MAIL + b'QUIT\r\n', number)
        new = [filed(text, RECIPIENTS[:1])] if b'queued as' in out else []
        expect('the session', (files_in(maildir), files_in(maildir, 'tmp')), (new, []))
        expect('no refusal', was_refused or b'queued as' in out, True)
        return was_refused

    yield from checks.with_each_refused(lambda number: run([], TEXT, number))
    with filtering(tool, folder, ADDS) as (_, words):
        yield from checks.with_each_refused(lambda number: run(words, ADDED, number))


def usage(program, _tool, folder):
    """Command lines."""

    def run(words, status, said):
        end = programs.ended([*program, *words], timeout=serving.SECONDS)
        expect('the end', (end[0], said in end[1], said in end[2]), (status, status == 0, status == 2))

    yield checked('help', run, ['--help'], 0, b'--maildir')
    yield checked('no Maildir', run, [], 2, b'--maildir')
    yield checked('a bad default', run, ['--maildir', folder, '--on-loss', 'drop'], 2, b'drop')
    yield checked('a bad address', run, ['--maildir', folder, '--filter', 'nowhere'], 2, b'nowhere')
    yield checked('no time', run, ['--maildir', folder, '--wait', '0'], 2, b'0')


def documented(program, tool, folder):
    """The dialogue of examples/python/mail_server.txt, but for the name of the message."""
    with open(os.path.join(programs.TOP, 'examples', 'python', 'mail_server.txt'), encoding='utf-8') as file:
        section = file.read()
    blocks = [block for block in re.findall(r'(?:(?:^    .*)?\n)+', section, re.M) if '    ' in block]
    first, second, dialogue, mail = [re.sub('(?m)^    ', '', block).strip('\n') + '\n' for block in blocks]

    def without_name(text):
        return re.sub(r'\d+\.M\d+P\d+Q\d+', 'NAME', text)

    def run():
        with filtering(tool, folder, first, second) as (_, words), Server(program, folder, words) as server:
            with socket.create_connection(server.at, serving.SECONDS) as connection:
                replies = connection.makefile('r', encoding='utf-8', newline='\r\n')
                for line in dialogue.splitlines():
                    if line.startswith('C:'):
                        connection.sendall(line[3:].encode() + b'\r\n')
                    else:
                        expect('line', without_name('S: ' + replies.readline().rstrip('\r\n')), without_name(line))
            server.expect_files([mail.encode()])

    yield checked('the dialogue of the document', run)


def others(program, tool, folder):
    """What other programs send, or answer as filters, where the machine has them."""
    if shutil.which('swaks'):
        yield checked('swaks', smtp_peers.by_swaks, program, tool, folder)
    if shutil.which('opendkim') and shutil.which('openssl'):
        yield checked('OpenDKIM', smtp_peers.by_opendkim, program, tool, folder)
    if os.path.exists('/usr/include/libmilter/mfapi.h') and shutil.which('gcc'):
        yield checked('libmilter', smtp_peers.by_libmilter, program, tool, folder)


def groups(library, folder):
    """Groups of checks: of each its name, its function, and what that is called with."""
    os.environ.update(c_plays.of_binding(library, c_plays.PYTHON))
    program = [sys.executable, os.path.join(c_plays.PYTHON, 'mail_server.py')]
    for group in [dialogues, greetings, rules, refusals, in_turn, unknown, losses, verdict_and_end, maildirs, refused,
                  usage, documented, others]:
        yield group.__name__, group, (program, programs.BUILDS[0], tempfile.mkdtemp(dir=folder))


if __name__ == '__main__':
    programs.need('tool')
    c_library.need()
    with tempfile.TemporaryDirectory() as work:
        made = c_library.made(c_library.built(*sys.argv[1:]), work)
        sys.exit(checks.run_all(groups(made, work)))
