#!/usr/bin/env python3
"""Changes the rule file of `milter_tool serve` in the ways in which files change, as both compilers built it: with the
same time and size, by a rename, by a link, in two parts, and while it can't be read, for want of permission, of a
descriptor or of memory. Each connection goes by the rules that the file has when it comes, as far as they can be read
then. So does it by the lists of the file, which are changed in the same ways.

Counted are the runs.
"""
import hashlib
import os
import re
import shutil
import sys
import tempfile
import time

from lib import checks, preloaded, programs, serving
from lib.checks import checked, expect
from lib.programs import written
from lib.conversations import ABORT, CONTINUE, QUIT, opening, packet, quit_all, run_to_end, say

# Files of the same size, and what is answered to a sender by each.
REJECT, ACCEPT = 'at mail do reject\n', 'at mail do accept\n'
FAULTY = 'at mail do reject now\n'
REJECTED, ACCEPTED = packet(b'r'), packet(b'a')
# A file with a list, and lists of the same size: that has the sender, and that has another one.
BY_LIST = 'rules 2\nlist senders addresses "senders"\nat mail when sender-address in senders do reject\nat mail do accept\n'
SENDERS, OTHERS = 'a@x\n', 'b@x\n'
# What is said of a line without an action.
ACTIONS = b'continue, accept, reject, tempfail, discard, skip, code, add-header, insert-header, change-header, add-rcpt, ' \
          b'add-rcpt-par, del-rcpt, change-from, replace-body, quarantine and progress'
# What is said of a pipe and of a folder.
ENDLESS, FOLDER = b"isn't read to an end, or has more than 134,217,728 bytes", b'is a folder, and a file is due'
# Whoever may read nothing that isn't for all, and a time that is long over.
NOBODY, LONG_AGO = 65534, 10 ** 18
# For how many seconds the times of a file are too young to be trusted, and a little more.
SETTLED = 3.2
SENDER, RECIPIENT = packet(b'M', b'<a@x>'), packet(b'R', b'<b@y>')
# The most bytes that a file has.
FILE_MAX = 134_217_728
# Refused memory: the number of connections of a run.
CONNECTIONS = 4


def file_of(folder, text):
    """A file of these rules that was written long ago, in a folder of its own that all may read."""
    folder = tempfile.mkdtemp(dir=folder)
    os.chmod(folder, 0o755)
    return aged(written(os.path.join(folder, 'rules'), text))


def aged(path):
    """Sets the times of a file to what they are of each, and answers its path."""
    os.utime(path, ns=(LONG_AGO, LONG_AGO))
    return path


def overwrite(path, text, at=0):
    """Writes over the bytes of a file from this one on, after which it has the time that it had."""
    with open(path, 'r+', encoding='utf-8') as file:
        file.seek(at)
        file.write(text)
    aged(path)


def replace(path, text, mode=0o644):
    """Puts another file in the place of this one, with its time."""
    aged(written(path + '.new', text))
    os.chmod(path + '.new', mode)
    os.replace(path + '.new', path)


def link(path, target):
    """Has a link name this file or folder, in the place of what was there."""
    os.symlink(target, path + '.new')
    os.replace(path + '.new', path)


def begun(served, reply):
    """A connection, of which the sender is answered so."""
    connection = served.connected()
    say(connection, opening(1) + [(SENDER, reply)])
    return connection


def expect_answers(served, *replies):
    """Connections one after another, of each of which the sender is answered so."""
    for reply in replies:
        quit_all([begun(served, reply)])


def expect_errors(served, lines):
    """Ends the run, whose log has these errors, and after each the lines that explain it."""
    served.expect_all(b'quit')
    expect('errors', served.faults(), lines)


def unread(path, reason):
    """The lines of a rule file that isn't read for this reason."""
    return b'cannot read rules\n%s: %s\n' % (path.encode(), reason)


def at_fault(path, line, number, *explained):
    """The lines of a rule file with a fault of this number in this line."""
    said = b''.join(b'%s:%d: %s\n' % (path.encode(), line, text) for text in explained)
    return b'rules line %d: fault %d\n' % (line, number) + said


def run_with(program, folder, path, errors, play, started=None):
    """A run with the rules of this file that is played so, and whose log has these errors. What `started` has are options
    of serving.Service."""
    with serving.Service(program, 'inet', folder, ['--rules', path], **(started or {})) as served:
        play(served)
        expect_errors(served, errors)


def same_time(program, folder):
    """A file of the same time and size, in place and by a rename, at once and after its time is trusted."""

    def play(served):
        expect_answers(served, REJECTED)
        for _ in range(3):
            overwrite(path, ACCEPT)
            expect_answers(served, ACCEPTED)
            replace(path, REJECT)
            expect_answers(served, REJECTED)
        time.sleep(SETTLED)
        expect_answers(served, REJECTED, REJECTED)
        overwrite(path, ACCEPT)
        expect_answers(served, ACCEPTED, ACCEPTED)
        time.sleep(SETTLED)
        expect_answers(served, ACCEPTED, ACCEPTED)
        replace(path, REJECT)
        expect_answers(served, REJECTED)

    path = file_of(folder, REJECT)
    yield checked('the same time and size', run_with, program, folder, path, b'', play)


def links(program, folder):
    """A link to a file, and one to the folder of a file, that is switched to one of the same time and size."""

    def play(served):
        expect_answers(served, REJECTED)
        switch(ACCEPT)
        expect_answers(served, ACCEPTED)
        time.sleep(SETTLED)
        expect_answers(served, ACCEPTED, ACCEPTED)
        switch(REJECT)
        expect_answers(served, REJECTED)

    files = {text: file_of(folder, text) for text in (REJECT, ACCEPT)}
    path = os.path.join(folder, 'link')
    for name, switch, rules in [
            ('a link to a file', lambda text: link(path, files[text]), path),
            ('a link to a folder', lambda text: link(path, os.path.dirname(files[text])), path + '/rules')]:
        switch(REJECT)
        yield checked(name, run_with, program, folder, rules, b'', play)


def two_parts(program, folder):
    """A file that is written in two parts, of which the first one is read alone: at its end, and over what it had."""

    def longer(served):
        expect_answers(served, REJECTED)
        with open(path, 'w', encoding='utf-8') as file:
            file.write(ACCEPT[:10])
            file.flush()
            expect_answers(served, REJECTED, REJECTED)
            file.write(ACCEPT[10:])
        expect_answers(served, ACCEPTED)

    def over(served):
        for at, replies in [(0, [ACCEPTED]), (len(ACCEPT), [ACCEPTED, ACCEPTED])]:
            overwrite(path, 'at rcpt do accept\n' if at else ACCEPT, at)
            quit_all([connection_with(served, replies)])

    def connection_with(served, replies):
        connection = begun(served, replies[0])
        say(connection, [(RECIPIENT, replies[1] if replies[1:] else REJECTED)])
        return connection

    path = file_of(folder, REJECT)
    yield checked('in two parts', run_with, program, folder, path,
                  at_fault(path, 1, 4, b'action is missing after do; known are ' + ACTIONS), longer)
    path = file_of(folder, REJECT + 'at rcpt do reject\n')
    yield checked('over what it had', run_with, program, folder, path, b'', over)


def unreadable(program, folder):
    """A file that isn't for whoever runs the program, until it is; and one that is none, gone or too large, until it is
    one. That it isn't read is written once."""
    copy = os.path.join(folder, 'program')
    shutil.copy(program, copy)
    os.chmod(copy, 0o755)
    started = {'user': NOBODY, 'group': NOBODY, 'extra_groups': []} if os.geteuid() == 0 else {}

    def permitted(served):
        expect_answers(served, REJECTED)
        replace(path, ACCEPT, 0)
        expect_answers(served, REJECTED, REJECTED, REJECTED)
        os.chmod(path, 0o644)
        expect_answers(served, ACCEPTED)

    def other(served):
        expect_answers(served, REJECTED)
        os.rename(path, path + '.kept')
        os.mkdir(path)
        expect_answers(served, REJECTED, REJECTED)
        os.rmdir(path)
        expect_answers(served, REJECTED)
        replace(path, ACCEPT)
        os.truncate(path, FILE_MAX + 1)
        expect_answers(served, REJECTED, REJECTED)
        link(path, path)
        expect_answers(served, REJECTED)
        os.rename(path + '.kept', path)
        expect_answers(served, REJECTED)
        overwrite(path, ACCEPT)
        expect_answers(served, ACCEPTED)

    path = file_of(folder, REJECT)
    yield checked('no permission', run_with, copy, folder, path,
                  unread(path, b'permission denied: the user who runs the program has to be allowed to read it'),
                  permitted, started)
    path = file_of(folder, REJECT)
    yield checked('no file', run_with, program, folder, path, unread(path, FOLDER), other)


def waits(program, folder):
    """A pipe and a folder in the place of a rule file or of a list: neither is waited for, nor read."""

    def piped(served):
        expect_answers(served, REJECTED)
        for make in (os.mkfifo, os.mkdir):
            os.rename(path, path + '.kept')
            make(path)
            expect_answers(served, REJECTED, REJECTED)
            (os.remove if make == os.mkfifo else os.rmdir)(path)
            os.rename(path + '.kept', path)
            expect_answers(served, REJECTED)
        overwrite(path, ACCEPT)
        expect_answers(served, ACCEPTED)

    def listed(served):
        expect_answers(served, REJECTED)
        for make in (os.mkfifo, os.mkdir):
            os.remove(senders)
            make(senders)
            expect_answers(served, REJECTED, REJECTED)
            (os.remove if make == os.mkfifo else os.rmdir)(senders)
            written(senders, OTHERS)
            expect_answers(served, ACCEPTED)
            written(senders, SENDERS)
            expect_answers(served, REJECTED)

    path = file_of(folder, REJECT)
    yield checked('a pipe and a folder', run_with, program, folder, path, unread(path, ENDLESS) + unread(path, FOLDER),
                  piped)
    path = file_of(folder, BY_LIST)
    senders = aged(written(os.path.join(os.path.dirname(path), 'senders'), SENDERS))
    shown = senders.encode()
    gone = at_fault(path, 2, 8, b'list senders: "%s" can\'t be read, or has more than 134,217,728 bytes' % shown)
    yield checked('a list that is one', run_with, program, folder, path,
                  at_fault(path, 2, 8) + b'%s: %s\n' % (shown, ENDLESS) + gone + b'%s: %s\n' % (shown, FOLDER), listed)
    path = os.path.join(tempfile.mkdtemp(dir=folder), 'pipe')
    os.mkfifo(path)
    yield checked('a pipe at the start', run_to_end, program,
                  ['unix:' + path + '.socket', '--rules', path], (1, b'', b'cannot read rules\n'))


def logged(program, folder):
    """What the log says of a file: its path, quoted, its checksum, and how many rules it has or why it gives none."""

    def event(name, rest):
        with open(path, 'rb') as file:
            checksum = hashlib.sha256(file.read()).hexdigest()
        return ('event="%s" rules="%s" sha256="%s" %s\n' % (name, shown, checksum, rest)).encode()

    def start(served):
        address = 'inet:%d@%s' % served.at[::-1]
        found = [served.process.stderr.readline() for _ in range(2)]
        first = re.sub(rb'connections="[0-9]+"', b'connections="N"', found[0])
        before = 'event="start" version="0.1.0%s" address="%s" at-once="200" connections="N" ' % (
            programs.unproved(), address)
        expect('start', first, event('', 'count="1"').replace(b'event="" ', before.encode()))
        expect('listen', found[1], ('event="listen" address="%s"\n' % address).encode())

    def explained(served):
        """A line of the log that explains an error, without the words for it."""
        line, _, words = served.log_line().partition(b' why="')
        expect('words', words[-2:], b'"\n')
        return line + b'\n'

    def run():
        with serving.Service(program, 'inet', folder, ['--rules', path]) as served:
            start(served)
            expect_answers(served, REJECTED)
            replace(path, ACCEPT + REJECT)
            expect_answers(served, ACCEPTED)
            expect('rules', served.log_line(), event('rules', 'count="2"'))
            replace(path, FAULTY)
            expect_answers(served, ACCEPTED)
            expect('no rules', explained(served), event('no-rules', 'error="rules line 1: fault 4"'))
            os.remove(path)
            expect_answers(served, ACCEPTED, ACCEPTED)
            gone = ('event="no-rules" rules="%s" error="cannot read rules"\n' % shown).encode()
            expect('gone', explained(served), gone)
            replace(path, REJECT)
            expect_answers(served, REJECTED)
            expect('there again', served.log_line(), event('rules', 'count="1"'))
            served.expect_all(b'quit')
            expect('all lines', served.log_lines(), [])

    path = written(os.path.join(tempfile.mkdtemp(dir=folder), 'a "file"\n'), REJECT)
    shown = path.replace('"', '\\"').replace('\n', '\\n')
    yield checked('the log', run)


def replaced(program, folder):
    """Rules that were replaced leave no memory behind them, while connections come and go that use them."""
    rules = ''.join('at mail when sender is "<%06d@example.org>" do reject\n' % at for at in range(9999))

    def play(served):
        kept = [begun(served, REJECTED)]
        before = served.memory()
        replace(path, rules + ACCEPT)
        expect_answers(served, ACCEPTED)
        one = served.memory() - before
        for at in range(30):
            replace(path, rules + (REJECT if at % 2 else ACCEPT) + '#%d\n' % at)
            kept.append(begun(served, REJECTED if at % 2 else ACCEPTED))
            quit_all([kept.pop(0)])
        more = served.memory() - before
        expect('memory of one set %d, after 30 %d' % (one, more), more < 4 * one, True)
        quit_all(kept)

    path = file_of(folder, REJECT)
    yield checked('30 changes', run_with, program, folder, path, b'', play)


def few_descriptors(program, folder):
    """A file that changes when there is no descriptor by which it can be read, until there is one."""
    files = 12

    def play(served):
        connections = [begun(served, REJECTED)]
        while served.descriptors() < files - 1:
            connections.append(begun(served, REJECTED))
        replace(path, ACCEPT)
        connections.append(begun(served, REJECTED))
        expect('descriptors', served.descriptors(), files)
        quit_all(connections)
        expect_answers(served, ACCEPTED)

    path = file_of(folder, REJECT)
    yield checked('few descriptors', run_with, program, folder, path, unread(path, b"the system doesn't read it"),
                  play, {'files': files})


def faulty(program, folder):
    """A fault of a file is written once for each change of its bytes, and a file that has its bytes again holds."""

    def play(served):
        expect_answers(served, REJECTED)
        for text in [FAULTY, FAULTY + '#\n', FAULTY]:
            replace(path, text)
            expect_answers(served, REJECTED, REJECTED)
            os.utime(path)
            expect_answers(served, REJECTED)
        replace(path, REJECT)
        expect_answers(served, REJECTED)
        replace(path, ACCEPT)
        expect_answers(served, ACCEPTED)

    path = file_of(folder, REJECT)
    yield checked('faults', run_with, program, folder, path,
                  3 * at_fault(path, 1, 4, b'nothing is due after reject; an answer with a text is code TEXT'), play)


def lists(program, folder):
    """A list of a file that stays: it gets other entries of the same size, at once and after its time is trusted; a bad
    entry; and it is gone, and comes back. Then another list is named, which has been there."""

    def play(served):
        expect_answers(served, REJECTED)
        overwrite(senders, OTHERS)
        expect_answers(served, ACCEPTED)
        replace(senders, SENDERS)
        expect_answers(served, REJECTED)
        time.sleep(SETTLED)
        expect_answers(served, REJECTED, REJECTED)
        overwrite(senders, OTHERS)
        expect_answers(served, ACCEPTED)
        replace(senders, 'a x\n')
        expect_answers(served, ACCEPTED, ACCEPTED)
        replace(senders, SENDERS)
        expect_answers(served, REJECTED)
        os.remove(senders)
        expect_answers(served, REJECTED, REJECTED)
        replace(senders, OTHERS)
        expect_answers(served, ACCEPTED)
        replace(path, BY_LIST.replace('"senders"', '"./all"'))
        expect_answers(served, REJECTED)

    path = file_of(folder, BY_LIST)
    senders = aged(written(os.path.join(os.path.dirname(path), 'senders'), SENDERS))
    aged(written(os.path.join(os.path.dirname(path), 'all'), OTHERS + SENDERS))
    shown = senders.encode()
    bad = b'list senders: line 1 of "%s" is no address' % shown
    gone = b'list senders: "%s" can\'t be read, or has more than 134,217,728 bytes' % shown
    missing = b'%s: no such file: its path begins in the folder where the program is started, or with /\n' % shown
    yield checked('lists', run_with, program, folder, path, at_fault(path, 2, 8, bad) + at_fault(path, 2, 8, gone) + missing,
                  play)


def unchanged(program, folder):
    """A file that gets other times, and keeps its bytes, takes no memory."""

    def play(served):
        expect_answers(served, REJECTED)
        before = served.memory()
        for at in range(100):
            os.utime(path, (at, at))
            expect_answers(served, REJECTED)
        expect('memory %d, %d' % (before, served.memory()), served.memory() - before < 10240, True)

    path = file_of(folder, 1000 * 'at mail when sender is "<a@z>" do accept\n' + REJECT)
    yield checked('no change', run_with, program, folder, path, b'', play)


def answer_of(served):
    """What a sender is answered on a new connection; `None` where that is given up, or the run is over."""
    given = b''.join(given for given, _ in opening(1)) + SENDER + QUIT
    replies = b''.join(reply for _, reply in opening(1))
    try:
        with serving.connected(served.at, lambda: served.process.poll() is not None) as connection:
            connection.sendall(given)
            found = serving.received(connection, len(replies) + len(REJECTED) + 1)
    except (checks.Wrong, ConnectionError):
        return None
    return found[len(replies):] or None


def refused_memory(program, folder):
    """A file that changes, with each allocation refused in turn: the rules hold one connection later at most."""
    refuser = preloaded.compiled('refuse.c', folder)

    def run(**started):
        path = file_of(folder, REJECT)
        with serving.Service(program, 'inet', folder, ['--rules', path], **started) as served:
            answers = [answer_of(served)]
            replace(path, ACCEPT)
            answers += [answer_of(served) for _ in range(CONNECTIONS - 1)]
            over = serving.waited_for(lambda: state(served))
            if not over:
                # The last line is lost, and counted before the next one.
                answer_of(served)
                over = serving.waited_for(lambda: state(served))
            served.process.kill()
            errors = serving.faults_in(served.process.stderr.read())
        if over == 'goes on':
            expect('answers', answers, right(answers))
            expect('errors', errors, errors if re.fullmatch(b'(out of memory\n)?', errors) else b'out of memory\n')
        else:
            expect('end', (over, errors), (1, b'out of memory\n'))

    def state(served):
        """Whether it goes on, once each connection has its line or that is lost; or the status with which it ended."""
        return served.process.poll() or len(served.lines()) + served.lost() >= CONNECTIONS and 'goes on'

    def right(answers):
        """These answers, where each is as the file was then; but one is given up, or goes by the rules before."""
        expected = [REJECTED] + (CONNECTIONS - 1) * [ACCEPTED]
        others = [at for at, answer in enumerate(answers) if answer != expected[at]]
        late = [at for at in others if answers[at] is None or (at, answers[at]) == (1, REJECTED)]
        return answers if len(others) <= 1 and late == others else expected

    yield from checks.with_each_refused(lambda number: preloaded.is_refused(refuser, number, run)[1])


GROUPS = [
    replaced, same_time, links, two_parts, unreadable, waits, few_descriptors, faulty, lists, unchanged, logged,
    refused_memory]


def groups(folder):
    """The groups of checks, each with the program that it is run with, and a folder that all may read."""
    os.chmod(folder, 0o755)
    for build in programs.BUILDS:
        program = programs.tool(build)
        for group in GROUPS:
            work = tempfile.mkdtemp(dir=folder)
            os.chmod(work, 0o755)
            yield os.path.basename(program), group, (program, work)


if __name__ == '__main__':
    programs.need('tool')
    with tempfile.TemporaryDirectory() as work:
        sys.exit(checks.run_all(groups(work)))
