#!/usr/bin/env python3
"""Runs tests of milter_tests, the cases of milter_tool and rows of tables with one allocation refused: the first one,
then the second one, and so on, until a run makes fewer allocations than that. The programs are run as both compilers
built them: milter_tool on each case that has `args`, and all on the rows of the tables
cases/tables/*_refused_memory.table, edits_values.table and filter_faults.table. The tests are those below
`tests::packets`. lib/refuse.c says what counts as an
allocation.

A test passes, or ends with the result `NoMemory`. A run of a program ends as it does with ample memory, or as one
that is out of memory: after a part of the standard output from its beginning, with `out of memory` alone on standard
error, and status 1. The programs that play a mail server's end (the tables `mta_*`) and links (`links_*`) may also
report one of the messages as settled by default, out of memory, after some of the message's verdicts, from the first
one on; the others are as ever. Of the mail server's end the last verdict on the last message is always acted on where
it takes no memory. The links may also report so of all messages, none of which was begun; so may `milter_tool mta` in
the cases without a filter, where it would report a loss of the connection. The program of the tables `connection_*`
makes a call again for which memory was refused, and ends then as with ample memory: the first call changed nothing. The
last run of each, in which nothing was refused, is as ever.

The test fails too where no run of the tests or of a program came to a refused allocation.
"""
import itertools
import os
import re
import sys
import tempfile

from lib import cases, preloaded, programs, reports, runner, tables

REFUSED = 'tests::packets::'
TABLES = tables.names('_refused_memory') + ['edits_values', 'filter_faults']
# The programs that play these tables.
PROGRAMS = sorted({tables.program_of(table) for table in TABLES})
OUT_OF_MEMORY = [b'out of memory\n'] + [
    b'Error: %s\n' % text for text in (b'out of memory', b'Out of memory', b'memory allocation failed')]
NO_MEMORY = b'Error: NoMemory\n'
# After so many verdicts on a message the list of them takes more memory for the next one.
GROWN_AFTER = (2, 4, 8, 16)
PASSED = b'\ntest result: ok\n'
NO_TEST = 'a name that no test has'


def is_passed(end):
    """Whether a test passed."""
    status, out, _ = end
    return status == 0 and out.endswith(PASSED)


def is_passed_or_out_of_memory(end):
    """Whether a test passed, or its result is that it is out of memory."""
    return is_passed(end) or (end[0] != 0 and end[2].startswith(NO_MEMORY))


def is_as_ever_or_out_of_memory(expected):
    """Whether a run of the program ended as expected, or as one that is out of memory; for a run's end."""

    def is_right(end):
        status, out, err = end
        return end == expected or (status == 1 and err in OUT_OF_MEMORY and expected[1].startswith(out))

    return is_right


def reports_in(out):
    """Each report that a mail server's end printed: its line, and the lines of its message."""
    found = []
    for line in out.splitlines(keepends=True):
        if line.endswith((b'"\n', b'end\n')):
            found[-1].append(line)
        else:
            found.append([line])
    return found


def kept(message, acted):
    """The lines of a message without the recipients that these verdicts refused."""
    refused = [verdict.split()[1] for verdict in acted if re.fullmatch(rb'rcpt \d+ (code|reject|tempfail)', verdict)]
    recipients = [at for at, line in enumerate(message) if line.startswith(b'recipient ')]
    gone = [recipients[int(number) - 1] for number in refused]
    return [line for at, line in enumerate(message) if at not in gone]


def by_default(message, acted, on_loss):
    """The report of a message that is settled by default after these verdicts."""
    if on_loss in reports.REPLIES:
        lines, outcome = [], b'refused ' + reports.REPLIES[on_loss].encode()
    else:
        lines = kept(message, acted)
        outcome = b'released to %d' % sum(line.startswith(b'recipient ') for line in lines)
    return [b'%s; %s; default out of memory\n' % (b', '.join(acted), outcome)] + lines


def takes_memory(verdicts, message, lines):
    """Whether the last of these verdicts takes memory where no message follows: for the list of them, or for edits."""
    return len(verdicts) - 1 in GROWN_AFTER or lines != kept(message, verdicts)


def mail_server_by_default(given, out):
    """What a mail server's end may print in place of its output where one message is settled by default."""
    file, script = given.split(b'%%\n')
    messages = [text.splitlines(keepends=True) for text in file.split(b'message\n')[1:]]
    on_loss = script.splitlines()[0].split()[-1].decode()
    expected = reports_in(out)
    for at, (report, message) in enumerate(zip(expected, messages)):
        verdicts = report[0].split(b'; ')[0].split(b', ')
        counts = set(range(len(verdicts) + 1))
        if at == len(messages) - 1 and not takes_memory(verdicts, message, report[1:]):
            counts.remove(len(verdicts) - 1)
        for count in counts:
            other = by_default(message, verdicts[:count], on_loss)
            yield b''.join(line for lines in expected[:at] + [other] + expected[at + 1:] for line in lines)


def links_by_default(_, out):
    """What the links' program may print in place of its output where one message is settled by default, or where all
    are before the first dial."""
    _, *expected, _ = re.split('^(?=message |dials )', out.decode(), flags=re.MULTILINE)
    numbers = range(1, len(expected) + 1)
    yield (''.join(reports.by_default(number, 'memory') for number in numbers) + 'dials 0\n').encode()
    for number, text in zip(numbers, expected):
        acted = re.findall('acted .*\n', text)
        dials = 'dials %d\n' % (1 if number == len(expected) else 2)
        for count in range(len(acted) + 1):
            other = reports.by_default(number, 'memory', acted[:count])
            yield ''.join(expected[:number - 1] + [other] + expected[number:] + [dials]).encode()


def lost_by_default(_, out):
    """What `milter_tool mta` may print in place of its output where each message is settled by default: of all of them
    that it is out of memory."""
    yield re.sub(rb'^(message \d+ default) reset ', rb'\1 memory ', out, flags=re.MULTILINE)


# What the programs may print in place of their output where memory is refused: functions of the input and the output.
BY_DEFAULT = {'tool': lost_by_default, 'mail server': mail_server_by_default, 'links': links_by_default}


def first_difference(out, other):
    """The number of the first line in which two outputs differ."""
    pairs = itertools.zip_longest(out.splitlines(), other.splitlines())
    return next(number for number, (line, due) in enumerate(pairs, 1) if line != due)


def compared(command):
    """The reports that a run compares its own with, or None: also where there is no such file."""
    path = command[command.index('--expect') + 1] if '--expect' in command else ''
    path = os.path.join(programs.TOP, path)
    if not os.path.isfile(path):
        return None
    with open(path, 'rb') as file:
        return file.read()


def is_right_or_by_default(outputs_by_default, given, expected, due):
    """Whether a run ended as expected, perhaps without the lines that explain its fault, as one that is out of memory,
    or with one of these outputs, in which messages were settled by default; for a run's end. A run that compares its
    reports with these that are due prints them where they differ, and nothing else."""
    status, out, errors = expected
    rights = {(status, out, errors[:errors.find(b'\n') + 1])}
    for other in outputs_by_default(given, out if due is None else due):
        if due is None:
            rights.add((0, other, b''))
        elif other != due:
            rights.add((1, other, b'differs at line %d\n' % first_difference(other, due)))
    is_right = is_as_ever_or_out_of_memory(expected)
    return lambda end: is_right(end) or end in rights


def play_of(refuser, name, command, given, is_right, is_as_ever):
    """A play of this command with each allocation refused in turn: where one was refused the run has to end right, and
    in the last run, where none was, as ever."""

    def play():
        number, was_refused = 0, True
        while was_refused:
            number += 1
            end, was_refused = preloaded.refused(command, given, refuser, number)
            what = 'allocation %d refused' % number if was_refused else 'nothing refused'
            is_passed = (is_right if was_refused else is_as_ever)(end)
            yield None if is_passed else '%s, %s: %s' % (name, what, programs.described(end))

    return play


def plays_of_tests(refuser):
    """Each test that ends with `NoMemory` where memory is refused. A name that no test has shows first that the harness
    itself takes no memory, so that what is refused is what a test takes."""
    _, was_refused = preloaded.refused([programs.PACKET_TESTS, NO_TEST], b'', refuser, 1)
    if was_refused:
        sys.exit('the harness of the tests takes memory before a test runs: count from there')
    _, listed, _ = programs.ended([programs.PACKET_TESTS, '--list'])
    names = [line.removesuffix(': test') for line in listed.decode().splitlines() if line.endswith(': test')]
    for name in names:
        if name.startswith(REFUSED):
            command = [programs.PACKET_TESTS, name]
            yield play_of(refuser, name, command, b'', is_passed_or_out_of_memory, is_passed)


def runs_of(program, build, folder):
    """Each case of milter_tool, and each row of the tables of this program: its name, its command, its standard input
    and how it ends."""
    if program == 'tool':
        for case in cases.cases():
            if case.words is not None:
                yield case.name, cases.command_of(case, build), case.given, case.expected
    for table in TABLES:
        if tables.program_of(table) == program:
            for row in tables.rows_of(table):
                command, _, given, expected = tables.prepared(row, None, build, folder)
                yield tables.row_name(row), command, given, expected


def plays_of_program(program, build, folder, refuser):
    """Each run of this build of a program."""
    for name, command, given, expected in runs_of(program, build, folder):
        is_right = is_as_ever_or_out_of_memory(expected)
        if program in BY_DEFAULT:
            is_right = is_right_or_by_default(BY_DEFAULT[program], given, expected, compared(command))
        yield play_of(refuser, name + build, command, given, is_right, expected.__eq__)


def results_of(name, plays):
    """The answers of each of these plays, and after them a failure where no run came to a refused allocation."""
    was_refused = False
    for answers in runner.results(plays):
        was_refused |= len(answers) > 1
        yield answers
    if not was_refused:
        yield ['%s: no allocation was refused' % name]


def results(folder):
    """The answers of all plays, first of those of the tests, and then of those of one program after another."""
    refuser = preloaded.compiled('refuse.c', folder)
    yield from results_of('the tests', plays_of_tests(refuser))
    for program in PROGRAMS:
        for build in programs.BUILDS:
            yield from results_of(program + build, plays_of_program(program, build, folder, refuser))


if __name__ == '__main__':
    programs.need(*PROGRAMS)
    programs.need_files([programs.PACKET_TESTS])
    with tempfile.TemporaryDirectory() as work:
        sys.exit(runner.report(results(work)))
