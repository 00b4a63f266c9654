#!/usr/bin/env python3
"""Runs the programs, as both compilers built them, with reads and writes of a few bytes and with each failing in turn:
the rows of the tables cases/tables/*_failed_calls.table, and the printing of help and of the version; and the rows of
trace_streams.table and trace_lines.table with a byte a read. Where a mail server is answered, the input is also cut
after each of its bytes, and read in any two pieces. lib/fail_call.c has the calls fail.

A run in which a read fails has printed what the lines print that had ended, or the replies to the packets that were
whole; in which a write fails what the writes before took. Both end with status 1 and their fault alone on standard
error. A reply to a mail server is written before the next read is made, and no read is made after the last packet: the
order of the calls is compared.
"""
import errno
import re
import sys
import tempfile

from lib import cases, preloaded, programs, runner, tables

CUT_TABLES = ['trace_streams', 'trace_lines']
# A file is read by a call that repeats a read that is interrupted.
READ_ERRORS = {
    'trace': [errno.EIO, errno.EINTR], 'answer': [errno.EIO, errno.EINTR], 'session': [errno.EIO],
    'rules': [errno.EIO], 'play': [errno.EIO]}
# An error of 0 is a write that takes nothing.
WRITE_ERRORS = [0, errno.EIO, errno.EINTR, errno.ENOSPC, errno.EPIPE]
# The cases that print help and the version, by calls that repeat a write that is interrupted.
HELP_CASES = ['help/of_program', 'help/version']
HELP_ERRORS = [0, errno.ENOSPC, errno.EPIPE]
READ_FAULTS = {
    'trace': b'read fault\n', 'answer': b'read fault\n', 'session': b'cannot read session\n',
    'rules': b'cannot read rules\n', 'play': b'cannot read session\n'}
WRITE_FAULTS = {
    'trace': b'write fault\n', 'session': b'write fault\n', 'rules': b'write fault\n', 'answer': b'write fault\n',
    'edits': b'Error: write fault\n', 'play': b'write fault\n'}
ANY = 1 << 30
EACH = re.compile(r'(\d+) (reads|writes) of (\d+)')
ONE = re.compile(r'read (\d+) of (\d+)')
EACH_END = b'each end'
EACH_FIRST_READ = b'each first read'


def named(read_piece=ANY, failed_read=0, write_piece=ANY, failed_write=0, error=0, first_read=None, logs_calls=False):
    """The variables of fail_call.c."""
    return {
        'READ_PIECE': read_piece, 'FAILED_READ': failed_read, 'WRITE_PIECE': write_piece, 'FAILED_WRITE': failed_write,
        'FAILED_ERROR': error, 'FIRST_READ': read_piece if first_read is None else first_read,
        'LOG_CALLS': int(logs_calls)}


class Row:
    """A row of a table, played by one build of its program with the object preloaded that has its calls fail."""

    def __init__(self, row, build, folder, failer):
        self.kind, self.lines, self.failer = tables.kind_of(row.table), row.lines, failer
        self.name = tables.row_name(row) + build
        self.command, _, self.given, self.expected = tables.prepared(row, None, build, folder)

    def play(self, what, variables, is_right, fails):
        """A play of the row, in which a call fails or none does."""
        report = b'f' if fails else b''
        return play_of(self.failer, self.name + ', ' + what, self.command, self.given, variables, is_right, report)

    def outputs(self):
        """Each output of the row with the bytes of the input, from its beginning, that it is for."""
        given = 0
        for line in self.lines:
            part, (_, out, _) = tables.streams_of(self.kind, [line], None)
            given += len(part)
            if out:
                yield given, out

    def printed_of(self, count):
        """What is printed of so many bytes of the input: of a trace what the lines print that end within them, and
        the replies to the packets that do."""
        return b''.join(
            out for given, out in self.outputs()
            if given <= count and (self.kind == 'answer' or self.given[:given].endswith(b'\n')))

    def with_failed_reads(self, count, piece):
        """Each of so many reads fails in turn, and then none."""
        for number in range(1, count + 1):
            printed = b'' if self.kind in ('session', 'rules', 'play') else self.printed_of((number - 1) * piece)
            ended = 1, printed, READ_FAULTS[self.kind]
            for error in READ_ERRORS[self.kind]:
                what = 'read %d of %d bytes fails by %d' % (number, piece, error)
                yield self.play(what, named(read_piece=piece, failed_read=number, error=error), ended.__eq__, True)
        what = '%d reads of %d bytes' % (count, piece)
        yield self.play(what, named(read_piece=piece, failed_read=count + 1), self.expected.__eq__, False)
        if self.kind == 'answer':
            ends = list(range(piece, len(self.given), piece)) + [len(self.given)]
            yield self.logged(what, named(read_piece=piece, logs_calls=True), len(self.given), ends, self.expected)

    def with_failed_writes(self, count, piece):
        """Each of so many writes fails in turn, and then none. A trace is read byte by byte, so that each of its lines
        is written by itself."""
        read_piece = 1 if self.kind == 'trace' else ANY
        for number in range(1, count + 1):
            is_right = is_cut(self.expected[1], piece, number - 1, WRITE_FAULTS[self.kind])
            if self.kind == 'answer':
                is_right = (1, self.written_by(number - 1, piece), WRITE_FAULTS[self.kind]).__eq__
            for error in WRITE_ERRORS:
                what = 'write %d of %d bytes fails by %d' % (number, piece, error)
                yield self.play(what, named(read_piece, 0, piece, number, error), is_right, True)
        what = '%d writes of %d bytes' % (count, piece)
        yield self.play(what, named(read_piece, 0, piece, count + 1), self.expected.__eq__, False)

    def written_by(self, count, piece):
        """What so many writes take, of at most so many bytes each; no write has bytes of two outputs."""
        writes = [out[at:at + piece] for _, out in self.outputs() for at in range(0, len(out), piece)]
        return b''.join(writes[:count])

    def logged(self, what, variables, count, ends, expected):
        """A play of so many bytes of the input, where the reads end at these: each output is written before the next
        read, and where the last packet is not the end, a last read answers that the input has ended."""
        log, start = b'', 0
        for end in ends:
            log += b'r' + b'w' * sum(start < given <= end for given, _ in self.outputs())
            start = end
        is_ended = count == len(self.given) and (self.expected[2] or self.lines[-1] == (b'>', b'Q'))
        log += b'' if is_ended else b'r'
        return play_of(
            self.failer, self.name + ', ' + what, self.command, self.given[:count], variables, expected.__eq__, log)

    def with_each_end(self):
        """The input is cut after each number of its bytes."""
        packets = [len(tables.packet_of(text, None)) for mark, text in self.lines if mark == b'>']
        packet_ends = [sum(packets[:number]) for number in range(len(packets) + 1)]
        for count in range(len(self.given) + 1):
            unread = count - max(end for end in packet_ends if end <= count)
            fault = b'input truncated %d bytes\n' % unread if unread else b''
            expected = 1 if unread else 0, self.printed_of(count), fault
            ends = [count] if count else []
            yield self.logged('%d bytes' % count, named(logs_calls=True), count, ends, expected)

    def with_each_first_read(self):
        """The input comes in two pieces, of which the first has each number of its bytes."""
        for count in range(1, len(self.given)):
            variables = named(first_read=count, logs_calls=True)
            ends = [count, len(self.given)]
            yield self.logged('first %d bytes' % count, variables, len(self.given), ends, self.expected)

    def plays(self):
        """What the marks of the row ask for."""
        for mark, text in self.lines:
            each, one = EACH.fullmatch(text.decode()), ONE.fullmatch(text.decode())
            if mark == b'%' and each:
                count, piece = int(each[1]), int(each[3])
                yield from (self.with_failed_reads if each[2] == 'reads' else self.with_failed_writes)(count, piece)
            elif mark == b'%' and one:
                variables = named(read_piece=int(one[2]), failed_read=int(one[1]), error=errno.EIO)
                yield self.play(text.decode(), variables, self.expected.__eq__, 'read fault' in repr(self.expected[2]))
            elif mark == b'%' and text == EACH_END:
                yield from self.with_each_end()
            elif mark == b'%' and text == EACH_FIRST_READ:
                yield from self.with_each_first_read()
            elif mark == b'%':
                sys.exit('%s: not known: %s' % (self.name, text.decode()))


def play_of(failer, name, command, given, variables, is_right, report):
    """A play of this command, with this object preloaded. It fails where the run did not end right, or where the object
    had another report: `f` where a call failed, and the log of the calls."""

    def play():
        end, reported = preloaded.ended(command, given, failer, variables)
        is_passed = is_right(end) and reported == report
        yield None if is_passed else '%s: %s, reported %r' % (name, programs.described(end), reported[-200:])

    return play


def is_cut(text, piece, writes, fault):
    """Whether so many writes of at most so many bytes came before a write that failed; for a run's end."""

    def is_right(end):
        status, out, err = end
        is_prefix = out != text and text.startswith(out) and len(out) <= piece * writes
        return (status, err) == (1, fault) and is_prefix and (piece > 1 or len(out) == writes)

    return is_right


def plays_of_help(build, failer):
    """Help and the version, where a write of at most four bytes fails."""
    for case in cases.cases():
        if case.name in HELP_CASES:
            _, text, _ = case.expected
            for number in range(1, 4):
                for error in HELP_ERRORS:
                    name = '%s%s, write %d fails by %d' % (case.name, build, number, error)
                    variables = named(write_piece=4, failed_write=number, error=error)
                    is_right = is_cut(text, 4, number - 1, b'write fault\n')
                    yield play_of(failer, name, cases.command_of(case, build), b'', variables, is_right, b'f')


def plays(folder):
    """All that is run."""
    failer = preloaded.compiled('fail_call.c', folder)
    for build in programs.BUILDS:
        yield from plays_of_help(build, failer)
        for table in CUT_TABLES:
            for row in tables.rows_of(table):
                if row.codes == [None]:
                    cut = Row(row, build, folder, failer)
                    yield cut.play('a byte a read', named(read_piece=1), cut.expected.__eq__, False)
        for table in tables.names('_failed_calls'):
            for row in tables.rows_of(table):
                yield from Row(row, build, folder, failer).plays()


if __name__ == '__main__':
    programs.need('tool', 'edits')
    with tempfile.TemporaryDirectory() as work:
        sys.exit(runner.run_all(plays(work)))
