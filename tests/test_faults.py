#!/usr/bin/env python3
"""Runs milter_tool, as both compilers built it, on wrong uses and files, and compares what it writes on standard error:
the fixed line alone where that is a pipe, and the line with the words that explain it with --explain, on a terminal,
which is a pseudo-terminal here, and of `serve`. The rows are in cases/faults.table. What is said of words that the
program doesn't take, the cases of cases/usage, is the same on a terminal. Of some rows each allocation is refused in
turn: the fixed line is there, alone or with its words, or that memory was refused.
"""
import os
import pty
import select
import shutil
import socket
import subprocess
import sys
import tempfile
import time

from lib import cases, checks, fault_rows, preloaded, programs
from lib.checks import checked, expect

# Whoever may read nothing that isn't for all.
NOBODY = 65534
# The rows of which each allocation is refused in turn: of an address, a session, events, a list of rules, and a trace.
REFUSED = [
    'an address as Postfix writes it', 'a recipient that is misspelt', 'an event that is misspelt',
    'a list with a bad entry', 'a packet of no known code in a trace that is sent again']
# What is said of a word that isn't UTF-8.
NOT_UTF8 = 'error: invalid UTF-8 was detected in one or more arguments'
NOT_UTF8_EXPLAINED = \
    'milter_tool: the words of a command line are due in UTF-8; a file of another name is reached by a link to it'
# For how many seconds a run may go on.
SECONDS = 60
# What a test writes to a pseudo-terminal behind what a process wrote: a byte that is in no line.
MARK = b'\0'


def port_of(row):
    """The socket that a row needs, and its port: one on which somebody listens, or one that is free."""
    if row.socket is None:
        return None, 0
    held = socket.create_server(('127.0.0.1', 0))
    port = held.getsockname()[1]
    if row.socket == 'free':
        held.close()
    return held, port


def prepare(row, folder):
    """Makes the files of a row in its folder, which all may read."""
    os.chmod(folder, 0o755)
    for name, lines in row.files.items():
        programs.written(os.path.join(folder, name), fault_rows.lines_of(lines))
    for command in row.setup:
        subprocess.run(['bash', '-c', command], cwd=folder, check=True)


def command_of(row, program, folder, port, words):
    """The command of a row, and the options of its process. Whoever is nobody runs a copy of the program."""
    options = {'cwd': folder}
    if row.user and os.geteuid() == 0:
        copy = os.path.join(folder, 'program')
        shutil.copy(program, copy)
        os.chmod(copy, 0o755)
        program = copy
        options.update(user=NOBODY, group=NOBODY, extra_groups=[])
    return [program] + [word.replace('{port}', str(port)) for word in row.words] + words, options


def streams_of(row, folder):
    """The standard input and output of a row, opened; what is given comes by a pipe, once."""
    output = os.open(row.output or os.devnull, os.O_WRONLY)
    if not row.given:
        return os.open(os.path.join(folder, row.input) if row.input else os.devnull, os.O_RDONLY), output
    given, writer = os.pipe()
    os.write(writer, fault_rows.lines_of(row.given).encode())
    os.close(writer)
    return given, output


def read_all(process, terminal, errors):
    """All that a process writes to a pseudo-terminal. The end that it writes to stays open here until all is read: where
    the last writer closes it, the system may drop what wasn't read. Behind what the process wrote comes a mark."""
    read, is_marked, deadline = b'', False, time.monotonic() + SECONDS
    while not read.endswith(MARK):
        if not is_marked and process.poll() is not None:
            os.write(errors, MARK)
            is_marked = True
        if select.select([terminal], [], [], 0.01)[0]:
            read += os.read(terminal, 65536)
        if time.monotonic() > deadline:
            process.kill()
    return read[:-len(MARK)]


def ended(command, streams, on_terminal, options):
    """The status of a run, and what it wrote on standard error, which is a pipe or a pseudo-terminal."""
    given, output = streams
    if not on_terminal:
        done = subprocess.run(command, stdin=given, stdout=output, stderr=subprocess.PIPE, timeout=SECONDS,
                              check=False, **options)
        return done.returncode, done.stderr.decode()
    terminal, errors = pty.openpty()
    try:
        process = subprocess.Popen(command, stdin=given, stdout=output, stderr=errors, **options)
        said = read_all(process, terminal, errors)
    finally:
        os.close(errors)
        os.close(terminal)
    return process.returncode, said.decode().replace('\r\n', '\n')


def play(row, program, words, on_terminal, is_explained):
    """Runs a row in a folder of its own, and compares its end."""
    with tempfile.TemporaryDirectory() as folder:
        prepare(row, folder)
        held, port = port_of(row)
        command, options = command_of(row, program, folder, port, words)
        streams = streams_of(row, folder)
        try:
            found = ended(command, streams, on_terminal, options)
        finally:
            for stream in streams:
                os.close(stream)
            if held:
                held.close()
    lines = fault_rows.lines_of(row.fixed + (row.explained if is_explained else []))
    expect('end', found, (row.status, lines.replace('{port}', str(port))))


def plays(rows, program):
    """The rows in each way."""
    for row in rows:
        always = row.words[0] == 'serve'
        yield checked(row.name, play, row, program, [], False, always)
        yield checked(row.name + ', with --explain', play, row, program, ['--explain'], False, True)
        yield checked(row.name + ', on a terminal', play, row, program, [], True, True)


def usage(program):
    """The cases of words that the program doesn't take, on a terminal: what is said of them is the same there. A word
    that isn't UTF-8 is explained."""

    def said(words, status, errors, on_terminal=True):
        with open(os.devnull, 'rb') as given, open(os.devnull, 'wb') as output:
            found = ended([program] + words, (given.fileno(), output.fileno()), on_terminal, {'cwd': programs.TOP})
        expect('end', found, (status, errors))

    for case in cases.cases():
        if case.name.startswith('usage/') and case.words:
            status, _, errors = case.expected
            yield checked(case.name + ', on a terminal', said, case.words, status, errors.decode())
    for on_terminal, lines in [(True, [NOT_UTF8, NOT_UTF8_EXPLAINED]), (False, [NOT_UTF8])]:
        yield checked('not UTF-8', said, ['rules', b'\xff'], 2, fault_rows.lines_of(lines), on_terminal)


def refused(row, program, folder):
    """A row with --explain, of which each allocation is refused in turn: all lines are written, or the fixed ones
    alone, or that memory was refused."""
    prepare(row, folder)
    words = [os.path.join(folder, word) if word in row.files else word for word in row.words]
    command = [program] + words + ['--explain']
    whole, fixed = programs.ended(command, timeout=SECONDS), fault_rows.lines_of(row.fixed).encode()
    ends = [whole, (row.status, b'', fixed), (1, b'', b'out of memory\n')]
    refuser = preloaded.compiled('refuse.c', folder)

    def run(number):
        end, was_refused = preloaded.refused(command, b'', refuser, number)
        expect('end', end, end if end in ends else ends)
        return was_refused

    yield checked(row.name + ', without a refusal', expect, 'lines', len(whole[2].splitlines()) > len(row.fixed), True)
    yield from checks.with_each_refused(run)


def groups(folder):
    """The rows of each build, in parts that are played side by side."""
    rows, parts = fault_rows.rows(), 8
    for build in programs.BUILDS:
        yield 'milter_tool' + build, usage, (programs.tool(build),)
        for row in rows:
            if row.name in REFUSED:
                name = '%s%s, %s' % ('milter_tool', build, row.name)
                yield name, refused, (row, programs.tool(build), tempfile.mkdtemp(dir=folder))
        for part in range(parts):
            yield 'milter_tool' + build, plays, (rows[part::parts], programs.tool(build))


if __name__ == '__main__':
    programs.need('tool')
    with tempfile.TemporaryDirectory() as work:
        sys.exit(checks.run_all(list(groups(work))))
