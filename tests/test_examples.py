#!/usr/bin/env python3
"""Runs the scripts of examples/ that make traces and session files, and what README.md begins with: its rules, its
session, and what it says that is printed.

`milter_tool record` records sessions that `milter_tool mta` plays to `milter_tool filter`, over TCP and over Unix
sockets: out of these trace_to_session.py has to make the canonical form of what was played. Of the captures cases/captures/*/stdin it has to make the session that
lib/captures.py works out of them. What else it makes of traces, and what eml_to_session.py makes of mails, is written
in lib/sessions.py by hand. Each session has to be printed unchanged by `milter_tool session`.

Counted are the runs.
"""
import os
import re
import sys
import tempfile

from lib import captures, checks, first_rules, programs, recording, serving, sessions
from lib.checks import checked, expect

TOOL = programs.tool(programs.BUILDS[0])
FOLDER = os.path.join(programs.TOP, 'examples')


def script(name, *words):
    """The command that runs a script of examples/."""
    return [sys.executable, os.path.join(FOLDER, name), *words]


def ended(command, given=b''):
    """How a run ended, within its time: its status, and what it printed."""
    status, out, err = programs.ended(command, given, timeout=serving.SECONDS)
    return status, out.decode(), err.decode()


def expect_canonical(session):
    """Compares a session file with what the program prints of it."""
    status, out, err = ended([TOOL, 'session', '/dev/stdin'], session.encode())
    expect('the session that is printed', (status, err, out == session), (0, '', True))


def expect_session(command, given, session, said=''):
    """Runs a script, and compares the session that it makes and what it says besides."""
    expect('the run', ended(command, given), (0, session, said))
    expect_canonical(session)


def mails():
    """The mails."""
    for name, words, mail, session in sessions.MAILS:
        command = script('eml_to_session.py', *words, '/dev/stdin')
        whole = session if session.startswith('client') else sessions.CLIENT + session
        yield checked(name, expect_session, command, mail, whole)
    for name, words, mail, said in sessions.NO_SESSIONS:
        command = script('eml_to_session.py', *words, '/dev/stdin')
        yield checked(name, lambda: expect('the run', ended(command, mail), (1, '', said)))


def traces():
    """The traces that are written here, and that of examples/."""
    command = script('trace_to_session.py', '/dev/stdin')
    for name, lines, session, said in sessions.TRACES:
        yield checked(name, expect_session, command, sessions.traced(lines), session, said)
    for lines, said in sessions.FAULTS:
        yield checked(said, lambda: expect('the run', ended(command, sessions.traced(lines)), (1, '', said + '\n')))
    yield checked('conversation.trace', expect_session, script(
        'trace_to_session.py', os.path.join(FOLDER, 'conversation.trace')), b'', sessions.CLIENT,
                  'line 13: the message of line 10 has no recipient, and is left out\n')


def captured():
    """The captures, each of which has the session that lib/captures.py makes of its first client."""

    def run(path):
        status, out, _ = ended(script('trace_to_session.py', path))
        expect('the session', (status, out.splitlines()), (0, captures.conversations(path)[0].session))
        expect_canonical(out)

    for path in captures.paths():
        yield checked(os.path.basename(os.path.dirname(path)), run, path)


def played(kind, folder):
    """Sessions that are played to `milter_tool filter`, recorded, and made of the trace again."""
    with open(os.path.join(FOLDER, 'two_messages.session'), encoding='utf-8') as file:
        two_messages = file.read()
    canonical = programs.ended([TOOL, 'session', '/dev/stdin'], two_messages.encode())[1].decode()
    blanks = re.sub(r'(?m)^(header "[^"]*" ")', r'\1 ', canonical)
    great = sessions.OPENED + sessions.SENT.replace('body ""', 'header "A" " b"\nbody "%s"' % ('x' * 150000))

    def trace_by(rules, session):
        """The trace of a session that is played to a filter with these rules."""
        directory = tempfile.mkdtemp(dir=folder)
        path = os.path.join(directory, 'rules')
        with open(path, 'w', encoding='ascii') as file:
            file.write(rules)
        with serving.Filter(TOOL, kind, folder, ['--rules', path]) as served, \
                recording.Recorder(TOOL, kind, folder, served.address, directory, '--count', '1') as recorder:
            serving.listening(served)
            serving.listening(recorder)
            status, _, err = ended([TOOL, 'mta', recorder.address, '/dev/stdin'], session.encode())
            expect('the end of mta', (status, err), (0, ''))
            served.expect_line(b'quit')
            expect('the end of the recorder', recorder.end(), (0, '', ''))
        with open(os.path.join(directory, '1.trace'), encoding='ascii') as file:
            return file.read()

    def run(rules, session, expected):
        trace = trace_by(rules, session)
        expect_session(script('trace_to_session.py', '/dev/stdin'), trace.encode(), expected)
        sent = [''.join(re.findall('(?m)^> (.*)$', text)) for text in (trace, trace_by(rules, expected))]
        expect('whether the same is sent again', sent[0] == sent[1], True)

    leading = 'protocol HDR_LEADSPC\n'
    yield checked('two messages, with leading spaces', run, leading, two_messages, canonical)
    yield checked('two messages, without leading spaces', run, '', two_messages, blanks)
    yield checked('a body in chunks', run, '', great, great)
    yield checked('what is not sent', run, leading + 'symbols eom "i"\n', canonical, canonical)


def readme(kind, folder):
    """The rules and the session of README.md, by `serve` and `mta`, print what stands there."""
    rules, session, printed = (''.join(line + '\n' for line in lines) for lines in first_rules.of_readme())
    expected = programs.written(os.path.join(folder, 'expected'), printed)
    options = ['--rules', programs.written(os.path.join(folder, 'mail.rules'), rules)]

    def run():
        with serving.Service(TOOL, kind, folder, options, all_stages=False) as served:
            serving.listening(served)
            command = [TOOL, 'mta', served.address, '/dev/stdin', '--wait', '10', '--expect', expected]
            expect('the test', ended(command, session.encode()), (0, '', ''))

    yield checked('the rules and the session', run)


def groups(folder):
    """Groups of checks: of each its name, its function, and what that is called with."""
    for group in mails, traces, captured:
        yield group.__name__, group, ()
    for kind in serving.KINDS:
        for group in played, readme:
            yield '%s at %s' % (group.__name__, kind), group, (kind, tempfile.mkdtemp(dir=folder))


if __name__ == '__main__':
    programs.need_files([TOOL])
    with tempfile.TemporaryDirectory() as work:
        sys.exit(checks.run_all(groups(work)))
