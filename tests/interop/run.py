#!/usr/bin/env python3
"""The checks of tests/interop.sh, which says what they are.

    python3 tests/interop/run.py PROGRAM
"""
import concurrent.futures
import functools
import os
import subprocess
import sys
import tempfile

import cookbook
import cookbook_settings
import cookbook_statements
import edit_rules
import first_rules
import greylist
import library
import listed
import many
import mta
import peers
import postfix
import probed
import proxied
import replayed
import sendmail

AT_ONCE = 8
SCRIPTS = ['stages', 'edits', 'protocol', 'messages']


def text_of(name):
    """The text of a file of this folder."""
    with open(os.path.join(peers.HERE, name)) as file:
        return file.read()


def run(*command):
    """What a command printed, and its status."""
    done = subprocess.run(command, stdout=subprocess.PIPE, stderr=subprocess.STDOUT, timeout=peers.SECONDS)
    return done.stdout.decode(errors='replace'), done.returncode


def miltertest(name, address, *words):
    """Plays a script of miltertest on a filter."""
    script = os.path.join(peers.HERE, name + '.lua')
    return run('miltertest', '-s', script, '-D', 'address=' + address, *words)


def play(checks, program, name, address, client):
    """Plays a client on the filter with the rules of this name, and compares the filter's lines."""
    lines = text_of(name + '.lines')
    with peers.Filter(program, address, peers.rules_of(name), len(lines.splitlines())) as served:
        output, status = client()
        checks.check('%s at %s' % (name, address), (output, status), ('', 0))
        if status == 0:
            checks.check('%s at %s: the lines of the filter' % (name, address), served.finished(), (lines, 0))


def play_at_once(checks, program, address):
    """Plays several runs of the script of messages at once on a service, beside a connection that says nothing."""
    # The script sends each stage, and waits for its reply.
    served_by = peers.Service(program, address, peers.rules_of('messages'), options=['--all-stages'])
    with served_by as served, peers.connected(address):
        with concurrent.futures.ThreadPoolExecutor(AT_ONCE) as running:
            ends = list(running.map(lambda _: miltertest('messages', address), range(AT_ONCE)))
        checks.check('messages at once at ' + address, ends, AT_ONCE * [('', 0)])
        lines = sorted(line.split(' ', 2)[2] for line in served.ended(AT_ONCE).splitlines())
        checks.check('messages at once at %s: the lines' % address, lines, AT_ONCE * ['quit'])


def record(checks, program, name, address, recorder):
    """Plays one message with each edit past a recorder, and compares the packets of its end."""
    with peers.Filter(program, address, peers.rules_of('edits'), 1) as served:
        recording = peers.Recording(program, recorder, address)
        checks.check(name, miltertest('edits', recorder, '-D', 'recorded'), ('', 0))
        checks.check(name + ': the lines of the filter', served.finished(), ('connection 1 quit\n', 0))
        replies = [line for line in recording.lines(program) if line.startswith('<')]
    expected = text_of('edits.trace').splitlines()
    checks.check(name + ': packets', replies[-len(expected):], expected)


def main():
    program = os.path.abspath(sys.argv[1])
    os.chdir(peers.TOP)
    checks = peers.Checks()
    with tempfile.TemporaryDirectory() as work:
        for address, recorder in peers.addresses(work):
            for name in SCRIPTS:
                checks.part('%s at %s' % (name, address), play, program, name, address,
                            lambda: miltertest(name, address))
            clients = os.path.join(peers.HERE, 'clients.py')
            checks.part('clients at ' + address, play, program, 'clients', address,
                        lambda: run(sys.executable, clients, address))
            name = 'edits recorded at ' + address
            checks.part(name, record, program, name, address, recorder)
        for address, _ in peers.addresses(work):
            checks.part('at once at ' + address, play_at_once, program, address)
    checks.part('mta', mta.play, program)
    checks.part('probe', probed.play, program)
    checks.part('Postfix', postfix.play, program)
    checks.part('Postfix, chrooted', postfix.play_chrooted, program)
    checks.part('Postfix, many at once', many.play, program, postfix.Postfix)
    checks.part('Postfix, greylist', greylist.play)
    checks.part('Postfix, replayed', replayed.play, program)
    checks.part('library', library.play)
    checks.part('edits in memory', edit_rules.play, program)
    checks.part('Postfix, edits', edit_rules.play, program, postfix.Postfix)
    checks.part('Postfix, lists', listed.play, program, postfix.Postfix)
    for part in (cookbook, cookbook_settings, cookbook_statements, first_rules):
        checks.part(part.__name__, part.play, program)
    missing = proxied.missing()
    if missing:
        print('haproxy: not run, ' + missing)
    else:
        proxied.play(checks, program)
    root = os.environ.get('SENDMAIL_ROOT', sendmail.UNPACKED)
    missing = sendmail.missing(root)
    if missing:
        print('sendmail: not run, ' + missing)
    else:
        sendmail_at = functools.partial(sendmail.Sendmail, root)
        checks.part('Sendmail, many at once', many.play, program, sendmail_at)
        checks.part('Sendmail, edits', edit_rules.play, program, sendmail_at)
        checks.part('Sendmail, lists', listed.play, program, sendmail_at)
    print('%d passed, %d failed' % (checks.passed, checks.failed))
    return 1 if checks.failed else 0


if __name__ == '__main__':
    sys.exit(main())
