#!/usr/bin/env python3
"""Serves mail servers by `milter_tool serve`, as both compilers built it, with one allocation refused: the first one,
then the second one, and so on, until a run makes fewer allocations than that. Three connections come one after another,
by rules and with a log. lib/refuse.c says what counts as an allocation.

A run ends before it listens or later, with `out of memory` alone on standard error but for lines of the log, and status
1; or it goes on, and gives up at most one connection, with the line `failed 7`, or has one line `out of memory` on
standard error, where the young file of rules is read again for a connection. What was replied is right as far as it
goes, and whole on each connection that was not given up.

Counted are the runs.
"""
import os
import re
import sys
import tempfile

from lib import checks, preloaded, programs, serving
from lib.checks import expect
from lib.conversations import QUIT, message, opening, rules_of_keys

CONNECTIONS = 3
# What is searched for at each header field and at each chunk of a body, for which memory is allocated.
SEARCHES = '''\
at header when header "Subject" is "of nothing" do reject
at header when header "X-Spam" has "yes" and header "Subject" has "nothing" do reject
at body when body has "nothing" and header "Subject" lacks "of" do reject
'''
LOGGED = (rb'(connection="\d+" host="h\d+\.example" address="192\.0\.2\.1" id="\d+" '
          rb'stage="(rcpt|eob)"( line="[0-9]+")? verdict="code" text="[^"\n]*"\n)*')


def conversation_of(key):
    """What a connection sends, and all replies to it."""
    parts = opening(key) + message(key) + message(key) + [(QUIT, b'')]
    return b''.join(given for given, _ in parts), b''.join(reply for _, reply in parts)


def replies_to(served, given):
    """The replies to these bytes on a new connection, as far as they come; none where the run is over."""
    found = b''
    try:
        with serving.connected(served.at, lambda: served.process.poll() is not None) as connection:
            connection.sendall(given)
            while piece := connection.recv(1 << 16):
                found += piece
    except (checks.Wrong, ConnectionError):
        pass
    return found


def is_over(served):
    """Waits until each connection has its line or that is lost, and answers whether the run is over instead. A line that
    is lost is counted before the next one, which is that of one more connection."""
    def is_known():
        return served.process.poll() is not None or len(served.lines()) + served.lost() >= CONNECTIONS

    if not serving.waited_for(is_known):
        replies_to(served, QUIT)
        serving.waited_for(is_known)
    return served.process.poll() is not None


def expect_lines(served, conversations, found):
    """A run that goes on has a line for each connection: at most one was given up or has none, and the others have all
    replies."""
    lines = dict(served.lines())
    endings = [lines.get(b'%d' % (at + 1)) for at in range(len(conversations))]
    whole = [b'quit' if found[at] == replies else b'failed 7' for at, (_, replies) in enumerate(conversations)]
    expect('endings', [one for one, two in zip(endings, whole) if one not in (two, b'failed 7', None)], [])
    expect('how many are lost', endings.count(None), served.lost())
    expect('how many are given up', endings.count(b'failed 7') + served.lost() <= 1, True)


def run(program, kind, folder, words, **started):
    """A run with three connections, which ends or goes on as the head of this file says."""
    conversations = [conversation_of(key) for key in range(CONNECTIONS)]
    with serving.Service(program, kind, folder, words, **started) as served:
        found = [replies_to(served, given) for given, _ in conversations]
        for at, (_, replies) in enumerate(conversations):
            expect('replies of %d' % (at + 1), replies.startswith(found[at]), True)
        over = is_over(served)
        if over:
            served.process.wait(serving.SECONDS)
            expect('status', served.process.returncode, 1)
        else:
            expect_lines(served, conversations, found)
            served.process.kill()
        errors = serving.faults_in(served.process.stderr.read())
        expected = LOGGED + b'out of memory\n' if over else LOGGED + b'(out of memory\n)?' + LOGGED
        expect('errors', errors, errors if re.fullmatch(expected, errors) else expected)


def refused(program, kind, folder):
    """Runs with each allocation refused in turn."""
    refuser = preloaded.compiled('refuse.c', folder)
    words = rules_of_keys(folder, CONNECTIONS) + ['--log']
    with open(words[1], 'a') as rules:
        rules.write(SEARCHES)

    def with_refused(number):
        return preloaded.is_refused(
            refuser, number, lambda **started: run(program, kind, folder, words, **started))[1]

    yield from checks.with_each_refused(with_refused)


def groups(folder):
    """The groups of checks, each with the program and the kind of sockets that it is run with."""
    for build in programs.BUILDS:
        program = programs.tool(build)
        for kind in serving.KINDS:
            name = '%s at %s' % (os.path.basename(program), kind)
            yield name, refused, (program, kind, tempfile.mkdtemp(dir=folder))


if __name__ == '__main__':
    programs.need('tool')
    with tempfile.TemporaryDirectory() as work:
        sys.exit(checks.run_all(groups(work)))
