#!/usr/bin/env python3
"""Plays sessions over links in memory, by the program of the tables `links_*` as both compilers built it: links of
which the first read fails, then the second one, and so on until none fails; the same for writes, and the first dials
fail, none of them up to all. A read or a write moves a whole packet, or one byte. It fails in each way that a script
has; an interrupted one 100 times in a row, and then is made, or 101 times, by which the connection is lost.

What is reported is worked out from the packets. A read or a write has bytes of one packet, so the number of the call
that fails gives the command at which the filter is lost. The message has the verdicts on the commands before it, and
the messages after it are played over a new link. With the last packet, by which the mail server quits, nothing is lost.

And the filter of a session in memory is asked about a command once the last byte of its packet has come, no sooner.
"""
import functools
import sys

from lib import programs, reports, runner

CLIENT = 'client U "h.example"\nhelo "mail"\n'
PATHS = 'sender "a@x"\nrecipient "b@y"\n'
MESSAGE = 'message\n' + PATHS + 'end\n'
RELEASED = PATHS + 'body ""\nend\n'
# The stages of the commands, and how many bytes their packets have; an offer and the reply to it have 17, and quit and
# each verdict 5.
OPENING = [('connect', 16), ('helo', 10)]
OF_MESSAGE = [('mail', 9), ('rcpt', 9), ('data', 5), ('eoh', 5), ('eob', 5)]
OFFER, QUIT, VERDICT = 17, 5, 5
# The most bytes that a call moves.
PIECES = [1 << 16, 1]
# How calls fail, and the loss that comes of it; none where they are made again.
FAILURES = [
    ('1 timed-out', 'timeout'), ('1 would-block', 'timeout'), ('1 reset', 'reset'), ('1 nothing', 'reset'),
    ('101 interrupted', 'reset'), ('100 interrupted', None)]
DIALS_MAX = 3


def acted(stages):
    """The lines of verdicts by which each of these stages went on."""
    return [reports.acted(stage) for stage in stages]


def released(number):
    """The report of a message that the filter lets go on to its end."""
    lines = acted(stage for stage, _ in OPENING + OF_MESSAGE)
    return 'message %d filter released\n' % number + ''.join(lines) + RELEASED


def reported(messages, lost, text):
    """What is reported of so many messages, of which the one with this number has this report."""
    return ''.join(text if number == lost else released(number) for number in range(1, messages + 1))


def lost_at(messages, at, loss):
    """What is printed where the filter is lost at the packet of this place, from 0 on, before its reply is there."""
    stages = [stage for stage, _ in OPENING + OF_MESSAGE * messages]
    if loss is None or at > len(stages):
        return reported(messages, None, None) + 'dials 1\n'
    before = stages[:max(at - 1, 0)]
    number = before.count('eob') + 1
    of_message = before[len(OPENING) + len(OF_MESSAGE) * (number - 1):]
    lost = reports.by_default(number, loss, acted(before[:len(OPENING)] + of_message))
    return reported(messages, number, lost) + 'dials %d\n' % (1 if number == messages else 2)


def places(lengths, piece):
    """Of each call that moves bytes of packets of these lengths, and of one more, the place of its packet."""
    calls = [at for at, length in enumerate(lengths) for _ in range(-(-length // piece))]
    return calls + [len(lengths) + 1]


def failed_calls(messages):
    """Scripts in which one read or write fails after the other, and what is printed of each."""
    commands = OPENING + OF_MESSAGE * messages
    sent = [OFFER] + [length for _, length in commands] + [QUIT]
    replied = [OFFER] + [VERDICT] * len(commands)
    for call, lengths in (('write', sent), ('read', replied)):
        for piece in PIECES:
            for number, at in enumerate(places(lengths, piece), 1):
                for how, loss in FAILURES:
                    words = 'pieces %d %d\n%s %d %s\n' % (piece, piece, call, number, how)
                    yield words, lost_at(messages, at, loss)


def failed_dials(messages):
    """Scripts in which the first dials fail, from none of them to all, and what is printed of each."""
    for count in range(messages + 1):
        texts = [reports.by_default(number, 'reset') for number in range(1, count + 1)]
        texts += [released(number) for number in range(count + 1, messages + 1)]
        yield 'dial 1 %d\n' % count, ''.join(texts) + 'dials %d\n' % min(count + 1, messages)


def play_of(build, given, words, printed):
    """A play of this input, which ends with these words, on a build of the program."""

    def play():
        end = programs.ended(programs.command_of('links', build), given.encode())
        yield programs.compared('links%s, %r' % (build, words), end, (0, printed.encode(), b''))

    return play


def questions():
    """Events by which a session of a message passes packet by packet, the last byte of each packet apart; and how often
    the filter was asked up to each."""
    counted = [('dial', 0), ('send %d' % OFFER, 0), ('to-filter %d' % OFFER, 0)]
    counted += [('answer %d' % OFFER, 0), ('to-mta %d' % OFFER, 0)]
    for number, (_, length) in enumerate(OPENING + OF_MESSAGE):
        counted += [('send %d' % length, number), ('to-filter %d' % (length - 1), number)]
        counted += [(event % size, number + 1) for event, size in (
            ('to-filter %d', 1), ('answer %d', VERDICT), ('to-mta %d', VERDICT))]
    return counted


def asked(build):
    """A play of these events on a build of the program."""
    events, counts = zip(*questions())
    end = programs.ended([*programs.command_of('world', build), 'asked', *events], (CLIENT + MESSAGE).encode())
    yield programs.compared('asked%s' % build, end, (0, ''.join('%d\n' % it for it in counts).encode(), b''))


def plays():
    """All that is run."""
    scripts = [(messages, script) for messages in (1, 2) for script in failed_calls(messages)]
    scripts += [(messages, script) for messages in range(1, DIALS_MAX + 1) for script in failed_dials(messages)]
    for build in programs.BUILDS:
        yield functools.partial(asked, build)
        for messages, (words, printed) in scripts:
            yield play_of(build, CLIENT + MESSAGE * messages + '%%\n' + words, words, printed)


if __name__ == '__main__':
    programs.need('links')
    sys.exit(runner.run_all(plays()))
