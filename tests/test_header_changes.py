#!/usr/bin/env python3
"""Plays messages with few names and many header fields to `milter_tool answer`, as both compilers built it, by rules
that change header fields, and compares the replies with those of a model (lib/header_changes.py). Rules, names, values
and texts are chosen by chance, some so long that a value is cut, or so many that the edits are.

Counted are the runs.
"""
import os
import random
import sys
import tempfile

from lib import header_changes, programs, runner
from lib.header_changes import Action
from lib.packets import packet_of

FILES, SEED = 400, 20
NAMES = [b'X', b'x', b'Y', b'Subject', b'SUBJECT', b'subject', b'X-Spam-Flag']
SHORT = [b'', b'1', b'Lunch', b' Lunch', b'a lunch']
LONG = [b'z' * 65_000, b'y' * 65_522]
TEXTS = [b'', b'p', b'[SPAM] ', b'q' * 600]
CHANGES, WORDS = ['del-header', 'prefix-header', 'prefix-header', 'change-header', 'add-header'], ['insert-header']
OFFER = packet_of(b'O' + b''.join(number.to_bytes(4, 'big') for number in (6, 0x1ff, 0x1fffff)))
# The options of the reply, whose length is the same whatever is negotiated.
OPTIONS = 17


def action(chance):
    """An action."""
    word = chance.choice(CHANGES if chance.random() < 0.9 else WORDS + sorted(header_changes.VERDICTS))
    if word in header_changes.VERDICTS:
        return Action(word, None, ())
    name, number = chance.choice(NAMES), {'change-header': chance.choice([0, 1, 1, 1, 2]), 'insert-header': 0}.get(word)
    second = {'del-header': (), 'prefix-header': (chance.choice(TEXTS),)}.get(word, (chance.choice(SHORT),))
    return Action(word, number, (name, *second))


def rules(chance):
    """The actions of a rule file: a few, and now and then many."""
    few = [action(chance) for _ in range(chance.randint(1, 8))]
    return few * chance.choice([1] * 15 + [300])


def fields(chance):
    """The header fields of a message."""
    values = SHORT if chance.random() < 0.5 else SHORT + LONG
    return [(chance.choice(NAMES), chance.choice(values)) for _ in range(chance.randrange(8))]


def play_of(build, number, folder):
    """A play of two messages by one rule file, on this build of the program."""

    def play():
        chance = random.Random(SEED * FILES + number)
        actions, messages = rules(chance), [fields(chance), fields(chance)]
        given = OFFER + b''.join(
            b''.join(packet_of(b'L%s\0%s\0' % field) for field in seen) + packet_of(b'E') for seen in messages)
        expected = b''.join(
            len(seen) * packet_of(b'c') + header_changes.answer(actions, seen) for seen in messages)
        path = os.path.join(folder, '%d%s' % (number, build))
        lines = ['rules 2', *map(header_changes.line_of, actions)]
        programs.written(path, ''.join(line + '\n' for line in lines))
        status, replies, errors = programs.ended([programs.tool(build), 'answer', '--rules', path], given)
        yield programs.compared('file %d%s' % (number, build), (status, replies[OPTIONS:], errors), (0, expected, b''))

    return play


if __name__ == '__main__':
    programs.need('tool')
    with tempfile.TemporaryDirectory() as work:
        sys.exit(runner.run_all(play_of(build, number, work) for build in programs.BUILDS for number in range(FILES)))
