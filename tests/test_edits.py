#!/usr/bin/env python3
"""Plays lists of edits of messages, all chosen by chance, to `apply`, by `milter_tests_driver edits texts` as both
compilers built it, and compares the messages after them with those of a model that makes one edit after the other
(lib/edit_model.py). Every third list has 200 to 700 edits, most of which `apply` makes by an index, the others up to 40.

Counted are the runs: a run has the lists of a seed. A list that differs is named by its seed and its number, from 0 on.
"""
import concurrent.futures
import functools
import random
import sys

from lib import edit_model, programs, runner

# How many seeds there are, and how many lists each has. Those of odd seeds are made with leading spaces.
SEEDS, LISTS = 20, 500
# More edits than this a list has on average.
EDITS = 100
# Eight letters, pairs of which are names too.
LETTERS = b'abcdefghijklmnop'
# Names of which some are the same but for ASCII case, and others look so; and those that no session file has.
NAMES = [b'Subject', b'subject', b'SUBJECT', b'Subjects', b'X-A', b'x-a', b'X-B', b'X-@', b'X-`', b'X-[', b'X-{']
OTHER_NAMES = [b'\xc9', b'\xe9', b'']
# Addresses, which are compared byte by byte.
ADDRESSES = [b'<a@x>', b'<A@x>', b'<b@y>', b'b@y', b'<>', b'']
# The codes of edits, as often as they are among twelve: of header fields, of recipients, and of the rest.
KINDS = [[b'h'], [b'h'], [b'i'], [b'i'], [b'i'], [b'm'], [b'm'], [b'm'], [b'm'], [b'+', b'2', b'-'], [b'+', b'2', b'-'],
         [b'e', b'b', b'q', b'p']]
MOST = 0xffffffff


def texts_by_chance(chance):
    """Texts of up to seven letters, of which some begin with a blank."""
    texts = [bytes(chance.choices(LETTERS, k=chance.randrange(8))) for _ in range(200)]
    return texts + [b' ' + text[1:] for text in texts[::2] if text]


def names_by_chance(chance):
    """Names: one of the few, or two letters, of which the first may be a capital."""
    pairs = [bytes(chance.choices(LETTERS, k=2)) for _ in range(200)]
    return pairs + [pair[:1].upper() + pair[1:] for pair in pairs]


class Chance(random.Random):
    """What is chosen by chance for the lists of a seed."""

    def __init__(self, seed):
        super().__init__(seed)
        self.texts = texts_by_chance(self)
        pairs = names_by_chance(self)
        self.field_names = pairs + NAMES * (2 * len(pairs) // len(NAMES))
        self.edit_names = pairs + (NAMES + OTHER_NAMES) * (2 * len(pairs) // len(NAMES + OTHER_NAMES))
        # Indexes and numbers: small, the greatest one, or one up to which header fields may be.
        ends = self.choices([None, 1000, 80, 80, 4, 4, 4, 4], k=1000)
        self.numbers = [MOST if end is None else self.randrange(end) for end in ends]

    def choice(self, some):
        """One of these, in a third of the time that Python's own function takes."""
        return some[int(self.random() * len(some))]

    def text(self):
        """A text."""
        return self.choice(self.texts)

    def paths(self, most):
        """A sender or a recipient: an address and some parameters, at most so many."""
        return (self.choice(ADDRESSES), *self.choices(self.texts, k=self.randint(0, most)))

    def message(self, put):
        """A message before which this stands in the values that are put."""
        fields = [(self.choice(self.field_names), self.text()) for _ in range(self.randrange(61))]
        recipients = [self.paths(2) for _ in range(self.randint(1, 7))]
        return edit_model.Message(self.paths(2), recipients, fields, self.text(), put)

    def parts(self, code):
        """The numbers and texts of an edit."""
        if code in b'him':
            value = b'' if code == b'm' and self.random() < 0.5 else self.text()
            return [self.choice(self.numbers)] * (code != b'h') + [self.choice(self.edit_names), value]
        if code in b'2e':
            return self.paths(1)
        if code in b'+-':
            return self.paths(0)
        return [self.text()] * (code != b'p')

    def edits(self):
        """A list of edits, of which half or more are of one kind."""
        often = self.choice(KINDS)
        count = self.randint(200, 700) if self.randrange(3) == 0 else self.randrange(41)
        kinds = [often if self.random() < 0.5 else kind for kind in self.choices(KINDS, k=count)]
        codes = [self.choice(kind) for kind in kinds]
        return [(code, *self.parts(code)) for code in codes]


def lists_of(seed, put):
    """Of each list of a seed: the line of the program's input, how many edits it has, and the text that is expected."""
    chance = Chance(seed)
    for _ in range(LISTS):
        message, edits = chance.message(put), chance.edits()
        given = edit_model.session(message) + b'\0' + b''.join(edit_model.packet(*edit) for edit in edits)
        edit_model.edit(message, edits)
        yield given.hex(), len(edits), message.text().encode()


def fault_of(out, expected):
    """The number of the first of these texts that isn't there, one after the other; None where the output is them."""
    start = 0
    for number, text in enumerate(expected):
        if not out.startswith(text, start):
            return number
        start += len(text)
    return len(expected) if out[start:] else None


def play(seed):
    """Plays the lists of a seed on both builds of the program."""
    leading = seed % 2 == 1
    lines, counts, expected = zip(*lists_of(seed, b'' if leading else b' '))
    given = '\n'.join(lines).encode()
    for build in programs.BUILDS:
        end = programs.ended(programs.command_of('edit lists', build) + ['leading_space'] * leading, given)
        number = fault_of(end[1], expected)
        if number is not None:
            yield 'seed %d%s: list %d differs: %s' % (seed, build, number, programs.described(end))
        else:
            is_well = end[0] == 0 and end[2] == b'' and sum(counts) > EDITS * LISTS
            yield None if is_well else 'seed %d%s: %s' % (seed, build, programs.described(end))


if __name__ == '__main__':
    programs.need('edit lists')
    plays = [functools.partial(play, seed) for seed in range(SEEDS)]
    sys.exit(runner.run_all(plays, concurrent.futures.ProcessPoolExecutor))
