"""Reads cases/faults.table: wrong uses and files, and what is said of them; cases/README.md has the format."""
import os
import shlex

from lib import programs


class Row:
    """A row: its name, its words, what prepares its folder, its streams and user, and what its run must write."""

    def __init__(self, name):
        self.name = name
        self.words, self.setup, self.files, self.given = [], [], {}, []
        self.socket = self.user = self.output = self.input = None
        self.status, self.fixed, self.explained = 0, [], []

    def add(self, key, rest):
        """Takes a line of the row: its first word, and what follows it."""
        if key == 'run':
            self.words = shlex.split(rest)
        elif key == 'setup':
            self.setup.append(rest)
        elif key == 'file':
            self.files[rest] = []
        elif key == '|':
            list(self.files.values())[-1].append(rest)
        elif key == 'given':
            self.given.append(rest)
        elif key in ('listen', 'free'):
            self.socket = key
        elif key in ('user', 'output', 'input'):
            setattr(self, key, rest)
        elif key == 'status':
            self.status = int(rest)
        elif key == '!':
            self.fixed.append(rest)
        elif key == '+':
            self.explained.append(rest)
        else:
            raise ValueError('%s: unknown line %s' % (self.name, key))


def lines_of(texts):
    """These lines, each with its end."""
    return ''.join(text + '\n' for text in texts)


def rows():
    """The rows of the table, in their order."""
    found = []
    with open(os.path.join(programs.TOP, 'cases', 'faults.table'), encoding='utf-8') as table:
        is_begun = False
        for line in table.read().split('\n'):
            if not line or line.startswith('#'):
                is_begun = False
            elif not is_begun:
                found.append(Row(line))
                is_begun = True
            else:
                key, _, rest = line.partition(' ')
                found[-1].add(key, rest)
    return found
