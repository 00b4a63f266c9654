"""The rule files that a reader copies first: that of README.md, with the session that tries it and what that prints, and
that of docs/SERVICE.md, which is examples/mail.rules.
"""
import os
import re

from lib import programs


def text_of(*path):
    """The text of a file of the repository."""
    with open(os.path.join(programs.TOP, *path), encoding='utf-8') as file:
        return file.read()


def block_after(text, words):
    """The lines of the first block of a document after these words."""
    block = re.search('(?m)(^    .*\n)+', text[text.index(words):])[0]
    return [line[4:] for line in block.splitlines()]


def of_readme():
    """The lines of README.md's rule file, of its session file, and of what is printed of it."""
    text = text_of('README.md')
    return tuple(block_after(text, words) for words in ('a file `mail.rules`', 'a file `test.session`', 'and prints'))


def rule_files():
    """The lines of each rule file, by where it stands."""
    return {
        'README.md': of_readme()[0],
        'docs/SERVICE.md': block_after(text_of('docs', 'SERVICE.md'), 'In `/etc/deiruska/mail.rules`'),
        'examples/mail.rules': text_of('examples', 'mail.rules').splitlines()}
