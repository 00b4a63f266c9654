#!/usr/bin/env python3
"""Puts documents and examples below a folder, as packages have them: those of the program, or those of the library.

    python3 tools/documents.py program|library FOLDER

A link to a file that is put there too leads to it. Any other link to a file is written as its text, with the path that
the file has in the sources, since it would lead nowhere.
"""
import glob
import os
import re
import shutil
import sys

TOP = os.path.dirname(os.path.dirname(os.path.abspath(__file__)))
LINK = re.compile(r'\[([^\]]+)\]\(([^)#:\s]+)(#[^)]*)?\)')


def found(*patterns):
    """The files of these patterns, by their paths in the sources. A folder has files of Python's own."""
    paths = [path for pattern in patterns for path in glob.glob(os.path.join(TOP, pattern), recursive=True)]
    return sorted(os.path.relpath(path, TOP) for path in paths if os.path.isfile(path) and not path.endswith('.pyc'))


def places(kind):
    """The place of each file that is put somewhere, by its path in the sources."""
    if kind == 'program':
        return {path: path for path in found(
            'README.md', 'CHANGELOG.md', 'SECURITY.md', 'docs/**/*.md', 'examples/*')}
    examples = found(*('examples/%s/**' % name for name in ['c', 'cpp', 'go', 'python', 'rust']))
    return {'docs/C.md': 'C.md', **{path: os.path.join('examples', os.path.basename(path)) for path in examples}}


def linked(path, text, placed):
    """The text of the document with this path in the sources, with links to what is put in place alone."""
    def written(link):
        words, target, section = link.groups()
        meant = os.path.normpath(os.path.join(os.path.dirname(path), target))
        if meant in placed:
            there = os.path.relpath(placed[meant], os.path.dirname(placed[path]) or '.')
            return '[%s](%s%s)' % (words, there, section or '')
        return words if os.path.basename(meant) == words.strip('`') else '%s (`%s`)' % (words, meant)
    return LINK.sub(written, text)


def main():
    kind, folder = sys.argv[1:]
    placed = places(kind)
    for path, place in placed.items():
        made = os.path.join(folder, place)
        os.makedirs(os.path.dirname(made), exist_ok=True)
        if path.endswith('.md'):
            with open(os.path.join(TOP, path), encoding='utf-8') as file:
                text = linked(path, file.read(), placed)
            with open(made, 'w', encoding='utf-8') as file:
                file.write(text)
        else:
            shutil.copyfile(os.path.join(TOP, path), made)
        os.chmod(made, 0o644)


if __name__ == '__main__':
    main()
