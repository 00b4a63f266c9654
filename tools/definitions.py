#!/usr/bin/env python3
"""Prints what the contracts of public functions speak of, from crates/*/specs/*.antt. `make definitions` writes it to
dist/DEFINITIONS.md, for a release.

    tools/definitions.py

A crate has a section, in the order of crates.txt, with the
first sentence of its own documentation; each file of its specs/ has a part, in the order of specs/Lib.antt, with the
comment that the file begins with. There each definition that a public contract cites, or that such a definition uses,
has its type, or its fields, and the comment that stands above it; one without a comment, or whose fields have some, has
its statement. The other definitions of the file are named.
"""
import functools
import re
import sys
import textwrap

import specs

COLUMNS = 120
INTRODUCTION = """\
# Definitions

What the contracts of public functions speak of. The definitions are what a reader has to agree with; that the code does
what they say is the checker's business. They are in `crates/CRATE/specs/FILE.antt`, short and meant to be read. This
page is made of them and of their comments by `make definitions`.

A definition is **bold** where a contract of a public function, a type or a trait names it; the others are what these
use. Of each there is its type, or what a record consists of, and in a sentence what it is; or its statement, where that
says it best. A law is there where a contract names it: it isn't to be agreed with, since it is proved. What the code's
own contracts and the proofs speak of beside these is named at the end of its file.

How many each crate has:
"""


@functools.lru_cache(maxsize=None)
def agreed():
    """The definitions that the document explains."""
    return set(specs.under(specs.cited()))


def wrapped(text, indent=''):
    """A text in lines, each with this indent."""
    return textwrap.fill(text, COLUMNS, initial_indent=indent, subsequent_indent=indent, break_long_words=False,
                         break_on_hyphens=False)


def head_of(definition):
    """The lines of a definition before its equations or fields, as one, without its keywords."""
    text = re.sub(r' : Type \d+ where$', '', ' '.join(line.strip() for line in definition.head()))
    return re.sub(r'^(abbrev |unfoldable )?(pub )?', 'law ' if definition.form == 'law' else '', text)


def shape_of(definition):
    """A definition in one line: its name and type; of a record its fields, or their names where they are long."""
    head = head_of(definition)
    if definition.form != 'record':
        return head
    lines = [re.sub('^  pub ', '; ', line).strip() for line in definition.said()[1:]]
    whole = '%s { %s }' % (head, ' '.join(lines).replace(' ; ', '; ').removeprefix('; '))
    names = re.findall(r'(?m)^  (?:pub )?(\w+) :', '\n'.join(definition.lines))
    return whole if len(whole) <= COLUMNS - 8 else '%s { %s }' % (head, ', '.join(names))


def item(definition, is_named):
    """The entry of a definition: on one line where that has room, and with its statement where it has no comment."""
    has_fields = definition.form in ('record', 'data')
    equations = definition.lines[0 if has_fields else len(definition.head()):]
    is_stated = definition.form != 'law' and (not definition.comment or any(map(specs.is_comment, definition.lines)))
    is_block = is_stated and (len(equations) > 1 or has_fields)
    shape = '`%s`' % (head_of(definition) if is_block else shape_of(definition))
    said = definition.comment or ('`%s`' % equations[0] if is_stated and not is_block else '')
    block = ['  ```antt', *('  ' + line for line in equations), '  ```'] if is_block else []
    first = '- ' + ('**%s**' % shape if is_named else shape) + (':' if said or block else '')
    is_short = len(first) + len(said) < COLUMNS
    lines = [' '.join(filter(None, [first, said]))] if is_short else [first, wrapped(said, '  ')]
    return [line for line in lines if line] + block


def part_of(crate, name):
    """The part of a file; none where it has no definition."""
    file, made, others = specs.file_of(crate, name), [], []
    for part in file.parts:
        if isinstance(part, str):
            title = part.lstrip('- ')
            made += ['', '#### ' + title[0].upper() + title[1:] if part.startswith('----') else wrapped(part), '']
        elif (crate, name, part.name) in agreed():
            made += item(part, (crate, name, part.name) in specs.cited())
        elif part.form != 'law':
            others.append('`%s`' % part.name)
    if others:
        made += ['', wrapped('For the code\'s own contracts and the proofs: %s.' % ', '.join(others))]
    comment = [wrapped(file.comment), ''] if file.comment else []
    return ['### `%s`' % name, '', *comment, *made, ''] if made else []


def sentence_of(crate):
    """The first sentence of the documentation of a crate."""
    text = specs.text_of('crates', crate, 'src', 'lib.rt') or specs.text_of('crates', crate, 'src', 'main.rt')
    said = ' '.join(line[3:].strip() for line in text.splitlines() if line.startswith('//!'))
    return re.sub(r'\[(`\w+`)\]', r'\1', re.match(r'.*?[.](?= |$)', said)[0])


def document():
    """The text of the document."""
    contents, sections = [], []
    for crate in specs.shown():
        parts = [line for name in specs.files_of(crate) for line in part_of(crate, name)]
        if parts:
            contents.append('- [`%s`](#%s): %d' % (crate, crate, sum(it[0] == crate for it in agreed())))
            sections += ['## `%s`' % crate, '', wrapped(sentence_of(crate)), '', *parts]
    text = '\n'.join([INTRODUCTION, *contents, '', *sections])
    with_their_definitions = re.sub(r'(?m)^#### .*\n+(?=#|For the code|\Z)', '', text)
    return re.sub(r'\n{3,}', '\n\n', with_their_definitions).rstrip() + '\n'


def main():
    if sys.argv[1:]:
        sys.exit(__doc__)
    print(document(), end='')


if __name__ == '__main__':
    main()
