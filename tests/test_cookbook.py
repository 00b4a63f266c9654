#!/usr/bin/env python3
"""Plays the recipes of docs/RULES.md by `milter_tool play`, as both compilers built it. The lines of each recipe are
taken out of the document: they are the rule file with which sessions are played, some to which it applies and some to
which it doesn't, and the files of its lists. What becomes of their messages is written in lib/recipes.py, by what the
document says of the recipe. So are the rules beside rows of other programs' tables, with the files of their lists.

Besides, of each line of a recipe, and of each entry of its lists: without it, one of its sessions ends otherwise. And
all recipes are one rule file, which is printed in the same lines.

The rule files that a reader copies first are played too: there is nothing to be said of any of them, and README.md's
does with its session what is written there.

Counted are the runs, but those of a line that is left out are one.
"""
import os
import sys
import tempfile

from lib import checks, first_rules, programs, recipes
from lib.checks import checked, expect

# The stages of a message with one command each, before and after those of its recipients and of its header fields.
FIRST, MIDDLE, LAST = ['connect', 'helo', 'mail'], ['data'], ['eoh', 'body', 'eob']


def message_lines(parts):
    """The lines of a message, as a session file and a report have them."""
    yield 'sender "%s"' % parts['sender']
    for recipient in parts['recipients']:
        yield 'recipient "%s"' % recipient
    for name, value in parts['headers']:
        yield 'header "%s" " %s"' % (name, value)
    yield 'body "%s"' % parts['body']
    yield 'end'


def session_of(row):
    """The session file of a row."""
    parts = {**recipes.USUAL, **row.given}
    lines = ['client 4 "%s" 49152 "%s"' % (parts['host'], parts['address']), 'helo "%s"' % parts['helo']]
    lines += ['macro %s "%s" "%s"' % each for each in parts['macros']] + ['message', *message_lines(parts)]
    return ''.join(line + '\n' for line in lines)


def steps_of(parts):
    """The stages of a message's commands, each with its number."""
    yield from ((stage, 1) for stage in FIRST)
    yield from (('rcpt', nth) for nth in range(1, len(parts['recipients']) + 1))
    yield from ((stage, 1) for stage in MIDDLE)
    yield from (('header', nth) for nth in range(1, len(parts['headers']) + 1))
    yield from ((stage, 1) for stage in LAST)


def report_of(row):
    """What is printed of the session of a row."""
    parts = {**recipes.USUAL, **row.given}
    lines = []
    if row.end and row.end[0] in ('connect', 'helo'):
        lines = ['connection ' + row.verdicts[row.end], 'message 1 connection ' + row.outcome]
    else:
        lines = ['message 1 filter ' + row.outcome]
    for step in steps_of(parts):
        lines.append('acted %s %d %s' % (*step, row.verdicts.get(step, 'continue')))
        if step == row.end:
            break
    if row.outcome == 'released':
        lines += ['quarantine "%s"' % row.released['quarantine']] if 'quarantine' in row.released else []
        lines += message_lines({**parts, **row.released})
    return ''.join(line + '\n' for line in lines)


def played(program, folder, rules, row, files=None):
    """How the play of a row with these rules ended, with these files of lists, or with those of all recipes."""
    session = programs.written(os.path.join(folder, 'session'), session_of(row))
    recipes.write_files(folder, files)
    path = programs.written(os.path.join(folder, 'rules'), ''.join(rule + '\n' for rule in rules))
    return programs.ended([program, 'play', session, '--rules', path])


def of_recipe(program, folder, title, rules, rows):
    """The checks of a recipe."""
    expected = [(0, report_of(row).encode(), b'') for row in rows]
    untouched = [report_of(recipes.passes(**row.given)).encode() == end[1] for row, end in zip(rows, expected)]
    yield checked(title, lambda: expect('sessions to which it applies, and others', set(untouched), {False, True}))
    for number, (row, end) in enumerate(zip(rows, expected), 1):
        yield programs.compared('%s, session %d' % (title, number), played(program, folder, rules, row), end)
    for at, rule in enumerate(rules):
        others = rules[:at] + rules[at + 1:]
        is_tried = any(played(program, folder, others, row) != end for row, end in zip(rows, expected))
        yield None if is_tried else '%s: no session tries %s' % (title, rule)
    yield from of_entries(program, folder, title, rules, list(zip(rows, expected)))


def of_entries(program, folder, title, rules, ends):
    """The checks of the entries of a recipe's lists: without each of them a session ends otherwise."""
    files = recipes.files()
    for name in [line.split()[1] for line in rules if line.startswith('list ')]:
        for entry in [line for line in files[name] if not line.startswith('#')]:
            others = {**files, name: [line for line in files[name] if line != entry]}
            is_tried = any(played(program, folder, rules, row, others) != end for row, end in ends)
            yield None if is_tried else '%s: no session tries the entry %s' % (title, entry)


def as_one_file(program, folder, lines):
    """The lines as one rule file: its rules are printed as they stand, whatever the order of their stages."""
    lines = recipes.as_file(lines)
    path = programs.written(os.path.join(folder, 'rules'), ''.join(line + '\n' for line in lines))
    status, out, err = programs.ended([program, 'rules', path])
    expect('the run', (status, err), (0, b''))
    printed = [line for line in out.decode().splitlines() if line.startswith(('at ', 'list ')) or line == recipes.WIDE]
    expect('the rules', sorted(printed), sorted(lines))


def of_tables(program, folder):
    """The checks of the rules beside rows of other programs' tables."""
    rules = recipes.in_tables()
    yield checked('the rules of tables', lambda: expect('rules', set(rules), set(recipes.OF_TABLES)))
    lines = [recipes.WIDE, *recipes.lists_in(rules), *dict.fromkeys(rules)]
    yield checked('the rules of tables, as one file', as_one_file, program, folder, lines)
    for rule, rows in recipes.OF_TABLES.items():
        stage = rule.split()[1]
        lines = [recipes.WIDE, *recipes.lists_in([rule]), rule]
        lines += ['at %s do reject' % stage] * rule.endswith(' do continue')
        for number, row in enumerate(rows, 1):
            end = 0, report_of(row).encode(), b''
            yield programs.compared('%s, session %d' % (rule, number), played(program, folder, lines, row), end)


def of_document(program, folder):
    """The checks of all recipes."""
    found = recipes.rules()
    yield checked('the titles', lambda: expect('recipes', sorted(found), sorted(recipes.RECIPES)))
    yield checked('one file', as_one_file, program, folder, [line for lines in found.values() for line in lines])
    for title, rules in found.items():
        yield from of_recipe(program, folder, title, rules, recipes.RECIPES.get(title, []))


def of_first_rules(program, folder):
    """The checks of the rule files that a reader copies first."""
    files = first_rules.rule_files()
    yield checked('the example', lambda: expect('its lines', files['docs/SERVICE.md'], files['examples/mail.rules']))
    for name, lines in files.items():
        path = programs.written(os.path.join(folder, 'rules'), ''.join(line + '\n' for line in lines))
        yield programs.compared(name, programs.ended([program, 'rules', '--check', path]), (0, b'', b''))
    rules, session, printed = (''.join(line + '\n' for line in lines) for lines in first_rules.of_readme())
    paths = [programs.written(os.path.join(folder, name), text) for name, text in (('session', session), ('rules', rules))]
    command = [program, 'play', paths[0], '--rules', paths[1], '--least-stages']
    yield programs.compared('README.md: its session', programs.ended(command), (0, printed.encode(), b''))


def groups(folder):
    """Groups of checks: of each its name, its function, and what that is called with."""
    for build in programs.BUILDS:
        program = programs.tool(build)
        for checks_of in (of_document, of_tables, of_first_rules):
            yield os.path.basename(program), checks_of, (program, tempfile.mkdtemp(dir=folder))


if __name__ == '__main__':
    programs.need('tool')
    with tempfile.TemporaryDirectory() as work:
        sys.exit(checks.run_all(groups(work)))
