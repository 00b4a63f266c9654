#!/usr/bin/env python3
"""Checks the documents against the repository: each block of code in README.md and docs/RATTLE.md is lines of a program
that is tested, each paragraph of README.md has at most four lines, each link between documents leads to a file and its
title, and each path in the recipes of docs/CONTRIBUTING.md to a file,
docs/ARCHITECTURE.md has each crate, and the functions of its paths are in the files that it names. The lines of
docs/RULE_CHECK.md are printed by runs of cases/rules_check. What tools/definitions.py prints has each definition that a
public contract cites. docs/proofs/HEADLINE.md names the crates of the toolchain that are trusted, and README.md counts
them, both count the lines of definitions under the headline, docs/CONTRIBUTING.md what a change has proved again, and
no proof speaks of the code of another crate but by what it promises.
And no line of the code or of the definitions is too long, but imports, nor one of help or of a document, each mutant
can be applied, and no comment, text, document, module, test or example has a word that is no longer used.
"""
import functools
import glob
import os
import re
import sys
import textwrap

from lib import definitions as read
from lib import runner
from lib.programs import TOP

# The documents with code, and the crates whose it is.
EXAMPLES = {
    'README.md': ['example_loop_guard'],
    'docs/RATTLE.md': ['example_mail', 'example_loop_guard', 'milter_tests_driver']}
# The documents with code in Python, and the file whose it is.
IN_PYTHON = {'docs/RATTLE.md': 'examples/python/asked_filters.py'}
# The files that tests/test_c_library.py plays, of which the blocks of README.md in other languages are parts.
PLAYED = {'c': 'docs/C.md', 'python': 'bindings/python/deiruska/__init__.py'}
# Words of rules in rows of docs/RULE_CHECK.md, in whose place others may stand.
RULE_WORDS = re.compile(r'\b(?:CONDITION|WORD|NAMES?|KIND|STAGE|FIELD|TEST|TEXT|NUMBER|OTHER|PATH|N|add-header|'
                        r'continue|partners|helo|rcpt|rcpt-address|domains?|connect and data|'
                        r'within "10\.0\.0\.0/16")(?!\w)')
COLUMNS = 120
PARAGRAPH_LINES = 4
NUMBERS = ['ten', 'eleven', 'twelve', 'thirteen', 'fourteen', 'fifteen', 'sixteen']
# The call whose contract is the headline, the clauses that are its words, and what its types promise of their values.
HEADLINE = 'crates/milter_world/src/any_schedule.rt', 'run'
ITS_WORDS = {'dialogues', 'resets', 'timeouts', 'causes'}
ITS_PREMISES = {('milter_protocol', 'Lawful', 'IsLawful'), ('milter_mail', 'MailSession', 'IsSession')}
HEADLINES = 'docs/proofs/HEADLINE.md'
# The endings of the tests, examples and tools that are read for words that are no longer used.
SCRIPTS = {'.py', '.sh', '.lua', '.c', '.h', '.cpp', '.go', '.rs', '.txt', '.session', '.events', '.rules', '.lines'}
DOCUMENTS = [
    'README.md', 'CHANGELOG.md', 'SECURITY.md', 'bench/README.md', 'cases/README.md', 'cases/tables/README.md',
    'tests/README.md']
DOCUMENTS += sorted(os.path.relpath(path, TOP) for path in glob.glob(os.path.join(TOP, 'docs', '**', '*.md'),
                                                                     recursive=True))


def text_of(path):
    """The text of a file of the repository."""
    with open(os.path.join(TOP, path), encoding='utf-8') as file:
        return file.read()


def files_of(crate):
    """The files of a crate's code and definitions."""
    kinds = [('src', '*.rt'), ('specs', '*.antt')]
    patterns = [os.path.join(TOP, 'crates', crate, folder, '**', name) for folder, name in kinds]
    return sorted(path for pattern in patterns for path in glob.glob(pattern, recursive=True))


def help_lines():
    """Whether each line of help fits 80 columns, but for one with all values of an option."""
    for path in sorted(glob.glob(os.path.join(TOP, 'cases', 'help', '*', 'stdout'))):
        wide = [line for line in text_of(path).splitlines() if len(line) > 80 and '[possible values' not in line]
        yield '%s: wide lines %s' % (os.path.relpath(path, TOP), wide), not wide


def blocks():
    """Whether each block of code of a document is in a file of its examples."""
    for document, crates in EXAMPLES.items():
        texts = [text_of(path) for crate in crates for path in files_of(crate)]
        for block in re.findall(r'```(?:rust|antt)\n(.*?)```', text_of(document), re.DOTALL):
            yield '%s: %s' % (document, block.strip().splitlines()[0]), any(block in text for text in texts)


def pasted():
    """Whether each block in another language is in the file of which it is a part."""
    for document, path in IN_PYTHON.items():
        for block in re.findall(r'```python\n(.*?)```', text_of(document), re.DOTALL):
            yield '%s: %s' % (document, block.strip().splitlines()[0]), block in text_of(path)
    for language, path in PLAYED.items():
        text = text_of(path)
        for block in re.findall(r'```%s\n(.*?)```' % language, text_of('README.md'), re.DOTALL):
            is_there = block in text or textwrap.indent(block, '    ') in text
            yield 'README.md: a block of %s is in %s' % (language, path), is_there


def paragraphs():
    """Whether each paragraph and each item of a list in README.md is short. Code and tables are none."""
    text = re.sub(r'(?s)```.*?```', '', text_of('README.md'))
    for part in re.split(r'\n\n+|\n(?=- )', text):
        lines = part.strip('\n').splitlines()
        is_none = all(line.startswith(('    ', '|')) for line in lines)
        yield 'README.md: %s: %d lines' % (part[:40], len(lines)), is_none or len(lines) <= PARAGRAPH_LINES


def paths():
    """Whether each path that a recipe of docs/CONTRIBUTING.md names is there: in a crate that its step names, or in the
    one that the recipe names first; or in the repository."""
    for recipe in text_of('docs/CONTRIBUTING.md').split('\n## Recipes\n')[1].split('\n## ')[0].split('\n### ')[1:]:
        first = []
        for step in re.split(r'\n(?=\d+\. |\n)', recipe):
            names = re.findall(r'`([^`\s]+)`', step)
            named = [name.split('/')[1] if name.startswith('crates/') else name for name in names]
            crates = [name for name in named if os.path.isdir(os.path.join(TOP, 'crates', name))]
            first = first or crates[:1]
            for name in [name for name in names if '/' in name]:
                is_of_crate = re.match(r'(src|specs|proofs|must-fail)/', name)
                places = [os.path.join('crates', crate, name) for crate in first + crates] if is_of_crate else [name]
                is_there = any(os.path.exists(os.path.join(TOP, place)) for place in places)
                yield 'docs/CONTRIBUTING.md: %s: %s' % (recipe.splitlines()[0], name), is_there


def code_blocks(document):
    """The blocks of a document without a language: of each its lines."""
    return [block.splitlines() for block in re.findall(r'(?ms)^```\n(.*?)^```', text_of(document))]


def used_by():
    """The crates that each crate uses, by crates.txt."""
    lines_of = [line for line in text_of('crates.txt').splitlines() if ':' in line and not line.startswith('#')]
    return {name.split()[0]: names.split() for name, names in (line.split(':') for line in lines_of)}


def pictured():
    """Whether docs/ARCHITECTURE.md has each crate in its picture and in its table, and none that isn't there."""
    uses, text = used_by(), text_of('docs/ARCHITECTURE.md')
    [picture] = ['\n'.join(lines) for lines in code_blocks('docs/ARCHITECTURE.md')]
    rows = re.findall(r'(?m)^\| `(\w+)` \|', text)
    for place, names in ('picture', re.findall(r'\b(?:milter|example)_\w+', picture)), ('table', rows):
        yield 'docs/ARCHITECTURE.md: the %s: %s' % (place, names), sorted(names) == sorted(uses)


def calls():
    """Whether each function of a path in docs/ARCHITECTURE.md is in the file that is named before it."""
    text = text_of('docs/ARCHITECTURE.md').split('\n## Two paths through the code\n')[1].split('\n## ')[0]
    for path, rest in re.findall(r'`(\w+/src/\w+\.rt)`:((?:(?!`\w+/src/).)*)', ' '.join(text.split())):
        place = os.path.join('crates', path)
        source = text_of(place) if os.path.exists(os.path.join(TOP, place)) else ''
        for name in re.findall(r'`(\w+)`', rest):
            yield 'docs/ARCHITECTURE.md: %s: %s' % (path, name), re.search(r'\bfn %s\b' % name, source) is not None


def said():
    """Whether each row of docs/RULE_CHECK.md is in what is printed of a run in cases/rules_check, with other words of
    rules. A list of a million entries is none of these."""
    runs = glob.glob(os.path.join(TOP, 'cases', 'rules_check', '*', 'stdout'))
    printed = '\n'.join(text_of(path) for path in runs)
    for line in text_of('docs/RULE_CHECK.md').splitlines():
        cells = re.split(r'(?<!\\) \| ', line.strip('| '))
        if line.startswith('| ') and len(cells) == 2 and cells[1].startswith('`') and '1,000,000' not in line:
            text = re.findall(r'`([^`]*)`', cells[1])[0].replace('\\|', '|').replace('..', 'N')
            parts = [re.escape(part) for part in RULE_WORDS.split(text)]
            yield 'docs/RULE_CHECK.md: ' + text, re.search('.+?'.join(parts), printed) is not None


@functools.lru_cache(maxsize=None)
def anchors(document):
    """What the titles of a document are called in links."""
    titles = re.findall(r'(?m)^#+ (.*)$', re.sub(r'(?ms)^```.*?^```', '', text_of(document)))
    return {re.sub(r'[^\w\- ]', '', re.sub(r'\[([^]]*)\]\([^)]*\)', r'\1', title)).lower().replace(' ', '-')
            for title in titles}


def links():
    """Whether each link leads to a file, and to a title where it names one."""
    for document in DOCUMENTS:
        for target, title in re.findall(r'\]\(([^)#:]*)(?:#([^)]*))?\)', text_of(document)):
            path = os.path.normpath(os.path.join(os.path.dirname(document), target)) if target else document
            is_there = os.path.exists(os.path.join(TOP, path))
            yield '%s: %s' % (document, target + '#' + title if title else target), is_there and (
                not title or title in anchors(path))


def definitions():
    """Whether tools/definitions.py explains each definition that a contract of a public function, type or trait names,
    or that such a one uses, and names all others."""
    text = read.made()
    left_out = sorted(read.missing(text))
    yield 'tools/definitions.py leaves out %s' % left_out, not left_out
    there = read.explained(text)
    for cited in sorted(read.specs.under(read.specs.cited())):
        yield 'tools/definitions.py lacks %s: %s, %s' % cited, cited in there


def trusted():
    """Whether the crates of the toolchain that HEADLINE.md names, and README.md counts, are those of crates.txt."""
    listed = used_by()
    used = sorted({name for names in listed.values() for name in names} - set(listed))
    sentence = re.search(r'(?s)by their contracts\nthe crates (.*?);', text_of(HEADLINES))[1]
    yield '%s: the crates of the toolchain are %s' % (HEADLINES, used), re.findall('`(.*?)`', sentence) == used
    number = NUMBERS[len(used) - 10]
    counted = '[%s crates of the toolchain]' % number
    yield 'README.md: ' + counted, counted in ' '.join(text_of('README.md').split())


def counts():
    """Whether README.md and HEADLINE.md have the lines of definitions under the headline, under all clauses of its
    function, and under these and the premises of its types."""
    words = read.specs.under(read.named_by(*HEADLINE, ITS_WORDS))
    clauses = read.specs.under(read.named_by(*HEADLINE))
    premises = {**clauses, **read.specs.under(ITS_PREMISES)}
    for document, found, text in [
            ('README.md', words, 'over %d lines of definitions'), (HEADLINES, words, 'stand %d lines of definitions'),
            (HEADLINES, clauses, '%d stand under all clauses'), (HEADLINES, premises, '%d with the premises')]:
        text %= sum(found.values())
        yield '%s: %s' % (document, text), text in ' '.join(text_of(document).split())


def proved_again():
    """Whether docs/CONTRIBUTING.md has how many crates a change has proved again, and tools/crate_seconds.txt no crate
    that is gone."""
    uses, table = used_by(), 'docs/CONTRIBUTING.md'
    timed = [line.split()[0] for line in text_of('tools/crate_seconds.txt').splitlines()]
    yield 'tools/crate_seconds.txt: %s' % timed, sorted(set(timed) & set(uses)) == timed
    rows = re.findall(r'(?m)^\| `(\w+)` \| (\d+) \|$', text_of(table).split('Crates proved again')[1])
    yield '%s: no rows of crates that are proved again' % table, bool(rows)
    for crate, given in rows:
        again = {crate}
        for name in uses:  # a crate stands below those that use it
            if again & set(uses[name]):
                again.add(name)
        yield '%s: `%s` | %d' % (table, crate, len(again)), given == str(len(again))


def lemmas():
    """Whether each file of lemmas that another crate uses speaks of definitions alone."""
    for crate, file, is_of_definitions in read.shared_lemmas():
        yield 'crates/%s/proofs/%s.antt speaks of code' % (crate, file), is_of_definitions


def lines():
    """Whether each line of code and of definitions is within the columns, but for imports; of each file."""
    for path in files_of('*'):
        long = [
            number for number, line in enumerate(text_of(path).splitlines(), 1)
            if len(line) > COLUMNS and not re.match(r'\s*(ghost |pub )?use ', line)]
        yield '%s: too long: lines %s' % (os.path.relpath(path, TOP), long), not long


def wrapped():
    """Whether each line of a document is within the columns, but for titles, tables and code."""
    for path in DOCUMENTS:
        prose = re.sub(r'(?ms)^```.*?^```', '', text_of(path)).splitlines()
        long = [line[:40] for line in prose if len(line) > COLUMNS and not re.match(r'#|\||    ', line)]
        yield '%s: too long: lines that begin %s' % (path, long), not long


def texts(code):
    """The texts between quotes of code in Rattle, without its comments."""
    return re.findall(r'"((?:[^"\\]|\\.)*)"', re.sub(r'(?m)//.*$', '', code), re.DOTALL)


def scripts():
    """The files of tests, examples, benches, tools and bindings that are text, and the header for C."""
    for folder in 'tests', 'examples', 'bench', 'tools', 'bindings', 'include':
        for path in glob.glob(os.path.join(TOP, folder, '**', '*.*'), recursive=True):
            if os.path.splitext(path)[1] in SCRIPTS:
                yield os.path.relpath(path, TOP)


def mutants():
    """Whether each mutant can be applied: each old text stands once in its file, as the pairs before left it."""
    for path in sorted(glob.glob(os.path.join(TOP, 'crates', '*', '*', '*.edit'))):
        crate, changed, file, old = os.path.dirname(os.path.dirname(path)), {}, '', ''
        is_well = True
        for line in text_of(path).splitlines():
            kind, _, text = line.partition(': ')
            if kind == 'file':
                file = text
                changed.setdefault(file, text_of(os.path.join(crate, file)))
            elif kind == 'old':
                old = text
            elif kind.rstrip(':') == 'new':
                is_well &= changed[file].count(old) == 1
                changed[file] = changed[file].replace(old, text)
        yield '%s: an old text does not stand once' % os.path.relpath(path, TOP), is_well and bool(changed)


def vocabulary():
    """Whether no comment, text, document, module, test or example has a word that docs/CONTRIBUTING.md says is no longer
    used."""
    table = text_of('docs/CONTRIBUTING.md').split('| No longer | Now |')[1].split('\n\n')[0]
    cells = [line.split(' | ')[0].strip('| ') for line in table.splitlines() if line.startswith('| ')]
    words = [word for cell in cells for word in re.sub(r' \(.*\)', '', cell).split(', ')]
    # What follows a dot is a name of somebody else's.
    pattern = re.compile(r'(?<!\.)\b(%s)\b' % '|'.join(words), re.IGNORECASE)
    for path in files_of('*'):
        comments = ' '.join(re.findall(r'(?m)^\s*(?:///?|//!|--) ?(.*)$', text_of(path)))
        names = re.sub('_|(?<=[a-z])(?=[A-Z])', ' ', os.path.splitext(os.path.basename(path))[0])
        quoted = texts(text_of(path)) if path.endswith('.rt') else []
        found = sorted({match.lower() for match in pattern.findall('. '.join([comments, names, *quoted]))})
        yield '%s: %s' % (os.path.relpath(path, TOP), found), not found
    for path in DOCUMENTS:
        text = text_of(path)
        if path == 'docs/CONTRIBUTING.md':
            text = text.replace(table, '')
        found = sorted({match.lower() for match in pattern.findall(' '.join(text.split()))})
        yield '%s: %s' % (path, found), not found
    for path in scripts():
        found = sorted({match.lower() for match in pattern.findall(text_of(path))})
        yield '%s: %s' % (path, found), not found
    for path in files_of('*'):
        name = os.path.splitext(os.path.basename(path))[0]
        yield '%s: a module is called by what it holds' % os.path.relpath(path, TOP), (
            path.endswith('.antt') or not name.endswith('ing') or name in ('pending', 'string'))


def play_of(check):
    """A play of a check: what it names is wrong where it isn't well."""
    return lambda: (None if is_well else what for what, is_well in check())


if __name__ == '__main__':
    sys.exit(runner.run_all(play_of(check) for check in (
        blocks, pasted, paragraphs, paths, pictured, calls, said, links, definitions, trusted, counts,
        proved_again, lemmas, lines, wrapped, help_lines, mutants, vocabulary)))
