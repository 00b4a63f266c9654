"""The definitions of specs/ as files of text: which there are, with their comments; which ones contracts of public
functions, types and traits name; and which ones stand under others.
"""
import functools
import glob
import os
import re
import typing

TOP = os.path.dirname(os.path.dirname(os.path.abspath(__file__)))
# What may stand around a name, and what is used of the files of another crate or of one's own.
NAME = re.compile(r'[^\s(){};,.λ]+')
USED = re.compile(r'use Rattle\.(\w+)\.(\w+)\.([\w.]+?)(?:\.\{(.*)\}| as (\w+))')
# The line that a definition begins with. A law has neither keyword: it is proved where it stands.
HEAD = re.compile(r'(?P<kind>abbrev |unfoldable )?(?:pub )?(?P<form>record |data )?(?P<name>[^\s:]+)(?= [:({]|$)')
# A public function up to its body, a public trait, and what a type says of itself, or as one of a trait.
FUNCTION = re.compile(r'(?s)\n *pub (?:const |unsafe |extern "C" )*fn \w+.*?\n *\{\}?(?=\n)')
ITEM = re.compile(r'(?ms)^pub (?:unsafe )?trait .*?^\}\n|^impl\b[^\n]*?\b(?:Model|\w+ for)\b.*?^\}\n')
# A clause of a contract, and what every value of a type is seen as or always has, up to the brace of its text.
CLAUSE = re.compile(r'(?s)\b(?:ensures|requires)\*?(?: \w+)? (?=\{)|\bghost \w+(?::| =) (?=\{)')


def is_comment(line):
    """Whether there is a comment alone on a line."""
    return line.lstrip().startswith('--')


class Definition(typing.NamedTuple):
    """A definition: what it is called; `record`, `data`, `law` or nothing; the comment above it; and its lines."""
    name: str
    form: str
    comment: str
    lines: typing.List[str]

    def head(self):
        """The lines before its equations, fields or cases, or before a law's proof."""
        is_more = [line.startswith(' ') and self.form not in ('record', 'data') for line in self.lines[1:]]
        return self.lines[:(is_more + [False]).index(False) + 1]

    def said(self):
        """The lines of what is to be agreed with, without comments: of a law its statement alone."""
        return [line for line in (self.head() if self.form == 'law' else self.lines) if not is_comment(line)]


class File(typing.NamedTuple):
    """A file of specs/: the comment that it begins with; after it titles, comments that stand by themselves, and
    definitions, in order; and what it uses."""
    comment: str
    parts: typing.List[typing.Union[str, Definition]]
    used: typing.Dict[str, tuple]

    def definitions(self):
        """The definitions by their names."""
        return {part.name: part for part in self.parts if isinstance(part, Definition)}


def text_of(*path):
    """The text of a file of the repository; an empty one where there is none."""
    found = os.path.join(TOP, *path)
    if not os.path.exists(found):
        return ''
    with open(found, encoding='utf-8') as file:
        return file.read()


def crates():
    """The crates, lowest first."""
    return re.findall(r'(?m)^(\w+)(?: \w+)?:', text_of('crates.txt'))


def files_of(crate):
    """The files of the definitions of a crate, in its own order."""
    folder = os.path.join(TOP, 'crates', crate, 'specs')
    there = sorted(os.path.splitext(os.path.basename(path))[0] for path in glob.glob(os.path.join(folder, '*.antt')))
    order = re.findall(r'pub mod (\w+)', text_of('crates', crate, 'specs', 'Lib.antt')) + there
    return sorted((name for name in there if name != 'Lib'), key=order.index)


def joined(comment):
    """The text of the lines of a comment."""
    return ' '.join(line.lstrip()[2:].strip() for line in comment)


def names_used(text):
    """What a file uses of definitions: of each name the crate, the file and the name there; of a file that has another
    name here, that name and an at sign, with no name there."""
    found = {}
    for crate, kind, file, names, other in USED.findall(text):
        if kind == 'specs':
            found.update({'@' + other: (crate, file, None)} if other else {})
            found.update({name.strip(): (crate, file, name.strip()) for name in names.split(',') if name.strip()})
    return found


def begun(head, comment):
    """The titles that a comment has, each of one line, and the definition that begins with this head below it."""
    titles = [joined([line]) for line in comment if line.startswith('-- ----')]
    above = joined([line for line in comment if not line.startswith('-- ----')])
    form = (head['form'] or '').strip() or ('' if head['kind'] else 'law')
    return titles + [Definition(head['name'], form, above, [head.string])]


@functools.lru_cache(maxsize=None)
def file_of(crate, name):
    """A file of specs/. A comment stands above what follows it at once, and else by itself."""
    text = text_of('crates', crate, 'specs', name + '.antt')
    parts, comment = [], []
    for line in text.splitlines() + ['']:
        head = HEAD.match(line)
        if line.startswith('--'):
            comment.append(line)
            continue
        if re.match(r'(pub )?(use|mod) |infix|unfolding ', line) or not line:
            parts += [joined(comment)] if comment else []
        elif head and (head['kind'] or head['form'] or ' : ' in line and ' = ' not in line):
            parts += begun(head, comment)
        elif parts and isinstance(parts[-1], Definition):
            parts[-1].lines.extend(comment + [line])
        comment = []
    first = parts.pop(0) if parts and isinstance(parts[0], str) and not parts[0].startswith('----') else ''
    return File(first, parts, names_used(text))


def names_in(text, used):
    """The definitions that a text names, by what its file uses. An operator stands there without its places."""
    words = set(NAME.findall(text))
    found = {it for name, it in used.items() if name.replace('◌', '') in words}
    return found | {(*used['@' + other][:2], word) for other, word in re.findall(r'\b(\w+)\.(\w+)', text)
                    if '@' + other in used}


def under(names):
    """The definitions of these crates, files and names, and all that they use: of each the number of its lines."""
    found, waiting = {}, list(names)
    while waiting:
        crate, file, name = waiting.pop()
        there = file_of(crate, file).definitions()
        if (crate, file, name) in found or name not in there:
            continue
        lines = there[name].said()
        found[crate, file, name] = len(lines)
        own = {word: (crate, file, word) for word in there if word != name}
        waiting += names_in('\n'.join(lines), {**file_of(crate, file).used, **own})
    return found


def braced(text, start):
    """The text between the brace at this index and the one that closes it."""
    depth = 0
    for brace in re.finditer(r'[{}]', text[start:]):
        depth += 1 if brace[0] == '{' else -1
        if depth == 0:
            return text[start + 1:start + brace.start()]
    return text[start + 1:]


def public_clauses(text):
    """The clauses of the public functions of a file of code, and of its public traits and types."""
    source = re.sub(r'(?m)^ *//.*\n', '', text)
    for part in FUNCTION.findall(source) + ITEM.findall(source):
        yield from (braced(part, clause.end()) for clause in CLAUSE.finditer(part))


@functools.lru_cache(maxsize=None)
def cited():
    """The definitions that public contracts name: of each its crate, its file and its name. What the compiler makes of
    types and constants isn't among them, nor what tests say of their own code."""
    found = set()
    for crate in shown():
        for path in glob.glob(os.path.join(TOP, 'crates', crate, 'src', '**', '*.rt'), recursive=True):
            text = text_of(path)
            used = names_used(text)
            found |= {it for clause in public_clauses(text) for it in names_in(clause, used)}
    return {(crate, file, name) for crate, file, name in found
            if crate in shown() and name in file_of(crate, file).definitions()}


def shown():
    """The crates whose contracts are for others: all but those of tests."""
    return [crate for crate in crates() if not crate.startswith('milter_tests')]
