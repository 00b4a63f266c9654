"""Reads the tables cases/tables/*.table, and says of each row how it is run and how that run ends;
cases/tables/README.md has the format.
"""
import collections
import glob
import os
import re
import sys

from lib import packets, programs

FOLDER = os.path.join(programs.TOP, 'cases', 'tables')
# What plays the tables of each kind, which is the first word of their names: a program and its words, of which FILE
# stands for a file of the input.
FILE = object()
PLAYERS = {
    'trace': ('tool', ['trace']),
    'session': ('tool', ['session', FILE]),
    'answer': ('tool', ['answer']),
    'rules': ('tool', ['rules', FILE]),
    'guard': ('loop guard', []),
    'edits': ('edits', []),
    'filter': ('filter faults', []),
    'packets': ('payloads', []),
    'mta': ('mail server', []),
    'links': ('links', []),
    'connection': ('connection', []),
    'questions': ('connection', []),
    'play': ('tool', ['play', FILE]),
}
# The kinds whose programs write packets: a filter's.
FILTERS = ['answer', 'guard']
# The kinds whose programs print the packets of one end, and are fed those of the other by a line: the mark of these.
BY_LINES = {'mta': b'<', 'connection': b'<', 'questions': b'>'}
# The marks of lines of further files, and of each what it has: an option of this name names it.
FILES = {b'@': 'rules', b'~': 'events'}
# The mark of a line of a file beside that of the rules: its name, and what follows a blank.
BESIDE = b':'
MARKS = b'|^<>&=!*#$%@~:'
SPECIAL = re.compile(rb'\{([0-9a-f]{2}|[^{}]+\*[0-9]+|code)\}')
NO_LF = b'{no LF}'

# A row: its table, its first line, its lines as marks and texts, and the codes with each of which it is played, None
# where it has none.
Row = collections.namedtuple('Row', 'table line lines codes')
# A run of a row: its command, the file of its input, its input, and how it ends: a status, an output and errors.
Run = collections.namedtuple('Run', 'command path given expected')


def byte_of(code):
    """The byte of a code as it is printed."""
    return int(code[2:], 16) if len(code) == 4 else ord(code)


def name_of(byte):
    """A code as it is printed."""
    return chr(byte) if 0x21 <= byte <= 0x7e else '\\x%02x' % byte


def codes_of(text):
    """The codes of a `*` line: codes and ranges of them, with blanks between."""
    for word in text.decode().split():
        first, _, last = word.partition('..')
        for byte in range(byte_of(first), byte_of(last or first) + 1):
            yield byte


def expanded(text, code, printed):
    """The text with its `{..}` written out; `{code}` is the code's name where the text is printed, else its byte."""

    def special(found):
        what = found[1]
        if what == b'code':
            return name_of(code).encode() if printed else bytes([code])
        repeated, _, count = what.rpartition(b'*')
        return repeated * int(count) if repeated else bytes([int(what, 16)])

    return SPECIAL.sub(special, text)


def ended(text, code, printed):
    """A line of the input or of the output."""
    no_lf = text.endswith(NO_LF)
    return expanded(text.removesuffix(NO_LF), code, printed) + (b'' if no_lf else b'\n')


def packet_of(text, code):
    """A packet: a code, and what follows a blank as its payload."""
    content = expanded(text, code, False)
    return packets.packet_of(content[:1] + content[2:])


def names(ending=''):
    """The names of the tables that end so, in their order."""
    paths = glob.glob(os.path.join(FOLDER, '*%s.table' % ending))
    return sorted(os.path.basename(path).removesuffix('.table') for path in paths)


def kind_of(table):
    """What a table is played by."""
    return table.partition('_')[0]


def program_of(table):
    """The name of the program that plays a table."""
    return PLAYERS[kind_of(table)][0]


def further_words(kind, lines, path):
    """The words of a row of these lines after those of its kind; the files that they name are written beside this
    one, and so are those that the rules name."""
    write_beside(lines, os.path.dirname(path))
    words = [text.decode() for mark, text in lines if mark == b'$']
    for what in sorted({FILES[mark] for mark, _ in lines if mark in FILES}):
        with open('%s.%s' % (path, what), 'wb') as file:
            file.write(contents_of(kind, lines, None)[what])
        words += ['--' + what, file.name]
    return words


def write_beside(lines, folder):
    """Writes the files that the rules name."""
    contents = collections.defaultdict(bytes)
    for mark, text in lines:
        if mark == BESIDE:
            name, _, line = text.partition(b' ')
            contents[name] += ended(line, None, False)
    for name, content in contents.items():
        with open(os.path.join(folder, name.decode()), 'wb') as file:
            file.write(content)


def part_of(kind, mark, text, code):
    """The stream to which a line of a row adds, and the bytes that it adds; of other lines None."""
    if mark in b'|^':
        return 'given', ended(text, code, False)
    if mark in b'<>':
        packet = packet_of(text, code)
        digits = packet.hex().encode()
        if kind == 'trace':
            return 'given', b'%s %s\n' % (mark, digits)
        if kind in BY_LINES:
            return ('given', b'feed %s\n' % digits) if mark == BY_LINES[kind] else ('out', digits + b'\n')
        return ('out' if kind in FILTERS and mark == b'<' else 'given'), packet
    if mark in FILES:
        return FILES[mark], ended(text, code, False)
    if mark in b'=!':
        return ('out' if mark == b'=' else 'err'), ended(text, code, True)
    return None


def contents_of(kind, lines, code):
    """The bytes of the input, the further files, the output and the errors of the row of these lines."""
    streams = {'given': b'', 'rules': b'', 'events': b'', 'out': b'', 'err': b''}
    last = None
    for mark, text in lines:
        part, times = part_of(kind, mark, text, code), 1
        if part is not None:
            last = part
        elif mark == b'&':
            times = int(text)
        else:
            continue
        streams[last[0]] += last[1] * times
    return streams


def streams_of(kind, lines, code):
    """The input of the row of these lines, and how its run ends: its status, output and errors."""
    streams = contents_of(kind, lines, code)
    return streams['given'], (1 if streams['err'] else 0, streams['out'], streams['err'])


def row_name(row):
    """The name of a row: its table and its first line."""
    return '%s.table:%d' % (row.table, row.line)


def prepared(row, code, build, folder):
    """The run of a row with this code on this build of its program; its files are written in the folder."""
    kind = kind_of(row.table)
    name, words = PLAYERS[kind]
    given, expected = streams_of(kind, row.lines, code)
    path = os.path.join(folder, '%s.%d' % (row.table, row.line))
    with open(path, 'wb') as file:
        file.write(given)
    words = [path if word is FILE else word for word in words] + further_words(kind, row.lines, path)
    return Run(programs.command_of(name, build) + words, path, given, expected)


def rows_of(table):
    """The rows of a table."""
    path = os.path.join(FOLDER, table + '.table')
    beginning, row, start = [], [], 0
    with open(path, 'rb') as file:
        lines = file.read().split(b'\n')
    for number, line in enumerate(lines + [b''], 1):
        mark, text = line[:1], line[2:]
        if line and (mark not in MARKS or line[1:2] not in (b'', b' ')):
            sys.exit('%s:%d: no line of a table' % (path, number))
        if line and mark != b'#':
            start = start or number
            row.append((mark, text))
        elif not line and row:
            if all(mark == b'^' for mark, _ in row):
                beginning = [part for part in row if part[1]]
            else:
                codes = [code for mark, text in row if mark == b'*' for code in codes_of(text)]
                yield Row(table, start, beginning + row, codes or [None])
            row, start = [], 0
