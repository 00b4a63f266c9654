#!/usr/bin/env python3
"""Makes the library for C of its archive in build/, and looks at it from outside of Rattle. `tests/test_c_library.py
ARCHIVE` takes another archive.

The header compiles as C99, C11 and C++17 without a warning. Its functions are those that the archive, the static and
the shared library have for others, and those of the Python binding with their types; its numbers are those of the
crates and of the binding.

What a mail server sends in the tables `answer_*` and in the captures is fed to a filter's end in C (lib/c_filter.c)
and to one in Python, cut in several ways: the replies are those of `milter_tool answer --lenient`, and where that
has rules, the one in Python is given its answers (lib/replayed.py). The one in C also has captures in which bytes
are changed, and is run with each allocation refused in turn, and under valgrind; four in threads are run under
helgrind (lib/c_threads.c). A million packets of each end, half of them with bytes changed, are played under
AddressSanitizer (lib/c_mutated.c). The scripts of the tables `connection_*` and those of the captures are played to a
mail server's end in Python (lib/c_calls.py), and rule files answer filter's ends in Python. A mail server's end and a
filter's end in C exchange packets in memory, with each allocation refused in turn (lib/c_pair.c). Packets of the
tables `trace_*` are printed by the binding as there, and what they are decoded to gives the same lines
(lib/c_traces.py); those of a capture are decoded in C with each allocation refused (lib/c_packets.c).

The first filter of docs/C.md, the one in Python of README.md and the filters of examples/ are played to by
`milter_tool mta`, those of examples/ also by miltertest, and the one in C by the mail server's side beside it; the
server of the binding has handlers that raise, take long, and are left by their mail server, and its player of messages
filters that edit, refuse and are lost (lib/c_plays.py). Programs that aren't installed are skipped, with a line for
each.

Counted are the runs and what is compared.
"""
import functools
import importlib
import logging
import os
import random
import re
import shutil
import subprocess
import sys
import tempfile

import test_captures
from lib import c_calls, c_library, c_plays, c_traces, captures, checks, programs, replayed, serving, tables
from lib.checks import checked, expect
from lib.packets import packet_of, packets_of

TOOL = programs.tool(programs.BUILDS[0])
C_FILTER, C_THREADS, C_MUTATED = (os.path.join(programs.TOP, 'tests', 'lib', 'c_%s.c' % name)
                                  for name in ['filter', 'threads', 'mutated'])
C_PACKETS = os.path.join(programs.TOP, 'tests', 'lib', 'c_packets.c')
C_PAIR = os.path.join(programs.TOP, 'tests', 'lib', 'c_pair.c')
WRAPPED = '-Wl,--wrap=malloc,--wrap=realloc'
VALGRIND = ['valgrind', '-q', '--leak-check=full', '--show-leak-kinds=all', '--errors-for-leak-kinds=all',
            '--error-exitcode=9']
# The compilers of the header, with the languages of each.
COMPILERS = {'gcc': ['c99', 'c11', 'c17'], 'clang': ['c99', 'c11', 'c17'], 'g++': ['c++11', 'c++17'],
             'clang++': ['c++11', 'c++17']}
USES = '''#include <deiruska.h>
deiruska_filter filter = DEIRUSKA_EMPTY;
deiruska_bytes bytes = DEIRUSKA_NO_BYTES;
deiruska_packet packet = DEIRUSKA_NO_PACKET;
deiruska_part part = DEIRUSKA_NO_PART;
deiruska_edit edit = DEIRUSKA_NO_EDIT;
deiruska_mta mta = DEIRUSKA_EMPTY;
'''
# In which pieces commands are fed, up to how many bytes they are fed byte by byte too, and up to how many in Python.
PIECES, CUT_MAX, PYTHON_MAX = [1, 7, 65536], 10000, 1000000
# How many mutated captures are fed, and how many mutated packets of each end.
MUTATIONS, MUTATED_PACKETS = 500, 1000000
# The edits that c_filter.c asks for, as rules.
EDITS = '''at eob do progress
at eob do add-header "X-Added" "added"
at eob do insert-header 0 "X-Top" "inserted"
at eob do change-header 1 "Subject" ""
at eob do change-from "<changed@example.org>" "RET=HDRS"
at eob do add-rcpt "<added@example.net>"
at eob do del-rcpt "<bob@example.net>"
at eob do replace-body "another body\\r\\n"
at eob do replace-body "in two pieces\\r\\n"
at eob do quarantine "looked at by a person"
'''
# The rules of a filter that is connected to a mail server's end in memory, and what that prints of its answer.
PAIRED = 'symbols mail "i {auth_authen}"\nat eob when macro "i" is "4F1A2B3C" do add-header "X-Seen" "yes"\n' + EDITS
ANSWER = b'''1 0 "X-Seen" "yes"
10 0 "" ""
1 0 "X-Added" "added"
2 0 "X-Top" "inserted"
3 1 "Subject" ""
7 0 "<changed@example.org>" "RET=HDRS"
4 0 "<added@example.net>" ""
6 0 "<bob@example.net>" ""
8 0 "another body\r\n" ""
8 0 "in two pieces\r\n" ""
9 0 "looked at by a person" ""
0 ""
sender "<changed@example.org>"
recipient "<added@example.net>"
name "X-Top"
value " inserted"
name "X-Seen"
value " yes"
name "X-Added"
value " added"
body "another body\r\nin two pieces\r\n"
quarantine "looked at by a person"
'''
# The actions that these edits need, and how many of the bits of options are actions.
ACTIONS, ACTION_BITS = 0x7f, 9
# The enums of the binding, whose names those of the header begin with, and the kinds of faults.
ENUMS = ['Stage', 'Step', 'Family', 'Want', 'Outcome', 'Event', 'Protocol']
FAULTS = 'FILTER_|WIRE_|ANSWER_|WANTS_|RULES_|CALL_|LOSS_|MESSAGE_'
TYPES = {
    'const uint8_t *': 'c_void_p', 'size_t': 'c_ulong', 'uint32_t': 'c_uint', 'size_t *': 'LP_c_ulong',
    'uint32_t *': 'LP_c_uint', 'uint16_t': 'c_ushort', 'uint64_t *': 'LP_c_ulong', 'deiruska_bytes *': 'LP_Bytes',
    'uint8_t': 'c_ubyte', 'deiruska_packet *': 'LP_BorrowedPacket', 'deiruska_part *': 'LP_BorrowedPart',
    'deiruska_edit *': 'LP_BorrowedEdit', 'deiruska_handle *': 'LP_Handle',
    **{'deiruska_%s *' % kind: 'LP_Handle'
       for kind in ['stream', 'decoded', 'trace', 'filter', 'answer', 'rules', 'mta', 'message']}}


def binding(library):
    """The Python binding, with this library."""
    os.environ['DEIRUSKA_LIBRARY'] = c_library.shared(library)
    if c_library.BINDING not in sys.path:
        sys.path.insert(0, c_library.BINDING)
    sys.dont_write_bytecode = True
    return importlib.import_module('deiruska')


def installed(name):
    """Whether a program is installed; says so where it isn't."""
    if shutil.which(name):
        return True
    print('%s: not installed, and not run' % name, flush=True)
    return False


def compiles(compiler, language, folder):
    """A use of the header compiles without a warning."""
    include, made = os.path.dirname(c_library.HEADER), os.path.join(folder, 'use.o')
    end = programs.ended(
        [compiler, '-std=' + language, '-Wall', '-Wextra', '-Wpedantic', '-Werror', '-I', include,
         '-x', 'c++' if '+' in language else 'c', '-c', '-o', made, '-'], USES.encode())
    expect('the compiler', end, (0, b'', b''))


def headers(library, archive):
    """The header, beside what is built."""
    for compiler, languages in COMPILERS.items():
        if installed(compiler):
            for language in languages:
                yield checked('%s as %s' % (compiler, language), compiles, compiler, language, library)
    names = set(c_library.functions())
    found = {name for name in c_library.symbols(archive) if name.startswith('deiruska')}
    yield checked('the archive', expect, 'its functions', found, names)
    static = c_library.symbols(os.path.join(library, 'lib', 'libdeiruska.a'))
    yield checked('the static library', expect, 'its symbols', static, names)
    dynamic = c_library.symbols(c_library.shared(library), '-D')
    yield checked('the shared library', expect, 'its symbols', dynamic, names)
    said = c_library.run(['readelf', '-d', c_library.shared(library)])
    for what, name in [('NEEDED', 'libc.so.6'), ('SONAME', 'libdeiruska.so.0')]:
        yield checked('the shared library', expect, what, re.findall(what + r'.*\[(.*)\]', said), [name])


def of_header(prefix=''):
    """The numbers of the header whose names begin so, by the rest of their names."""
    return {name[len(prefix):]: number for name, number in c_library.numbers().items() if name.startswith(prefix)}


def numbers():
    """The numbers of the header, beside those of the crates."""
    found, bits = of_header(), list(c_library.constants('milter_wire', 'options.rt'))
    of_crates = dict(c_library.constants('milter_c', 'library.rt'))
    of_crates.update(c_library.constants('milter_c_objects', 'status.rt'))
    of_crates.update(('ACTION_' + name, bit) for name, bit in bits[:ACTION_BITS])
    of_crates.update(('PROTOCOL_' + name, bit) for name, bit in bits[ACTION_BITS:])
    of_crates.update(c_library.edits())
    of_crates['UNPROVED'] = 0x8000_0000  # which tools/build.py alone sets
    for name in sorted({*found, *of_crates}):
        yield checked(name, expect, 'number', found.get(name), of_crates.get(name))


def numbers_of_binding(library):
    """The numbers of the binding, beside those of the header."""
    deiruska, found = binding(library), of_header()
    faults = {number for name, number in found.items() if re.match(FAULTS, name)}
    of_binding = set(importlib.import_module('deiruska._faults').FAULTS)
    yield checked('the binding', expect, 'faults', of_binding, faults | {-1, -2, -3})
    edits = {number: name.lower().replace('_parameters', '') for name, number in of_header('EDIT_').items()}
    of_binding = {number: name for number, (name, _) in importlib.import_module('deiruska._mta').EDITS.items()}
    yield checked('the binding', expect, 'edits', {**of_binding, found['EDIT_PROGRESS']: 'progress'}, edits)
    verdicts = {name: found[name] for name in deiruska.Verdict.__members__}
    enums = [(deiruska.Verdict, verdicts), (deiruska.Actions, {**of_header('ACTION_'), 'ALL': 0x1ff})]
    enums += [(getattr(deiruska, name), of_header(name.upper() + '_')) for name in ENUMS]
    enums += [(deiruska.Direction, {name: found[name] for name in ['TO_FILTER', 'TO_MTA']})]
    for enum, expected in enums:
        yield checked('the binding', expect, enum.__name__, dict(enum.__members__), expected)


def versions(library):
    """The version of the header, beside the others."""
    deiruska, number = binding(library), c_library.numbers()['VERSION']
    version = '%d.%d.%d' % (number >> 16, number >> 8 & 0xff, number & 0xff)
    yield checked('the library', expect, 'version', deiruska.version(), version + programs.unproved())
    for path, pattern in [('bindings/python/pyproject.toml', r'(?m)^version = "(.*)"'),
                          ('crates/milter_command_line/src/subcommands.rt', r'VERSION: &str = "(.*)";')]:
        with open(os.path.join(programs.TOP, path), encoding='utf-8') as file:
            yield checked(path, expect, 'version', re.findall(pattern, file.read()), [version])
    options = ['pkg-config', '--modversion', 'deiruska']
    if installed('pkg-config'):
        found = c_library.run(options, env={**os.environ, 'PKG_CONFIG_PATH': os.path.join(library, 'lib', 'pkgconfig')})
        yield checked('pkg-config', expect, 'version', found.strip(), version)


def parameters(library):
    """The types of the binding's functions, beside those of the header."""
    binding(library)
    loaded = importlib.import_module('deiruska._library')
    expected = {name: [TYPES[it] for it in types] for name, (answer, types) in c_library.functions().items()
                if answer == 'int32_t'}
    found = {'deiruska_' + name: [it.__name__ for it in types] for name, types in loaded.PARAMETERS.items()}
    for name in sorted({*expected, *found}):
        yield checked(name, expect, 'parameters', found.get(name), expected.get(name))


def rows(has_rules):
    """What mail servers send in the tables `answer_*`: of each row a name, the words of `milter_tool` and the commands;
    and where there are no rules, in the captures."""
    with tempfile.TemporaryDirectory() as folder:
        for table in tables.names():
            if tables.kind_of(table) == 'answer' and not table.endswith('failed_calls'):
                for row in tables.rows_of(table):
                    for code in row.codes:
                        run = tables.prepared(row, code, programs.BUILDS[0], folder)
                        if ('--rules' in run.command) == has_rules:
                            yield tables.row_name(row), run.command[1:], run.given
    for path in captures.paths() if not has_rules else []:
        yield os.path.relpath(path, programs.TOP), ['answer'], b''.join(it for it, _ in captures.halves(path))


def replies_of(words, commands):
    """What `milter_tool answer` replies in the order of the library, and the number of its fault in the header, or 0;
    None where it doesn't come to an end of either kind."""
    status, replies, said = programs.ended([TOOL, *words, '--lenient'], commands)
    fault = re.fullmatch(rb'filter fault (\d)\n', said)
    if status == 0 or said.startswith(b'input truncated'):
        return replies, 0
    return (replies, 100 + int(fault[1])) if fault else None


def pieces_of(commands):
    """The pieces in which commands are fed."""
    return PIECES if len(commands) <= CUT_MAX else PIECES[-1:]


def by_c(program, commands, piece, actions, wanted):
    """What a filter's end in C replies, and the state in which it ends."""
    status, replies, said = programs.ended([program, str(piece), str(actions), '0'], commands)
    state = re.fullmatch(rb'state (\d+)\n', said)
    expect('the program', (status, said[-200:] if state is None else b''), (0, b''))
    fault = int(state[1])
    expect('replies and fault', (replies, fault if fault > 100 else 0), wanted)


def same_replies(library, program):
    """The replies of filter's ends in C and in Python that let all mail go on."""
    deiruska = binding(library)
    for name, words, commands in rows(has_rules=False):
        wanted = replies_of(words, commands)
        for piece in pieces_of(commands):
            yield checked('%s in C by %d bytes' % (name, piece), by_c, program, commands, piece, 0, wanted)
            if len(commands) <= PYTHON_MAX:
                yield checked('%s in Python by %d bytes' % (name, piece), expect, 'replies and fault',
                              replayed.let_pass(deiruska, commands, piece), wanted)
        yield checked(name + ' with edits', with_edits, program, commands, library)


def mutated(program):
    """The replies of a filter's end in C to captures in which some bytes are others, too many or missing."""
    chance = random.Random(MUTATIONS)
    given = [commands for name, _, commands in rows(has_rules=False) if name.startswith('cases')]
    for number in range(MUTATIONS):
        commands = bytearray(chance.choice(given))
        for _ in range(chance.randint(1, 3)):
            at, byte = chance.randrange(len(commands)), chance.choice([0, 1, 0xff, chance.randrange(256)])
            commands[at:at + chance.randrange(2)] = [byte] * chance.randrange(3)
        wanted = replies_of(['answer'], bytes(commands))
        yield checked('mutation %d' % number, by_c, program, bytes(commands), chance.choice(PIECES), 0, wanted)


def sanitized(library, folder):
    """Packets in which bytes are changed make no error that AddressSanitizer finds."""
    try:
        program = c_library.compiled(library, C_MUTATED, 'c_mutated', '-fsanitize=address')
    except subprocess.CalledProcessError:
        print('AddressSanitizer: not installed, and not used', flush=True)
        return
    paths, conversation = [os.path.join(folder, name) for name in ['commands', 'replies']], captures.halves(capture())
    commands, replies = [it for it, _ in conversation], [it for _, part in conversation for it in part]
    for path, packets in zip(paths, [commands, replies]):
        with open(path, 'wb') as file:
            file.write(b''.join(packets))
    status, out, said = programs.ended([program, *paths, str(MUTATED_PACKETS), '1'])
    yield checked('mutated packets', expect, 'the run', (status, said[-2000:]), (0, b''))
    counts = [int(number) for number in re.findall(rb'\d+', out)]
    yield checked('mutated packets', expect, 'all is played', [count > 10000 for count in counts], 4 * [True])


def with_edits(program, commands, library):
    """The replies of a filter's end in C that edits each message."""
    path = programs.written(os.path.join(library, 'edits.rules'), EDITS)
    by_c(program, commands, PIECES[-1], ACTIONS, replies_of(['answer', '--rules', path], commands))


def same_answers(library):
    """The replies of filter's ends in Python that give the answers of rules."""
    deiruska, count = binding(library), 0
    for name, words, commands in rows(has_rules=True):
        wanted = replies_of(words, commands)
        if wanted is not None and replayed.can_be_given(commands, wanted[0]):
            count += 1
            for piece in pieces_of(commands):
                yield checked('%s by %d bytes' % (name, piece), expect, 'replies and fault',
                              replayed.replayed(deiruska, commands, wanted[0], piece), wanted)
    yield checked('rows with rules', expect, 'their number', count > 100, True)


def by_rules(library):
    """The replies of filter's ends in Python that rules answer. Files that name lists have no rules there."""
    deiruska, count = binding(library), 0
    for name, words, commands in rows(has_rules=True):
        wanted = replies_of(words, commands)
        with open(words[words.index('--rules') + 1], 'rb') as file:
            text = file.read()
        fault = fault_of_lists(text)
        if wanted is not None and fault is not None:
            yield checked(name, rule_fault, deiruska, text, fault)
        elif wanted is not None:
            count += 1
            for piece in pieces_of(commands):
                yield checked('%s by %d bytes' % (name, piece), by_rules_of, deiruska, text, commands, piece, wanted)
    yield checked('rows with rules', expect, 'their number', count > 100, True)


def by_rules_of(deiruska, text, commands, piece, wanted):
    """The replies of a filter's end that the rules of this text answer."""
    expect('replies and fault', replayed.ruled(deiruska, deiruska.Rules(text), commands, piece), wanted)


def fault_of_lists(text):
    """The line and the number of the fault of a rule file that names lists, whose files the library doesn't read; None
    where it names none."""
    lines = enumerate(text.split(b'\n'), 1)
    named = [number for number, line in lines if line.split()[:1] == [b'list']]
    return (named[0], of_header()['RULES_BAD_LIST']) if named else None


def traces(library):
    """What packets are decoded to and their lines, beside those of the tables `trace_*`."""
    deiruska, count = binding(library), 0
    for table in ['trace_commands', 'trace_replies', 'trace_streams']:
        for row in tables.rows_of(table):
            for code in row.codes:
                given, (_, text, said) = tables.streams_of('trace', row.lines, code)
                lines, wanted = c_traces.lines_of(given), (text, c_traces.number_of(said))
                if lines is None:
                    continue
                count += 1
                for piece in pieces_of(given):
                    yield checked('%s by %d bytes' % (tables.row_name(row), piece), expect, 'text and fault',
                                  c_traces.printed(deiruska, lines, piece), wanted)
                if table != 'trace_streams' and len(lines) == 1:
                    yield checked(tables.row_name(row), expect, 'what it is decoded to',
                                  c_traces.decoded(deiruska, *lines[0]), wanted)
    yield checked('rows of traces', expect, 'their number', count > 300, True)


def rule_faults(library):
    """The faults of rule files, and their lines."""
    deiruska = binding(library)
    for table in ['rules_faults', 'rules_sizes']:
        for row in tables.rows_of(table):
            given, (_, _, said) = tables.streams_of('rules', row.lines, row.codes[0])
            fault = re.fullmatch(rb'rules line (\d+): fault (\d)\n', said)
            expected = (int(fault[1]), 500 + int(fault[2])) if fault else fault_of_lists(given)
            yield checked(tables.row_name(row), rule_fault, deiruska, given, expected)


def rule_fault(deiruska, text, expected):
    """A text has rules where no line and number are expected, and else this fault."""
    try:
        deiruska.Rules(text)
        found = None
    except deiruska.RulesFault as fault:
        found = fault.line, fault.number
    expect('line and number', found, expected)


def mail_servers(library):
    """What a mail server's end in Python sends and answers: the tables `connection_*`, and the captures."""
    deiruska = binding(library)
    scripts = []
    for table in tables.names():
        if tables.kind_of(table) == 'connection' and not table.endswith('refused_memory'):
            for row in tables.rows_of(table):
                for code in row.codes:
                    given, (_, out, _) = tables.streams_of('connection', row.lines, code)
                    scripts.append((tables.row_name(row), given, out.decode().splitlines()))
    for path in captures.paths():
        for connection in captures.calls(path):
            for feeds in test_captures.by_packets, test_captures.by_bytes:
                lines, printed = test_captures.script_of_calls(connection, feeds)
                scripts.append((os.path.relpath(path, programs.TOP), '\n'.join(lines).encode(), printed))
    for name, given, lines in scripts:
        patterns = c_calls.printed(deiruska, given)
        if patterns is not None:
            yield checked(name, expect, 'what is printed', c_calls.differs(patterns, lines), None)


def streams(library):
    """The packets of streams, in the binding."""
    deiruska = binding(library)
    for name, _, commands in rows(has_rules=False):
        if len(commands) <= CUT_MAX:
            for piece in PIECES:
                yield checked('%s by %d bytes' % (name, piece), same_packets, deiruska, commands, piece)


def same_packets(deiruska, commands, piece):
    """The packets of commands that are cut into pieces, and the fault at their end."""
    found, fault = [], None
    try:
        for packet in deiruska.packets(commands[at:at + piece] for at in range(0, len(commands), piece)):
            found.append(packet_of(packet.code + packet.payload))
    except deiruska.WireFault as wire:
        fault = wire.number
    whole, rest = [], commands
    while 5 <= len(rest) and 1 <= int.from_bytes(rest[:4], 'big') <= min(65536, len(rest) - 4):
        whole.append(next(packets_of(rest)))
        rest = rest[len(whole[-1]):]
    length = int.from_bytes(rest[:4], 'big') if len(rest) >= 4 else 1
    expected = 201 if length == 0 else 202 if length > 65536 else 205 if rest else None
    expect('packets and fault', (found, fault), (whole, expected))


def capture():
    """The captured connection of a Postfix with all edits."""
    return next(path for path in captures.paths() if 'pf_all' in path)


def recorded():
    """The commands of this connection."""
    return b''.join(command for command, _ in captures.halves(capture()))


def refused(program):
    """A filter's end in C of which each allocation is refused: it ends as ever, or is given up for that."""
    commands = recorded()

    def run(number, wanted, piece):
        status, replies, said = programs.ended([program, str(piece), str(ACTIONS), str(number)], commands)
        was_refused = said.endswith(b', an allocation was refused\n')
        is_given_up = said.startswith(b'state 107, ') and wanted.startswith(replies)
        is_as_ever = re.match(b'state [01]\\b', said) is not None and replies == wanted
        expect('the run %r' % said, (status, is_given_up or is_as_ever), (0, True))
        return was_refused

    for piece in [7, 65536]:
        _, wanted, _ = programs.ended([program, str(piece), str(ACTIONS), '0'], commands)
        yield from checks.with_each_refused(functools.partial(run, wanted=wanted, piece=piece))


def refused_packets(library):
    """Packets of a capture that are decoded and printed in C, with each allocation refused: what is refused is done
    again, but a trace has stopped. Under valgrind they make no error."""
    program, conversation = c_library.compiled(library, C_PACKETS, 'c_packets', WRAPPED), captures.halves(capture())
    streams_of = [b''.join(it for it, _ in conversation), b''.join(it for _, replies in conversation for it in replies)]
    for direction, stream in enumerate(streams_of):
        command = [program, str(direction)]
        _, wanted, _ = programs.ended([*command, '0'], stream)
        yield checked('packets in direction %d' % direction, expect, 'lines', len(wanted.splitlines()) > 20, True)

        def run(number, command=tuple(command), stream=stream, wanted=wanted, checker=()):
            status, out, said = programs.ended([*checker, *command, str(number)], stream)
            is_stopped = said.startswith(b'stopped, ') and wanted.startswith(out)
            expect('the run %r' % said, (status, is_stopped or (said[:7], out) == (b'printed', wanted)), (0, True))
            return said.endswith(b', an allocation was refused\n')

        yield from checks.with_each_refused(run)
        if installed('valgrind'):
            for number in [0, 1, 10, 100]:
                yield checked('valgrind, allocation %d' % number, functools.partial(run, checker=VALGRIND), number)


def pair(library, folder):
    """A mail server's end and a filter's end that rules answer, which exchange packets in memory, and of whose
    allocations each is refused: they end as ever, or one of them is given up for that. Under valgrind they make no
    error."""
    program = c_library.compiled(library, C_PAIR, 'c_pair', WRAPPED)
    command = [program, programs.written(os.path.join(folder, 'paired.rules'), PAIRED)]

    def run(number, checker=()):
        status, out, said = programs.ended([*checker, *command, str(number)])
        is_given_up = re.match(b"the (filter is lost|filter's end is given up), ", said) is not None and out == b''
        expect('the run %r, %r' % (out, said), (status, is_given_up or (out, said[:12]) == (ANSWER, b'all is shown')),
               (0, True))
        return said.endswith(b', an allocation was refused\n')

    yield from checks.with_each_refused(run)
    if installed('valgrind'):
        for number in [0, 3, 30, 60, 90, 120]:
            yield checked('valgrind, allocation %d of a pair' % number, run, number, VALGRIND)


def in_valgrind(library, program):
    """A filter's end in C makes no error that valgrind finds, also where an allocation is refused; and four in threads
    make none that helgrind finds."""
    commands = recorded()
    threads = c_library.compiled(library, C_THREADS, 'c_threads', '-pthread')
    yield checked('threads', expect, 'the run', programs.ended([threads, '1000'], commands), (0, b'', b''))
    if installed('valgrind'):
        for piece, number in [(1, 0), (65536, 0), (7, 3), (7, 10), (7, 20), (7, 40), (65536, 15)]:
            status, _, said = programs.ended([*VALGRIND, program, str(piece), str(ACTIONS), str(number)], commands)
            yield checked('valgrind, allocation %d' % number, expect, 'the run', (status, said[:5]), (0, b'state'))
        words = ['valgrind', '-q', '--tool=helgrind', '--error-exitcode=9', threads, '3']
        yield checked('helgrind', expect, 'the run', programs.ended(words, commands), (0, b'', b''))


def plays(library, folder):
    """The filters of the documents, and the server of the binding."""
    installed('miltertest')
    yield checked('the first filter', c_plays.first_in_c, TOOL, library, folder)
    yield checked('the example in C', c_plays.example, TOOL, library, folder, 'c')
    yield checked("the mail server's side in C", c_plays.mail_server, library, folder)
    for language, compilers in c_library.COMPILERS.items():
        if all([installed(name) for name in compilers]):
            yield checked('the example in ' + language, c_plays.example, TOOL, library, folder, language)
    for kind in serving.KINDS:
        yield checked('the example in Python at %s' % kind, c_plays.example_in_python, TOOL, library, folder, kind)
    yield checked('the filter in Python of README.md', c_plays.readme_in_python, TOOL, library, folder)
    yield checked('the tests in Python', c_plays.tests_in_python, library)
    deiruska = binding(library)
    logging.disable(logging.CRITICAL)
    for play in [c_plays.raises, c_plays.takes_long, c_plays.is_left, c_plays.does_edits, c_plays.ends_there,
                 c_plays.is_lost]:
        yield checked(play.__name__, play, deiruska, folder)


def groups(library, archive, folder):
    """The groups of checks."""
    program = c_library.compiled(library, C_FILTER, 'c_filter', WRAPPED)
    return [
        ('header', headers, (library, archive)), ('numbers', numbers, ()),
        ('numbers of the binding', numbers_of_binding, (library,)), ('versions', versions, (library,)),
        ('parameters', parameters, (library,)), ('replies', same_replies, (library, program)),
        ('answers', same_answers, (library,)), ('rules', by_rules, (library,)),
        ('faults of rules', rule_faults, (library,)), ('mail servers', mail_servers, (library,)),
        ('mutations', mutated, (program,)), ('streams', streams, (library,)), ('traces', traces, (library,)),
        ('refused memory of packets', refused_packets, (library,)),
        ('sanitizer', sanitized, (library, folder)), ('refused memory', refused, (program,)),
        ('pair', pair, (library, folder)), ('valgrind', in_valgrind, (library, program)),
        ('filters', plays, (library, folder))]


if __name__ == '__main__':
    programs.need('tool')
    c_library.need()
    with tempfile.TemporaryDirectory() as work:
        its_archive = c_library.built(*sys.argv[1:])
        sys.exit(checks.run_all(groups(c_library.made(its_archive, work), its_archive, work)))
