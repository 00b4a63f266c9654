"""The programs that the tests run, as they lie in build/: without a proof as `make test` builds them, or proved, as both
compilers built them for `rt ci`. Here are their names, the functions that write a file for one of them and run it, and
those that compare how a run ended with what is expected.
"""
import os
import subprocess
import sys
import tempfile

TOP = os.path.dirname(os.path.dirname(os.path.dirname(os.path.abspath(__file__))))
BUILD = os.path.join(TOP, 'build')
# What the file name of a program ends in, by the compiler that built it.
BUILDS = [''] + ['.by-rattle'] * os.path.isfile(os.path.join(BUILD, 'milter_tool.by-rattle'))
# What the tests call each program: its crate, and its first words.
PROGRAMS = {
    'tool': ('milter_tool', []),
    'loop guard': ('example_loop_guard', []),
    'host': ('milter_tests_driver', ['host']),
    'edits': ('milter_tests_driver', ['edits', 'text']),
    'edit lists': ('milter_tests_driver', ['edits', 'texts']),
    'filter faults': ('milter_tests_driver', ['faults']),
    'payloads': ('milter_tests_driver', ['packets']),
    'mail server': ('milter_tests_driver', ['mta']),
    'links': ('milter_tests_driver', ['links']),
    'world': ('milter_tests_driver', ['world']),
    'connection': ('milter_tests_driver', ['connection']),
}


def path_of(crate, ending):
    """The path of a program of a crate, whose file name ends so."""
    return os.path.join(BUILD, crate + ending)


# The tests of packets, which are a program of their own.
PACKET_TESTS = path_of('milter_tests', '_tests')


def command_of(name, build):
    """The first words of the command that runs a program."""
    crate, words = PROGRAMS[name]
    return [path_of(crate, build)] + words


def tool(build):
    """The path of milter_tool."""
    return command_of('tool', build)[0]


def unproved():
    """What milter_tool says after its version where it was built without its proof, by what stands beside it."""
    with open(os.path.join(BUILD, 'milter_tool.key'), encoding='utf-8') as file:
        return '' if file.read().split()[1] == 'proved' else ' (built without its proof)'


def need(*names):
    """Ends the test where one of these programs isn't built."""
    need_files(command_of(name, build)[0] for name in names for build in BUILDS)


def need_files(paths):
    """Ends the test where one of these files is not there."""
    for path in paths:
        if not os.path.isfile(path):
            sys.exit('%s is missing: run `make test`, which builds it' % os.path.relpath(path, TOP))


def written(path, text):
    """Writes a file, and answers its path."""
    with open(path, 'w', encoding='utf-8') as file:
        file.write(text)
    return path


def ended(command, given=b'', stdout=subprocess.PIPE, **options):
    """Runs a command at the top of the repository, with a file that has these bytes as its standard input. Answers its
    status, output and errors. The options are those of subprocess.run."""
    with tempfile.TemporaryFile() as file:
        file.write(given)
        file.seek(0)
        done = subprocess.run(
            command, stdin=file, stdout=stdout, stderr=subprocess.PIPE, cwd=TOP, check=False, **options)
    return done.returncode, done.stdout, done.stderr


def described(end):
    """How a run ended, in words."""
    return 'status %d, printed %r and %r' % (end[0], end[1][-200:], end[2][-200:])


def compared(name, end, expected):
    """Says what was wrong with the run of this name, where its status, output or errors are not as expected; None where
    they are. Of long texts it has the part with the first difference."""
    differences = []
    for what, one, other in zip(['status', 'output', 'errors'], end, expected):
        if one != other and isinstance(one, bytes) and isinstance(other, bytes):
            start = max(len(os.path.commonprefix([one, other])) - 40, 0)
            one, other = one[start:start + 200], other[start:start + 200]
        if one != other:
            differences.append('%s %r, expected %r' % (what, one, other))
    return '%s: %s' % (name, '; '.join(differences)) if differences else None
