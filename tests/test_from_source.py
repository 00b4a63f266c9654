#!/usr/bin/env python3
"""Does what README.md says in a copy of the repository in which nothing is built: `./milter_tool trace` builds the small
tracer alone; `make` builds the program and the library for C without a proof, and says so; `./milter_tool serve` with the
rules of README.md then refuses the mail that it names; and ./milter_tool ends as the program does, on files, pipes and
standard input, with its faults. Parts that an earlier build of these sources left are taken over.

The last line is 'N passed, M failed'; the status is 1 where one failed.
"""
import os
import shutil
import subprocess
import sys
import tempfile
import time

from lib import first_rules, programs, serving
from lib.programs import BUILDS, TOP, compared, ended, need, tool, written
from lib.runner import report

IGNORED = shutil.ignore_patterns('out', '.git', 'dist', 'build', '__pycache__')
FIRST = b'milter_tool: this is built first, without a proof, in %s; `make prove` proves it\n'
UNPROVED = b'milter_tool 0.1.0 (built without its proof)'


def read(path):
    """The bytes of a file of the repository."""
    with open(os.path.join(TOP, path), 'rb') as file:
        return file.read()


def traced(top):
    """The tracer, which is built at its first call, and not at its second one."""
    given = read('examples/conversation.trace')
    expected = ended([tool(BUILDS[0]), 'trace'], given)
    for said in (FIRST % b'half a minute', b''):
        end = ended([os.path.join(top, 'milter_tool'), 'trace'], given)
        yield compared('trace', end, (0, expected[1], said))
    built = [it for it in os.listdir(os.path.join(top, 'build')) if not it.startswith(('lock', 'parts'))]
    yield None if sorted(built) == ['example_trace', 'example_trace.key'] else 'trace builds %s' % built


def made(top):
    """What `make` builds and says."""
    begun = time.monotonic()
    status, out, errors = ended(['make', '-C', top, '--no-print-directory'])
    print('make: %d s' % (time.monotonic() - begun))
    yield None if status == 0 and UNPROVED in out and b'nothing is proved' in errors else 'make: %s' % ((out, errors),)
    for name in ('libdeiruska.a', 'libdeiruska.so', 'pkgconfig/deiruska.pc'):
        path = os.path.join(top, 'build', 'deiruska', 'lib', name)
        yield None if os.path.exists(path) else '%s is not there' % path


def refuses(top):
    """The first example of README.md: its rules are served, and a session that it has is played and refused."""
    program = os.path.join(top, 'milter_tool')
    rules, session, printed = (''.join(it + '\n' for it in lines) for lines in first_rules.of_readme())
    expected = written(os.path.join(top, 'expected'), printed)
    options = ['--rules', written(os.path.join(top, 'mail.rules'), rules)]
    yield compared('rules --check', ended([program, 'rules', '--check', options[1]]), (0, b'', b''))
    with serving.Service(program, 'inet', top, options, all_stages=False) as served:
        serving.listening(served)
        words = ['mta', served.address, '/dev/stdin', '--wait', '10', '--expect', expected]
        yield compared('mta', ended([program, *words], session.encode()), (0, b'', b''))


def as_the_program(top):
    """./milter_tool beside the program that is built here: files by relative and absolute paths, standard input, a pipe,
    faults, wrong uses, and an output of more than a MiB."""
    trace = read('examples/conversation.trace')
    large = b'> 00010000' + b'4c5800%s00\n' % (b'01' * 65532)
    for words, given in [
            (['trace'], trace), (['trace'], trace + b'> zz\n'), (['trace'], large * 16), (['trace', '--no'], b''),
            (['trace', 'examples/conversation.trace', 'examples/no.trace'], b''),
            (['play', 'examples/policy.session', '--rules=examples/mail.rules'], b''),
            (['session', os.path.join(TOP, 'examples', 'mail.rules')], b''), (['session', '/dev/stdin'], b'client\n')]:
        end = ended([os.path.join(top, 'milter_tool'), *words], given)
        yield compared(' '.join(words), end, ended([tool(BUILDS[0]), *words], given))
    with subprocess.Popen(['cat', 'examples/two_messages.session'], stdout=subprocess.PIPE, cwd=TOP) as pipe:
        piped = subprocess.run([os.path.join(top, 'milter_tool'), 'session', '/dev/stdin'], stdin=pipe.stdout,
                               stdout=subprocess.PIPE, stderr=subprocess.PIPE, check=False)
    expected = ended([tool(BUILDS[0]), 'session', 'examples/two_messages.session'])
    yield compared('a pipe', (piped.returncode, piped.stdout, piped.stderr), expected)


def main():
    need('tool')
    with tempfile.TemporaryDirectory() as folder:
        top, parts = os.path.join(folder, 'deiruska'), os.path.join(programs.BUILD, 'parts')
        shutil.copytree(TOP, top, ignore=IGNORED, symlinks=True)
        if os.path.isdir(parts):
            shutil.copytree(parts, os.path.join(top, 'build', 'parts'))
        return report([step(top) for step in (traced, made, refuses, as_the_program)])


if __name__ == '__main__':
    sys.exit(main())
