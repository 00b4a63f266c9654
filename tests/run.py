#!/usr/bin/env python3
"""Runs each test on what is built.

    tests/run.py [--gate]

Those that take one processor for minutes run beside the others. With --gate it first installs what is missing of the
Debian packages of tests/debian.txt, has `rt ci` prove, try and run all of it, and puts what that built in build/. Each
test's output is printed when it ends; the last line is 'N passed, M failed', and the status is 1 where one failed.
"""
import concurrent.futures
import os
import re
import resource
import subprocess
import sys
import time

TESTS = os.path.dirname(os.path.abspath(__file__))
TOP = os.path.dirname(TESTS)
# What takes one processor for minutes, the longest first.
LONG = ['refused_growth', 'from_source', 'build', 'serve_refused_growth']
# What takes the library for C, which the gate builds meanwhile.
OF_LIBRARY = ['smtp_server', 'greylist', 'packages', 'c_library']
COUNT = re.compile(r'^(\d+) passed, (\d+) failed', re.MULTILINE)


def tool(*words):
    """A command that runs a script of tools/."""
    return [sys.executable, os.path.join(TOP, 'tools', words[0]), *words[1:]]


def run(command, name):
    """Runs a command whose last line counts what passed and failed, and prints what it printed. Answers the count."""
    begun = time.monotonic()
    done = subprocess.run(command, stdout=subprocess.PIPE, stderr=subprocess.STDOUT, stdin=subprocess.DEVNULL,
                          text=True, errors='replace', check=False, cwd=TOP)
    counts = COUNT.findall(done.stdout)
    passed, failed = map(int, counts[-1]) if counts else (0, 1)
    if done.returncode != 0 and not failed:
        failed = 1
    print('== %s: %d s\n%s' % (name, time.monotonic() - begun, done.stdout), end='', flush=True)
    return passed, failed


def install():
    """Installs what is missing of the packages that the tests take."""
    with open(os.path.join(TESTS, 'debian.txt'), encoding='utf-8') as file:
        names = [line.strip() for line in file if line.strip() and not line.startswith('#')]
    state = ['dpkg-query', '--show', '--showformat=${db:Status-Status}']
    missing = [it for it in names if subprocess.run(
        [*state, it], stdout=subprocess.PIPE, stderr=subprocess.DEVNULL, text=True, check=False).stdout != 'installed']
    if missing:
        print('installing %s' % ' '.join(missing), flush=True)
        environment = {**os.environ, 'DEBIAN_FRONTEND': 'noninteractive'}
        for words in (['update', '-qq'], ['install', '-y', '-qq', '--no-install-recommends', *missing]):
            subprocess.run(['apt-get', *words], stdout=subprocess.DEVNULL, env=environment, check=False)


def proved():
    """Has `rt ci` prove all of it, and answers its count. One processor a crate: a second one costs a quarter more."""
    workers = subprocess.run(tool('prove.py', '--workers'), stdout=subprocess.PIPE, text=True, check=True).stdout.strip()
    with subprocess.Popen(tool('processor_time.py', os.path.join(TOP, 'tools', 'crate_seconds.txt'))) as watcher:
        with subprocess.Popen(tool('rt.py', 'ci'), stdout=subprocess.PIPE, text=True, errors='replace', cwd=TOP,
                              stdin=subprocess.DEVNULL, env={**os.environ, 'RT_JOBS': workers}) as gate:
            counts = [(0, 1)]
            for line in gate.stdout:
                print(line, end='', flush=True)
                counts += [tuple(map(int, it)) for it in COUNT.findall(line)]
        watcher.terminate()
    placed = subprocess.run(tool('proved.py'), check=False).returncode
    passed, failed = counts[-1]
    return passed, failed or int(gate.returncode != 0 or placed != 0)


def tested(is_gate):
    """Runs each test: the long ones beside the others, of which one runs at a time. Answers the counts."""
    names = sorted(it[len('test_'):-len('.py')] for it in os.listdir(TESTS) if re.fullmatch(r'test_\w+\.py', it))
    lanes = max(len(os.sched_getaffinity(0)) // 2, 1)
    with concurrent.futures.ThreadPoolExecutor(lanes) as beside, concurrent.futures.ThreadPoolExecutor(1) as alone:
        library = beside.submit(run, tool('proved.py', '--library'), 'library for C') if is_gate else None

        def test(name):
            if library and name in OF_LIBRARY:
                library.result()
            return run([sys.executable, os.path.join(TESTS, 'test_%s.py' % name)], name)

        running = [beside.submit(test, name) for name in LONG]
        running += [alone.submit(test, name) for name in names if name not in LONG + OF_LIBRARY]
        running += [alone.submit(test, name) for name in OF_LIBRARY]
        return [it.result() for it in running + [library] * is_gate]


def main():
    is_gate = sys.argv[1:] == ['--gate']
    if sys.argv[1:] and not is_gate:
        sys.exit(__doc__)
    if is_gate:
        install()
    counts = [proved()] if is_gate else []
    counts += tested(is_gate)
    spent = resource.getrusage(resource.RUSAGE_CHILDREN)
    print('processor minutes: %.0f' % ((spent.ru_utime + spent.ru_stime) / 60))
    passed, failed = map(sum, zip(*counts))
    print('%d passed, %d failed' % (passed, failed))
    return 1 if failed or not passed else 0


if __name__ == '__main__':
    sys.exit(main())
