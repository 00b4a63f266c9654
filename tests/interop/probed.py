"""Tries filters by `milter_tool probe`, for tests/interop.sh: passing.c on Sendmail's libmilter, OpenDKIM, and a filter
on pymilter where that is installed. Each kind of trials is made, nothing breaks after any of them, and the filter is
there at the end. In passing.c nothing breaks within a trial either."""
import contextlib
import os
import re
import subprocess
import sys
import tempfile

import mta
import peers

# How long all trials may take, in seconds.
SECONDS = 1800
# The Pythons that may have pymilter: the one that runs this, and Debian's.
PYTHONS = [sys.executable, '/usr/bin/python3']
# How many kinds of trials there are.
KINDS = 9
SESSION = '''client 4 "client.example.org" 12345 "127.0.0.1"
helo "client.example.org"
message
sender "<ada@example.org>"
recipient "<bob@example.net>"
recipient "<cleo@example.net>"
header "From" " Ada <ada@example.org>"
header "Date" " Mon, 23 Nov 2026 14:00:00 +0000"
body "a body\\r\\n"
end
'''
PYMILTER = '''import sys, Milter
class Passing(Milter.Base):
    pass
Milter.factory = Passing
Milter.set_flags(0)
Milter.runmilter('passing', sys.argv[1], 30)
'''


@contextlib.contextmanager
def running(address, command):
    """A run of a filter that listens at this address."""
    served = subprocess.Popen(command)
    try:
        peers.listening(address)
        yield
    finally:
        served.kill()
        served.wait(peers.SECONDS)
        if address.startswith('unix:') and os.path.exists(peers.plain(address)):
            os.remove(peers.plain(address))


def passing(work):
    """The filter on libmilter."""
    path = os.path.join(work, 'passing')
    subprocess.run(['cc', '-O2', '-o', path, os.path.join(peers.HERE, 'passing.c'), '-lmilter', '-lpthread'],
                   check=True)
    return path


def python_with_pymilter():
    """A Python that has pymilter, if there is one."""
    for python in PYTHONS:
        if subprocess.run([python, '-c', 'import Milter'], capture_output=True, check=False).returncode == 0:
            return python
    return None


def probe(checks, program, work, name, address, kinds=KINDS, is_strict=False):
    """Makes all trials of a filter: nothing breaks after one, and so many kinds are tried. What broke within one is
    printed, and is no failure unless it is strict: filters on libmilter reply to offers and to K in ways of their
    own."""
    path = os.path.join(work, 'session')
    with open(path, 'w') as file:
        file.write(SESSION)
    done = subprocess.run([program, 'probe', address, path], stdin=subprocess.DEVNULL, capture_output=True,
                          timeout=SECONDS, check=False)
    lines = done.stdout.decode().splitlines()
    tallies = [line for line in lines if re.fullmatch(r'\S+ \d+ trials \d+ broke', line)]
    within = [line for line in lines if ' in ' in line]
    for line in within:
        print('probe: %s at %s: %s' % (name, address, line), flush=True)
    broke = [line for line in lines if ' after ' in line] + (within if is_strict else [])
    checks.check('probe: %s at %s' % (name, address), (broke, len(tallies), done.stderr), ([], kinds, b''))


def play(checks, program):
    """Tries each filter, over TCP and over Unix sockets."""
    with tempfile.TemporaryDirectory() as work:
        path = passing(work)
        python = python_with_pymilter()
        for address, other in peers.addresses(work):
            with running(address, [path, address]):
                checks.part('probe: libmilter', probe, program, work, 'libmilter', address, KINDS, True)
            with mta.signing(work, other):
                checks.part('probe: OpenDKIM', probe, program, work, 'OpenDKIM', other)
            if python is None:
                print('pymilter: not run, it is not installed')
                continue
            with running(address, [python, '-c', PYMILTER, address]):
                # It is sent no stage of a message before the end, so that none is given up after one.
                checks.part('probe: pymilter', probe, program, work, 'pymilter', address, KINDS - 1)
