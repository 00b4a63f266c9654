"""Plays sessions by `milter_tool mta` to filters on libmilter: scripted.c with the words of each row of
tests/lib/reports.py, and OpenDKIM, which signs."""
import contextlib
import os
import re
import signal
import subprocess
import tempfile

import peers
from lib import reports

OPENDKIM = '''Mode s
Domain example.org
Selector test
KeyFile {folder}/key
Socket {socket}
InternalHosts {folder}/hosts
Background no
RequireSafeKeys no
UserID {user}
Canonicalization relaxed/simple
'''
SIGNED = '''client 4 "client.example.org" 12345 "127.0.0.1"
helo "client.example.org"
message
sender "<ada@example.org>"
recipient "<bob@example.net>"
header "From" " Ada <ada@example.org>"
header "To" " Bob <bob@example.net>"
header "Subject" " signed"
header "Date" " Mon, 23 Nov 2026 14:00:00 +0000"
body "a body\\r\\n"
end
'''


def compiled(work):
    """The scripted filter."""
    path = os.path.join(work, 'scripted')
    subprocess.run(['cc', '-O2', '-o', path, os.path.join(peers.HERE, 'scripted.c'), '-lmilter', '-lpthread'],
                   check=True)
    return path


def run(program, address, work, session, words=()):
    """What `milter_tool mta` printed of a session, and its status."""
    path = os.path.join(work, 'session')
    with open(path, 'w') as file:
        file.write(session)
    done = subprocess.run([program, 'mta', address, path, *words], stdout=subprocess.PIPE, stderr=subprocess.STDOUT,
                          timeout=peers.SECONDS)
    return done.stdout.decode(errors='replace'), done.returncode


def scripted(checks, program, filter_program, work, address, row):
    """Plays a row to the filter with its words."""
    served = subprocess.Popen([filter_program, address, *row.words])
    try:
        peers.listening(address)
        found = run(program, address, work, row.session, row.options)
        checks.check('mta: %s at %s' % (row.name, address), found, (row.expected, 0))
    finally:
        served.send_signal(signal.SIGKILL)
        served.wait()
        if address.startswith('unix:') and os.path.exists(peers.plain(address)):
            os.remove(peers.plain(address))


@contextlib.contextmanager
def signing(work, address):
    """A run of OpenDKIM that listens at this address, and signs what comes from the hosts of the sessions."""
    folder = tempfile.mkdtemp(dir=work)
    subprocess.run(['openssl', 'genrsa', '-out', os.path.join(folder, 'key'), '2048'], check=True, capture_output=True)
    with open(os.path.join(folder, 'hosts'), 'w') as file:
        file.write('127.0.0.1\n192.0.2.17\n')
    with open(os.path.join(folder, 'conf'), 'w') as file:
        socket = address if address.startswith('inet:') else 'local:' + peers.plain(address)
        file.write(OPENDKIM.format(folder=folder, socket=socket, user='root'))
    served = subprocess.Popen(['opendkim', '-f', '-x', os.path.join(folder, 'conf')])
    try:
        peers.listening(address)
        yield
    finally:
        served.terminate()
        served.wait(peers.SECONDS)


def opendkim(checks, program, work, address):
    """Plays a message to OpenDKIM, and looks for its signature above the header fields."""
    with signing(work, address):
        found, status = run(program, address, work, SIGNED)
    expected = re.compile(
        r'message 1 filter released\n(acted [a-z]+ \d continue\n)*acted eob 1 (continue|accept)\n'
        r'sender "<ada@example\.org>"\nrecipient "<bob@example\.net>"\n'
        r'header "DKIM-Signature" " v=1; a=rsa-sha256; c=relaxed/simple; d=example\.org; s=test;[^"]*"\n'
        + re.escape(SIGNED[SIGNED.index('header'):]))
    checks.check('mta: OpenDKIM at %s' % address, (bool(expected.fullmatch(found)), status, found if not
                                                     expected.fullmatch(found) else ''), (True, 0, ''))


def play(checks, program):
    """Plays each row, over TCP and over Unix sockets."""
    with tempfile.TemporaryDirectory() as work:
        filter_program = compiled(work)
        for address, other in peers.addresses(work):
            for row in reports.rows():
                if row.words is not None:
                    checks.part('mta: ' + row.name, scripted, program, filter_program, work, address, row)
            checks.part('mta: OpenDKIM', opendkim, program, work, other)
