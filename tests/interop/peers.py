"""What the parts of tests/interop.sh share: the filter under test, its addresses, and the count of checks."""
import os
import re
import shutil
import socket
import subprocess
import sys
import tempfile
import threading
import time

HERE = os.path.dirname(os.path.abspath(__file__))
TOP = os.path.dirname(os.path.dirname(HERE))
# What imports this may import what tests/lib has.
sys.path.insert(0, os.path.join(TOP, 'tests'))
SECONDS = 60
# The lines of its log with which `milter_tool serve` begins.
STARTS = re.compile('event="(start|limit|listen)" ')


class Checks:
    """How many checks passed and failed."""

    def __init__(self):
        self.passed = self.failed = 0

    def part(self, name, play, *given):
        """Plays a part, and counts a check that failed where it ends early."""
        try:
            play(self, *given)
        except (Exception, SystemExit) as error:  # whatever it is, the other parts are played
            self.check(name, repr(error), None)

    def check(self, name, found, expected):
        """Counts a check: what was found is what was expected."""
        if found == expected:
            self.passed += 1
        else:
            self.failed += 1
            print('FAILED: %s\n  found    %r\n  expected %r' % (name, found, expected), flush=True)


def free_port():
    """A port that nothing listens at."""
    with socket.socket() as listener:
        listener.bind(('127.0.0.1', 0))
        return listener.getsockname()[1]


def addresses(work):
    """A TCP and a Unix address for a filter, and for a recorder before it."""
    yield 'inet:%d@127.0.0.1' % free_port(), 'inet:%d@127.0.0.1' % free_port()
    path = os.path.join(work, 'filter.%d' % free_port())
    yield 'unix:' + path, 'unix:' + path + '.recorded'


def plain(address):
    """An address as HOST:PORT, or a path."""
    if address.startswith('unix:'):
        return address[len('unix:'):]
    port, host = address[len('inet:'):].split('@')
    return '%s:%s' % (host, port)


def listening(address):
    """Waits until there is a listener at an address, without connecting to it."""
    for _ in range(10 * SECONDS):
        if address.startswith('unix:'):
            found = os.path.exists(address[len('unix:'):])
        else:
            port = int(address[len('inet:'):].split('@')[0])
            with open('/proc/net/tcp') as sockets:
                found = any(line.split()[1].endswith(':%04X' % port) and line.split()[3] == '0A'
                            for line in list(sockets)[1:])
        if found:
            return
        time.sleep(0.1)
    raise TimeoutError('no listener at ' + address)


def connected(address):
    """A connection to the address."""
    if address.startswith('unix:'):
        connection = socket.socket(socket.AF_UNIX)
        connection.connect(plain(address))
    else:
        host, port = plain(address).split(':')
        connection = socket.create_connection((host, int(port)))
    connection.settimeout(SECONDS)
    return connection


def rules_of(name):
    """The rule file of this name."""
    return os.path.join(HERE, name + '.rules')


class Filter:
    """A run of the program as a filter that listens at the address for so many connections."""

    def __init__(self, program, address, rules, count):
        self.address = address
        self.process = subprocess.Popen([program, 'filter', address, '--rules', rules, '--count', str(count)],
                                        stdout=subprocess.PIPE, stderr=subprocess.STDOUT)

    def __enter__(self):
        listening(self.address)
        return self

    def __exit__(self, *_):
        self.process.kill()
        self.process.wait()
        if self.address.startswith('unix:') and os.path.exists(plain(self.address)):
            os.remove(plain(self.address))

    def finished(self):
        """What it printed, and its status."""
        return finished(self.process)


class Service:
    """A run of the program that serves many connections at once at the address. To a Unix socket anyone may connect, or
    where a group is given that group alone."""

    def __init__(self, program, address, rules, group=None, options=()):
        self.address = address
        mode = ['--mode', '666'] if address.startswith('unix:') and group is None else []
        self.process = subprocess.Popen([program, 'serve', address, '--rules', rules, *options] + mode, bufsize=0,
                                        group=group, stdout=subprocess.PIPE, stderr=subprocess.STDOUT)

    def __enter__(self):
        listening(self.address)
        return self

    def __exit__(self, *_):
        self.process.kill()
        self.process.wait()

    def ended(self, count=0):
        """What it has printed but for the lines of the log with which it begins; it is ended, once these are so many
        lines."""
        too_late = threading.Timer(SECONDS, self.process.kill)
        too_late.start()
        lines = []
        while len(lines) < count and (line := self.process.stdout.readline()):
            lines += [] if STARTS.match(line.decode(errors='replace')) else [line]
        too_late.cancel()
        self.process.terminate()
        rest = finished(self.process)[0].splitlines(keepends=True)
        rest = [line for line in rest if not STARTS.match(line)]
        return b''.join(lines).decode(errors='replace') + ''.join(rest)


class Recording:
    """A run of `milter_tool record`, which passes one connection to the recorder on to the address."""

    def __init__(self, program, recorder, address, folder=None):
        self.directory = tempfile.mkdtemp(dir=folder)
        self.process = subprocess.Popen([program, 'record', recorder, address, self.directory, '--count', '1'],
                                        stdout=subprocess.PIPE)
        listening(recorder)

    def trace(self):
        """The path of what was recorded, once the connection has ended."""
        finished(self.process)
        return os.path.join(self.directory, '1.trace')

    def lines(self, program):
        """The lines of `milter_tool trace` for it; nothing is left of it then."""
        printed = subprocess.run([program, 'trace', self.trace()], stdout=subprocess.PIPE).stdout
        shutil.rmtree(self.directory)
        return printed.decode().splitlines()


def finished(process):
    """What a process printed, and its status; it is ended where it doesn't end by itself."""
    try:
        output, _ = process.communicate(timeout=SECONDS)
    except subprocess.TimeoutExpired:
        process.kill()
        output, _ = process.communicate()
    return output.decode(errors='replace'), process.returncode


def answering(program, rules):
    """A TCP address at which each connection is answered by a process of its own, as a super-server does it; and a
    function that ends this."""
    listener = socket.create_server(('127.0.0.1', 0))
    answers = []

    def accept():
        while True:
            try:
                connection, _ = listener.accept()
            except OSError:
                return
            with connection:
                answers.append(subprocess.Popen([program, 'answer', '--rules', rules], stdin=connection,
                                                stdout=connection))

    def end():
        """The statuses of the processes."""
        listener.shutdown(socket.SHUT_RDWR)
        listener.close()
        return [answer.wait(SECONDS) for answer in answers]

    threading.Thread(target=accept, daemon=True).start()
    return 'inet:%d@127.0.0.1' % listener.getsockname()[1], end
