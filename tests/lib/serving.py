"""Runs `milter_tool filter` and `milter_tool serve`, and makes connections to them and to other filters."""
import itertools
import os
import re
import resource
import select
import socket
import struct
import subprocess
import tempfile
import time

from lib import checks

SECONDS = 30
PORTS = itertools.count(10000)
# The kinds of sockets.
KINDS = ['inet', 'unix']
# The lines of its log with which `milter_tool serve` begins.
STARTS = re.compile(b'event="(start|limit|listen)" ')


class Filter:
    """A run of `milter_tool filter` on a socket of this kind, with these options. What `started` has are options of
    subprocess.Popen."""

    subcommand = 'filter'

    def __init__(self, program, kind, folder, options, files=None, stdout=subprocess.PIPE, host=None, **started):
        self.at, self.address = place_of(kind, folder, host)
        self.ended = 0
        limit = None if files is None else lambda: resource.setrlimit(resource.RLIMIT_NOFILE, (files, files))
        self.process = subprocess.Popen(
            [program, self.subcommand] + (options + [self.address] if kind == 'inet' else [self.address] + options),
            bufsize=0, stdin=subprocess.DEVNULL, stdout=stdout, stderr=subprocess.PIPE, preexec_fn=limit, **started)

    def __enter__(self):
        return self

    def __exit__(self, *_):
        self.process.kill()
        self.process.communicate()

    def connected(self):
        """A connection, made as soon as the program listens."""
        return connected(self.at, lambda: self.process.poll() is not None)

    def expect_line(self, *endings):
        """Reads the line of the next connection that ends, which has one of these endings."""
        self.ended += 1
        lines = [b'connection %d %s\n' % (self.ended, ending) for ending in endings]
        ready, _, _ = select.select([self.process.stdout], [], [], SECONDS)
        line = self.process.stdout.readline() if ready else b'none in time'
        checks.expect('line', line, line if line in lines else lines)

    def expect_end(self, status, out, err):
        """Waits for the end of the run, which is this one."""
        found = self.process.communicate(timeout=SECONDS)
        checks.expect('end', (self.process.returncode,) + found, (status, out, err))


class Service(Filter):
    """A run of `milter_tool serve` on a socket of this kind, with these options; where it has rules it asks for all
    stages, unless that is left to it. Its lines are in a file, since they come as connections end, in any order."""

    subcommand = 'serve'

    def __init__(self, program, kind, folder, options=(), files=None, all_stages=True, **started):
        self.made = 0
        stages = ['--all-stages'] if all_stages and '--rules' in options else []
        self.out = os.path.join(tempfile.mkdtemp(dir=folder), 'lines')
        with open(self.out, 'wb') as lines:
            super().__init__(program, kind, folder, list(options) + stages, files, lines, **started)

    def connected(self):
        """A connection, which has the next number where the one before is made by now."""
        connection = super().connected()
        self.made += 1
        if connection.family != socket.AF_UNIX:
            connection.setsockopt(socket.IPPROTO_TCP, socket.TCP_NODELAY, 1)
        return connection

    def lines(self):
        """The lines of connections that are printed: of each its number, and how it ended."""
        return [tuple(line.split(b' ', 2)[1:]) for line in self.printed() if not line.startswith(b'lost ')]

    def lost(self):
        """How many lines were lost, as the lines that are printed count them."""
        return sum(int(line.split()[1]) for line in self.printed() if line.startswith(b'lost '))

    def printed(self):
        """The whole lines that are printed."""
        with open(self.out, 'rb') as lines:
            return lines.read().split(b'\n')[:-1]

    def expect_line(self, number, *endings):
        """Waits until the connection of this number has a line, which has one of these endings."""
        found = waited_for(lambda: [ending for count, ending in self.lines() if count == b'%d' % number])
        checks.expect('line of %d' % number, found, [found[0]] if found and found[0] in endings else [endings])

    def expect_all(self, *endings):
        """Waits until each connection that was made has a line; it has one, with one of these endings."""
        lines = waited_for(lambda: self.lines() if len(self.lines()) >= self.made else None) or self.lines()
        numbers = sorted(int(number) for number, _ in lines)
        checks.expect('numbers', numbers == list(range(1, self.made + 1)), True)
        others = [line for line in lines if line[1] not in endings]
        checks.expect('lines', others[:5], [])

    def log_line(self):
        """The next line of its log, but for those with which it begins; or that none came in time."""
        while True:
            ready, _, _ = select.select([self.process.stderr], [], [], SECONDS)
            line = self.process.stderr.readline() if ready else b'none in time'
            if not STARTS.match(line):
                return line

    def log_lines(self):
        """All lines of its log that it has written, but for those with which it begins; the run is ended."""
        self.process.kill()
        return [line for line in self.process.stderr.read().splitlines(keepends=True) if not STARTS.match(line)]

    def faults(self):
        """The errors that it has written on standard error, one a line; the run is ended."""
        return faults_in(b''.join(self.log_lines()))

    def memory(self):
        """The KiB of memory that it has."""
        with open('/proc/%d/status' % self.process.pid) as status:
            return next(int(line.split()[1]) for line in status if line.startswith('VmRSS:'))

    def reserved(self):
        """The KiB of data for which it has room, also where they are no memory yet."""
        with open('/proc/%d/status' % self.process.pid) as status:
            return next(int(line.split()[1]) for line in status if line.startswith('VmData:'))

    def descriptors(self):
        """How many descriptors it has open."""
        return len(os.listdir('/proc/%d/fd' % self.process.pid))

    def seconds(self):
        """The processor time that it took."""
        with open('/proc/%d/stat' % self.process.pid) as stat:
            return sum(map(int, stat.read().rpartition(')')[2].split()[11:13])) / os.sysconf('SC_CLK_TCK')

    def expect_goes_on(self):
        """It runs, and has printed no fault."""
        if self.process.poll() is not None:
            raise checks.Wrong('ended with status %d: %r' % (self.process.returncode, self.process.stderr.read()))


def faults_in(errors):
    """The errors of these lines, and the words that explain them, one a line: what a line of the log about the service
    has as these, and any other line as it is."""
    found = []
    for line in errors.splitlines(keepends=True):
        if not line.startswith(b'event="'):
            found.append(line)
        elif not line.startswith(b'event="end"'):
            values = re.findall(rb' (?:error|why)="((?:[^"\\]|\\.)*)"', line)
            found += [unquoted(value) + b'\n' for value in values]
    return b''.join(found)


def unquoted(value):
    """The bytes of a value that is quoted as texts are."""
    plain = {b'n': b'\n', b'r': b'\r', b't': b'\t'}
    return re.sub(rb'\\(x[0-9a-f]{2}|.)', lambda it: bytes([int(it[1][1:], 16)]) if len(it[1]) == 3 else plain.get(it[1], it[1]),
                  value)


def waited_for(look):
    """What this answers once it is something, or at last."""
    until = time.monotonic() + SECONDS
    found = look()
    while not found and time.monotonic() < until:
        time.sleep(0.002)
        found = look()
    return found


def place_of(kind, folder, host=None):
    """A free place for a socket of this kind, and its address as the program reads it. Each process has a host of its
    own, where none is named: so no port is one that another has, or that the system gives to a connection."""
    if kind == 'unix':
        path = os.path.join(tempfile.mkdtemp(dir=folder), 'socket')
        return path, 'unix:' + path
    host, port = host or '127.%d.%d.1' % divmod(os.getpid() % 65536, 256), next(PORTS)
    return (host, port), 'inet:%d@%s' % (port, host)


def connection_to(place):
    """A connection to this place."""
    if not isinstance(place, str):
        return socket.create_connection(place, SECONDS)
    connection = socket.socket(socket.AF_UNIX)
    connection.settimeout(SECONDS)
    try:
        connection.connect(place)
    except OSError:
        connection.close()
        raise
    return connection


def connected(place, is_over):
    """A connection to this place, made as soon as a program listens there, unless that is over."""
    until = time.monotonic() + SECONDS
    while True:
        try:
            return connection_to(place)
        except OSError:
            if is_over() or time.monotonic() > until:
                raise checks.Wrong('no connection') from None
            time.sleep(0.001)


def listens(place):
    """Whether a program listens at this place, which is seen without a connection to it."""
    if isinstance(place, str):
        with open('/proc/net/unix') as sockets:
            return any(line.split()[3] == '00010000' and line.rstrip().endswith(' ' + place) for line in sockets)
    number = '%08X:%04X' % (struct.unpack('=I', socket.inet_aton(place[0]))[0], place[1])
    with open('/proc/net/tcp') as sockets:
        return any(line.split()[1:4:2] == [number, '0A'] for line in sockets)


def listening(served, pause=0.001):
    """Waits until a run of the program listens, which is looked at again after so many seconds."""
    until = time.monotonic() + SECONDS
    while not listens(served.at):
        if served.process.poll() is not None or time.monotonic() > until:
            raise checks.Wrong('no listener')
        time.sleep(pause)


def received(connection, count):
    """So many bytes of a connection, or fewer where its far end ends it before."""
    found = b''
    while len(found) < count:
        piece = connection.recv(count - len(found))
        if not piece:
            break
        found += piece
    return found


def expect_replies(connection, replies):
    """Reads as many bytes as these replies have."""
    checks.expect('replies', received(connection, len(replies)), replies)


def expect_closed(connection):
    """Reads the end of a connection that the filter has closed."""
    try:
        checks.expect('after the replies', connection.recv(1), b'')
    except ConnectionResetError:
        pass


def reset_at_end(connection):
    """Has the connection reset when it is closed."""
    connection.setsockopt(socket.SOL_SOCKET, socket.SO_LINGER, struct.pack('ii', 1, 0))
