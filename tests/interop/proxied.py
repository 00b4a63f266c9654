"""Three `milter_tool serve` behind HAProxy, by the recipe of docs/SERVICE.md, for tests/interop.sh: a Postfix under
load while one of them is killed, another one is drained and started with other rules, and the first one comes back.
And by the recipe's other check, one that doesn't answer.

The rules of each have a name. They refuse a recipient by a text with that name, and add a header field with it to what
passes: so each reply and each message that is delivered says by which rules it was judged.
"""
import collections
import contextlib
import csv
import os
import re
import shutil
import signal
import socket
import subprocess
import tempfile
import time

import cookbook
import load
import mail_server
import peers
from lib import first_rules, programs, serving
from mail_server import FROM, TO

RULES = """\
rules 2
at rcpt when rcpt-address is "refused@example.net" do code "550 5.1.1 Refused by {name}"
at eob do add-header "X-Judged" "{name}"
"""
# What Debian's haproxy.cfg has above the recipe, but for the log and the socket.
ABOVE = """\
global
    log stdout format raw local0
    stats socket {work}/admin.sock mode 660 level admin
    stats timeout 30s

defaults
    log global
    mode http
    option httplog
    option dontlognull
    timeout connect 5000
    timeout client 50000
    timeout server 50000

"""
# The words of the recipe before its lines, and before those of the check that negotiates, and behind which these go.
LINES, CHECK, BEHIND = 'at the end of `/etc/haproxy/haproxy.cfg`', 'go below `option tcplog`', 'option tcplog\n'
LISTENS = '127.0.0.1:8891'
SERVERS = ['filter1', 'filter2', 'filter3']
# The rules of each server at first, and then of the one that is started with others, and of the one that comes back.
FIRST, OTHER, BACK = dict(zip(SERVERS, ['first', 'second', 'third'])), 'other', 'back'
NAMES = [*FIRST.values(), OTHER, BACK]
REFUSALS = ['550 5.1.1 Refused by ' + name for name in NAMES]
# How many clients are within a message at each server, and how many messages the load has at least between two events.
BEGUN, SOME = 2, 100
# How long a client may wait for the reply to a message whose `serve` is stopped, in seconds.
TOOK = 20


def missing():
    """What there is not of what HAProxy needs, or None."""
    return None if shutil.which('haproxy') else 'no haproxy'


def block_of(words):
    """The text of the recipe's block after these words."""
    return '\n'.join(first_rules.block_after(first_rules.text_of('docs', 'SERVICE.md'), words)) + '\n'


class Proxy:
    """A running HAProxy with the recipe, at this address, whose servers are at these addresses; it may have the check
    that negotiates."""

    def __init__(self, work, address, addresses, negotiates):
        self.address, self.socket = address, os.path.join(work, 'admin.sock')
        self.lines = os.path.join(work, 'haproxy.log')
        text = block_of(LINES).replace(LISTENS, peers.plain(address))
        if negotiates:
            text = text.replace(BEHIND, BEHIND + block_of(CHECK))
        for name, each in addresses.items():
            text = re.sub(r'(server %s) \S+' % name, r'\1 ' + peers.plain(each), text)
        self.file = programs.written(os.path.join(work, 'haproxy.cfg'), ABOVE.format(work=work) + text)

    def __enter__(self):
        with open(self.lines, 'wb') as lines:
            self.process = subprocess.Popen(['haproxy', '-db', '-f', self.file], stdout=lines, stderr=lines)
        try:
            peers.listening(self.address)
        except TimeoutError:
            self.__exit__()
            raise
        return self

    def __exit__(self, *_):
        self.process.kill()
        self.process.wait()

    def checked(self):
        """What it says of its settings."""
        done = subprocess.run(['haproxy', '-c', '-f', self.file], stdout=subprocess.PIPE, stderr=subprocess.STDOUT)
        return done.stdout.decode(), done.returncode

    def asked(self, command):
        """What it replies to a command of its socket."""
        with socket.socket(socket.AF_UNIX) as connection:
            connection.settimeout(peers.SECONDS)
            connection.connect(self.socket)
            connection.sendall(command.encode() + b'\n')
            with connection.makefile() as replies:
                return replies.read()

    def of(self, server):
        """What it counts of a server, by the names of its columns."""
        names, *rows = csv.reader(self.asked('show stat deiruska 4 -1').splitlines())
        return next(dict(zip(names, row)) for row in rows if row[1:2] == [server])

    def open_at(self, server):
        """How many connections a server has."""
        return int(self.of(server)['scur'])

    def made_to(self, server):
        """How many connections were made to a server."""
        return int(self.of(server)['stot'])

    def set(self, server, state):
        """Sets the state of a server, as the recipe does."""
        self.asked('set server deiruska/%s state %s' % (server, state))

    def wait(self, server, status):
        """Waits until a server has this status."""
        if not serving.waited_for(lambda: self.of(server)['status'].startswith(status)):
            raise TimeoutError('%s is %s, and not %s' % (server, self.of(server)['status'], status))

    def wait_open(self, server, count):
        """Waits until a server has no more connections than these."""
        if not serving.waited_for(lambda: self.open_at(server) <= count):
            raise TimeoutError('%s has %d connections, and not %d' % (server, self.open_at(server), count))


def endings_of(lines):
    """How the connections ended that have a line in these lines of `serve`."""
    return [line.split(' ', 2)[2] for line in lines.splitlines() if line.startswith('connection ')]


class Machines:
    """What plays: a Postfix, its proxy, a `serve` for each of the proxy's servers, the load, and clients within a
    message, by their server, each with the number of its message. Their replies are counted with those of the load."""

    def __init__(self, program, work, stack, negotiates):
        self.program, self.work, self.stack = program, work, stack
        # Ports that the system gives to no connection while a `serve` is away.
        self.places = {name: serving.place_of('inet', work) for name in SERVERS}
        self.services, self.begun = {}, {name: [] for name in SERVERS}
        # How many connections were made to a server before its `serve` was started.
        self.before = dict.fromkeys(SERVERS, 0)
        self.server = cookbook.Server(program, work)
        addresses = {name: address for name, (_, address) in self.places.items()}
        self.proxy = Proxy(work, self.server.filter, addresses, negotiates)
        self.load = load.Load(self.server)

    def serve(self, name, rules):
        """Starts the `serve` of a server, with the rules of this name."""
        path = programs.written(os.path.join(self.work, rules + '.rules'), RULES.format(name=rules))
        place, address = self.places[name]
        self.services[name] = self.stack.enter_context(peers.Service(self.program, address, path))
        if not serving.waited_for(lambda: serving.listens(place)):
            raise TimeoutError('no listener at ' + address)

    def serve_again(self, name, rules):
        """Does so where there was one before."""
        self.before[name] = self.proxy.made_to(name)
        self.serve(name, rules)

    def begin(self, number):
        """Has a client send a message up to its recipient, which is taken."""
        made = {name: self.proxy.made_to(name) for name in SERVERS}
        client = self.server.connected('inet')
        client.ehlo()
        client.mail(FROM)
        client.rcpt(TO)
        at, = [name for name in SERVERS if self.proxy.made_to(name) > made[name]]
        self.begun[at].append((number, client))

    def finish(self, name):
        """The replies to the rest of each message that was begun at a server. One that is deferred is sent again, first
        on the same connection."""
        replies = []
        for number, client in self.begun.pop(name):
            text = load.message(number)
            replies.append(cookbook.data_said(client, text))
            self.load.replies[number] = replies[-1]
            if replies[-1] == self.server.deferred:
                replies.append(mail_server.reply(client.sendmail, FROM, [TO], text))
                self.load.deferred += 2 * [number]
                self.load.settle(number)
            client.quit()
        return replies

    def expect_lines(self, checks, name):
        """Checks that the `serve` of a server has a line for each connection that was made to it, and for no other; and
        ends it."""
        count = self.proxy.made_to(name) - self.before[name]
        endings = endings_of(self.services[name].ended(count))
        checks.check('proxied, %s: lines' % name, collections.Counter(endings), {'quit': count})


def play_killed(checks, machines):
    """The first one is killed: a client of the load has a message deferred once at most. One that is within a message
    has it deferred, and so the next one on that connection."""
    machines.services['filter1'].process.kill()
    machines.load.settle_more(SOME)
    machines.proxy.wait('filter1', 'DOWN')
    machines.load.settle_more(SOME)
    deferred = len(machines.load.deferred)
    checks.check('proxied, killed: %d deferred' % deferred, deferred <= load.CLIENTS, True)
    checks.check('proxied, killed: within a message', machines.finish('filter1'),
                 2 * BEGUN * [machines.server.deferred])
    lines, _ = peers.finished(machines.services['filter1'].process)
    checks.check('proxied, killed: lines', set(endings_of(lines)) - {'quit'}, set())


def play_drained(checks, machines):
    """The last one is drained and started with other rules: nothing is deferred, also not what is within a message."""
    proxy, deferred = machines.proxy, len(machines.load.deferred)
    proxy.set('filter3', 'drain')
    proxy.wait_open('filter3', BEGUN)
    made = proxy.made_to('filter3')
    machines.load.settle_more(SOME)
    checks.check('proxied, drained: connections', proxy.made_to('filter3'), made)
    checks.check('proxied, drained: within a message', machines.finish('filter3'), BEGUN * ['taken'])
    proxy.wait_open('filter3', 0)
    machines.expect_lines(checks, 'filter3')
    machines.serve_again('filter3', OTHER)
    proxy.set('filter3', 'ready')
    proxy.wait('filter3', 'UP')
    machines.load.settle_more(SOME)
    checks.check('proxied, drained: deferred', len(machines.load.deferred), deferred)


def play_back(checks, machines):
    """The first one is started again: it has connections without a command, and nothing is deferred."""
    deferred = len(machines.load.deferred)
    machines.serve_again('filter1', BACK)
    machines.proxy.wait('filter1', 'UP')
    machines.load.settle_more(SOME)
    checks.check('proxied, back: deferred', len(machines.load.deferred), deferred)


def check_messages(checks, machines):
    """Every message is either refused by the rules of one `serve`, or delivered once, judged by the rules of one."""
    replies = machines.load.replies
    taken = sorted(number for number, reply in replies.items() if reply == 'taken')
    refused = {number: reply for number, reply in replies.items() if reply != 'taken'}
    checks.check('proxied: refused', (set(refused), set(refused.values()) - set(REFUSALS)),
                 ({number for number in replies if number % 2}, set()))
    texts = machines.server.arrived()
    delivered = sorted(int(mail_server.fields(text, 'Subject')[0].split()[1]) for text in texts)
    checks.check('proxied: delivered', delivered, taken)
    judged = collections.Counter(tuple(mail_server.fields(text, 'X-Judged')) for text in texts)
    checks.check('proxied: judged %s' % judged, set(judged), {('X-Judged: ' + name,) for name in NAMES})
    print('proxied: %d messages, %d refused and %d delivered; %d tries deferred'
          % (len(replies), len(refused), len(delivered), len(machines.load.deferred)), flush=True)


@contextlib.contextmanager
def started(checks, program, negotiates):
    """All of it, started, with clients within a message at each server; HAProxy may have the check that negotiates."""
    with contextlib.ExitStack() as stack:
        work = stack.enter_context(tempfile.TemporaryDirectory())
        os.chmod(work, 0o755)
        machines = Machines(program, work, stack, negotiates)
        checks.check('proxied: settings', machines.proxy.checked(), ('Configuration file is valid\n', 0))
        for name, rules in FIRST.items():
            machines.serve(name, rules)
        for part in (machines.proxy, machines.server):
            stack.enter_context(part)
        for at in range(BEGUN * len(SERVERS)):
            machines.begin(load.MOST + 2 * at)
        checks.check('proxied: balance', {name: len(begun) for name, begun in machines.begun.items()},
                     dict.fromkeys(SERVERS, BEGUN))
        yield machines


def play_events(checks, program):
    """The events under load, and the count of the messages."""
    with started(checks, program, False) as machines:
        with machines.load:
            machines.load.settle_more(SOME)
            for event in (play_killed, play_drained, play_back):
                event(checks, machines)
            machines.load.finished()
        checks.check('proxied: within a message', machines.finish('filter2'), BEGUN * ['taken'])
        for name in SERVERS:
            machines.proxy.wait_open(name, 0)
            machines.expect_lines(checks, name)
        check_messages(checks, machines)


def play_stopped(checks, program):
    """One is stopped, and listens on: the check that negotiates finds that, and finds it again once it goes on."""
    with started(checks, program, True) as machines:
        process = machines.services['filter1'].process
        process.send_signal(signal.SIGSTOP)
        start = time.monotonic()
        replies = machines.finish('filter1')
        took = time.monotonic() - start
        # Less than Postfix waits for a filter.
        checks.check('proxied, stopped: within a message, %.1f s' % took, (replies, took < TOOK),
                     (2 * BEGUN * [machines.server.deferred], True))
        machines.proxy.wait('filter1', 'DOWN')
        process.send_signal(signal.SIGCONT)
        machines.proxy.wait('filter1', 'UP')
        for name in SERVERS[1:]:
            checks.check('proxied, stopped: others', machines.finish(name), BEGUN * ['taken'])
            made = machines.proxy.made_to(name)
            endings = endings_of(machines.services[name].ended(made + 1))
            checks.check('proxied, stopped: lines', (set(endings), len(endings) > made), ({'quit'}, True))


def play(checks, program):
    """All of it."""
    for part in (play_events, play_stopped):
        checks.part('proxied: ' + part.__name__, part, program)
