"""A mail server of its own with `milter_tool serve`, for tests/interop.sh: many clients at once, one of which says
nothing after its greeting, and random sequences of SMTP commands, with greetings within a transaction.

One port of the mail server has `serve` at a TCP address, another one at a Unix address. Of each reply to a client it is
known what it is by the rules of mail_server.rules: what a rule refuses is refused, whatever the client did before. What
is taken is delivered with the header field that a rule adds.
"""
import concurrent.futures
import itertools
import os
import random
import socket
import tempfile
import time

import mail_server
import peers
from mail_server import FROM, TO

CLIENTS, MESSAGES, SEQUENCES, AT_ONCE = 30, 5, 100, 16
# How long all clients may take beside one that is idle, in seconds: less than a mail server waits for a filter.
SECONDS = 25
SENDERS = [FROM] + list(mail_server.SENDERS_REFUSED)
RECIPIENTS = [TO, 'carl@example.net'] + list(mail_server.RECIPIENTS_REFUSED) + list(mail_server.DATA_REFUSED)
FIRST, AT_THE_END = 'Subject: first\r\n\r\na body\r\n', 'Subject: the end\r\n\r\na body\r\n'
REPLIES = {FIRST: '250', **mail_server.MESSAGES_REFUSED}


class Client:
    """A client of SMTP that sends what it is given, and knows what its replies are by the rules. The recipient that a
    rule at data looks at is the last one that was asked for."""

    def __init__(self, server, kind):
        self.server = server
        self.socket = socket.create_connection(('127.0.0.1', server.ports[kind]), peers.SECONDS)
        self.lines = self.socket.makefile('rb')
        self.said = []
        self.greetings, self.passed = 0, 0
        self.forget()
        self.reply()

    def forget(self):
        """There is no transaction."""
        self.sender, self.has_recipient, self.last = False, False, None

    def close(self):
        """Quits."""
        self.socket.sendall(b'QUIT\r\n')
        self.lines.close()
        self.socket.close()

    def reply(self):
        """The last line of the next reply."""
        line = b'   -'
        while line[3:4] == b'-':
            line = self.lines.readline()
        return line.decode().strip()

    def say(self, text, expected):
        """Says a line; answers what was wrong with the reply, which begins so, or None."""
        self.said.append(text)
        self.socket.sendall(text.encode() + b'\r\n')
        found = self.reply()
        return None if found.startswith(expected) else '%r after %r, not %r' % (found, self.said, expected)

    def greet(self, name, word='EHLO'):
        """Greets, which ends a transaction."""
        self.forget()
        self.greetings += 1
        return self.say('%s %s' % (word, name), '250')

    def mail(self, sender):
        """Begins a transaction."""
        expected = '503' if self.sender else self.server.to_address(sender)
        self.sender |= expected == '250'
        return self.say('MAIL FROM:<%s>' % sender, expected)

    def rcpt(self, recipient):
        """Adds a recipient."""
        expected = self.server.to_address(recipient) if self.sender else '503'
        if self.sender:
            self.has_recipient |= expected == '250'
            self.last = recipient
        return self.say('RCPT TO:<%s>' % recipient, expected)

    def reset(self):
        """Gives a transaction up."""
        self.forget()
        return self.say('RSET', '250')

    def data(self, message):
        """Sends the message of a transaction, which ends it, but where DATA is refused: the transaction stays then."""
        if not self.has_recipient:
            return self.say('DATA', self.server.no_recipient if self.sender else '503')
        if self.last in mail_server.DATA_REFUSED:
            return self.say('DATA', mail_server.DATA_REFUSED[self.last])
        wrong = self.say('DATA', '354')
        self.forget()
        wrong = wrong or self.say(message + '.', REPLIES[message])
        self.passed += wrong is None and REPLIES[message] == '250'
        return wrong

    def random_step(self, chosen):
        """Says anything that a client may say; answers what was wrong, or None."""
        return chosen.choice([
            lambda: self.greet_at_random(chosen), lambda: self.mail(chosen.choice(SENDERS)), lambda: self.mail(FROM),
            lambda: self.rcpt(chosen.choice(RECIPIENTS)), lambda: self.rcpt('data@example.net'),
            lambda: self.data(chosen.choice(list(REPLIES))), lambda: self.data(FIRST),
            lambda: self.say('NOOP', '250'), self.reset])()

    def greet_at_random(self, chosen):
        """Greets, by either word; gives the transaction up where there were enough greetings."""
        name, word = chosen.choice(['mail.example.org', 'again.example.org']), chosen.choice(['EHLO', 'HELO'])
        return self.greet(name, word) if self.greetings < self.server.greetings else self.reset()


def sequence(server, kind, seed):
    """A random sequence; answers what was wrong, or None, and how many messages passed. Each greets first, and often
    goes on to a message."""
    chosen, client = random.Random(seed), Client(server, kind)
    try:
        wrong = client.greet('mail.example.org')
        for _ in range(20):
            wrong = wrong or client.random_step(chosen)
            if chosen.random() < 0.3 and not client.sender:
                wrong = wrong or client.mail(FROM) or client.rcpt(TO)
        client.close()
    except OSError as error:
        wrong = '%r after %r' % (error, client.said)
    return wrong, client.passed


# Sequences of their own, with a greeting within the transaction.
GREETINGS = {
    'refused at rcpt': lambda it: it.greet('a.example') or it.mail(FROM) or it.greet('b.example')
    or it.mail(FROM) or it.rcpt('refused@example.net') or it.data('\r\n'),
    'refused at data': lambda it: it.greet('a.example') or it.mail(FROM) or it.rcpt(TO)
    or it.greet('b.example') or it.mail(FROM) or it.rcpt('data@example.net') or it.data('\r\n'),
    'refused at the end': lambda it: it.greet('a.example') or it.mail(FROM) or it.rcpt(TO)
    or it.greet('b.example', 'HELO') or it.mail(FROM) or it.rcpt(TO) or it.data(AT_THE_END),
    'three greetings': lambda it: it.greet('a.example') or it.mail(FROM) or it.greet('b.example')
    or it.greet('c.example') or it.mail('refused@example.org') or it.mail(FROM) or it.rcpt(TO)
    or it.data('\r\nthis is not wanted\r\n'),
    'passes': lambda it: it.greet('a.example') or it.mail(FROM) or it.rcpt('carl@example.net')
    or it.greet('b.example') or it.mail(FROM) or it.rcpt(TO) or it.data(FIRST),
}


# Sequences of their own, in which DATA is said again after it was refused: by the same rule, and by one at the end of
# the header that looks at the sender, which the client named before.
AGAIN = {
    'the same rule': lambda it: it.greet('a.example') or it.mail(FROM) or it.rcpt('data@example.net')
    or it.data(FIRST) or it.data(FIRST) or it.rcpt(TO) or it.rcpt('data@example.net') or it.data(FIRST),
    'by the sender': lambda it: it.greet('a.example') or it.mail('eoh@example.org') or it.rcpt('data@example.net')
    or it.data(FIRST) or it.rcpt(TO) or it.say('DATA', '354') or it.say(FIRST + '.', mail_server.SENDER_AT_EOH),
}


def check_delivered(checks, server, name, count):
    """Checks that so many messages are delivered, which passed the rules."""
    checks.check(name + ': delivered', [mail_server.fields(text, 'X-Passed') for text in server.received(count)],
                 count * [['X-Passed: yes']])


def play_greetings(checks, server, kind):
    """Greetings within a transaction."""
    passed = 0
    for name, steps in GREETINGS.items():
        client = Client(server, kind)
        checks.check('%s, %s: %s' % (server.name, kind, name), steps(client), None)
        client.close()
        passed += client.passed
    check_delivered(checks, server, '%s, %s: greetings' % (server.name, kind), passed)


def play_data_again(checks, server, kind):
    """DATA that is said again after it was refused."""
    for name, steps in AGAIN.items():
        client = Client(server, kind)
        checks.check('%s, %s: DATA again: %s' % (server.name, kind, name), steps(client), None)
        client.close()
    check_delivered(checks, server, '%s, %s: DATA again' % (server.name, kind), 0)


def play_sequences(checks, server, kind):
    """Random sequences, some at a time."""
    with concurrent.futures.ThreadPoolExecutor(AT_ONCE) as running:
        ends = list(running.map(lambda seed: sequence(server, kind, seed), range(SEQUENCES)))
    for seed, (wrong, _) in enumerate(ends):
        checks.check('%s, %s: sequence %d' % (server.name, kind, seed), wrong, None)
    check_delivered(checks, server, '%s, %s: sequences' % (server.name, kind), sum(passed for _, passed in ends))


def send_many(server, kind):
    """What is replied to the messages of a client, of which each second one is refused."""
    replies = []
    with server.connected(kind) as client:
        for _ in range(MESSAGES):
            for sender in [FROM, 'refused@example.org']:
                replies.append(mail_server.reply(client.sendmail, sender, [TO], mail_server.MESSAGE))
                client.rset()
    return replies


def play_clients(checks, server, kind):
    """Many clients at once beside one that says nothing after its greeting, which sends a message in the end."""
    name = '%s, %s: ' % (server.name, kind)
    idle = server.connected(kind)
    idle.ehlo()
    start = time.monotonic()
    with concurrent.futures.ThreadPoolExecutor(CLIENTS) as running:
        replies = list(running.map(lambda _: send_many(server, kind), range(CLIENTS)))
    took = time.monotonic() - start
    checks.check(name + 'many clients', replies,
                 CLIENTS * [MESSAGES * ['taken', server.to_address('refused@example.org')]])
    checks.check(name + 'beside an idle one: %.1f s' % took, took < SECONDS, True)
    checks.check(name + 'the idle one', mail_server.reply(idle.sendmail, FROM, [TO], '\r\nlate'), 'taken')
    idle.quit()
    check_delivered(checks, server, name + 'many clients', CLIENTS * MESSAGES + 1)


def play_greeting_refused(checks, server, kind):
    """A client whose greeting is refused, which a mail server says at each sender, whatever greeting comes then."""
    client = Client(server, kind)
    for name in ['refused.example.org', 'refused.example.org', 'mail.example.org']:
        wrong = client.greet(name) or client.say('MAIL FROM:<%s>' % FROM, mail_server.GREETING_REFUSED)
        checks.check('%s, %s: greeting refused' % (server.name, kind), wrong, None)
    client.close()


def play_recorded(checks, program, new_server):
    """Which packets come of a client that greets within a transaction; aborts one after another are one."""
    with tempfile.TemporaryDirectory() as work:
        os.chmod(work, 0o755)
        address, recorder = ['inet:%d@127.0.0.1' % peers.free_port() for _ in range(2)]
        with peers.Service(program, address, peers.rules_of('mail_server')):
            with new_server(work, recorder, recorder) as server:
                recording = peers.Recording(program, recorder, address)
                client = Client(server, 'inet')
                wrong = (client.greet('a.example') or client.mail(FROM) or client.greet('b.example')
                         or client.mail(FROM) or client.reset())
                client.close()
                lines = recording.lines(program)
    codes = [line.split()[1] for line in lines if line.startswith('> ') and not line.startswith('> D ')]
    checks.check(server.name + ': packets of a greeting within a transaction',
                 (wrong, [code for code, _ in itertools.groupby(codes)]),
                 (None, ['O', 'C', 'H', 'M'] + server.greeting_within + ['M', 'A', 'Q']))


def play(checks, program, new_server):
    """Starts a mail server and two services, and plays all of it."""
    with tempfile.TemporaryDirectory() as work:
        os.chmod(work, 0o755)
        inet, unix = 'inet:%d@127.0.0.1' % peers.free_port(), 'unix:' + os.path.join(work, 'filter')
        rules = peers.rules_of('mail_server')
        with peers.Service(program, inet, rules) as first, peers.Service(program, unix, rules) as second:
            with new_server(work, inet, unix) as server:
                for kind in server.ports:
                    for part in [mail_server.play_refusals, mail_server.play_edits, play_clients, play_greetings,
                                 play_greeting_refused, play_data_again, play_sequences]:
                        part(checks, server, kind)
            for served in (first, second):
                found = {line.split(' ', 2)[2] for line in served.ended().splitlines()}
                checks.check(server.name + ': the lines of serve', found - {'quit', 'ended 0'}, set())
    play_recorded(checks, program, new_server)
