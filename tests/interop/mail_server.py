"""What the mail servers of tests/interop.sh share: the sink that they deliver to, what is sent to them, and what they
reply by mail_server.rules.

A mail server has two ports on the loopback: the filter of one of them is at a TCP address, that of the other one at a
Unix address. What it delivers goes to smtp-sink, which writes each message with its envelope to a file.
"""
import glob
import os
import re
import shutil
import smtplib
import subprocess
import time

import peers

FROM, TO = 'ada@example.org', 'bob@example.net'
MESSAGE = """\
From: Ada <ada@example.org>
To: Bob <bob@example.net>
Subject: first
X-Twice: one
X-Twice: two

a body
of two lines
"""
# The recipients of a message with each edit.
ADDED = ['<added@example.net>', '<with@example.net> NOTIFY=NEVER']
# What is refused, and with which text; a mail server has its own text where a rule says no more than to defer it.
DEFERRED = 'deferred'
SENDERS_REFUSED = {
    'refused@example.org': '550 5.7.1 Command rejected', 'later@example.org': DEFERRED,
    'code@example.org': '451 4.7.1 Not this sender, not now', 'macro@example.org': '550 5.7.1 Not by this macro'}
RECIPIENTS_REFUSED = {'refused@example.net': '550 5.1.1 Not this recipient'}
DATA_REFUSED = {'data@example.net': "554 5.7.1 Not this recipient's data"}
MESSAGES_REFUSED = {
    'X-Refused: yes\r\n\r\na body\r\n': '554 5.6.0 Not with this field',
    'X-First: 1\r\nX-Second: 2\r\n\r\na body\r\n': '554 5.6.0 Not with these fields',
    '\r\nthis is not wanted\r\n': '554 5.6.0 Not this body',
    'Subject: the end\r\n\r\na body\r\n': '554 5.7.1 Not at the end'}
SENDER_AT_EOH = "554 5.7.1 Not this sender's message"
GREETING_REFUSED = '550 5.7.1 Not this name'


class MailServer:
    """A running mail server with its sink. Of each kind there is its `name`; the text with which it defers mail,
    `deferred`; the beginning of its reply to DATA without a recipient, `no_recipient`; the codes of the packets that it
    sends of a greeting within a transaction, `greeting_within`; and how often a client greets at most, `greetings`."""

    def __init__(self, work):
        self.work = work
        self.delivered = os.path.join(work, 'delivered')
        self.ports = {'inet': peers.free_port(), 'unix': peers.free_port()}
        self.sink_port = peers.free_port()
        os.mkdir(self.delivered)
        shutil.chown(self.delivered, 'postfix')

    def __enter__(self):
        self.sink = subprocess.Popen(
            ['smtp-sink', '-u', 'postfix', '-d', os.path.join(self.delivered, 'message.'),
             '127.0.0.1:%d' % self.sink_port, '100'])
        self.start()
        try:
            for port in [self.sink_port] + list(self.ports.values()):
                peers.listening('inet:%d@127.0.0.1' % port)
        except TimeoutError:
            self.__exit__()
            raise
        return self

    def __exit__(self, *_):
        self.stop()
        self.sink.terminate()
        self.sink.wait()

    def connected(self, kind, greeting='mail.example.org', source='127.0.0.1'):
        """A client of the port whose filter is of this kind, which connects from this address."""
        return smtplib.SMTP('127.0.0.1', self.ports[kind], greeting, peers.SECONDS, (source, 0))

    def to_address(self, address):
        """How its reply to a sender or to a recipient begins."""
        text = {**SENDERS_REFUSED, **RECIPIENTS_REFUSED}.get(address)
        if text is None:
            return '250'
        return self.deferred if text == DEFERRED else self.refused(address, text)

    def received(self, count):
        """The texts of so many messages that were delivered, once they are; they are taken away."""
        files = []
        for _ in range(10 * peers.SECONDS):
            files = [name for name in glob.glob(self.delivered + '/message.*') if self.whole(name)]
            if len(files) >= count:
                break
            time.sleep(0.1)
        return [text for text in map(taken, sorted(files)) if text is not None]

    def whole(self, name):
        """Whether smtp-sink has closed this file."""
        folder = '/proc/%d/fd' % self.sink.pid
        return name not in [os.path.realpath(os.path.join(folder, each)) for each in os.listdir(folder)]


def taken(name):
    """The text of a delivered message, whose file is taken away; or None, where smtp-sink has taken it away, as it does
    with a message that didn't come to its end."""
    try:
        with open(name, newline='') as file:
            text = file.read()
        os.remove(name)
    except FileNotFoundError:
        return None
    return text.replace('\r\n', '\n')


def envelope(text):
    """The sender's and the recipients' words, as smtp-sink writes them, without the original recipients."""
    sender = re.search(r'^X-Mail-Args: (.*)$', text, re.M)[1]
    recipients = re.findall(r'^X-Rcpt-Args: (.*)$', text, re.M)
    return sender, sorted(re.sub(' ORCPT=[^ ]*', '', each) for each in recipients)


def fields(text, *names):
    """The header fields of these names, in the order of the message."""
    header = text.split('\n\n', 1)[0].splitlines()
    return [line for line in header if line.split(':')[0] in names]


def body(text):
    """The body of a message, without the empty line that smtp-sink writes after it."""
    return text.split('\n\n', 1)[1].removesuffix('\n')


def reply(send, *words):
    """The reply of SMTP to a step that is refused, or 'taken'."""
    try:
        send(*words)
    except smtplib.SMTPResponseException as error:
        return '%d %s' % (error.smtp_code, error.smtp_error.decode())
    except smtplib.SMTPRecipientsRefused as error:
        (code, text), = error.recipients.values()
        return '%d %s' % (code, text.decode())
    return 'taken'


def refusals(server):
    """Each refusal: a sender, a recipient, a message, and the reply."""
    for sender in SENDERS_REFUSED:
        yield sender, TO, MESSAGE, server.to_address(sender)
    for recipient in RECIPIENTS_REFUSED:
        yield FROM, recipient, MESSAGE, server.to_address(recipient)
    for recipient, text in DATA_REFUSED.items():
        yield FROM, recipient, MESSAGE, text
    for message, text in MESSAGES_REFUSED.items():
        yield FROM, TO, message, text


def play_refusals(checks, server, kind):
    """Each refusal, all of them on one connection, and one of the greeting."""
    with server.connected(kind) as client:
        for sender, recipient, message, expected in refusals(server):
            found = reply(client.sendmail, sender, [recipient], message)
            checks.check('%s, %s: refused' % (server.name, kind), found, expected)
            client.rset()
        # The next message of the connection passes.
        client.sendmail(FROM, [TO, 'carl@example.net'], MESSAGE)
    text, = server.received(1)
    checks.check('%s, %s: passed after refusals' % (server.name, kind),
                 (envelope(text)[1], fields(text, 'Subject', 'X-Twice', 'X-Passed'), body(text)),
                 (['<bob@example.net>', '<carl@example.net>'],
                  ['Subject: first', 'X-Twice: one', 'X-Twice: two', 'X-Passed: yes'], 'a body\nof two lines\n'))
    # A mail server sends this macro to a filter that asks for it.
    checks.check('%s, %s: symbol list' % (server.name, kind), fields(text, 'X-Asked-For'),
                 ['X-Asked-For: client_addr'])
    client = server.connected(kind, 'refused.example.org')
    found = reply(client.sendmail, FROM, [TO], MESSAGE)
    checks.check('%s, %s: greeting refused' % (server.name, kind), found, GREETING_REFUSED)
    client.quit()


def play_edits(checks, server, kind):
    """A message with each edit, one that is discarded, one on hold, and one that no stage after the sender's sees."""
    with server.connected(kind) as client:
        client.sendmail(FROM, ['edited@example.net'], MESSAGE)
        text, = server.received(1)
        sender, recipients = envelope(text)
        checks.check('%s, %s: sender' % (server.name, kind), (sender.split()[0], 'RET=HDRS' in sender.split()),
                     ('<changed@example.org>', True))
        checks.check('%s, %s: recipients' % (server.name, kind), recipients, ADDED)
        checks.check('%s, %s: header' % (server.name, kind),
                     fields(text, 'X-Top', 'Subject', 'X-Twice', 'X-Added', 'X-Passed'),
                     ['X-Top: inserted', 'Subject: changed', 'X-Twice: one', 'X-Added: added', 'X-Passed: yes'])
        checks.check('%s, %s: body' % (server.name, kind), body(text), 'another body\nof two lines\n')
        client.sendmail(FROM, ['discarded@example.net'], MESSAGE)
        client.sendmail(FROM, ['quarantined@example.net'], MESSAGE)
        checks.check('%s, %s: on hold' % (server.name, kind), server.held(), 1)
        client.sendmail('accepted@example.org', [TO], MESSAGE)
        long_body = 'skip the rest\n' + 4000 * 'one more line of this body\n' + 'the rest is seen\n'
        client.sendmail(FROM, [TO], '\n' + long_body)
    texts = sorted(server.received(2), key=len)
    checks.check('%s, %s: accepted at the sender' % (server.name, kind),
                 (len(texts), fields(texts[0], 'X-Passed', 'X-Edited')), (2, []))
    checks.check('%s, %s: rest of the body skipped' % (server.name, kind),
                 (fields(texts[1], 'X-Passed'), body(texts[1])), (['X-Passed: yes'], long_body))
