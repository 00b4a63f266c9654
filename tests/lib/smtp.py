"""Runs examples/python/mail_server.py with a Maildir and filters, and sends mail to it."""
import contextlib
import os
import signal
import smtplib
import socket
import struct
import subprocess
import tempfile
import threading
import time

from lib import programs, serving
from lib.checks import expect
from lib.packets import packet_of

CONTINUE = packet_of(b'c')
# Python takes some times so many seconds to start.
PYTHON_STARTS = 0.05
# So many seconds are between two replies of a filter that reports progress.
PAUSE = 0.6
SENDER, RECIPIENTS = 'ada@example.org', ['brook@example.net', 'carol@example.net', 'dora@example.net']
TEXT = b'Subject: Lunch\r\nX-Note: one\r\n\ttwo\r\n\r\nLunch at one?\r\n'
# A rule that refuses one of them.
REFUSES_ONE = 'at rcpt when rcpt is "<carol@example.net>" do code "550 5.1.1 Moved"\n'
# What a lost filter's default says to the client.
REJECTED, MOVED = (550, b'5.7.1 Command rejected'), (550, b'5.1.1 Moved')
DEFAULTS = {'accept': None, 'tempfail': (451, b'4.3.2 Please try again later'), 'reject': REJECTED}
NOT_STORED = (451, b"4.3.0 The message can't be stored")
OK_MAIL, OK_RCPT = (250, b'2.1.0 Sender ok'), (250, b'2.1.5 Recipient ok')


class Server:
    """A run of the program, and its Maildir."""

    def __init__(self, program, folder, words=(), maildir=None):
        self.maildir = maildir or made_maildir(folder)
        self.at, _ = serving.place_of('inet', folder)
        self.said = tempfile.TemporaryFile(dir=folder)
        place = ['--host', self.at[0], '--port', str(self.at[1]), '--name', 'mx.example.org']
        self.process = subprocess.Popen(
            [*program, '--maildir', self.maildir, *place, *words], stdin=subprocess.DEVNULL, stdout=self.said,
            stderr=self.said)

    def __enter__(self):
        serving.listening(self, PYTHON_STARTS)
        return self

    def __exit__(self, kind, *_):
        self.process.send_signal(signal.SIGKILL if kind else signal.SIGTERM)
        self.process.wait(serving.SECONDS)
        with self.said:
            self.said.seek(0)
            if not kind:
                expect('the end', (self.process.returncode, self.said.read()), (0, b''))

    def client(self):
        """A client of smtplib that has connected."""
        return smtplib.SMTP(*self.at, local_hostname='client.example.org', timeout=serving.SECONDS)

    def files(self, folder='new'):
        """The texts of the files of a folder of the Maildir."""
        return files_in(self.maildir, folder)

    def remove_files(self):
        """Removes the files of the Maildir."""
        for folder in ['new', '.Quarantine/new', 'tmp']:
            for name in os.listdir(os.path.join(self.maildir, folder)):
                os.remove(os.path.join(self.maildir, folder, name))

    def expect_files(self, new, quarantine=()):
        """Compares the files of the Maildir."""
        found = self.files(), self.files('.Quarantine/new'), self.files('tmp')
        expect('the Maildir', found, (list(new), list(quarantine), []))


def made_maildir(folder):
    """A new Maildir."""
    maildir = tempfile.mkdtemp(dir=folder)
    for name in ['tmp', 'new', 'cur', '.Quarantine/tmp', '.Quarantine/new', '.Quarantine/cur']:
        os.makedirs(os.path.join(maildir, name))
    return maildir


def files_in(maildir, folder='new'):
    """The texts of the files of a folder of a Maildir, in the order of their names."""
    found = []
    for name in sorted(os.listdir(os.path.join(maildir, folder))):
        with open(os.path.join(maildir, folder, name), 'rb') as file:
            found.append(file.read())
    return found


def filed(text=TEXT, recipients=RECIPIENTS, sender=SENDER, quarantine=''):
    """The file of a message."""
    lines = ['Return-Path: <%s>\n' % sender] + ['Delivered-To: %s\n' % name for name in recipients]
    lines += ['X-Quarantine: %s\n' % quarantine] if quarantine else []
    return ''.join(lines).encode() + text.replace(b'\r\n', b'\n')


@contextlib.contextmanager
def filtering(program, folder, *rules):
    """Runs of `milter_tool serve`, each with these rules; and the words by which the server asks them."""
    with contextlib.ExitStack() as stack:
        runs = []
        for number, text in enumerate(rules):
            words = ['--rules', programs.written(os.path.join(tempfile.mkdtemp(dir=folder), 'rules'), text)]
            runs.append(stack.enter_context(serving.Service(
                programs.tool(program), serving.KINDS[number % 2], folder, words)))
            serving.listening(runs[-1])
        yield runs, [word for run in runs for word in ('--filter', run.address)]


class Packets:
    """A filter that answers each packet of one connection as this function of its code and payload says, and keeps all
    of them. Where the function answers several replies, the time `PAUSE` is between them; it answers None to end."""

    def __init__(self, folder, reply_of):
        self.seen = []
        self.reply_of = reply_of
        place, address = serving.place_of('inet', folder)
        self.words = ['--filter', address]
        self.listener = socket.create_server(place)
        self.listener.settimeout(serving.SECONDS)
        self.thread = threading.Thread(target=self.serve, daemon=True)
        self.thread.start()

    def serve(self):
        """Takes the connection."""
        with contextlib.suppress(OSError), self.listener, self.listener.accept()[0] as connection:
            while self.answer(connection):
                pass

    def answer(self, connection):
        """Answers a packet, and whether more are to be answered."""
        size = int.from_bytes(serving.received(connection, 4), 'big')
        packet = serving.received(connection, size)
        if not packet:
            return False
        self.seen.append(packet)
        replies = self.reply_of(packet[:1], packet[1:])
        for nth, reply in enumerate([replies] if isinstance(replies, bytes) else replies or []):
            time.sleep(PAUSE if nth else 0)
            connection.sendall(reply)
        return replies is not None

    def codes(self):
        """The codes of the packets, without those of macros, once the connection has ended."""
        self.thread.join(serving.SECONDS)
        return b''.join(packet[:1] for packet in self.seen if packet[:1] != b'D')


def options(actions=0):
    """The reply to an offer."""
    return packet_of(b'O' + struct.pack('>III', 6, actions, 0))


def goes_on(code, _payload=b''):
    """The reply of a filter that lets all go on."""
    return options() if code == b'O' else b'' if code in (b'D', b'A', b'Q') else CONTINUE


def data(client, text=TEXT):
    """Sends DATA and a text, and answers the reply at the end, or that to DATA."""
    try:
        return client.data(text)
    except smtplib.SMTPDataError as error:
        return error.smtp_code, error.smtp_error


def send(client, text=TEXT, recipients=RECIPIENTS):
    """Sends a mail, and answers the replies to its sender and its recipients, and the last one."""
    replies = [client.mail(SENDER)] + [client.rcpt(name) for name in recipients]
    return replies, data(client, text)


def sent(server, text=TEXT, recipients=RECIPIENTS):
    """Sends a mail in a session of its own, and answers the replies."""
    with server.client() as client:
        client.ehlo()
        return send(client, text, recipients)


def expect_taken(reply):
    """A reply says that a message was taken."""
    expect('reply', (reply[0], reply[1][:24]), (250, b'2.0.0 Ok: queued as ' + reply[1][20:24]))


def says(server, given, expected):
    """Writes all lines at once, and compares the replies, of each line the first word, up to the connection's end."""
    with socket.create_connection(server.at, serving.SECONDS) as connection:
        connection.sendall(given)
        connection.shutdown(socket.SHUT_WR)
        replies = b''.join(iter(lambda: connection.recv(1 << 16), b''))
    words = [line.split(b' ')[0] for line in replies.split(b'\r\n')]
    expect('replies', b' '.join(words[:-1]).decode() + ('' if words[-1] == b'' else '?'), expected)
    return replies
