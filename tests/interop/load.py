"""Clients of a mail server that send messages until they are to stop, for tests/interop.sh: each message has a number,
and is tried again as long as it is deferred.
"""
import concurrent.futures
import contextlib
import itertools
import smtplib
import threading
import time

import mail_server
from lib import serving
from mail_server import FROM, TO

REFUSED = 'refused@example.net'
CLIENTS, PER_CONNECTION, MOST, TRIES = 12, 5, 10000, 100
# How long a client waits between messages, and before it tries one again, in seconds.
PAUSE, RETRY = 0.05, 0.2


def message(number):
    """The text of the message of this number."""
    return 'Subject: %d\r\n\r\na body\r\n' % number


class Client:
    """A client that sends one message after another, on connections of a few messages each. One on which a message was
    deferred it leaves."""

    def __init__(self, server):
        self.server, self.connection, self.sent = server, None, 0

    def send(self, recipient, text):
        """Sends a message."""
        if self.connection is None:
            self.connection, self.sent = self.server.connected('inet'), 0
        self.sent += 1
        self.connection.sendmail(FROM, [recipient], text)

    def tried(self, recipient, text):
        """The reply to one try of a message."""
        reply = mail_server.reply(self.send, recipient, text)
        if reply.startswith('4') or self.sent == PER_CONNECTION:
            self.close()
        return reply

    def close(self):
        """Ends the connection."""
        if self.connection is not None:
            with contextlib.suppress(smtplib.SMTPServerDisconnected):
                self.connection.quit()
            self.connection = None


class Load:
    """Clients at once. There are the number that comes next, the last reply to each number, and the number of each try
    that was deferred. Every second number is for a recipient that the rules refuse."""

    def __init__(self, server):
        self.server = server
        self.numbers, self.replies, self.deferred = itertools.count(), {}, []
        self.is_over = threading.Event()

    def __enter__(self):
        self.running = concurrent.futures.ThreadPoolExecutor(CLIENTS)
        self.ends = [self.running.submit(self.run_client) for _ in range(CLIENTS)]
        return self

    def __exit__(self, *_):
        self.is_over.set()
        self.running.shutdown()

    def run_client(self):
        """Sends messages until they are to stop."""
        client = Client(self.server)
        for number in self.numbers:
            if self.is_over.is_set() or number >= MOST:
                break
            self.settle_by(client, number)
            time.sleep(PAUSE)
        client.close()

    def settle(self, number):
        """Sends a message on a connection of its own."""
        client = Client(self.server)
        self.settle_by(client, number)
        client.close()

    def settle_by(self, client, number):
        """Tries a message until it isn't deferred."""
        for _ in range(TRIES):
            self.replies[number] = client.tried(REFUSED if number % 2 else TO, message(number))
            if not self.replies[number].startswith('4'):
                return
            self.deferred.append(number)
            time.sleep(RETRY)

    def finished(self):
        """Has the clients stop after the message that each is at; what one of them failed by is raised here."""
        self.is_over.set()
        for end in self.ends:
            end.result()

    def settle_more(self, count):
        """Waits until so many messages more have a reply."""
        enough = len(self.replies) + count
        if not serving.waited_for(lambda: len(self.replies) >= enough):
            raise TimeoutError('%d messages of %d' % (len(self.replies), enough))
