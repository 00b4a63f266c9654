"""What mail servers send to `milter_tool serve` in the tests, and its replies: packets, conversations and rules."""
import os
import select
import struct
import tempfile

from lib import packets, programs, serving
from lib.checks import expect

# How many senders have replies of their own.
KEYS = 50


def packet(code, *texts):
    """A packet of a code and of texts, each of which ends in a NUL."""
    return packets.packet_of(code + b''.join(text + b'\0' for text in texts))


def options(actions, protocol):
    """A packet of options."""
    return packets.packet_of(b'O' + struct.pack('>III', 6, actions, protocol))


CONTINUE, QUIT, ABORT = packet(b'c'), packet(b'Q'), packet(b'A')
OFFER, OPTIONS = options(0x1ff, 0x1fffff), options(0, 0)
# The bytes of an offer, a greeting, a sender and a greeting, and the replies to them.
GREETED_AGAIN = bytes.fromhex(
    '0000000d4f00000006000001ff001fffff 00000006486d61696c00 000000054d61407800 00000006486d61696c00')
STRICTLY, LENIENTLY = OPTIONS + 2 * CONTINUE, OPTIONS + 3 * CONTINUE


def opening(key):
    """What a connection begins with, and the replies: the client and its greeting."""
    client = packets.packet_of(b'Ch%d.example\0004' % key + struct.pack('>H', 25) + b'192.0.2.1\0')
    return [(OFFER, OPTIONS), (packet(b'D', b'Cj', b'mx') + client, CONTINUE), (packet(b'H', b'h%d' % key), CONTINUE)]


def message(key):
    """A message of the sender of this key, and the replies by the rules of all keys."""
    return [
        (packet(b'D', b'Mi', b'%d' % key) + packet(b'M', b'<s%d@x>' % key, b'SIZE=1'), CONTINUE),
        (packet(b'R', b'<b@y>'), packet(b'y', b'550 5.1.1 rcpt %d' % key)), (packet(b'T'), CONTINUE),
        (packet(b'L', b'Subject', b'of %d' % key), CONTINUE), (packet(b'N'), CONTINUE),
        (packets.packet_of(b'B' + b'body %d\r\n' % key), CONTINUE),
        (packet(b'E'), packet(b'y', b'554 5.7.1 end %d' % key))]


def rules_of_keys(folder, keys=KEYS):
    """The options that name a file of rules by which each sender of the first keys has replies of its own."""
    path = os.path.join(tempfile.mkdtemp(dir=folder), 'rules')
    with open(path, 'w') as rules:
        for key in range(keys):
            rules.write('at rcpt when sender is "<s%d@x>" do code "550 5.1.1 rcpt %d"\n' % (key, key))
            rules.write('at eob when sender is "<s%d@x>" and body has "body %d\\r" do code "554 5.7.1 end %d"\n'
                        % (key, key, key))
    return ['--rules', path]


def rules_file(folder, text):
    """The options that name a file of these rules."""
    with tempfile.NamedTemporaryFile('w', dir=folder, suffix='.rules', delete=False) as rules:
        rules.write(text)
    return ['--rules', rules.name]


def say(connection, conversation):
    """Sends each part of a conversation, and reads the reply to it before the next."""
    for given, reply in conversation:
        connection.sendall(given)
        serving.expect_replies(connection, reply)


def quit_all(connections):
    """Quits these connections, and reads their ends."""
    for connection in connections:
        connection.sendall(QUIT)
    for connection in connections:
        with connection:
            serving.expect_closed(connection)


def run_to_end(program, words, expected):
    """A run that serves no connection, and ends at once. Of its errors the first line is expected; those that explain
    it follow, which tests/test_faults.py compares."""
    status, output, errors = programs.ended([program, 'serve'] + words, timeout=10)
    expect('end', (status, output, errors[:errors.find(b'\n') + 1]), expected)


def filled(connection, given, seconds):
    """Sends these bytes until nothing more is taken for so long; answers how many were sent."""
    sent = 0
    while sent < len(given) and select.select([], [connection], [], seconds)[1]:
        sent += connection.send(given[sent:sent + (1 << 16)])
    return sent
