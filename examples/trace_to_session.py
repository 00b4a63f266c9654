#!/usr/bin/env python3
"""Makes a session file of the mail server's side of a trace, for `milter_tool mta` and `milter_tool play`.

    python3 examples/trace_to_session.py my.trace > again.session

The session has the client, its greeting, and each message that has a recipient, as far as it was sent. Played to the
filter of the trace it sends the same client, greeting, addresses, header fields and bodies. A blank that was left out
before the value of a header field is put back. What was agreed not to be sent has an empty text or `<>` in its place,
which isn't sent again.

A session file has one list of macros for each stage: the list is that of the stage's first packet with macros. Of
several greetings the last one before the first message is taken, with its macros.

What a session file can't have is said on standard error, with the line of the trace where it became whole: unknown
commands, messages that were aborted or settled before their end, other macros, and further clients. Of a trace that has
a fault, as `milter_tool trace` has it, the fault is printed, and no session; the status is 1. The payloads of replies
aren't looked into.
"""
import re
import sys

LINE = re.compile(rb'([<>]) ((?:[0-9a-fA-F]{2})*)')
SKIPPED = re.compile(rb' *(#.*)?', re.DOTALL)
ESCAPES = {0x09: '\\t', 0x0a: '\\n', 0x0d: '\\r', 0x22: '\\"', 0x5c: '\\\\'}
CHARACTERS = {byte: '\\x%02x' % byte for byte in range(256)} | {byte: chr(byte) for byte in range(0x20, 0x7f)} | ESCAPES
NAME = re.compile(rb'[!-9;-~]+')
# The greatest length of a packet, and the most bytes that the packets of a message have.
PACKET, MESSAGE = 65536, 16777216
# The stages of macros in a session file, by the codes of their commands, in its order.
STAGES = {'C': 'connect', 'H': 'helo', 'M': 'mail', 'R': 'rcpt', 'T': 'data', 'N': 'eoh', 'E': 'eom'}
COMMANDS, REPLIES = 'ABCDEHKLMNOQRTU', '+-2Oabcdehimpqrsty'
# Protocol bits: what is not sent, and that values of header fields are sent with the blank before them.
NORCPT, NOBODY, NOHDRS, HDR_LEADSPC = 0x8, 0x10, 0x20, 0x100000


class Fault(Exception):
    """A fault of the trace."""


def line(word, *texts):
    """A line of a session file: a word, and texts in quotes."""
    return ' '.join([word] + ['"%s"' % ''.join(map(CHARACTERS.get, text)) for text in texts])


def packets(file):
    """The packets of a trace: of each the number of the line where it became whole, whether the mail server sent it,
    its code and its payload."""
    streams = {b'>': bytearray(), b'<': bytearray()}
    for number, text in enumerate(file, 1):
        text = re.sub(rb'\r?\n\Z', b'', text)
        found = LINE.fullmatch(text)
        if found:
            stream = streams[found[1]]
            stream += bytes.fromhex(found[2].decode())
            for packet in whole_packets(stream, number):
                yield number, found[1] == b'>', chr(packet[0]), bytes(packet[1:])
        elif not SKIPPED.fullmatch(text):
            raise Fault('line %d: bad line' % number)
    for mark, stream in streams.items():
        if stream:
            print('end: %s truncated %d bytes' % (mark.decode(), len(stream)), file=sys.stderr)


def whole_packets(stream, number):
    """Takes the packets that are whole from the beginning of a stream: of each its code and its payload."""
    while len(stream) >= 4:
        length = int.from_bytes(stream[:4], 'big')
        if not 1 <= length <= PACKET:
            raise Fault('line %d: a packet of length %d' % (number, length))
        if len(stream) < 4 + length:
            break
        yield stream[4:4 + length]
        del stream[:4 + length]


def texts_of(payload, least, most=None):
    """The texts of a payload, each of which ends in a NUL, at least and at most so many."""
    *texts, rest = payload.split(b'\0')
    if rest or len(texts) < least or most is not None and len(texts) > most:
        raise Fault('malformed')
    return texts


class Message:
    """What was sent of a message: first its sender, in this line of the trace."""

    def __init__(self, number, sender):
        self.number, self.sender = number, sender
        self.recipients, self.headers, self.body = [], [], bytearray()
        self.last, self.is_settled = 'M', False

    def lines(self):
        """Its lines in a session file."""
        return (
            ['message', line('sender', *self.sender)] + [line('recipient', *texts) for texts in self.recipients]
            + [line('header', *header) for header in self.headers] + [line('body', self.body), 'end'])

    def texts(self):
        """All its texts but the body."""
        return [text for texts in [self.sender, *self.recipients, *self.headers] for text in texts]


class Session:
    """What was sent of a client, its greeting and its messages."""

    def __init__(self):
        self.client = self.greeting = self.open = None
        self.macros, self.messages, self.protocol = {}, [], 0
        self.is_over, self.noted = False, set()

    def note(self, number, text, is_once=False):
        """Says what the session can't have, by this line of the trace or by its end; of some only the first time."""
        if not (is_once and text in self.noted):
            print('end' if number is None else 'line %d' % number, text, sep=': ', file=sys.stderr)
        self.noted.add(text)

    def take(self, number, code, payload):
        """Takes a packet of the mail server."""
        if self.is_over or code == 'C' and self.client is not None:
            self.is_over = True
            if code in 'CM':
                self.note(number, 'another client, which is left out with its messages', True)
        elif code in 'COHU':
            self.take_once(number, code, payload)
        elif code == 'D':
            self.add_macros(number, payload)
        elif code in 'AKQM':
            self.close(number, code)
            self.is_over = code == 'K'
            if code == 'M':
                self.open = Message(number, texts_of(payload, 1))
            elif payload:
                raise Fault('malformed')
        else:
            self.add(number, code, payload)

    def take_once(self, number, code, payload):
        """Takes options, a client, a greeting, or an unknown command."""
        if code == 'O' and len(payload) != 12:
            raise Fault('malformed')
        if code == 'C':
            self.client = client_of(payload)
        elif code == 'H':
            greeting, = texts_of(payload, 1, 1)
            if self.greeting is not None:
                self.note(number, 'another greeting, of which a session has one')
            if self.greeting is None or self.is_before_messages():
                self.greeting = greeting
        elif code == 'U':
            self.note(number, line('an unknown command', *texts_of(payload, 1, 1)))

    def is_before_messages(self):
        """Whether no message has begun yet."""
        return self.open is None and not self.messages

    def add_macros(self, number, payload):
        """Takes the macros that stand before a command."""
        pairs = texts_of(payload[1:], 0)
        if not payload or len(pairs) % 2:
            raise Fault('malformed')
        code = chr(payload[0])
        if pairs and code not in STAGES:
            self.note(number, 'macros before %s, here and after: no stage of a session has them'
                      % CHARACTERS[payload[0]], True)
        elif pairs and (code not in self.macros or code == 'H' and self.is_before_messages()):
            self.macros[code] = pairs
        elif pairs and self.macros[code] != pairs:
            self.note(number, 'other macros before %s, here and after: a session has one list' % code, True)

    def add(self, number, code, payload):
        """Takes a command of a message after its sender."""
        if self.open is None:
            self.note(number, 'a message without a sender: "<>" stands for it', True)
            self.open = Message(number, [b'<>'])
        message = self.open
        message.last = code
        if code == 'R':
            message.recipients.append(texts_of(payload, 1))
        elif code == 'L':
            self.add_header(number, *texts_of(payload, 2, 2))
        elif code in 'BE':
            message.body += payload
        elif payload:
            raise Fault('malformed')
        if code == 'E':
            self.close(number, code)

    def add_header(self, number, name, value):
        """Takes a header field, whose value gets the blank back that was left out."""
        value = value if self.protocol & HDR_LEADSPC else b' ' + value
        if NAME.fullmatch(name) and len(name) + len(value) + 2 < PACKET:
            self.open.headers.append((name, value))
        else:
            self.note(number, line('a header field that no session has:', name[:80]))

    def close(self, number, code):
        """Ends the message that is open, by a command of this code, or at the end of the trace."""
        message, self.open = self.open, None
        if message is None:
            return
        if not message.recipients and self.protocol & NORCPT:
            self.note(message.number, 'messages without a recipient, as was agreed: "<>" stands for it', True)
            message.recipients.append([b'<>'])
        of = 'the message of line %d ' % message.number
        if not message.recipients:
            self.note(number, of + 'has no recipient, and is left out')
            return
        if code != 'E':
            how = 'was settled before its end' if message.is_settled else 'is aborted' if code == 'A' else 'has no end'
            self.note(number, of + how + ': a session plays it to its end')
        self.messages.append(message)

    def hear(self, number, code, payload):
        """Takes a packet of the filter."""
        if code == 'O':
            if len(payload) < 12:
                raise Fault('malformed')
            self.protocol = int.from_bytes(payload[8:12], 'big')
            for bit, what in (NOHDRS, 'header fields'), (NOBODY, 'bodies'):
                if self.protocol & bit:
                    self.note(number, 'no %s are sent, as was agreed' % what)
        elif self.open is not None and code == 's':
            self.note(number, 'the rest of this body is not sent, as the filter asked for')
        elif self.open is not None and code in ('ad' if self.open.last == 'R' else 'adrty'):
            self.open.is_settled = True

    def fits(self, message):
        """Whether the packets of a message, with those of its connection, have no more bytes than a session may."""
        size = len(message.body) + 5 * -(-len(message.body) // (PACKET - 1)) + 3 * 5
        for code, texts in self.macros.items():
            size += (len(message.recipients) if code == 'R' else 1) * (6 + sum(len(text) + 1 for text in texts))
        size += sum(len(text) + 6 for text in message.texts()) + len(self.client or '') + len(self.greeting or b'') + 6
        return size <= MESSAGE

    def lines(self):
        """The lines of the session file."""
        for what, text in ('client', self.client), ('greeting', self.greeting):
            if text is None:
                self.note(None, 'no %s: an empty text stands for it' % what)
        yield self.client or line('client U', b'')
        yield line('helo', self.greeting or b'')
        for code, stage in STAGES.items():
            pairs = self.macros.get(code, [])
            yield from (line('macro ' + stage, *pair) for pair in zip(pairs[::2], pairs[1::2]))
        for message in self.messages:
            if self.fits(message):
                yield from message.lines()
            else:
                self.note(None, 'the message of line %d is too large for a session' % message.number)


def client_of(payload):
    """The line of a client."""
    host, _, rest = payload.partition(b'\0')
    if rest == b'U':
        return line('client U', host)
    if rest[:1] not in (b'L', b'4', b'6') or len(rest) < 4:
        raise Fault('malformed')
    address, = texts_of(rest[3:], 1, 1)
    head = line('client ' + rest[:1].decode(), host)
    return line('%s %d' % (head, int.from_bytes(rest[1:3], 'big')), address)


def session_of(file):
    """The session of a trace."""
    session = Session()
    for number, is_command, code, payload in packets(file):
        try:
            if code not in (COMMANDS if is_command else REPLIES):
                raise Fault('unknown code')
            (session.take if is_command else session.hear)(number, code, payload)
        except Fault as fault:
            shown = CHARACTERS[ord(code)]
            raise Fault('line %d: %s %s %s' % (number, '>' if is_command else '<', fault, shown)) from None
    session.close(None, None)
    return session


def main():
    if len(sys.argv) != 2:
        sys.exit(__doc__)
    try:
        with open(sys.argv[1], 'rb') as file:
            session = session_of(file)
    except (OSError, Fault) as fault:
        sys.exit(str(fault))
    for text in session.lines():
        print(text)


if __name__ == '__main__':
    main()
