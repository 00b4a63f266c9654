"""Plays the scripts of `milter_tests_driver connection` for a mail server's end (the tables `connection_*` and the
captures) to that of the Python binding, and prints what that program prints. Where the binding doesn't have what it prints, as
the phase of a connection or the words for a packet that can't be read, any text is taken.
"""
import re
import types

from lib.packets import packet_of, packets_of

WORD = re.compile(rb'"((?:[^"\\]|\\.)*)"|(\S+)')
ESCAPES = {b't': b'\t', b'n': b'\n', b'r': b'\r', b'"': b'"', b'\\': b'\\'}
# What isn't played: edits that are taken, and a message after edits, which the library doesn't have.
NOT_THERE = re.compile(rb'(?m)^(take_edits|edited)\b')
ANY = '.*'
FAULTS = {601: 'the connection has ended', 602: 'a packet is to be sent, or a reply is due',
          603: 'command out of order', 604: "command doesn't fit a packet"}
LOSSES = {711: '(zero length|length [0-9]+ too long|unknown code .*|malformed .*)', 712: 'version not supported',
          713: 'actions that were not offered', 714: 'protocol bits that were not offered',
          715: 'reply not at this stage', 716: 'edit that was not negotiated', 717: 'too many edits',
          718: 'reply before its command'}
EDITS = {'add_header': b'h', 'insert_header': b'i', 'change_header': b'm', 'delete_recipient': b'-',
         'change_sender': b'e', 'replace_body': b'b', 'quarantine': b'q'}
FAMILIES = {b'L': 'UNIX', b'4': 'INET', b'6': 'INET6'}


def words_of(line):
    """The words of a line, of which those in quotes have escapes."""
    for quoted, plain in WORD.findall(line):
        yield plain or re.sub(rb'\\(x..|.)', lambda it: ESCAPES.get(it[1]) or bytes.fromhex(it[1][1:].decode()), quoted)


def packet_of_edit(edit):
    """The packet that asks for an edit."""
    name, values = edit
    code = EDITS.get(name) or (b'+' if len(values) == 1 else b'2')
    texts = [value for value in values if not isinstance(value, int)]
    if name == 'change_sender' or code == b'2':
        texts = [text for text in texts if text]
    numbers = b''.join(value.to_bytes(4, 'big') for value in values if isinstance(value, int))
    return packet_of(code + numbers + (texts[0] if code == b'b' else b''.join(text + b'\0' for text in texts)))


class Player:
    """A mail server's end, and the macros of its next call. Its methods give the lines that are printed, as patterns.
    """

    def __init__(self, deiruska, offer):
        version, actions, protocol = (int(word, 16) for word in offer)
        self.deiruska, self.macros = deiruska, []
        self.connection = deiruska.MtaConnection(actions, protocol, version)

    def event(self, event):
        """The words for an event."""
        connection, events = self.connection, self.deiruska.Event
        if event == events.NEGOTIATED:
            return 'negotiated %x %x %x' % connection.negotiated
        if event == events.VERDICT:
            verdict = connection.verdict
            code = verdict.code and verdict.code.decode()
            return 'verdict ' + ('code ' + re.escape(code) if code else verdict.verdict.name.lower())
        return 'in progress' if event == events.IN_PROGRESS else 'nothing'

    def fed(self, piece):
        """What comes of a piece."""
        try:
            return self.event(self.connection.feed(piece))
        except self.deiruska.LossFault as fault:
            return '%s loss %s' % (self.event(self.connection.event), LOSSES[fault.number])

    def feed(self, digits=b''):
        """Feeds a piece."""
        return [self.fed(bytes.fromhex(digits.decode()))]

    def feed_bytes(self, digits):
        """Feeds each byte."""
        found = [self.fed(bytes([byte])) for byte in bytes.fromhex(digits.decode())]
        return [it for it in found if it != 'nothing']

    def macro(self, name, value):
        """A macro of the next call."""
        self.macros.append((name, value))
        return []

    def send(self):
        """Sends what is pending."""
        pending = self.connection.pending
        self.connection.sent(len(pending))
        return [packet.hex() for packet in packets_of(pending)]

    def sent(self, count):
        """Sends so many bytes."""
        self.connection.sent(min(int(count), len(self.connection.pending)))
        return []

    def lost(self):
        """The filter is lost."""
        self.connection.lost()
        return []

    def want(self):
        """What is wanted."""
        return [self.connection.want.name.lower()]

    def pending(self):
        """What is pending."""
        return [self.connection.pending.hex()]

    def under_way(self):
        """Whether a message is under way."""
        return ['yes' if self.connection.is_message_under_way else 'no']

    def phase(self):
        """Where the connection is."""
        return [ANY]

    def edits(self):
        """The edits."""
        return ['edits [0-9]+'] + [packet_of_edit(edit).hex() for edit in self.connection.edits]

    def call(self, name, *texts):
        """Makes a call of this name, with the macros."""
        # A name may be there twice, as in no dictionary.
        connection, macros = self.connection, self.macros
        options = {'macros': types.SimpleNamespace(items=lambda: macros)}
        if name == 'connect':
            host, family, port, address = [*texts, b'', b'0', b''][:4] if len(texts) == 1 else texts
            family = getattr(self.deiruska.Family, FAMILIES.get(family, 'UNKNOWN'))
            texts = [host, self.deiruska.Address(address, family, int(port))]
        elif name in ['mail', 'rcpt']:
            texts = [texts[0], texts[1:]]
        elif name in ['header', 'body', 'abort', 'quit']:
            options = {}
        self.macros = []
        try:
            return [getattr(connection, name)(*texts, **options).name.lower().replace('_', ' ')]
        except self.deiruska.CallFault as fault:
            return [FAULTS[fault.number]]

    def line(self, line):
        """What a line of a script prints."""
        word, *texts = words_of(line)
        method = getattr(self, word.decode(), None)
        return method(*texts) if method else self.call(word.decode(), *texts)


def printed(deiruska, script):
    """The lines that a script prints, as patterns; None where it isn't played."""
    first, *lines = [line for line in script.split(b'\n') if line.strip() and not line.startswith(b'#')]
    if NOT_THERE.search(script):
        return None
    player = Player(deiruska, first.split()[1:])
    return [text for line in lines for found in player.line(line) for text in found.split('\\\r\\\n')]


def differs(patterns, lines):
    """The first line that isn't as its pattern, and that; None where all are."""
    for number in range(max(len(patterns), len(lines))):
        pattern, line = [*patterns[number:number + 1], None][0], [*lines[number:number + 1], None][0]
        if pattern is None or line is None or not re.fullmatch(pattern, line):
            return number, pattern, line
    return None
