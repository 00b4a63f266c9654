"""Captured conversations (cases/captures/*/stdin) as the two mail server's ends play them: of the one the session file,
the packets to the filter and the reports, of the other, which is fed stage by stage, the calls and the packets. All of
it is worked out here from the packets and the protocol.
"""
import glob
import os

from lib import programs
from lib.packets import code_of, number_of, packet_of, packets_of, texts_of

# The stages of macros, by the codes of their commands, and those of verdicts.
STAGES = {'C': 'connect', 'H': 'helo', 'M': 'mail', 'R': 'rcpt', 'T': 'data', 'N': 'eoh', 'E': 'eom'}
ACTED = STAGES | {'L': 'header', 'B': 'body', 'E': 'eob'}
VERDICTS = {'a': 'accept', 'c': 'continue'}
# The calls of a mail server's end that is fed stage by stage, by the codes of their commands.
CALLS = {'H': 'helo', 'M': 'mail', 'R': 'rcpt', 'T': 'data', 'N': 'eoh', 'B': 'body', 'E': 'end', 'A': 'abort', 'Q': 'quit'}
# The stages of macros, by their numbers in a symbol list.
LISTED = 'CHMRTEN'
ESCAPES = {0x09: '\\t', 0x0a: '\\n', 0x0d: '\\r', 0x22: '\\"', 0x5c: '\\\\'}
GREATEST = 0x1ff, 0x1ff7ff
LEADING_SPACE = 0x100000


def paths():
    """The files of all captures."""
    return sorted(glob.glob(os.path.join(programs.TOP, 'cases', 'captures', '*', 'stdin')))


def halves(path):
    """Each packet of the mail server in a capture, with the packets that the filter sent after it."""
    conversation = []
    with open(path, encoding='ascii') as file:
        for line in file:
            mark, digits = line.split()
            for packet in packets_of(bytes.fromhex(digits)):
                if mark == '>':
                    conversation.append((packet, []))
                else:
                    conversation[-1][1].append(packet)
    return conversation


def quoted(text):
    """A text in quotes, as session files and released messages have it."""
    plain = {byte: chr(byte) for byte in range(0x20, 0x7f)} | ESCAPES
    return '"%s"' % ''.join(plain.get(byte, '\\x%02x' % byte) for byte in text)


def line(word, *words):
    """A line of a session file or of a released message."""
    return ' '.join([word] + [quoted(text) for text in words])


def client_parts(payload):
    """The family, host, port and address of a client that has an address."""
    host, rest = payload.split(b'\0', 1)
    return chr(rest[0]), host, int.from_bytes(rest[1:3], 'big'), texts_of(rest[3:])[0]


def asked_for(what, macros, answer):
    """The names and values of those of a stage's macros that are sent: where the options with which the filter answered
    list names for the stage, these alone, in this order."""
    pairs, lists = dict(zip(macros[::2], macros[1::2])), answer[17:]
    while lists:
        stage, names = number_of(lists), lists[4:].split(b'\0')[0]
        lists = lists[4 + len(names) + 1:]
        if LISTED[stage] == what:
            return [text for name in names.split() if name in pairs for text in (name, pairs[name])]
    return macros


def macro_packets(what, macros, answer):
    """The packet of macros that goes before a command with this code, if there is one."""
    texts = asked_for(what, macros, answer)
    return [packet_of(b'D' + what.encode() + b''.join(text + b'\0' for text in texts))] if texts else []


class Message:
    """A message of a capture: its parts, and its verdicts."""

    def __init__(self, sender):
        self.sender, self.recipients, self.headers, self.body = sender, [], [], b''
        self.reason, self.is_body_replaced = None, False
        self.acted, self.counts = [], {}

    def add(self, command, blank):
        """Adds a command's part; a blank that was left out before a header field's value is put back."""
        what, payload = code_of(command), command[5:]
        if what == 'R':
            self.recipients.append(texts_of(payload))
        elif what == 'L':
            name, value = texts_of(payload)
            self.headers.append((name, blank + value))
        elif what in 'BE':
            self.body += payload

    def act(self, what, reply):
        """Adds the verdict that a command is answered with."""
        self.counts[what] = self.counts.get(what, 0) + 1
        self.acted.append('%s %d %s' % (ACTED[what], self.counts[what], VERDICTS[code_of(reply)]))

    def lines(self):
        """The lines of the message, from its sender to its end."""
        return (
            [line('sender', *self.sender)] + [line('recipient', *recipient) for recipient in self.recipients]
            + [line('header', *header) for header in self.headers] + [line('body', self.body), 'end'])

    def change_header(self, index, name, value, blank):
        """Changes the header field of this name and index, from 1; an empty value deletes it."""
        places = [place for place, header in enumerate(self.headers) if header[0].lower() == name.lower()]
        place = places[index - 1] if index <= len(places) else None
        if place is None and value:
            self.headers.append((name, blank + value))
        elif place is not None and value:
            self.headers[place] = self.headers[place][0], blank + value
        elif place is not None:
            del self.headers[place]

    def edit(self, reply, blank):
        """Does what a reply asks for at the end of the message."""
        what, payload = code_of(reply), reply[5:]
        if what == 'h':
            name, value = texts_of(payload)
            self.headers.append((name, blank + value))
        elif what == 'i':
            name, value = texts_of(payload[4:])
            self.headers.insert(number_of(payload), (name, blank + value))
        elif what == 'm':
            self.change_header(max(number_of(payload), 1), *texts_of(payload[4:]), blank)
        elif what in '+2':
            self.recipients.append(texts_of(payload))
        elif what == '-':
            self.recipients = [recipient for recipient in self.recipients if recipient[0] != texts_of(payload)[0]]
        elif what == 'e':
            self.sender = texts_of(payload)
        elif what == 'b':
            self.body = self.body + payload if self.is_body_replaced else payload
            self.is_body_replaced = True
        else:
            assert what == 'q', reply
            self.reason = texts_of(payload)[0]


class Conversation:
    """What a mail server's end sends and reports of a captured connection, whose packets and replies these are."""

    def __init__(self, conversation):
        options, (answer,) = conversation[0]
        version, actions, protocol = (number_of(options[5 + at:]) for at in (0, 4, 8))
        assert version == 6, options
        self.offer = actions & GREATEST[0], protocol & GREATEST[1]
        agreed = number_of(answer[13:]) & self.offer[1]
        self.answer = packet_of(answer[4:13] + agreed.to_bytes(4, 'big') + answer[17:])
        self.blank = b'' if agreed & LEADING_SPACE else b' '
        self.client, self.greeting, self.macros = None, b'', {}
        self.exchanges = [(packet_of(b'O' + b''.join(n.to_bytes(4, 'big') for n in (6, *self.offer))), [self.answer])]
        self.messages, self.acted = [], []
        self.read(conversation[1:])
        self.session = self.session_lines()
        self.reports = self.report_lines()

    def read(self, conversation):
        """Reads the packets after the options, in which the first macros of a stage come before its first command."""
        is_at_end = False
        for command, replies in conversation:
            what = code_of(command)
            if what == 'D':
                if len(command) > 6 and chr(command[5]) in STAGES:
                    self.macros.setdefault(chr(command[5]), texts_of(command[6:]))
            elif what == 'A':
                assert is_at_end, 'a message is aborted'
            else:
                self.add_command(command, replies)
                is_at_end = what == 'E'
        self.exchanges = [part for command, replies in self.exchanges for part in self.with_macros(command, replies)]

    def add_command(self, command, replies):
        """Adds a command and its replies."""
        what = code_of(command)
        self.exchanges.append((command, replies))
        if what == 'C':
            self.client = command[5:]
        elif what == 'H':
            self.greeting, = texts_of(command[5:])
        elif what == 'M':
            self.messages.append(Message(texts_of(command[5:])))
        if what in 'CH':
            self.acted += ['%s 1 %s' % (ACTED[what], VERDICTS[code_of(reply)]) for reply in replies]
        elif what != 'Q':
            self.messages[-1].add(command, self.blank)
            for reply in replies[-1:]:
                self.messages[-1].act(what, reply)

    def with_macros(self, command, replies):
        """A command and its replies, after the macros that go before it."""
        what = code_of(command)
        yield from ((packet, []) for packet in macro_packets(what, self.macros.get(what, []), self.answer))
        yield command, replies

    def session_lines(self):
        """The lines of the session file."""
        family, host, port, address = client_parts(self.client)
        lines = ['client %s %s %d %s' % (family, quoted(host), port, quoted(address)), line('helo', self.greeting)]
        for what, pairs in self.macros.items():
            lines += [line('macro ' + STAGES[what], *pair) for pair in zip(pairs[::2], pairs[1::2])]
        for message in self.messages:
            lines += ['message'] + message.lines()
        return lines

    def report_lines(self):
        """The lines of the reports, with the messages, which are edited here."""
        ends = [replies for command, replies in self.exchanges if code_of(command) == 'E']
        lines = []
        for message, replies in zip(self.messages, ends):
            for reply in replies[:-1]:
                message.edit(reply, self.blank)
            acted = ', '.join(self.acted + message.acted)
            lines.append('%s; released to %d; filter' % (acted, len(message.recipients)))
            lines += [line('quarantine', message.reason)] if message.reason is not None else []
            lines += message.lines()
        return lines


class Calls:
    """The calls of a mail server's end that is fed stage by stage, for a captured connection, whose packets and replies
    these are: of each the lines of the script that make it, what it answers, the packets that it sends, and the replies
    to them."""

    def __init__(self, conversation):
        options, (self.answer,) = conversation[0]
        self.offer = ' '.join('%x' % number_of(options[5 + at:]) for at in (0, 4, 8))
        self.blank = b'' if number_of(self.answer[13:]) & LEADING_SPACE else b' '
        self.calls, self.is_in_message = [([], [], [options], conversation[0][1])], False
        macros = {}
        for command, replies in conversation[1:]:
            what = code_of(command)
            if what == 'D':
                macros = {chr(command[5]): texts_of(command[6:])}
            else:
                self.calls.append(self.call(what, command, macros.get(what, []) if what in STAGES else [], replies))
                macros = {}

    def call(self, what, command, macros, replies):
        """The call for a command with these macros. An abort is left out where no message is under way."""
        lines = [line('macro', *pair) for pair in zip(macros[::2], macros[1::2])] + [self.call_line(what, command[5:])]
        is_sent = what != 'A' or self.is_in_message
        self.is_in_message = self.is_in_message and what not in 'EA' or what == 'M'
        if not is_sent:
            return lines, ['left out'], [], []
        answer = 'verdict due' if replies else 'no reply'
        return lines, [answer], macro_packets(what, macros, self.answer) + [command], replies

    def call_line(self, what, payload):
        """The line that makes the call for a command."""
        if what == 'C':
            family, host, port, address = client_parts(payload)
            return 'connect %s %s %d %s' % (quoted(host), family, port, quoted(address))
        if what == 'L':
            name, value = texts_of(payload)
            return line('header', name, self.blank + value)
        texts = [payload] if what == 'B' else texts_of(payload)
        return line(CALLS[what], *texts)


def by_connections(path):
    """The packets of each connection of a capture, with their replies. Where one goes on as another after `K`, it ends,
    and both begin with the same options."""
    conversation, parts = halves(path), [[]]
    for command, replies in conversation:
        if code_of(command) == 'K':
            parts[-1].append((packet_of(b'Q'), []))
            parts.append(conversation[:1])
        else:
            parts[-1].append((command, replies))
    return parts


def conversations(path):
    """The connections of a capture as a mail server's end plays them whose messages are known beforehand."""
    return [Conversation(part) for part in by_connections(path)]


def calls(path):
    """The connections of a capture as a mail server's end plays them that is fed stage by stage."""
    return [Calls(part) for part in by_connections(path)]
