"""What edits make of a message, as docs/PROTOCOL.md has it ("Messages and their edits"): a model that makes one edit
after the other. A message has its parts as they stand in a session file: a sender and recipients, each an address and
parameters, header fields, each a name and a value, and a body.
"""
import functools

from lib.captures import quoted
from lib.packets import packet_of

quoted = functools.lru_cache(None)(quoted)


def line(word, texts):
    """A line of a session file or of a message after edits."""
    return ' '.join([word] + [quoted(text) for text in texts])


class Message:
    """A message that edits change. Of its header fields there are the names, the values, and the names in lower case;
    `put` stands before a value that an edit puts: a blank where leading spaces aren't sent, else nothing."""

    def __init__(self, sender, recipients, fields, body, put):
        self.sender, self.recipients, self.body, self.put = sender, list(recipients), body, put
        self.names, self.values = [list(texts) for texts in zip(*fields)] if fields else ([], [])
        self.lowered = [name.lower() for name in self.names]
        self.reason, self.has_new_body = None, False

    def lines(self):
        """The lines of its parts."""
        fields = [line('header', field) for field in zip(self.names, self.values)]
        recipients = [line('recipient', path) for path in self.recipients]
        return [line('sender', self.sender)] + recipients + fields + [line('body', [self.body]), 'end']

    def text(self):
        """Its text after edits."""
        reason = [] if self.reason is None else [line('quarantine', [self.reason])]
        return '\n'.join(reason + self.lines() + [''])

    def insert(self, place, name, value):
        """A header field after as many others as the place says, or last where there are fewer."""
        self.names.insert(place, name)
        self.values.insert(place, self.put + value)
        self.lowered.insert(place, name.lower())

    def add(self, name, value):
        """A header field as the last."""
        self.insert(len(self.names), name, value)

    def place_of(self, number, name):
        """The place of the field of this name with this number, counted from 1; 0 is taken as 1."""
        place, lowered = -1, name.lower()
        if self.lowered.count(lowered) < max(number, 1):
            return None
        for _ in range(max(number, 1)):
            place = self.lowered.index(lowered, place + 1)
        return place

    def change(self, number, name, value):
        """Another value for a header field, or none of it where that is empty."""
        place = self.place_of(number, name)
        if place is None and value:
            self.add(name, value)
        elif place is not None and value:
            self.values[place] = self.put + value
        elif place is not None:
            for texts in (self.names, self.values, self.lowered):
                del texts[place]

    def add_recipient(self, *path):
        """A recipient as the last."""
        self.recipients.append(path)

    def delete_recipient(self, address):
        """No recipient with this address."""
        self.recipients = [path for path in self.recipients if path[0] != address]

    def change_sender(self, *path):
        """Another sender."""
        self.sender = path

    def replace_body(self, chunk):
        """A chunk of another body."""
        self.body = self.body + chunk if self.has_new_body else chunk
        self.has_new_body = True

    def quarantine(self, reason):
        """A reason for a quarantine."""
        self.reason = reason

    def progress(self):
        """Nothing: the filter is at work."""


# What makes the edit of the packet with this code, whose numbers and texts are its arguments.
EDITS = {
    b'h': Message.add, b'i': Message.insert, b'm': Message.change, b'+': Message.add_recipient,
    b'2': Message.add_recipient, b'-': Message.delete_recipient, b'e': Message.change_sender,
    b'b': Message.replace_body, b'q': Message.quarantine, b'p': Message.progress}


def packet(code, *parts):
    """The packet that asks for an edit, of its code, numbers and texts."""
    if code == b'b':
        return packet_of(code + parts[0])
    texts = [part.to_bytes(4, 'big') if isinstance(part, int) else part + b'\0' for part in parts]
    return packet_of(code + b''.join(texts))


def session(message):
    """The session file of one message."""
    return '\n'.join(['client U ""', 'helo ""', 'message'] + message.lines() + ['']).encode()


def edit(message, edits):
    """Makes edits, one after the other, each of which is a code, numbers and texts."""
    for code, *parts in edits:
        EDITS[code](message, *parts)
