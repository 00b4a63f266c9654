"""A message in its parts, and what a filter's edits make of it."""
import re
from typing import List, Optional, Sequence, Tuple

from ._connection import _Owner
from ._faults import check
from ._library import WORD, Text, bytes_of, parameters_of
from ._mta import MtaConnection

Fields = List[Tuple[bytes, bytes]]


def parts_of(message: Text) -> Tuple[Fields, bytes]:
    """The header fields of a message, each with the blank that its value begins with, and its body. Its lines end with
    CR LF or LF; in what is answered those of a folded field end with LF, as mail servers show it to filters, and those
    of the body with CR LF."""
    head, _, body = re.sub(rb"\r?\n", b"\n", b"\n" + bytes_of(message)).partition(b"\n\n")
    fields: Fields = []
    for field in re.split(rb"\n(?![ \t])", head)[1:]:
        name, colon, value = field.partition(b":")
        if not colon:
            raise ValueError("a line of the header has no colon: %r" % field)
        fields.append((name, value))
    return fields, body.replace(b"\n", b"\r\n")


class Message(_Owner):
    """A message: its sender and recipients, header fields, each with the blank that its value begins with, and body,
    and why it is in quarantine, where it is. Raises MessageFault where a part is too long for a packet or has a NUL."""

    def __init__(
            self, sender: Text, recipients: Sequence[Text] = (), fields: Sequence[Tuple[Text, Text]] = (),
            body: Text = b"") -> None:
        """A message of these parts, without ESMTP parameters."""
        super().__init__()
        check(self._call("message_new", *parameters_of([sender])))
        for recipient in recipients:
            check(self._call("message_add_recipient", *parameters_of([recipient])))
        for field in fields:
            check(self._call("message_add_header", *parameters_of(field)))
        check(self._call("message_add_body", *parameters_of([body])))

    def edit(self, connection: MtaConnection) -> None:
        """Makes the edits of the filter's answer to the end of the message, one after the other, by the
        rules of libmilter's documentation; docs/PROTOCOL.md says in what mail servers differ."""
        with connection._lock:
            check(self._call("message_edit", connection._at))

    @property
    def sender(self) -> bytes:
        """The address of the sender."""
        return self._bytes("message_sender") or b""

    @property
    def recipients(self) -> List[bytes]:
        """The addresses of the recipients."""
        with self._lock:
            count = self._number("message_recipients", WORD) or 0
            return [self._bytes("message_recipient", place) or b"" for place in range(count)]

    @property
    def fields(self) -> Fields:
        """The header fields."""
        with self._lock:
            return [self._field(place) for place in range(self._number("message_headers", WORD) or 0)]

    def _field(self, place: int) -> Tuple[bytes, bytes]:
        return (self._bytes("message_header_name", place) or b"",
                self._bytes("message_header_value", place) or b"")

    @property
    def body(self) -> bytes:
        """The body."""
        return self._bytes("message_body") or b""

    @property
    def quarantined(self) -> Optional[bytes]:
        """The reason for which it is in quarantine, if it is."""
        return self._bytes("message_quarantine")

    def __bytes__(self) -> bytes:
        """The header and the body, with lines that end with CR LF."""
        lines = [name + b":" + re.sub(rb"\r?\n", b"\r\n", value) + b"\r\n" for name, value in self.fields]
        return b"".join([*lines, b"\r\n", self.body])
