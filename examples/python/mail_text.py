"""What a client of a mail server sends, and the file that a message becomes, for mail_server.py."""
import asyncio
import os
import pathlib
import re
from typing import List, NamedTuple, Tuple

from asked_filters import Refused
from deiruska import Message

# The most bytes of a line of text with its end, and of a text.
LINE_MAX, TEXT_MAX = 1_000, 10_485_760
FIELD = re.compile(rb"([!-9;-~]+):(.*(?:\r\n[ \t].*)*)\r\n")
LINE_TOO_LONG, BARE_LF = b"500 5.5.2 Line too long", b"500 5.5.2 Line ends with LF alone"
TOO_LARGE = b"552 5.3.4 Message too large"


async def read_line(reader: asyncio.StreamReader, most: int) -> bytes:
    """A line with its end; of a longer one a part that is longer than the limit too; none where the client has gone."""
    line = b""
    while not line.endswith(b"\n"):
        try:
            line += await reader.readuntil(b"\n")
        except asyncio.LimitOverrunError as overrun:
            line += await reader.readexactly(overrun.consumed)
        except asyncio.IncompleteReadError:
            return b""
        if len(line) > most:
            line = line[:most - 1] + line[-2:]
    return line


async def read_text(reader: asyncio.StreamReader) -> bytes:
    """The text of a message. A period ends it after CR LF alone, so that no command is smuggled in as part of it."""
    text, fault, is_after_crlf = bytearray(), b"", True
    while True:
        line = await read_line(reader, LINE_MAX)
        if not line:
            raise Refused(b"421 4.4.2 The connection has ended")
        if is_after_crlf and line == b".\r\n":
            break
        is_after_crlf = line.endswith(b"\r\n")
        if len(line) > LINE_MAX:
            fault = fault or LINE_TOO_LONG
        elif not is_after_crlf:
            fault = fault or BARE_LF
        elif len(text) + len(line) > TEXT_MAX:
            fault = fault or TOO_LARGE
        elif not fault:
            text += line[1:] if line.startswith(b".") else line
    if fault:
        raise Refused(fault)
    return bytes(text)


def path_in(word: bytes, argument: bytes) -> Tuple[bytes, List[bytes]]:
    """The address in an argument, in its angle brackets, and the parameters."""
    found = re.fullmatch(word + rb":\s*(<[^>]*>)(?: (.*))?", argument, re.IGNORECASE)
    if found is None:
        raise Refused(b"501 5.5.4 Syntax: %s:<address>" % word)
    return found[1], (found[2] or b"").split()


class Mail(NamedTuple):
    """What comes before the text of a message."""

    name: str
    sender: bytes
    recipients: List[bytes]

    def with_text(self, text: bytes) -> Message:
        """The message. Its header ends before the first line that is no field."""
        fields, place = [], 0
        for field in iter(lambda: FIELD.match(text, place), None):
            fields.append((field[1], field[2].replace(b"\r\n", b"\n")))
            place = field.end()
        body = text[place:]
        return Message(self.sender, self.recipients, fields, body[2:] if body.startswith(b"\r\n") else body)


def bare(address: bytes) -> bytes:
    """An address without its angle brackets."""
    return address[1:-1] if address.startswith(b"<") and address.endswith(b">") else address


def store(maildir: pathlib.Path, name: str, message: Message) -> None:
    """Writes a message into `tmp`, and moves it to where it is read. Where that fails nothing is left of it;
    mailbox.Maildir leaves a part in `tmp` where the disk is full."""
    lines = [b"Return-Path: <%s>\n" % bare(message.sender)]
    lines += [b"Delivered-To: %s\n" % bare(recipient) for recipient in message.recipients]
    reason, folder = message.quarantined, "new"
    if reason is not None:
        lines, folder = [*lines, b"X-Quarantine: %s\n" % reason], ".Quarantine/new"
    text, draft = b"".join(lines) + bytes(message).replace(b"\r\n", b"\n"), maildir / "tmp" / name
    file = draft.open("xb")
    try:
        with file:
            file.write(text)
            file.flush()
            os.fsync(file.fileno())
        draft.rename(maildir / folder / name)
    except OSError:
        draft.unlink()
        raise
