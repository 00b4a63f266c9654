#!/usr/bin/env python3
"""A mail server that shows its mail to filters and writes it into a Maildir.

    python3 mail_server.py --maildir Maildir --filter inet:8891@127.0.0.1 --filter unix:/run/second.sock

The filters are asked by asked_filters.py. The commands are those of RFC 5321. They are read by asyncio's streams, since
aiosmtpd greets a client, and has it send a message, before its handler could ask a filter about that.
"""
import argparse
import asyncio
import functools
import itertools
import logging
import os
import pathlib
import re
import signal
import time
from typing import Awaitable, Callable, Dict, Optional

from asked_filters import DEFAULTS, Call, Filters, Refused, opener
from deiruska import Address, Family, Fault, MessageFault
from mail_text import LINE_TOO_LONG, TEXT_MAX, TOO_LARGE, Mail, bare, path_in, read_line, read_text, store

# The most bytes of a command with its end.
COMMAND_MAX, RECIPIENTS_MAX, SECONDS_MAX = 2_048, 100, 3_600
NOT_DONE = (b"VRFY", b"EXPN", b"HELP", b"AUTH", b"BDAT", b"STARTTLS")
CONTROL = re.compile(rb"[\0-\x1f\x7f]")
NUMBERS, LOGGER = itertools.count(1), logging.getLogger("mail_server")


class Session:
    """The dialogue with a client."""

    def __init__(
            self, settings: argparse.Namespace, reader: asyncio.StreamReader, writer: asyncio.StreamWriter) -> None:
        self.host: bytes = settings.name.encode()
        self.maildir: pathlib.Path = settings.maildir
        self.reader, self.writer = reader, writer
        self.filters = Filters(settings.filter, settings.wait, DEFAULTS[settings.on_loss])
        self.mail: Optional[Mail] = None
        # A refusal of the client or of its greeting holds for all of its messages.
        self.refusal: Optional[bytes] = None
        self.has_greeted = self.has_quit = False

    async def run(self) -> None:
        """Answers the client until it has gone."""
        try:
            await self.filters.connect()
            await self.reply(self.on_connect())
            while not self.has_quit:
                line = await read_line(self.reader, COMMAND_MAX)
                if not line:
                    break
                await self.reply(self.on_line(line))
        finally:
            self.filters.quit()

    async def reply(self, answer: Awaitable[bytes]) -> None:
        """Sends an answer, or the reply by which it is refused."""
        try:
            text = await answer
        except Refused as refused:
            text = refused.reply
        except Fault:
            text = b"451 4.3.0 Out of memory"
        await self.send(text)

    async def send(self, text: bytes) -> None:
        """Sends a reply."""
        self.writer.write(text + b"\r\n")
        await self.writer.drain()

    async def ask_of_client(self, call: Call) -> None:
        """Asks the filters about the client, or about its greeting."""
        try:
            await self.filters.ask(call, is_of_message=False)
        except Refused as refused:
            self.refusal = refused.reply
            raise

    async def give_up(self) -> None:
        """No message is under way any more."""
        self.mail = None
        await self.filters.end_message()

    async def on_connect(self) -> bytes:
        """The client has connected."""
        # There is no name of a client that has gone by now.
        host, port = (self.writer.get_extra_info("peername") or ("", 0))[:2]
        address = Address(host.encode(), Family.INET6 if ":" in host else Family.INET, port)
        macros = {"j": self.host, "{daemon_name}": b"mail_server.py"}
        await self.ask_of_client(lambda it: it.connect("[%s]" % host, address, macros))
        return b"220 %s ESMTP" % self.host

    async def on_line(self, line: bytes) -> bytes:
        """The client has sent this line."""
        if len(line) > COMMAND_MAX:
            raise Refused(LINE_TOO_LONG)
        line = line[:-2] if line.endswith(b"\r\n") else line[:-1]
        if CONTROL.search(line):
            return b"500 5.5.2 Control character"
        verb, _, argument = line.partition(b" ")
        verb = verb.strip().upper()
        if verb in COMMANDS:
            return await COMMANDS[verb](self, argument.strip())
        await self.filters.ask(lambda it: it.unknown(line), is_of_message=False)
        return b"502 5.5.1 Command not implemented" if verb in NOT_DONE else b"500 5.5.2 Command not recognized"

    async def on_helo(self, name: bytes) -> bytes:
        """HELO, which ends a message that is under way."""
        if not name:
            raise Refused(b"501 5.5.4 A name is to follow")
        await self.give_up()
        if self.refusal is not None:
            raise Refused(self.refusal)
        await self.ask_of_client(lambda it: it.helo(name))
        self.has_greeted = True
        return b"250 " + self.host

    async def on_ehlo(self, name: bytes) -> bytes:
        """EHLO, which asks for the extensions too."""
        await self.on_helo(name)
        return b"250-%s\r\n250-PIPELINING\r\n250-SIZE %d\r\n250 8BITMIME" % (self.host, TEXT_MAX)

    async def on_mail(self, argument: bytes) -> bytes:
        """MAIL, with the sender of a message."""
        if self.refusal is not None:
            raise Refused(self.refusal)
        if not self.has_greeted:
            return b"503 5.5.1 HELO or EHLO comes first"
        if self.mail is not None:
            return b"503 5.5.1 A message is under way"
        sender, parameters = path_in(b"FROM", argument)
        for size in [it[5:] for it in parameters if it.upper().startswith(b"SIZE=")]:
            if not size.isdigit() or int(size) > TEXT_MAX:
                raise Refused(TOO_LARGE)
        seconds, micros = divmod(time.time_ns() // 1_000, 1_000_000)
        name = "%d.M%dP%dQ%d" % (seconds, micros, os.getpid(), next(NUMBERS))
        # A filter may have discarded an unknown command since the last message.
        await self.give_up()
        try:
            macros = {"i": name.encode(), "{mail_addr}": bare(sender)}
            await self.filters.ask(lambda it: it.mail(sender, parameters, macros))
        except Refused:
            await self.give_up()
            raise
        self.mail = Mail(name, sender, [])
        return b"250 2.1.0 Sender ok"

    async def on_rcpt(self, argument: bytes) -> bytes:
        """RCPT, with a recipient."""
        if self.mail is None:
            return b"503 5.5.1 MAIL comes first"
        if len(self.mail.recipients) >= RECIPIENTS_MAX:
            return b"452 4.5.3 Too many recipients"
        recipient, parameters = path_in(b"TO", argument)
        if recipient == b"<>":
            return b"501 5.5.4 Syntax: TO:<address>"
        await self.filters.ask(lambda it: it.rcpt(recipient, parameters, {"{rcpt_addr}": bare(recipient)}))
        self.mail.recipients.append(recipient)
        return b"250 2.1.5 Recipient ok"

    async def on_data(self, argument: bytes) -> bytes:
        """DATA, after which the text comes."""
        mail = self.mail
        if mail is None:
            return b"503 5.5.1 MAIL comes first"
        if not mail.recipients:
            return b"503 5.5.1 No valid recipients"
        if argument:
            return b"501 5.5.4 DATA has no argument"
        macros = {"i": mail.name.encode()}
        try:
            await self.filters.ask(lambda it: it.data(macros))
            await self.send(b"354 End with a line that has a period alone")
            await self.take(mail, await read_text(self.reader), macros)
        finally:
            await self.give_up()
        return b"250 2.0.0 Ok: queued as " + mail.name.encode()

    async def take(self, mail: Mail, text: bytes, macros: Dict[str, bytes]) -> None:
        """Shows the filters a message, and stores what they leave of it."""
        try:
            message = mail.with_text(text)
        except MessageFault:
            raise Refused(b"554 5.6.0 The header can't be shown to filters") from None
        if await self.filters.show(message, macros) and message.recipients:
            try:
                store(self.maildir, mail.name, message)
            except OSError:
                raise Refused(b"451 4.3.0 The message can't be stored") from None

    async def on_rset(self, _argument: bytes) -> bytes:
        """RSET, which gives a message up."""
        await self.give_up()
        return b"250 2.0.0 Ok"

    async def on_noop(self, _argument: bytes) -> bytes:
        """NOOP."""
        return b"250 2.0.0 Ok"

    async def on_quit(self, _argument: bytes) -> bytes:
        """QUIT."""
        self.has_quit = True
        return b"221 2.0.0 Bye"


COMMANDS: Dict[bytes, Callable[[Session, bytes], Awaitable[bytes]]] = {
    b"HELO": Session.on_helo, b"EHLO": Session.on_ehlo, b"MAIL": Session.on_mail, b"RCPT": Session.on_rcpt,
    b"DATA": Session.on_data, b"RSET": Session.on_rset, b"NOOP": Session.on_noop, b"QUIT": Session.on_quit}


def seconds(text: str) -> int:
    """A time in seconds."""
    number = int(text)
    if not 1 <= number <= SECONDS_MAX:
        raise ValueError(text)
    return number


def read_settings() -> argparse.Namespace:
    """What the command line says."""
    parser = argparse.ArgumentParser(description="Takes mail over SMTP, shows it to filters, and stores it.")
    parser.add_argument("--maildir", required=True, type=pathlib.Path, help="the Maildir that mail is written into")
    parser.add_argument("--filter", action="append", default=[], type=opener, metavar="ADDRESS",
                        help="shows mail to the filter at inet:PORT@HOST or unix:PATH; may be repeated")
    parser.add_argument("--on-loss", default="tempfail", choices=DEFAULTS,
                        help="what becomes of mail whose filter is lost")
    parser.add_argument("--wait", default=60, type=seconds, help="the seconds that a filter's reply may take")
    parser.add_argument("--host", default="127.0.0.1", help="where it listens")
    parser.add_argument("--port", default=2525, type=int, help="where it listens")
    parser.add_argument("--name", default="localhost", help="what this host is called")
    return parser.parse_args()


async def answer_client(
        settings: argparse.Namespace, reader: asyncio.StreamReader, writer: asyncio.StreamWriter) -> None:
    """Serves a client that has connected."""
    try:
        await Session(settings, reader, writer).run()
    except (ConnectionError, Fault) as fault:
        LOGGER.warning("a client is given up: %s", fault)
    finally:
        writer.close()


async def serve(settings: argparse.Namespace) -> None:
    """Serves clients until a signal ends it."""
    stopped, loop = asyncio.Event(), asyncio.get_running_loop()
    for number in (signal.SIGINT, signal.SIGTERM):
        loop.add_signal_handler(number, stopped.set)
    server = await asyncio.start_server(functools.partial(answer_client, settings), settings.host, settings.port)
    await stopped.wait()
    server.close()


if __name__ == "__main__":
    asyncio.run(serve(read_settings()))
