"""The filters of a mail server that runs on asyncio, for mail_server.py: each is asked over a connection of its own for
each client, in turn.
"""
import asyncio
import functools
import re
from typing import Awaitable, Callable, Dict, List, Optional, Tuple

from deiruska import Fault, LossFault, Message, MtaConnection, Outcome, Verdict, Want

# How many bytes are read at once, and the most of a chunk of a body.
READ_MAX, CHUNK_MAX = 65_536, 65_535
REPLIES = {Verdict.REJECT: b"550 5.7.1 Command rejected", Verdict.TEMPFAIL: b"451 4.3.2 Please try again later"}
# What is said of a message whose filter is lost; none where it goes on without the filter.
DEFAULTS = {"accept": None, "tempfail": REPLIES[Verdict.TEMPFAIL], "reject": REPLIES[Verdict.REJECT]}
# By what a filter is lost. Before Python 3.11 a timeout is no OSError.
LOST = (OSError, asyncio.TimeoutError, Fault)

Streams = Tuple[asyncio.StreamReader, asyncio.StreamWriter]
Opener = Callable[[], Awaitable[Streams]]
Call = Callable[[MtaConnection], Outcome]


class Refused(Exception):
    """What the client said is refused, with this reply."""

    def __init__(self, reply: bytes) -> None:
        super().__init__(reply)
        self.reply = reply


class Discarded(Exception):
    """The message is taken from the client and thrown away."""


def opener(address: str) -> Opener:
    """What connects to the filter at an address, `inet:PORT@HOST` or `unix:PATH`."""
    inet = re.fullmatch(r"inet:(\d+)@(.+)", address)
    if inet is not None:
        return functools.partial(asyncio.open_connection, inet[2], int(inet[1]))
    if not address.startswith("unix:"):
        raise ValueError(address)
    return functools.partial(asyncio.open_unix_connection, address[len("unix:"):])


class Filter:
    """A filter, and the connection over which it is shown one client and its mail."""

    def __init__(self, opened: Opener, wait: float, default: Optional[bytes]) -> None:
        self.connection, self.opened, self.wait, self.default = MtaConnection(), opened, wait, default
        self.streams: Optional[Streams] = None

    async def connect(self) -> None:
        """Connects, and negotiates."""
        try:
            self.streams = await asyncio.wait_for(self.opened(), self.wait)
            await self.exchange(*self.streams)
        except LOST:
            self.connection.lost()

    async def exchange(self, reader: asyncio.StreamReader, writer: asyncio.StreamWriter) -> None:
        """Sends what is pending, and reads up to the options, or to the verdict where one is due. The time is that of a
        read, so a filter that reports progress has it again."""
        pending = self.connection.pending
        writer.write(pending)
        await asyncio.wait_for(writer.drain(), self.wait)
        self.connection.sent(len(pending))
        while self.connection.want is Want.RECEIVE:
            piece = await asyncio.wait_for(reader.read(READ_MAX), self.wait)
            if not piece:
                raise ConnectionResetError
            try:
                self.connection.feed(piece)
            except LossFault:
                # A verdict counts also where the filter is lost after it.
                if self.connection.verdict is None:
                    raise

    async def ask(self, call: Call, is_of_message: bool = True) -> None:
        """Makes a call, waits for the verdict where one is due, and raises what that asks for. A filter that is lost
        before answers by the default, which is for messages alone."""
        verdict = None
        try:
            outcome = call(self.connection)
            if outcome is not Outcome.LEFT_OUT and self.streams is not None:
                await self.exchange(*self.streams)
            if outcome is Outcome.VERDICT_DUE:
                verdict = self.connection.verdict
            reply = verdict and (verdict.code or REPLIES.get(verdict.verdict))
        except LOST:
            self.connection.lost()
            reply = self.default if is_of_message else None
        if reply:
            raise Refused(reply)
        if verdict and verdict.verdict is Verdict.DISCARD:
            raise Discarded

    async def show(self, message: Message, macros: Dict[str, bytes]) -> None:
        """Shows the text of a message, up to its end, and makes the edits of the answer."""
        for name, value in message.fields:
            await self.ask(functools.partial(MtaConnection.header, name=name, value=value))
        await self.ask(lambda it: it.eoh(macros))
        body = message.body
        for start in range(0, len(body), CHUNK_MAX):
            await self.ask(functools.partial(MtaConnection.body, chunk=body[start:start + CHUNK_MAX]))
        await self.ask(lambda it: it.end(macros))
        message.edit(self.connection)

    def quit(self) -> None:
        """The client has gone."""
        if self.streams is not None:
            if self.connection.want is Want.COMMAND:
                self.connection.quit()
                self.streams[1].write(self.connection.pending)
            self.streams[1].close()


class Filters:
    """All filters of one client."""

    def __init__(self, openers: List[Opener], wait: float, default: Optional[bytes]) -> None:
        self.filters = [Filter(opened, wait, default) for opened in openers]
        # The message is to be thrown away: no filter is shown more of it.
        self.is_discarded = False

    async def connect(self) -> None:
        """Connects to all of them."""
        for it in self.filters:
            await it.connect()

    async def ask(self, call: Call, is_of_message: bool = True) -> None:
        """Asks each filter in turn, up to the first one that refuses. Where one discards the message the others give it
        up."""
        try:
            for it in [] if self.is_discarded else self.filters:
                await it.ask(call, is_of_message)
        except Discarded:
            await self.end_message()
            self.is_discarded = True

    async def show(self, message: Message, macros: Dict[str, bytes]) -> bool:
        """Shows each filter the text of a message as those before it edited it. Answers whether it is delivered."""
        try:
            for it in [] if self.is_discarded else self.filters:
                await it.show(message, macros)
        except Discarded:
            return False
        return not self.is_discarded

    async def end_message(self) -> None:
        """No message is under way any more: the filters to which it wasn't shown to its end give it up."""
        self.is_discarded = False
        for it in self.filters:
            await it.ask(MtaConnection.abort, False)

    def quit(self) -> None:
        """The client has gone."""
        for it in self.filters:
            it.quit()
