"""A filter's end on a socket, by asyncio."""
import asyncio
import functools
import logging
import os
import threading
from typing import Any, Callable, Coroutine, Mapping, Optional, Set, Union

from ._address import READ_MAX, Inet, place_of
from ._answer import Answer
from ._connection import FilterConnection, Shown
from ._faults import AnswerFault, FilterFault
from ._library import Text
from ._names import Actions, Protocol, Stage, Step, Verdict

LOGGER = logging.getLogger("deiruska")
Answered = Optional[Union[Answer, Verdict]]
Handler = Callable[[Stage, Shown], Coroutine[Any, Any, Answered]]
# The bits by which a stage isn't sent, and by which it isn't answered. The end of a message is always asked about.
UNSENT = {
    Stage.CONNECT: Protocol.NOCONNECT, Stage.HELO: Protocol.NOHELO, Stage.MAIL: Protocol.NOMAIL,
    Stage.RCPT: Protocol.NORCPT, Stage.DATA: Protocol.NODATA, Stage.HEADER: Protocol.NOHDRS,
    Stage.EOH: Protocol.NOEOH, Stage.BODY: Protocol.NOBODY}
UNANSWERED = {
    Stage.CONNECT: Protocol.NR_CONN, Stage.HELO: Protocol.NR_HELO, Stage.MAIL: Protocol.NR_MAIL,
    Stage.RCPT: Protocol.NR_RCPT, Stage.DATA: Protocol.NR_DATA, Stage.HEADER: Protocol.NR_HDR,
    Stage.EOH: Protocol.NR_EOH, Stage.BODY: Protocol.NR_BODY}


def is_function(handler: Any) -> bool:
    """Whether a handler is a function of the stage, and not an object with a method for each, or its class."""
    return callable(handler) and not isinstance(handler, type)


def stages_of(handler: Any) -> Set[Stage]:
    """The stages for which an object has a method; all of them for a function."""
    if is_function(handler):
        return set(Stage)
    return {stage for stage in Stage if callable(getattr(handler, stage.name.lower(), None))}


def protocol_of(stages: Set[Stage]) -> Protocol:
    """The protocol bits of a filter that is asked at these stages. What comes before the last of them is sent, since it
    is shown there, and what comes after it isn't."""
    last = max(stages, default=Stage.CONNECT)
    protocol = Protocol.NOUNKNOWN
    for stage in UNSENT:
        if stage > last:
            protocol |= UNSENT[stage]
        elif stage not in stages:
            protocol |= UNANSWERED[stage]
    return protocol | Protocol.SKIP if Stage.BODY in stages else protocol


def handler_of(handler: Any) -> Handler:
    """The function that answers a connection's questions, by the handler or by its methods; of a class each connection
    has an object."""
    asked = handler() if isinstance(handler, type) else handler

    async def by_function(stage: Stage, shown: Shown) -> Answered:
        answer: Answered = await asked(stage, shown)
        return answer

    async def by_method(stage: Stage, shown: Shown) -> Answered:
        method = getattr(asked, stage.name.lower(), None)
        answer: Answered = None if method is None else await method(shown)
        return answer

    return by_function if is_function(handler) else by_method


class _Shared:
    """What the connections of a server have in common: a list of them, and the room into which they read, one after the
    other."""

    def __init__(self, progress: Optional[float]) -> None:
        self.progress = progress
        self.clients: Set["_Client"] = set()
        self.room = memoryview(bytearray(READ_MAX))


class _Client(asyncio.BufferedProtocol):
    """A connection of a mail server."""

    transport: asyncio.Transport

    def __init__(self, connection: FilterConnection, handler: Handler, shared: _Shared) -> None:
        self.connection, self.handler, self.shared = connection, handler, shared
        self.loop = asyncio.get_running_loop()
        # What came, and from where on it is still to be fed.
        self.piece, self.start = b"", 0
        # The handler at work, and what reports progress meanwhile.
        self.asked: Optional["asyncio.Task[Answered]"] = None
        self.timer: Optional[asyncio.TimerHandle] = None
        self.is_full = False

    def connection_made(self, transport: asyncio.BaseTransport) -> None:
        """The mail server has connected."""
        assert isinstance(transport, asyncio.Transport)
        self.transport = transport
        self.shared.clients.add(self)

    def get_buffer(self, sizehint: int) -> memoryview:
        """Where bytes are read to."""
        return self.shared.room

    def buffer_updated(self, nbytes: int) -> None:
        """Bytes came. Where many wait for an answer, no more are read."""
        self.piece, self.start = self.piece[self.start:] + bytes(self.shared.room[:nbytes]), 0
        self.go_on()
        if len(self.piece) - self.start > READ_MAX:
            self.transport.pause_reading()

    def pause_writing(self) -> None:
        """The mail server doesn't read what is sent."""
        self.is_full = True

    def resume_writing(self) -> None:
        """It does again."""
        self.is_full = False
        self.go_on()

    def connection_lost(self, exc: Optional[Exception]) -> None:
        """The connection has ended."""
        self.shared.clients.discard(self)
        self.stop_timer()
        if self.asked is not None:
            self.asked.cancel()

    def go_on(self) -> None:
        """Takes one step after the other, until bytes, an answer or room is awaited, or the mail server has quit."""
        try:
            while not self.transport.is_closing() and self.take_step():
                pass
        except FilterFault as fault:
            LOGGER.warning("a connection is given up: %s", fault)
            self.transport.close()

    def take_step(self) -> bool:
        """Takes the next step. Answers whether there may be another one."""
        step = self.connection.step
        if step is Step.SEND and not self.is_full:
            self.send()
            return True
        if step is Step.FEED and self.start < len(self.piece):
            self.start += self.connection.feed(self.piece, self.start)
            return True
        if step is Step.FEED:
            self.piece, self.start = b"", 0
            self.transport.resume_reading()
        elif step is Step.ANSWER and self.asked is None:
            self.ask()
        elif step is Step.DONE:
            self.transport.close()
        return False

    def send(self) -> None:
        """Sends what is pending."""
        pending = self.connection.pending
        self.transport.write(pending)
        self.connection.sent(len(pending))

    def ask(self) -> None:
        """Has the handler answer the open question, and progress reported at the end of a message."""
        stage = self.connection.asked
        assert stage is not None
        self.asked = self.loop.create_task(self.handler(stage, self.connection.shown))
        self.asked.add_done_callback(functools.partial(self.answered, stage))
        if stage is Stage.EOB:
            self.start_timer()

    def answered(self, stage: Stage, asked: "asyncio.Task[Answered]") -> None:
        """The handler has answered, or was cancelled."""
        self.asked = None
        self.stop_timer()
        if not self.transport.is_closing():
            self.give(stage, asked)
            self.go_on()
            # Between messages a connection may be idle for long.
            if stage is Stage.EOB:
                self.connection.release()
        elif not asked.cancelled() and asked.exception() is not None:
            LOGGER.error("the handler raised at %s", stage.name.lower(), exc_info=asked.exception())

    def give(self, stage: Stage, asked: "asyncio.Task[Answered]") -> None:
        """Gives the handler's answer, and Tempfail where it raised or its answer isn't taken."""
        try:
            answer = asked.result()
            self.connection.answer(Answer() if answer is None else answer)
        except AnswerFault as fault:
            LOGGER.error("the answer at %s isn't taken: %s", stage.name.lower(), fault)
            self.connection.answer(Verdict.TEMPFAIL)
        except (Exception, asyncio.CancelledError):  # pylint: disable=broad-except
            LOGGER.exception("the handler raised at %s", stage.name.lower())
            self.connection.answer(Verdict.TEMPFAIL)

    def start_timer(self) -> None:
        """Has progress reported later."""
        if self.shared.progress is not None:
            self.timer = self.loop.call_later(self.shared.progress, self.report)

    def stop_timer(self) -> None:
        """Reports no progress."""
        if self.timer is not None:
            self.timer.cancel()
            self.timer = None

    def report(self) -> None:
        """Reports progress, and does so again later."""
        self.connection.progress()
        self.send()
        self.start_timer()


async def _listen(made: Callable[[], _Client], address: str, mode: Optional[int]) -> asyncio.AbstractServer:
    """Listens at an address, with a client for each connection."""
    place, loop = place_of(address), asyncio.get_running_loop()
    if isinstance(place, Inet):
        return await loop.create_server(made, *place)
    server = await loop.create_unix_server(made, place)
    if mode is not None:
        os.chmod(place, mode)
    return server


async def serve(
        handler: Any, address: str, *, actions: Actions = Actions.ALL, protocol: Protocol = Protocol(0),
        macros: Optional[Mapping[Stage, Text]] = None, progress: Optional[float] = 10.0, mode: Optional[int] = None,
        listening: Union[asyncio.Event, threading.Event, None] = None) -> None:
    """Serves mail servers at an address, `inet:PORT@HOST` or `unix:PATH`, until it is cancelled.

    The handler is an async function of the stage and of what is shown, or an object with async methods of what is
    shown, each named for its stage: connect, helo, mail, rcpt, data, header, eoh, body, eob. Of a class each connection
    has an object of its own. What they return is an Answer, a Verdict, or None for Continue. They may await what they
    like: other connections go on meanwhile, and where the mail server hangs up they are cancelled. Where they raise,
    or return an answer that the stage doesn't have, that is logged, and the answer is Tempfail.

    Stages for which there is no method aren't asked about, and what comes after the last one that has a method isn't
    sent; `protocol` has further bits, such as Protocol.NOBODY. The mail server is asked for the macros: of a stage the
    names, with blanks between them; where there are none it sends those that it likes. At the end of a message progress
    is reported each time that so many seconds have passed, unless that is None. A Unix socket gets this mode;
    `listening` is set once connections are taken.
    """
    wanted = protocol_of(stages_of(handler)) | protocol
    shared = _Shared(progress)

    def made() -> _Client:
        return _Client(FilterConnection(actions, wanted, macros=macros), handler_of(handler), shared)

    # What can't be wanted is said at once.
    FilterConnection(actions, wanted, macros=macros)
    server = await _listen(made, address, mode)
    try:
        if listening is not None:
            listening.set()
        await asyncio.Event().wait()
    finally:
        server.close()
        handlers = [client.asked for client in shared.clients if client.asked is not None]
        for client in list(shared.clients):
            client.transport.abort()
        for task in handlers:
            task.cancel()
        await asyncio.gather(*handlers, return_exceptions=True)
