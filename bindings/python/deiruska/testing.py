"""Plays messages to a filter, for tests of filters.

    from deiruska.testing import play

    REFUSAL = deiruska.Answer(code="550 5.1.1 This address takes no mail")

    def test_noreply_is_refused():
        played = play(Filter(), b"Subject: hello\\n\\nA line.\\n", recipients=["<noreply@example.net>"])
        assert played.refusals == {b"<noreply@example.net>": REFUSAL}

The mail server's end is that of the library, and so is what the filter's edits make of the message; docs/PROTOCOL.md
says in what mail servers differ.

In pytest the fixture `play_to_filter` is this function, where conftest.py has the line
`pytest_plugins = ["deiruska.pytest_plugin"]`.
"""
import asyncio
import contextlib
import functools
import socket
import tempfile
import threading
from typing import Any, Callable, Dict, Iterator, List, Mapping, NamedTuple, Optional, Sequence, Tuple

from ._address import READ_MAX, connected
from ._answer import CHUNK_MAX, Answer, Edit
from ._connection import Address
from ._library import Text, bytes_of
from ._message import Fields, Message, parts_of
from ._mta import NO_MACROS, Macros, MtaConnection
from ._names import Family, Outcome, Stage, Verdict, Want
from ._server import serve

CLIENT = Address(b"192.0.2.17", Family.INET, 4025)
REFUSALS = (Verdict.REJECT, Verdict.TEMPFAIL)
# The verdicts after which the filter is shown more of the message.
GOES_ON = (Verdict.CONTINUE, Verdict.SKIP)
Call = Callable[[], Outcome]


class Played(NamedTuple):
    """What a filter did with a message. What edits made of it is what a mail server delivers, unless the verdict
    refuses or discards it."""

    # The verdict that ended the dialogue about the message, or Continue at its end; and its stage.
    verdict: Answer
    stage: Stage
    # The verdicts on the recipients that were refused.
    refusals: Dict[bytes, Answer]
    # The edits, in their order.
    edits: List[Edit]
    # The sender after the edits, and those recipients that were not refused.
    sender: bytes
    recipients: List[bytes]
    # The message after the edits, with lines that end with CR LF.
    edited: bytes
    # The reason of a quarantine.
    quarantined: Optional[bytes]


class FilterLost(Exception):
    """The filter closed the connection, or did not answer in time."""


class _Given(NamedTuple):
    """A client, and the message that it sends."""

    host: Text
    client: Optional[Address]
    helo: Text
    sender: bytes
    recipients: List[bytes]
    fields: Fields
    body: bytes
    macros: Mapping[Stage, Macros]


class _Player:
    """A connection to a filter, and its socket."""

    def __init__(self, its_socket: socket.socket) -> None:
        self.connection, self.socket = MtaConnection(), its_socket

    def go_on(self) -> None:
        """Sends and receives until the client's next command is wanted."""
        try:
            while self.connection.want is Want.SEND or self.connection.want is Want.RECEIVE:
                if self.connection.want is Want.SEND:
                    self.connection.sent(self.socket.send(self.connection.pending))
                else:
                    piece = self.socket.recv(READ_MAX)
                    if not piece:
                        raise FilterLost("the filter closed the connection")
                    self.connection.feed(piece)
        except socket.timeout as error:
            raise FilterLost("the filter did not answer in time") from error
        except ConnectionError as error:
            raise FilterLost("the connection to the filter broke") from error

    def verdict_on(self, call: Call) -> Answer:
        """The verdict on a call; Continue where none is due."""
        outcome = call()
        self.go_on()
        if outcome is not Outcome.VERDICT_DUE:
            return Answer()
        verdict = self.connection.verdict
        assert verdict is not None
        return verdict

    def calls(self, given: _Given) -> Iterator[Tuple[Stage, bytes, Call]]:
        """The calls for what the client does: of each its stage, and the address of a recipient."""
        connection, macros = self.connection, {stage: given.macros.get(stage, NO_MACROS) for stage in Stage}

        def call(stage: Stage, method: Callable[..., Outcome], *values: Any, address: bytes = b"") -> Any:
            options = {} if stage in (Stage.HEADER, Stage.BODY) else {"macros": macros[stage]}
            return stage, address, functools.partial(method, *values, **options)

        yield call(Stage.CONNECT, connection.connect, given.host, given.client)
        yield call(Stage.HELO, connection.helo, given.helo)
        yield call(Stage.MAIL, connection.mail, given.sender)
        for recipient in given.recipients:
            yield call(Stage.RCPT, connection.rcpt, recipient, address=recipient)
        yield call(Stage.DATA, connection.data)
        for field in given.fields:
            yield call(Stage.HEADER, connection.header, *field)
        yield call(Stage.EOH, connection.eoh)
        for start in range(0, len(given.body), CHUNK_MAX):
            yield call(Stage.BODY, connection.body, given.body[start:start + CHUNK_MAX])
        yield call(Stage.EOB, connection.end)

    def play(self, given: _Given) -> Played:
        """Plays the calls, up to the verdict that ends the dialogue, or until each recipient is refused."""
        verdict, ended = Answer(), Stage.CONNECT
        refusals: Dict[bytes, Answer] = {}
        taken: List[bytes] = []
        for stage, address, call in self.calls(given):
            if stage is Stage.DATA and not taken:
                break
            verdict, ended = self.verdict_on(call), stage
            if stage is Stage.RCPT and (verdict.code is not None or verdict.verdict in REFUSALS):
                refusals[address] = verdict
                continue
            taken += [address] if stage is Stage.RCPT else []
            if verdict.code is not None or verdict.verdict not in GOES_ON:
                break
        message = Message(given.sender, taken, given.fields, given.body)
        message.edit(self.connection)
        return Played(verdict, ended, refusals, self.connection.edits, message.sender, message.recipients,
                      bytes(message), message.quarantined)


@contextlib.contextmanager
def served(handler: Any, **options: Any) -> Iterator[str]:
    """Serves a handler by `deiruska.serve`, with its options, in a thread, and has its address."""
    listening, loop = threading.Event(), asyncio.new_event_loop()

    def run() -> None:
        try:
            with contextlib.suppress(asyncio.CancelledError):
                loop.run_until_complete(task)
        finally:
            listening.set()

    with tempfile.TemporaryDirectory() as folder:
        address = "unix:%s/filter" % folder
        task = loop.create_task(serve(handler, address, listening=listening, **options))
        thread = threading.Thread(target=run, daemon=True)
        thread.start()
        listening.wait()
        try:
            yield address
        finally:
            loop.call_soon_threadsafe(task.cancel)
            thread.join()
            loop.close()


def play(
        to_filter: Any, message: Text, *, sender: Text = "<ada@example.org>",
        recipients: Sequence[Text] = ("<bob@example.net>",), host: Text = "mail.example.org",
        client: Optional[Address] = CLIENT, helo: Text = "mail.example.org",
        macros: Optional[Mapping[Stage, Macros]] = None, timeout: float = 10.0) -> Played:
    """Plays one message to a filter, as a mail server does that receives it, and answers what the filter did with it.
    The filter is an address, `inet:PORT@HOST` or `unix:PATH`, or a handler as `deiruska.serve` has it. The message is
    its header, an empty line and its body. Raises FilterLost where the filter doesn't answer in so many seconds, and
    LossFault where it sends what can't be taken."""
    fields, body = parts_of(message)
    envelope = bytes_of(sender), [bytes_of(it) for it in recipients]
    given = _Given(host, client, helo, *envelope, fields, body, macros or {})
    with contextlib.ExitStack() as stack:
        address = to_filter if isinstance(to_filter, str) else stack.enter_context(served(to_filter))
        player = _Player(stack.enter_context(connected(address, timeout)))
        player.go_on()
        played = player.play(given)
        player.connection.quit()
        player.go_on()
    return played
