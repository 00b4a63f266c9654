"""A filter's end of a connection, without input and output."""
import ctypes
import threading
from typing import Any, List, Mapping, NamedTuple, NoReturn, Optional, Tuple, Union

from ._answer import Answer
from ._faults import NOTHING, OK, FilterFault, check, fault_of
from ._library import NUMBER, WORD, Handle, Text, address_of, bytes_of, copied, functions, no_bytes, parameters_of
from ._names import Actions, Family, Protocol, Stage, Step, Verdict

VERSION_MAX = 6
# The steps, by their numbers.
STEPS = tuple(Step)


class Address(NamedTuple):
    """The address of a client as text, its family and its port."""

    text: bytes
    family: Family
    port: int


class _Owner:
    """An object of the library. Its functions are called by one thread at a time."""

    def __init__(self) -> None:
        self._handle, self._lock, self._functions = Handle(), threading.RLock(), functions()
        self._at = ctypes.byref(self._handle)

    def __reduce__(self) -> NoReturn:
        raise TypeError("%s can't be copied" % type(self).__name__)

    def _call(self, name: str, *parameters: Any) -> int:
        with self._lock:
            number: int = self._functions[name](self._at, *parameters)
            return number

    def _number(self, name: str, kind: Any) -> Optional[int]:
        """The number that a function writes through a pointer."""
        out = kind(0)
        return out.value if check(self._call(name, ctypes.byref(out))) else None

    def _bytes(self, name: str, *parameters: Any) -> Optional[bytes]:
        """A copy of the bytes that a function writes through a pointer."""
        out = no_bytes()
        # Another call could end the loan before the copy is made.
        with self._lock:
            return copied(out) if check(self._call(name, *parameters, ctypes.byref(out))) else None


class _Built(_Owner):
    """An answer in the library: Continue without edits."""

    def __init__(self) -> None:
        super().__init__()
        check(self._call("answer_new"))

    def build(self, answer: Answer) -> None:
        """Becomes this answer."""
        if answer.code is not None:
            check(self._call("answer_code", *parameters_of([answer.code])))
        elif answer.verdict is not Verdict.CONTINUE:
            check(self._call("answer_verdict", int(answer.verdict)))
        for name, values in answer.edits:
            check(self._call("answer_" + name, *parameters_of(values)))


class Shown:
    """What a filter is shown: of the connection, and of the message up to the last command that came. What there is
    none of, or not yet, is None or empty."""

    def __init__(self, owner: _Owner) -> None:
        self._owner = owner

    @property
    def host(self) -> Optional[bytes]:
        """The name of the client's host, as the mail server has it."""
        return self._owner._bytes("filter_host")

    @property
    def address(self) -> Optional[Address]:
        """The client's address."""
        out, family, port = no_bytes(), NUMBER(0), NUMBER(0)
        with self._owner._lock:
            parameters = [ctypes.byref(it) for it in (out, family, port)]
            if not check(self._owner._call("filter_address", *parameters)):
                return None
            return Address(copied(out), Family(family.value), port.value)

    @property
    def helo(self) -> Optional[bytes]:
        """The name that the client gave at HELO or EHLO."""
        return self._owner._bytes("filter_helo")

    @property
    def sender(self) -> Optional[bytes]:
        """The address of the sender, with its angle brackets."""
        return self._owner._bytes("filter_sender")

    @property
    def recipients(self) -> List[bytes]:
        """The addresses of the recipients, with their angle brackets."""
        with self._owner._lock:
            count = self._owner._number("filter_recipients", WORD) or 0
            return [self._owner._bytes("filter_recipient", place) or b"" for place in range(count)]

    @property
    def headers(self) -> List[Tuple[bytes, bytes]]:
        """The header fields: of each its name and its value."""
        with self._owner._lock:
            count = self._owner._number("filter_headers", WORD) or 0
            return [(self._owner._bytes("filter_header_name", place) or b"",
                     self._owner._bytes("filter_header_value", place) or b"") for place in range(count)]

    @property
    def body(self) -> bytes:
        """The body so far."""
        return self._owner._bytes("filter_body") or b""

    def macro(self, name: Text) -> Optional[bytes]:
        """The last value of a macro, by its name as the mail server sends it: `i` or `{auth_authen}`."""
        return self._owner._bytes("filter_macro", *parameters_of([name]))


class FilterConnection(_Owner):
    """A filter's end of one connection, whose caller has the socket. It takes the bytes of a mail server in any pieces,
    up to a question: a stage that is to be answered. While a question is open it takes none; the caller looks at what
    is `shown`, for as long as it likes, and answers. It has the bytes of the replies.

    `step` says what the caller does next. An object is used by one thread at a time, or its calls wait for one another.
    """

    def __init__(
            self, actions: Actions = Actions(0), protocol: Protocol = Protocol(0), version: int = VERSION_MAX,
            macros: Optional[Mapping[Stage, Text]] = None) -> None:
        """A connection of which nothing has come, of a filter that wants these actions, protocol bits and version, and
        asks for these macros: of a stage the names, with blanks between them."""
        super().__init__()
        self._built: Optional[_Built] = None
        wanted = int(actions) | (Actions.SETSYMLIST if macros else 0)
        check(self._call("filter_new", version, wanted, int(protocol)))
        for stage, names in (macros or {}).items():
            check(self._call("filter_ask_macros", int(stage), *parameters_of([names])))
        self.shown = Shown(self)

    def restart(self) -> None:
        """Begins again, for another connection of the same filter; keeps memory."""
        check(self._call("filter_restart"))

    @property
    def step(self) -> Step:
        """What the caller does next."""
        number = self._call("filter_step")
        if number < 0:
            raise fault_of(number)
        return STEPS[number]

    def feed(self, piece: Text, start: int = 0) -> int:
        """Takes bytes of a piece of what the mail server sent, from `start` on, and answers how many: up to the end of
        the first packet that has a reply or a question, and none while a reply is pending or a question is open. Raises
        FilterFault where the connection is given up, now and from now on."""
        given, taken = bytes_of(piece), WORD(0)
        if not 0 <= start <= len(given):
            raise ValueError("start is no place of the piece")
        check(self._call("filter_feed", address_of(given) + start, len(given) - start, ctypes.byref(taken)))
        return taken.value

    @property
    def asked(self) -> Optional[Stage]:
        """The stage of the question that is open."""
        number = self._number("filter_asked", NUMBER)
        return None if number is None else Stage(number)

    @property
    def pending(self) -> bytes:
        """The bytes that are to be sent."""
        return self._bytes("filter_pending") or b""

    def sent(self, count: int) -> None:
        """The first `count` of the bytes that are pending were sent."""
        if count < 0:
            raise ValueError("count is negative")
        check(self._call("filter_sent", count))

    @property
    def unread(self) -> int:
        """How many bytes of a packet that isn't whole were taken."""
        return self._number("filter_unread", WORD) or 0

    def release(self) -> None:
        """Frees the 65,540 bytes for one packet where no packet has begun: for a connection that is idle."""
        check(self._call("filter_release"))

    @property
    def has_quit(self) -> bool:
        """Whether the mail server has quit."""
        return self._call("filter_state") == NOTHING

    @property
    def fault(self) -> Optional[FilterFault]:
        """Why the connection was given up, where it was."""
        number = self._call("filter_state")
        if number in (OK, NOTHING):
            return None
        fault = fault_of(number)
        if not isinstance(fault, FilterFault):
            raise fault
        return fault

    def answer(self, answer: Union[Answer, Verdict]) -> None:
        """Answers the open question. Raises AnswerFault where the answer isn't taken: the question is still open."""
        with self._lock:
            # An answer that was given is Continue without edits: it is used again.
            built, self._built = self._built or _Built(), None
            built.build(answer if isinstance(answer, Answer) else Answer(answer))
            check(self._call("filter_answer", built._at))
            self._built = built

    def progress(self) -> None:
        """Reports progress, while the end of a message is asked about: the mail server waits anew for the answer."""
        check(self._call("filter_progress"))
