"""A mail server's end of a connection to a filter, without input and output."""
import ctypes
import types
from typing import Dict, Iterable, List, Mapping, NamedTuple, Optional, Tuple, Union

from ._answer import Answer, Edit
from ._connection import VERSION_MAX, Address, _Owner
from ._faults import check, fault_of
from ._library import NUMBER, WORD, Text, copied, no_bytes, no_edit, parameters_of
from ._names import Actions, Event, Family, Outcome, Protocol, Verdict, Want

# The protocol bits of a mail server that sends and leaves out whatever a filter likes, but for HDR_LEADSPC.
PROTOCOL_OFFERED = Protocol(0x0ff7ff)
PORT_MAX = 0xffff
# The number of a verdict with a text.
CODE = 6
# The edits by their numbers: the name of each, and which it takes of the index, the first and the second text.
EDITS: Dict[int, Tuple[str, str]] = {
    1: ("add_header", "12"),
    2: ("insert_header", "i12"),
    3: ("change_header", "i12"),
    4: ("add_recipient", "1"),
    5: ("add_recipient", "12"),
    6: ("delete_recipient", "1"),
    7: ("change_sender", "12"),
    8: ("replace_body", "1"),
    9: ("quarantine", "1"),
}

Macros = Mapping[str, Text]
NO_MACROS: Macros = types.MappingProxyType({})


class Negotiated(NamedTuple):
    """What both ends have: the version, the actions and the protocol bits."""

    version: int
    actions: Actions
    protocol: Protocol


class MtaConnection(_Owner):
    """A mail server's end of one connection to one filter, whose caller has the socket. The caller says by a method
    each what its client does, as it does it; `want` says what comes next. These methods answer an Outcome: where a
    verdict is due, `feed` answers Event.VERDICT once the filter has sent it, and `verdict` has it. A call that is
    refused raises CallFault and changes nothing. Where the filter sends what can't be taken it is lost, and `feed`
    raises LossFault.

    The macros of a call are by their names as filters see them: `i` or `{auth_authen}`. An object is used by one thread
    at a time, or its calls wait for one another.
    """

    def __init__(
            self, actions: Actions = Actions.ALL, protocol: Protocol = PROTOCOL_OFFERED,
            version: int = VERSION_MAX) -> None:
        """A connection that was just made: its offer of these actions, protocol bits and version is pending."""
        super().__init__()
        check(self._call("mta_new", version, int(actions), int(protocol)))

    @property
    def want(self) -> Want:
        """What the mail server does next."""
        number = self._call("mta_want")
        if number < 0:
            raise fault_of(number)
        return Want(number)

    @property
    def pending(self) -> bytes:
        """The bytes that are to be sent."""
        return self._bytes("mta_pending") or b""

    def sent(self, count: int) -> None:
        """The first `count` of the bytes that are pending were sent."""
        if count < 0:
            raise ValueError("count is negative")
        check(self._call("mta_sent", count))

    def feed(self, piece: Text) -> Event:
        """Takes a piece of what the filter sent, all of it, and answers its last event. Raises LossFault where the
        filter is lost by it; `event` has what came before that."""
        with self._lock:
            check(self._call("mta_feed", *parameters_of([piece])))
            return self.event

    @property
    def event(self) -> Event:
        """The last event of the last piece."""
        number = self._call("mta_event")
        if number < 0:
            raise fault_of(number)
        return Event(number)

    @property
    def verdict(self) -> Optional[Answer]:
        """The verdict of the last event, if that was one, as an Answer without edits."""
        number, text = NUMBER(0), no_bytes()
        with self._lock:
            if not check(self._call("mta_verdict", ctypes.byref(number), ctypes.byref(text))):
                return None
            return Answer(code=copied(text)) if number.value == CODE else Answer(Verdict(number.value))

    @property
    def edits(self) -> List[Edit]:
        """The edits of the answer to the end of a message, until the next call. Of one that adds a recipient the ESMTP
        parameters are the second value, where the filter gave them."""
        with self._lock:
            count = self._number("mta_edits", WORD) or 0
            found = (self._edit(place) for place in range(count))
            return [edit for edit in found if edit is not None]

    def _edit(self, place: int) -> Optional[Edit]:
        """The edit at a place; none for progress."""
        out = no_edit()
        check(self._call("mta_edit", place, ctypes.byref(out)))
        if out.kind not in EDITS:
            return None
        name, taken = EDITS[out.kind]
        values: Dict[str, Union[int, bytes]] = {
            "i": out.index, "1": copied(out.first), "2": copied(out.second)}
        return Edit(name, tuple(values[it] for it in taken))

    @property
    def negotiated(self) -> Optional[Negotiated]:
        """What was negotiated, once the filter has replied to the offer."""
        numbers = [NUMBER(0), NUMBER(0), NUMBER(0)]
        if not check(self._call("mta_negotiated", *map(ctypes.byref, numbers))):
            return None
        version, actions, protocol = (it.value for it in numbers)
        return Negotiated(version, Actions(actions), Protocol(protocol))

    @property
    def is_message_under_way(self) -> bool:
        """Whether a message is under way that no verdict ended: where the filter is lost, the default action is for it.
        Ask before `lost` and `feed`."""
        return check(self._call("mta_is_under_way"))

    def lost(self) -> None:
        """The filter is lost, by a broken connection or a timeout: each call is refused from now on."""
        check(self._call("mta_lost"))

    def release(self) -> None:
        """Frees the 65,540 bytes for one packet where no packet has begun: for a connection that is idle."""
        check(self._call("mta_release"))

    def _called(self, name: str, macros: Macros, *values: Union[int, Text], parameters: Iterable[Text] = ()) -> Outcome:
        """Calls with macros and ESMTP parameters. Those of an earlier call that was refused are dropped."""
        out = NUMBER(0)
        with self._lock:
            check(self._call("mta_clear"))
            for macro in macros.items():
                check(self._call("mta_macro", *parameters_of(macro)))
            for parameter in parameters:
                check(self._call("mta_parameter", *parameters_of([parameter])))
            check(self._call("mta_" + name, *parameters_of(values), ctypes.byref(out)))
        return Outcome(out.value)

    def connect(self, host: Text, address: Optional[Address] = None, macros: Macros = NO_MACROS) -> Outcome:
        """A client has connected, from this host and address."""
        text, family, port = address or Address(b"", Family.UNKNOWN, 0)
        if not 0 <= port <= PORT_MAX:
            raise ValueError("port is no port")
        return self._called("connect", macros, host, int(family), port, text)

    def helo(self, name: Text, macros: Macros = NO_MACROS) -> Outcome:
        """The client has sent HELO or EHLO, with this name."""
        return self._called("helo", macros, name)

    def mail(self, sender: Text, parameters: Iterable[Text] = (), macros: Macros = NO_MACROS) -> Outcome:
        """The sender of a message, with its ESMTP parameters."""
        return self._called("mail", macros, sender, parameters=parameters)

    def rcpt(self, recipient: Text, parameters: Iterable[Text] = (), macros: Macros = NO_MACROS) -> Outcome:
        """A recipient of the message, with its ESMTP parameters."""
        return self._called("rcpt", macros, recipient, parameters=parameters)

    def data(self, macros: Macros = NO_MACROS) -> Outcome:
        """The client has sent DATA."""
        return self._called("data", macros)

    def header(self, name: Text, value: Text) -> Outcome:
        """A header field of the message, with the blank that its value begins with."""
        return self._called("header", NO_MACROS, name, value)

    def eoh(self, macros: Macros = NO_MACROS) -> Outcome:
        """The header has ended."""
        return self._called("eoh", macros)

    def body(self, chunk: Text) -> Outcome:
        """A chunk of the body, of at most 65,535 bytes."""
        return self._called("body", NO_MACROS, chunk)

    def end(self, macros: Macros = NO_MACROS) -> Outcome:
        """The message has ended."""
        return self._called("end", macros)

    def unknown(self, command: Text, macros: Macros = NO_MACROS) -> Outcome:
        """A command of the client that the mail server doesn't know."""
        return self._called("unknown", macros, command)

    def abort(self) -> Outcome:
        """The message is given up, and the connection goes on."""
        return self._called("abort", NO_MACROS)

    def quit(self) -> Outcome:
        """The client has ended the connection."""
        return self._called("quit", NO_MACROS)
