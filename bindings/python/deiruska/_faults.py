"""The answers of functions that aren't DEIRUSKA_OK or DEIRUSKA_NOTHING, as exceptions."""
from typing import Dict, Optional, Tuple, Type

OK, NOTHING = 0, 1
TRUNCATED = 205


class Fault(Exception):
    """A number of deiruska_result that says that something failed, and its text."""

    def __init__(self, number: int, text: str) -> None:
        super().__init__(text)
        self.number = number

    def __reduce__(self) -> Tuple[object, ...]:
        return type(self), (self.number, str(self))


class FilterFault(Fault):
    """A filter's end has given the connection up."""


class WireFault(Fault):
    """A packet, or the length of one, can't be read."""


class AnswerFault(Fault):
    """An answer isn't taken. The question stays open."""


class WantsFault(Fault):
    """What a filter wants breaks a rule."""


class RulesFault(Fault):
    """A rule file has no rules. `line` is the line at fault, from 1, or None where memory was refused."""

    line: Optional[int] = None


class CallFault(Fault):
    """A call of a mail server's end is refused, and changes nothing."""


class MessageFault(Fault):
    """A part of a message doesn't fit a packet. The message is as it was."""


class LossFault(Fault):
    """The filter is lost: it sent what can't be taken, or memory was refused."""


NO_MEMORY = "memory was refused"
# The numbers of deiruska_result, with the kind and the text of each.
FAULTS: Dict[int, Tuple[Type[Fault], str]] = {
    -1: (Fault, "the handle is empty, or has an object of another kind"),
    -2: (Fault, NO_MEMORY),
    -3: (Fault, "a number is out of its range"),
    101: (FilterFault, "a command came before the options"),
    102: (FilterFault, "the mail server offers a version below 2"),
    103: (FilterFault, "a command came after one of a later stage"),
    104: (FilterFault, "a connection and a message have more than 16,777,216 bytes of packets"),
    105: (FilterFault, "a packet can't be read"),
    106: (FilterFault, "the options came a second time"),
    107: (FilterFault, NO_MEMORY),
    201: (WireFault, "a packet has length 0"),
    202: (WireFault, "the length of a packet is above 65,536"),
    203: (WireFault, "the code of a packet isn't known"),
    204: (WireFault, "the payload isn't in the layout of its code"),
    TRUNCATED: (WireFault, "the bytes end within a packet"),
    206: (WireFault, NO_MEMORY),
    301: (AnswerFault, "no question is open"),
    302: (AnswerFault, "edits elsewhere than at the end of a message"),
    303: (AnswerFault, "no verdict of this stage"),
    304: (AnswerFault, "a NUL, or a code without 4 or 5 and two digits at its beginning"),
    305: (AnswerFault, "a reply has more bytes than a packet"),
    306: (AnswerFault, "the edits have more than 16,777,216 bytes of packets"),
    307: (AnswerFault, "the open question isn't about the end of a message"),
    308: (AnswerFault, NO_MEMORY),
    401: (WantsFault, "the version isn't from 2 to 6"),
    402: (WantsFault, "an action bit that isn't known"),
    403: (WantsFault, "a protocol bit that isn't known"),
    404: (WantsFault, "symbol lists without the action for them"),
    405: (WantsFault, "a NUL in the names of a symbol list"),
    406: (WantsFault, "more than a packet has room for"),
    501: (RulesFault, "an unknown word"),
    502: (RulesFault, "a stage is missing, or isn't one"),
    503: (RulesFault, "what stands before `do` isn't conditions"),
    504: (RulesFault, "what stands after `do` isn't an action"),
    505: (RulesFault, "the action may not be done at this stage"),
    506: (RulesFault, "a packet would be too long, or all edits, or there are too many rules"),
    507: (RulesFault, NO_MEMORY),
    508: (RulesFault, "a file with lists can't be read without the files of these"),
    601: (CallFault, "the connection has ended, or the filter was lost"),
    602: (CallFault, "a packet is to be sent, or a reply is due"),
    603: (CallFault, "a command out of order"),
    604: (CallFault, "the command or its macros don't fit a packet, or a text has a NUL"),
    605: (CallFault, NO_MEMORY),
    701: (LossFault, "the connection broke"),
    702: (LossFault, "the filter did not answer in time"),
    703: (LossFault, NO_MEMORY),
    711: (LossFault, "a packet can't be read"),
    712: (LossFault, "a version below 2, above 6 or above the offered one"),
    713: (LossFault, "actions, or symbol lists, that were not offered"),
    714: (LossFault, "protocol bits that were not offered"),
    715: (LossFault, "the reply is none to what was sent"),
    716: (LossFault, "an edit that was not negotiated"),
    717: (LossFault, "the edits have more than 16,777,216 bytes of packets"),
    718: (LossFault, "something came while no reply was owed"),
    801: (MessageFault, "a part of a message is too long for a packet, or has a NUL"),
}


def fault_of(number: int) -> Fault:
    """The exception of a number."""
    kind, text = FAULTS.get(number, (Fault, "fault %d" % number))
    return kind(number, text)


def check(number: int) -> bool:
    """Whether there is what a function was asked for. Raises the fault where the function failed."""
    if number not in (OK, NOTHING):
        raise fault_of(number)
    return number == OK
