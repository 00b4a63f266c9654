"""Both ends of the milter protocol, versions 2 to 6, by libdeiruska.

A mail server such as Postfix or Sendmail asks a filter about each message while it arrives. `serve` has an asynchronous
function, or an object with a method for each stage, answer these questions on a socket. `FilterConnection` is one
connection without input and output, for an event loop or threads of one's own; `RuledConnection` is one that `Rules`
can answer, and `MtaConnection` is a mail server's end, whose edits change a `Message`. `packets` takes a stream apart,
`command_parts` and `reply_parts` decode a packet, and a `PacketTrace` prints what passes over a connection.

    import asyncio
    import deiruska

    class Filter:
        async def rcpt(self, shown):
            if shown.recipients[-1] == b"<noreply@example.net>":
                return deiruska.Answer(code="550 5.1.1 This address takes no mail")

    asyncio.run(deiruska.serve(Filter(), "inet:8891@127.0.0.1"))

Texts of mail are bytes, since the protocol doesn't give them an encoding. Where a function takes a text, a str is
encoded as UTF-8.
"""
from ._answer import Answer, Edit
from ._connection import Address, FilterConnection, Shown
from ._faults import (
    AnswerFault, CallFault, Fault, FilterFault, LossFault, MessageFault, RulesFault, WantsFault, WireFault)
from ._library import version
from ._message import Message
from ._mta import MtaConnection, Negotiated
from ._names import Actions, Direction, Event, Family, Outcome, Protocol, Stage, Step, Verdict, Want
from ._packets import PacketTrace, Packet, Part, command_parts, packets, reply_parts
from ._rules import RuledConnection, Rules
from ._server import serve

__all__ = [
    "Actions", "Address", "Answer", "AnswerFault", "CallFault", "Direction", "Edit", "Event", "Family", "Fault",
    "FilterConnection", "FilterFault", "LossFault", "Message", "MessageFault", "MtaConnection", "Negotiated",
    "Outcome", "Packet", "PacketTrace", "Part", "Protocol", "RuledConnection", "Rules", "RulesFault", "Shown",
    "Stage", "Step", "Verdict", "Want", "WantsFault", "WireFault", "command_parts", "packets", "reply_parts",
    "serve", "version"]
