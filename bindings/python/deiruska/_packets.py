"""Packets: those of a stream, what they are decoded to, and their lines."""
import ctypes
from typing import Iterable, Iterator, List, NamedTuple

from ._connection import _Owner
from ._faults import TRUNCATED, check, fault_of
from ._library import WORD, Handle, Text, address_of, bytes_of, copied, library, no_packet, no_part, parameters_of
from ._names import Direction

# The bytes of a packet before its payload: the length in four, and the code.
HEAD = 5


class Packet(NamedTuple):
    """A packet: its code, a byte, and its payload."""

    code: bytes
    payload: bytes


class Part(NamedTuple):
    """A part of a command or a reply: its texts and its numbers. What a part doesn't have is empty, or 0."""

    first: bytes
    second: bytes
    kind: int
    number: int


class _Decoded(_Owner):
    """A command or a reply that a packet is decoded to."""

    def __init__(self, name: str, packet: Packet) -> None:
        super().__init__()
        check(self._call(name, packet.code[0], *parameters_of([packet.payload])))

    def parts(self) -> List[Part]:
        """Its parts."""
        parts: List[Part] = []
        out = no_part()
        with self._lock:
            while check(self._call("decoded_part", len(parts), ctypes.byref(out))):
                parts.append(Part(copied(out.first), copied(out.second), out.kind, out.number))
        return parts


def command_parts(packet: Packet) -> List[Part]:
    """The parts of the command that a packet to a filter has, in the order of its payload: deiruska.h says which, by
    the code. Raises WireFault where it has none."""
    return _Decoded("decoded_command", packet).parts()


def reply_parts(packet: Packet) -> List[Part]:
    """The parts of the reply that a packet of a filter has, as `command_parts` has those of a command."""
    return _Decoded("decoded_reply", packet).parts()


class PacketTrace(_Owner):
    """Prints the packets of a connection as their bytes come: for each a line, as `milter_tool trace` prints it."""

    def __init__(self) -> None:
        """A connection of which nothing has come."""
        super().__init__()
        check(self._call("trace_new"))

    def feed(self, direction: Direction, data: Text) -> None:
        """Adds the lines of the packets that become whole with these bytes, which go to this end and may end within a
        packet. Raises WireFault where a packet can't be read: the lines before it were added, and nothing more is
        printed."""
        check(self._call("trace_feed", int(direction), *parameters_of([data])))

    def take(self) -> bytes:
        """The lines since the last call, each with its line feed."""
        with self._lock:
            text = self._bytes("trace_text")
            check(self._call("trace_clear"))
        return text or b""


def packets(pieces: Iterable[Text]) -> Iterator[Packet]:
    """The packets of a stream that comes in pieces, cut anywhere; each as soon as it is whole. Raises WireFault where
    the length of the next packet is at fault, and where the pieces end within a packet."""
    stream, taken, unread = Handle(), WORD(0), 0
    functions = library()
    check(functions.deiruska_stream_new(ctypes.byref(stream)))
    for piece in map(bytes_of, pieces):
        start, end = 0, len(piece)
        address = address_of(piece)
        while start < end:
            check(functions.deiruska_stream_feed(
                ctypes.byref(stream), address + start, end - start, ctypes.byref(taken)))
            start, unread = start + taken.value, unread + taken.value
            out = no_packet()
            number = functions.deiruska_stream_next(ctypes.byref(stream), ctypes.byref(out))
            if check(number):
                packet = Packet(bytes([out.code]), copied(out))
                unread -= HEAD + len(packet.payload)
                yield packet
    if unread:
        raise fault_of(TRUNCATED)
