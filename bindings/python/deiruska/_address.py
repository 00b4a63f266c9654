"""Addresses at which filters listen, as texts."""
import re
import socket
from typing import NamedTuple, Optional, Union

# How many bytes are read from a socket at once.
READ_MAX = 65536


class Inet(NamedTuple):
    """A host, or none, and a port."""

    host: Optional[str]
    port: int


def place_of(address: str) -> Union[Inet, str]:
    """The host and the port of `inet:PORT@HOST`, whose host may be left out, or the path of `unix:PATH`."""
    inet = re.fullmatch(r"inet:(\d+)(?:@(.+))?", address)
    if inet is not None:
        return Inet(inet[2], int(inet[1]))
    kind, _, path = address.partition(":")
    if kind != "unix" or not path:
        raise ValueError("%r isn't inet:PORT@HOST or unix:PATH" % address)
    return path


def connected(address: str, timeout: float) -> socket.socket:
    """A connection to the filter at an address, whose reads and writes take at most so many seconds."""
    place = place_of(address)
    if isinstance(place, Inet):
        return socket.create_connection((place.host or "localhost", place.port), timeout)
    made = socket.socket(socket.AF_UNIX)
    made.settimeout(timeout)
    made.connect(place)
    return made
