"""Packets of the protocol: the length of what follows in four bytes, a code of one byte, and a payload."""


def packet_of(content):
    """The packet of a code and a payload."""
    return len(content).to_bytes(4, 'big') + content


def packets_of(stream):
    """The packets of a stream."""
    while stream:
        end = 4 + int.from_bytes(stream[:4], 'big')
        yield stream[:end]
        stream = stream[end:]


def code_of(packet):
    """The code of a packet."""
    return chr(packet[4])


def texts_of(payload):
    """The texts of a payload, each of which ends in a NUL."""
    return payload.split(b'\0')[:-1]


def number_of(payload):
    """The number that a payload begins with."""
    return int.from_bytes(payload[:4], 'big')
