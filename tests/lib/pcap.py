"""Captures as tcpdump writes them, made byte by byte: files in the forms pcap and pcapng, frames of several link types,
IP packets, and TCP segments.
"""
import ipaddress
import struct

FIN, SYN, RST, ACK = 1, 2, 4, 16
ETHERNET, RAW, LOOPBACK, COOKED, COOKED_AGAIN = 1, 101, 0, 113, 276
IPV4, IPV6 = 0x800, 0x86dd


# ---- segments and packets

def segment(ports, sequence, acknowledged, flags, content=b'', options=b''):
    """A TCP segment. Its options have a multiple of four bytes."""
    offset = 5 + len(options) // 4
    fixed = struct.pack('>HHIIBBHHH', *ports, sequence % 2 ** 32, acknowledged % 2 ** 32, offset << 4, flags, 512, 0, 0)
    return fixed + options + content


def ipv4(source, destination, content, options=b'', fragment=0, length=None, protocol=6):
    """An IPv4 packet. `fragment` is the field of that, and `length` the total length where it isn't the right one."""
    words = 5 + len(options) // 4
    total = 4 * words + len(content) if length is None else length
    addresses = ipaddress.ip_address(source).packed + ipaddress.ip_address(destination).packed
    return struct.pack('>BBHHHBBH', 64 + words, 0, total, 1, fragment, 64, protocol, 0) + addresses + options + content


def ipv6(source, destination, content, extensions=(), length=None):
    """An IPv6 packet, with extension headers: pairs of a protocol number and the bytes after the first two."""
    following = [number for number, _ in extensions] + [6]
    between = b''.join(bytes([following[place + 1], (2 + len(rest)) // 8 - 1]) + rest
                       for place, (_, rest) in enumerate(extensions))
    size = len(between) + len(content) if length is None else length
    addresses = ipaddress.ip_address(source).packed + ipaddress.ip_address(destination).packed
    return struct.pack('>IHBB', 6 << 28, size, following[0], 64) + addresses + between + content


def internet(source, destination, content):
    """An IP packet, of the version that the addresses have."""
    return (ipv6 if ':' in source else ipv4)(source, destination, content)


# ---- frames

def type_of(packet):
    """The type of Ethernet of an IP packet."""
    return IPV4 if packet[0] >> 4 == 4 else IPV6


def ethernet(packet, tag=b''):
    """A frame of Ethernet, with a tag of a virtual network or without."""
    return bytes(12) + tag + struct.pack('>H', type_of(packet)) + packet


def tagged(packet):
    """A frame of Ethernet with a tag of a virtual network."""
    return ethernet(packet, bytes.fromhex('81000007'))


def raw(packet):
    """A frame that is an IP packet."""
    return packet


def loopback(packet, order='<'):
    """A frame of BSD's loopback."""
    return struct.pack(order + 'I', 2 if packet[0] >> 4 == 4 else 30) + packet


def cooked(packet):
    """A frame as Linux has it in a capture of all interfaces."""
    return struct.pack('>HHH', 0, 1, 6) + bytes(8) + struct.pack('>H', type_of(packet)) + packet


def cooked_again(packet):
    """The second form of that."""
    return struct.pack('>HHIHBB', type_of(packet), 0, 1, 1, 0, 6) + bytes(8) + packet


# ---- files: a record is its time in nanoseconds, its frame, and how many bytes of that are captured (None: all)

def captured(frame, most):
    """What is captured of a frame."""
    return frame if most is None else frame[:most]


def pcap(records, link=ETHERNET, order='<', nanoseconds=False):
    """A capture in the form pcap."""
    magic = 0xa1b23c4d if nanoseconds else 0xa1b2c3d4
    parts = [struct.pack(order + 'IHHiIII', magic, 2, 4, 0, 0, 262144, link)]
    for time, frame, most in records:
        second, rest = divmod(time, 10 ** 9)
        kept = captured(frame, most)
        fraction = rest if nanoseconds else rest // 1000
        parts += [struct.pack(order + 'IIII', second, fraction, len(kept), len(frame)), kept]
    return b''.join(parts)


def padded(content):
    """These bytes, and as many zeros as make a multiple of four."""
    return content + bytes(-len(content) % 4)


def block(kind, body, order='<'):
    """A block of the form pcapng."""
    size = struct.pack(order + 'I', 12 + len(padded(body)))
    return struct.pack(order + 'I', kind) + size + padded(body) + size


def section(order='<'):
    """The block that begins a section."""
    return block(0x0a0d0d0a, struct.pack(order + 'IHHq', 0x1a2b3c4d, 1, 0, -1), order)


def option(number, value, order='<'):
    """An option of a block."""
    return struct.pack(order + 'HH', number, len(value)) + padded(value)


def interface(link=ETHERNET, order='<', unit=None, most=0):
    """The block of an interface: with the byte that names the unit of its times, or without."""
    options = option(2, b'eth0', order)
    if unit is not None:
        options += option(9, bytes([unit]), order)
    options += option(0, b'', order)
    return block(1, struct.pack(order + 'HHI', link, 0, most) + options, order)


def units_of(time, unit):
    """So many nanoseconds in the unit that this byte names."""
    if unit is None:
        return time // 1000
    parts = 2 ** (unit & 0x7f) if unit & 0x80 else 10 ** unit
    return time * parts // 10 ** 9


def enhanced(time, frame, most=None, order='<', unit=None, number=0):
    """The block of a frame with its time."""
    units, kept = units_of(time, unit), captured(frame, most)
    head = struct.pack(order + 'IIIII', number, units >> 32, units % 2 ** 32, len(kept), len(frame))
    return block(6, head + padded(kept) + option(0, b'', order), order)


def simple(frame, order='<'):
    """The block of a frame without a time."""
    return block(3, struct.pack(order + 'I', len(frame)) + frame, order)


def pcapng(records, link=ETHERNET, order='<', unit=None):
    """A capture in the form pcapng."""
    frames = (enhanced(time, frame, most, order, unit) for time, frame, most in records)
    return section(order) + interface(link, order, unit) + b''.join(frames)
