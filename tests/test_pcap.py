#!/usr/bin/env python3
"""Prints captures by `milter_tool trace --pcap`, as both compilers built it, and compares what is printed with what is
worked out here from the bytes that each side sent.

The captures are made here, byte by byte (`tests/lib/pcap.py`): a conversation of a mail server with a filter in each
form of a file, order of bytes, unit of time and link type, over IPv4 and IPv6; in segments of any size that come out of
order, again, with overlaps, and with sequence numbers that wrap; without its beginning, with missing segments, with
frames that were captured in part; several conversations at once, among other connections; and files that are no
capture, end early, or have records at fault. The time of a packet is worked out from each byte of a side by itself: it
is the time at which the packet's last byte and all bytes before it were there.
"""
import collections
import os
import random
import struct
import sys
import tempfile

from lib import checks, pcap, programs
from lib.checks import checked
from lib.packets import packet_of

# A segment of a conversation: whether the client sends it, the place of its first byte, its bytes, and its flags.
Sent = collections.namedtuple('Sent', 'is_client place content flags')
CLIENT, SERVER = ('192.0.2.1', 40000), ('192.0.2.2', 8891)
CLIENT6, SERVER6 = ('2001:db8::1', 40000), ('2001:db8::2', 8891)
START = 1_700_000_000_123_456_789
# How far apart frames are, in nanoseconds.
STEP = 1_234_567
MAIL_SERVER, FILTER = True, False
# A conversation: who sends a packet, its content, and its text.
CONVERSATION = [
    (MAIL_SERVER, b'O' + struct.pack('>III', 6, 0x1ff, 0x1fffff), '> O version 6 actions 000001ff protocol 001fffff'),
    (FILTER, b'O' + struct.pack('>III', 6, 0x11, 0), '< O version 6 actions 00000011 protocol 00000000'),
    (MAIL_SERVER, b'DCj\0mx.example.net\0', '> D C "j" "mx.example.net"'),
    (MAIL_SERVER, b'Ch.example\x004\0\x19192.0.2.1\0', '> C "h.example" 4 25 "192.0.2.1"'), (FILTER, b'c', '< c'),
    (MAIL_SERVER, b'Hh.example\0', '> H "h.example"'), (FILTER, b'c', '< c'),
    (MAIL_SERVER, b'M<a@example.org>\0', '> M "<a@example.org>"'), (FILTER, b'c', '< c'),
    (MAIL_SERVER, b'R<b@example.net>\0', '> R "<b@example.net>"'), (FILTER, b'c', '< c'),
    (MAIL_SERVER, b'T', '> T'), (FILTER, b'c', '< c'),
    (MAIL_SERVER, b'LSubject\0At one\0', '> L "Subject" "At one"'), (FILTER, b'c', '< c'),
    (MAIL_SERVER, b'N', '> N'), (FILTER, b'c', '< c'),
    (MAIL_SERVER, b'B' + bytes(range(256)) * 3, '> B 768'), (FILTER, b'c', '< c'),
    (MAIL_SERVER, b'E', '> E 0'), (FILTER, b'hX-Seen\0yes\0', '< h "X-Seen" "yes"'), (FILTER, b'a', '< a'),
    (MAIL_SERVER, b'Q', '> Q')]


# ---- conversations as segments

def stream_of(conversation, sender):
    """What a side sends."""
    return b''.join(packet_of(content) for side, content, _ in conversation if side is sender)


def sent_of(conversation, size=None):
    """The segments of a conversation: one for each packet, or of so many bytes at most."""
    places = {MAIL_SERVER: 0, FILTER: 0}
    for side, content, _ in conversation:
        packet = packet_of(content)
        for at in range(0, len(packet), size or len(packet)):
            piece = packet[at:at + (size or len(packet))]
            yield Sent(side, places[side], piece, pcap.ACK)
            places[side] += len(piece)


def opened():
    """The segments with which a connection begins."""
    return [Sent(True, -1, b'', pcap.SYN), Sent(False, -1, b'', pcap.SYN | pcap.ACK), Sent(True, 0, b'', pcap.ACK)]


def closed(conversation):
    """The segments with which it ends."""
    ends = [(side, len(stream_of(conversation, side))) for side in (MAIL_SERVER, FILTER)]
    return [Sent(side, end, b'', pcap.FIN | pcap.ACK) for side, end in ends]


class Wire:
    """Makes the frames of a connection's segments: those of one side know what the other one sent before them."""

    def __init__(self, client=CLIENT, server=SERVER, first=(1000, 5000), internet=pcap.internet, framed=pcap.ethernet):
        self.client, self.server, self.internet, self.framed = client, server, internet, framed
        self.first = {MAIL_SERVER: first[0], FILTER: first[1]}
        self.seen = {MAIL_SERVER: 0, FILTER: 0}

    def frame(self, sent):
        """The frame of a segment."""
        side, other = sent.is_client, not sent.is_client
        source, destination = (self.client, self.server) if side else (self.server, self.client)
        end = sent.place + len(sent.content) + bool(sent.flags & pcap.FIN)
        self.seen[side] = max(self.seen[side], end)
        acknowledged = self.first[other] + self.seen[other] if sent.flags & pcap.ACK else 0
        content = pcap.segment((source[1], destination[1]), self.first[side] + sent.place, acknowledged, sent.flags,
                               sent.content)
        return self.framed(self.internet(source[0], destination[0], content))


def records_of(wire, segments, start=START):
    """The records of a connection's segments, each a step after the one before."""
    return [(start + STEP * number, wire.frame(sent), None) for number, sent in enumerate(segments)]


# ---- what is printed

def seconds(time):
    """A time as it is printed."""
    return '%d.%06d' % divmod(time // 1000, 10 ** 6)


def shown(address):
    """An address as it is printed."""
    return ('[%s]:%d' if ':' in address[0] else '%s:%d') % address


def times_of(conversation, segments, side):
    """For each byte of a side when it and all before it are there, after the connection's beginning; none for those
    that never are."""
    first = {}
    for number, sent in enumerate(segments):
        if sent.is_client is side:
            for place in range(sent.place, sent.place + len(sent.content)):
                first.setdefault(place, STEP * number)
    times, latest = [], 0
    for place in range(len(stream_of(conversation, side))):
        if place not in first:
            break
        latest = max(latest, first[place])
        times.append(latest)
    return times


def lines_of(conversation, segments, unit=1000):
    """The lines of a conversation's packets, in order, with times that are counted in so many nanoseconds."""
    lines = []
    for side in (MAIL_SERVER, FILTER):
        times, end = times_of(conversation, segments, side), 0
        for sender, content, text in conversation:
            if sender is side:
                end += 4 + len(content)
                if end <= len(times):
                    lines.append((times[end - 1], len(lines), text))
    lines.sort(key=lambda line: line[:2])
    since = START // unit * unit
    return ['%s %s' % (seconds((START + time) // unit * unit - since), text) for time, _, text in lines]


def printed(groups, left_out=0):
    """What is printed of connections: pairs of their addresses and their lines."""
    lines = []
    for number, (sides, own) in enumerate(groups, 1):
        lines += ['connection %d %s' % (number, ' '.join(map(shown, sides)))] + own
    return '\n'.join(lines + ['left out %d connections' % left_out, '']).encode()


# ---- runs

def play(build, capture, expected, *words):
    """A capture is printed, as a file and as standard input."""
    with tempfile.TemporaryDirectory() as folder:
        path = os.path.join(folder, 'capture')
        with open(path, 'wb') as file:
            file.write(capture)
        for name, end in (('file', programs.ended([programs.tool(build), 'trace', '--pcap', *words, path])),
                          ('input', programs.ended([programs.tool(build), 'trace', '--pcap', *words], capture))):
            wrong = programs.compared(name, end, expected)
            if wrong is not None:
                raise checks.Wrong(wrong)


def whole(conversation, size=None):
    """The segments of a connection from its beginning to its end."""
    return opened() + list(sent_of(conversation, size)) + closed(conversation)


def good(lines):
    """How a run ends that prints these bytes."""
    return 0, lines, b''


def forms(build):
    """The same conversation in each form of a file."""
    segments = whole(CONVERSATION)
    links = [(pcap.ETHERNET, pcap.ethernet), (pcap.ETHERNET, pcap.tagged), (pcap.RAW, pcap.raw),
             (pcap.LOOPBACK, pcap.loopback), (pcap.LOOPBACK, lambda packet: pcap.loopback(packet, '>')),
             (pcap.COOKED, pcap.cooked), (pcap.COOKED_AGAIN, pcap.cooked_again)]
    for sides in ((CLIENT, SERVER), (CLIENT6, SERVER6)):
        for place, (link, framed) in enumerate(links):
            records = records_of(Wire(*sides, framed=framed), segments)
            for order in '<>':
                files = [('pcap', pcap.pcap(records, link, order), 1000),
                         ('pcap ns', pcap.pcap(records, link, order, True), 1),
                         ('pcapng', pcap.pcapng(records, link, order), 1000),
                         ('pcapng ns', pcap.pcapng(records, link, order, 9), 1)]
                for name, file, unit in files:
                    expected = good(printed([(sides, lines_of(CONVERSATION, segments, unit))]))
                    yield checked('%s %s link %d' % (name, order, place), play, build, file, expected)


def blocks(build):
    """Other units of time, blocks and sections."""
    segments = whole(CONVERSATION)
    records = records_of(Wire(), segments)
    # With a unit of 2^-30 seconds nanoseconds are cut.
    for unit in (0x80 | 30, 0, 3, 10):
        parts = 2 ** 30 if unit & 0x80 else 10 ** unit
        cut = [(pcap.units_of(time, unit) * 10 ** 9 // parts) for time, _, _ in records]
        own = ['%s %s' % (seconds(cut[line_number] - cut[0]), text)
               for line_number, text in numbered_texts(segments)]
        yield checked('unit %x' % unit, play, build, pcap.pcapng(records, unit=unit),
                      good(printed([((CLIENT, SERVER), own)])))
    simple = pcap.section() + pcap.interface() + b''.join(pcap.simple(frame) for _, frame, _ in records)
    own = ['0.000000 ' + text for _, text in numbered_texts(segments)]
    yield checked('simple', play, build, simple, good(printed([((CLIENT, SERVER), own)])))
    other = pcap.block(5, bytes(16)) + pcap.block(0x80000001, b'any')
    half = len(records) // 2
    parts = [pcap.section(), other, pcap.interface()]
    parts += [pcap.enhanced(time, frame) + other for time, frame, _ in records[:half]]
    parts += [pcap.section('>'), pcap.interface(pcap.RAW, '>'), pcap.interface(order='>', unit=9)]
    parts += [pcap.enhanced(time // 1000 * 1000, frame, order='>', unit=9, number=1)
              for time, frame, _ in records[half:]]
    expected = good(printed([((CLIENT, SERVER), lines_of(CONVERSATION, segments))]))
    yield checked('two sections', play, build, b''.join(parts), expected)


def numbered_texts(segments):
    """The number of the segment with each packet, and its text, where each packet has a segment."""
    numbers = [number for number, sent in enumerate(segments) if sent.content]
    return zip(numbers, (text for _, _, text in CONVERSATION))


def split(sent, chance):
    """A segment in two, or as it is."""
    if len(sent.content) < 2 or chance.random() < 0.5:
        return [sent]
    at = chance.randrange(1, len(sent.content))
    return [sent._replace(content=sent.content[:at]),
            sent._replace(place=sent.place + at, content=sent.content[at:])]


def again(segments, stream, side, chance):
    """A segment of a side with bytes that were in others too."""
    start = chance.randrange(len(stream))
    end = min(len(stream), start + chance.randrange(1, 200))
    at = chance.randrange(len(segments) + 1)
    segments.insert(at, Sent(side, start, stream[start:end], pcap.ACK))


def shuffled(seed):
    """The segments of the conversation out of order, again and with overlaps."""
    chance = random.Random(seed)
    sent_whole = sent_of(CONVERSATION, chance.choice([None, 1, 7, 100]))
    segments = [piece for sent in sent_whole for piece in split(sent, chance)]
    for _ in range(chance.randrange(8)):
        at = chance.randrange(len(segments))
        segments.insert(chance.randrange(len(segments)), segments.pop(at))
    for side in (MAIL_SERVER, FILTER):
        for _ in range(chance.randrange(4)):
            again(segments, stream_of(CONVERSATION, side), side, chance)
    return opened() + segments + closed(CONVERSATION)


def orders(build):
    """Segments in any order, with sequence numbers that wrap."""
    for seed in range(60):
        segments = shuffled(seed)
        first = [(1000, 5000), (2 ** 32 - 300, 2 ** 32 - 20), (2 ** 31 - 5, 2 ** 31 - 400)][seed % 3]
        file = pcap.pcap(records_of(Wire(first=first), segments), nanoseconds=True)
        expected = good(printed([((CLIENT, SERVER), lines_of(CONVERSATION, segments, 1))]))
        yield checked('order %d' % seed, play, build, file, expected)


def beginnings(build):
    """Connections without all segments of their beginning."""
    segments = whole(CONVERSATION)
    for kept in range(4):
        records = records_of(Wire(), segments)[kept:]
        # The acknowledgement alone begins no connection.
        start = records[1 if kept == 2 else 0][0] - START
        lines = ['%s %s' % (seconds((START + STEP * number) // 1000 * 1000 - (START + start) // 1000 * 1000), text)
                 for number, text in numbered_texts(segments)]
        yield checked('without %d' % kept, play, build, pcap.pcap(records),
                      good(printed([((CLIENT, SERVER), lines)])))
    # The mail server's offer is missing, and so this is none with a filter.
    records = records_of(Wire(), segments)[5:]
    yield checked('without offers', play, build, pcap.pcap(records), good(printed([], 1)))


def without(build):
    """Segments that the capture doesn't have, or not whole."""
    segments = whole(CONVERSATION)
    records = records_of(Wire(), segments)
    for number, sent in enumerate(segments):
        if not sent.content or number == 3:
            continue
        kept = [one if place != number else one._replace(content=b'') for place, one in enumerate(segments)]
        lines = lines_of(CONVERSATION, kept)
        lost = 'lost %d bytes to %s' % (len(sent.content), 'the filter' if sent.is_client else 'the mail server')
        expected = good(printed([((CLIENT, SERVER), lines + [lost])]))
        yield checked('without %d' % number, play, build, pcap.pcap(records[:number] + records[number + 1:]), expected)
        cut = [(time, frame, None if place != number else len(frame) - len(sent.content))
               for place, (time, frame, _) in enumerate(records)]
        yield checked('cut %d' % number, play, build, pcap.pcap(cut), expected)
        fragment = list(records)
        source, destination = (CLIENT, SERVER) if sent.is_client else (SERVER, CLIENT)
        packet = pcap.ipv4(source[0], destination[0], records[number][1][34:], fragment=0x2000)
        fragment[number] = (records[number][0], pcap.ethernet(packet), None)
        yield checked('fragment %d' % number, play, build, pcap.pcap(fragment), expected)
    # The capture ends within a packet.
    pieces = [one if one.place != 0 or not one.is_client or not one.content else one._replace(content=one.content[:9])
              for one in segments[:4]]
    lines = ['end: > truncated 9 bytes']
    yield checked('within a packet', play, build, pcap.pcap(records_of(Wire(), pieces)),
                  good(printed([((CLIENT, SERVER), lines)])))


def headers(build):
    """IP packets and segments with options and extension headers, and frames that are filled up."""
    segments = whole(CONVERSATION)
    expected = good(printed([((CLIENT, SERVER), lines_of(CONVERSATION, segments))]))
    expected6 = good(printed([((CLIENT6, SERVER6), lines_of(CONVERSATION, segments))]))

    def with_options(source, destination, content):
        return pcap.ipv4(source, destination, content, options=bytes(8))

    def without_length(source, destination, content):
        return pcap.ipv4(source, destination, content, length=0)

    def extended(source, destination, content):
        return pcap.ipv6(source, destination, content, [(0, bytes(6)), (60, bytes(14)), (43, bytes(6))])

    def filled(packet):
        return pcap.ethernet(packet) + bytes(20)

    yield checked('options', play, build, pcap.pcap(records_of(Wire(internet=with_options), segments)), expected)
    yield checked('no length', play, build, pcap.pcap(records_of(Wire(internet=without_length), segments)), expected)
    yield checked('filled up', play, build, pcap.pcap(records_of(Wire(framed=filled), segments)), expected)
    wire = Wire(CLIENT6, SERVER6, internet=extended)
    yield checked('extensions', play, build, pcap.pcap(records_of(wire, segments)), expected6)


def others(build):
    """Several conversations at once, again between the same addresses, and among other connections."""
    segments = whole(CONVERSATION)
    lines = lines_of(CONVERSATION, segments)
    second = (CLIENT[0], 40001)
    pairs = zip(records_of(Wire(), segments), records_of(Wire(second), segments))
    mixed = [record for pair in pairs for record in pair]
    both = [((CLIENT, SERVER), lines), ((second, SERVER), lines)]
    yield checked('at once', play, build, pcap.pcap(mixed), good(printed(both)))
    later = records_of(Wire(first=(77777, 88888)), segments, START + 10 ** 9)
    twice = [((CLIENT, SERVER), lines)] * 2
    yield checked('again', play, build, pcap.pcap(records_of(Wire(), segments) + later), good(printed(twice)))
    http = opened() + [Sent(True, 0, b'GET / HTTP/1.1\r\n\r\n', pcap.ACK),
                       Sent(False, 0, b'HTTP/1.1 200\r\n', pcap.ACK)]
    silent = opened()
    noise = records_of(Wire((CLIENT[0], 50000), (SERVER[0], 80)), http)
    noise += records_of(Wire((CLIENT[0], 50001), (SERVER[0], 81)), silent)
    udp = pcap.ethernet(pcap.ipv4(CLIENT[0], SERVER[0], bytes(30), protocol=17))
    noise += [(START, udp, None), (START, bytes(12) + b'\x08\x06' + bytes(28), None), (START, bytes(5), None)]
    expected = good(printed([((CLIENT, SERVER), lines)], 2))
    yield checked('among others', play, build, pcap.pcap(noise + records_of(Wire(), segments)), expected)
    yield checked('others alone', play, build, pcap.pcap(noise), good(printed([], 2)))
    yield checked('none', play, build, pcap.pcap([]), good(printed([])))


def faulty_packets(build):
    """Packets that can't be read: nothing more is printed of their direction."""
    for content, text in ((b'Zabc', 'unknown code Z'), (b'H', 'malformed H')):
        conversation = CONVERSATION[:2] + [(MAIL_SERVER, content, '> fault: ' + text)] + CONVERSATION[2:5]
        segments = whole(conversation)
        lines = lines_of(conversation, segments)
        place = next(place for place, line in enumerate(lines) if ' fault: ' in line)
        kept = lines[:place + 1] + [line for line in lines[place + 1:] if ' < ' in line]
        yield checked(text, play, build, pcap.pcap(records_of(Wire(), segments)),
                      good(printed([((CLIENT, SERVER), kept)])))


def faults(build):
    """Files that are no captures, that end early, or that have records at fault."""
    segments = whole(CONVERSATION)
    records = records_of(Wire(), segments)
    file = pcap.pcap(records[:2])
    for name, content in (('empty', b''), ('text', b'> 0000000151\n'), ('head', file[:23])):
        yield checked(name, play, build, content, (1, b'', b'not a capture\n'))
    second = len(pcap.pcap(records[:1]))
    for end in range(25, len(file)):
        if end != second:
            count = 1 if end < second else 2
            left_out = printed([], count - 1)
            yield checked('cut %d' % end, play, build, file[:end],
                          (1, left_out, b'record %d: truncated\n' % count))
    yield checked('link type', play, build, pcap.pcap(records, 105),
                  (1, printed([]), b'record 1: unknown link type 105\n'))
    head = pcap.section() + pcap.interface()
    frame = pcap.enhanced(*records[0])
    odd = frame[:4] + struct.pack('<I', len(frame) + 1) + frame[8:]
    short = frame[:4] + struct.pack('<I', 8) + frame[8:]
    unlike = frame[:-4] + struct.pack('<I', len(frame) + 4)
    large = frame[:20] + struct.pack('<I', 5000) + frame[24:]
    unknown = pcap.enhanced(START, records[0][1], number=1)
    for name, content in (('odd', odd), ('short', short), ('unlike', unlike), ('large', large), ('unknown', unknown),
                          ('small', pcap.block(6, bytes(8))), ('interface', pcap.block(1, bytes(4))),
                          ('section', pcap.block(0x0a0d0d0a, bytes(16)))):
        yield checked(name, play, build, head + frame + content, (1, printed([], 1), b'record 4: bad record\n'))
    yield checked('block type', play, build, pcap.section() + pcap.interface(105) + frame,
                  (1, printed([]), b'record 3: unknown link type 105\n'))
    whole_file = head + frame
    for end in range(len(head) + 1, len(whole_file)):
        yield checked('block cut %d' % end, play, build, whole_file[:end],
                      (1, printed([]), b'record 3: truncated\n'))


def files(build):
    """Captures in several files, and files that can't be read."""
    segments = whole(CONVERSATION)
    expected = printed([((CLIENT, SERVER), lines_of(CONVERSATION, segments))])
    with tempfile.TemporaryDirectory() as folder:
        path = os.path.join(folder, 'capture')
        with open(path, 'wb') as file:
            file.write(pcap.pcap(records_of(Wire(), segments)))
        runs = [('twice', [path, path], good(expected * 2)),
                ('missing', [path, path + 's'], (1, expected, b'cannot read capture\n')),
                ('folder', [folder, path], (1, b'', b'cannot read capture\n'))]
        for name, paths, end in runs:
            found = programs.ended([programs.tool(build), 'trace', '--pcap', *paths])
            yield programs.compared(name, found, end)


def main():
    programs.need('tool')
    groups = [forms, blocks, orders, beginnings, without, headers, others, faulty_packets, faults, files]
    return checks.run_all([('%s%s' % (group.__name__, build), group, (build,))
                           for group in groups for build in programs.BUILDS])


if __name__ == '__main__':
    sys.exit(main())
