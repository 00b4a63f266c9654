"""Packets as the Python binding of the library for C decodes and prints them, beside the lines of `milter_tool trace`:
the lines of what is decoded are worked out here, from the parts and the protocol.
"""
from lib.captures import quoted
from lib.packets import code_of

FAMILIES = 'UL46'
# The codes of packets whose only part is a body, and of those whose only part is a text.
BODIES, TEXTS = 'BEb', 'HU+-qy'
# The words of `milter_tool trace` for a fault, with its number in the header.
WORDS = {'zero length': 201, 'too long': 202, 'unknown code': 203, 'malformed': 204}


def lines_of(text):
    """The direction and the bytes of each line of a trace, or None where some line is none of a trace."""
    lines = []
    for line in text.decode('latin-1').split('\n'):
        mark, digits = line[:2], line[2:].strip()
        if line.strip() and not line.lstrip().startswith('#'):
            if mark not in ('> ', '< ') or set(digits) - set('0123456789abcdefABCDEF') or len(digits) % 2:
                return None
            lines.append((mark[0], bytes.fromhex(digits)))
    return lines


def number_of(said):
    """The number of a fault of `milter_tool trace`, or 0 where there is none, or a stream ended within a packet."""
    found = [number for words, number in WORDS.items() if words in said.decode('latin-1')]
    return found[0] if found else 0


def printed(deiruska, lines, piece):
    """The text that the binding prints of these lines, each fed in pieces of so many bytes, and the number of its
    fault."""
    trace, text = deiruska.PacketTrace(), b''
    for mark, data in lines:
        for at in range(0, len(data), piece):
            try:
                trace.feed(deiruska.Direction('><'.index(mark)), data[at:at + piece])
            except deiruska.WireFault as fault:
                return text + trace.take(), fault.number
            text += trace.take()
    return text, 0


def code_text(code):
    """A code, as traces have it."""
    return chr(code) if 0x21 <= code <= 0x7e else '\\x%02x' % code


def fields_of(code, parts):
    """The fields of a packet of this code, from what it is decoded to."""
    if code == 'O':
        yield from ['version %d' % parts[0].number, 'actions %08x' % parts[1].number]
        yield 'protocol %08x' % parts[2].number
        yield from ('symbols %d %s' % (it.number, quoted(it.first)) for it in parts[3:])
    elif code == 'C':
        [it] = parts
        yield '%s %s' % (quoted(it.first), FAMILIES[it.kind])
        yield from ['%d %s' % (it.number, quoted(it.second))] if it.kind else []
    elif code == 'D':
        yield code_text(parts[0].number)
        yield from ('%s %s' % (quoted(it.first), quoted(it.second)) for it in parts[1:])
    elif code in '2e':
        yield from map(quoted, [parts[0].first, parts[0].second][:1 + parts[0].kind])
    elif code in 'Lhim':
        yield from ['%d' % parts[0].number] if code in 'im' else []
        yield '%s %s' % (quoted(parts[0].first), quoted(parts[0].second))
    else:
        yield from ('%d' % len(it.first) if code in BODIES else quoted(it.first) for it in parts)


def decoded(deiruska, mark, packet):
    """The line of a packet, from what the binding decodes it to, and the number of its fault."""
    code, decode = code_of(packet), deiruska.command_parts if mark == '>' else deiruska.reply_parts
    try:
        parts = decode(deiruska.Packet(packet[4:5], packet[5:]))
    except deiruska.WireFault as fault:
        return b'', fault.number
    if code not in 'OCD2eLhimMR' + BODIES + TEXTS and parts:
        raise ValueError('parts of a packet of %r: %r' % (code, parts))
    return (' '.join([mark, code_text(packet[4]), *fields_of(code, parts)]) + '\n').encode(), 0
