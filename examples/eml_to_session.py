#!/usr/bin/env python3
"""Makes a session file of a mail, for `milter_tool mta` and `milter_tool play`.

    python3 examples/eml_to_session.py [--from ADDR] [--to ADDR ..] [--helo NAME] [--client NAME ADDRESS]
        [--macro STAGE NAME VALUE ..] FILE.eml

The file has one mail, as RFC 5322 has it, with line ends of either kind. Where no sender is given it is that of the
field Return-Path, else the first one of From; where no recipient is given they are all of To and Cc, each once. An
empty sender is given as `--from ''`. The client is mail.example.org at 192.0.2.1 where none is given, and greets with
its name. Its address is one of IPv4, one of IPv6, or a path. `--macro STAGE NAME VALUE`, as often as it is wanted,
gives a macro before the stage, which is connect, helo, mail, rcpt, data, eoh or eom: `--macro mail i 4XYZ`.

The header fields are those of the file, in order. Their values are as mail servers send them to a filter, but with the
blank after the colon, as session files have it: a line end within a value is LF. A line that is no header field ends
the header. The lines of the body end in CRLF. What a session file can't have is said on standard error, with status 1.
"""
import argparse
import email.utils
import ipaddress
import os
import re
import sys

FIELD = re.compile(rb'([!-9;-~]+)[ \t]*:((?:[^\n]*\n(?=[ \t]))*[^\n]*)(?:\n|\Z)')
ESCAPES = {0x09: '\\t', 0x0a: '\\n', 0x0d: '\\r', 0x22: '\\"', 0x5c: '\\\\'}
CHARACTERS = {byte: '\\x%02x' % byte for byte in range(256)} | {byte: chr(byte) for byte in range(0x20, 0x7f)} | ESCAPES
# Newer versions of Python find no address in some fields with groups or comments, where this isn't given.
LENIENT = {'strict': False} if getattr(email.utils, 'supports_strict_parsing', False) else {}
# The port of the client, which no mail says.
PORT = 49152
# The stages that have macros, in the order of session files.
STAGES = ['connect', 'helo', 'mail', 'rcpt', 'data', 'eoh', 'eom']
# The greatest payload of a packet, and the most bytes that the packets of a message have.
PAYLOAD, MESSAGE = 65535, 16777216


def line(word, *texts):
    """A line of a session file: a word, and texts in quotes."""
    return ' '.join([word] + ['"%s"' % ''.join(map(CHARACTERS.get, text)) for text in texts])


def read_mail(text):
    """The header fields of a mail, each a name and all that stands after the colon, and its body."""
    text = text.replace(b'\r\n', b'\n')
    fields, end = [], 0
    found = FIELD.match(text)
    while found:
        fields.append(found.groups())
        end = found.end()
        found = FIELD.match(text, end)
    body = text[end:].removeprefix(b'\n')
    if body and not body.endswith(b'\n'):
        body += b'\n'
    return fields, body.replace(b'\n', b'\r\n')


def addresses_of(fields, *names):
    """The addresses in the header fields of these names, each once."""
    values = [value.replace(b'\n', b'').decode('ascii', 'surrogateescape') for name, value in fields
              if name.lower() in names]
    found = [address for _, address in email.utils.getaddresses(values, **LENIENT) if address]
    return [os.fsencode(address) for address in dict.fromkeys(found)]


def sender_of(fields):
    """The sender by the header fields."""
    for field in fields:
        if field[0].lower() == b'return-path':
            return (addresses_of([field], b'return-path') + [b''])[0]
    senders = addresses_of(fields, b'from')
    if not senders:
        sys.exit('no sender: give --from ADDR')
    return senders[0]


def recipients_of(fields):
    """The recipients by the header fields."""
    recipients = addresses_of(fields, b'to', b'cc')
    if not recipients:
        sys.exit('no recipient: give --to ADDR')
    return recipients


def in_brackets(address):
    """An address as mail servers send it."""
    return address if address.startswith(b'<') else b'<%s>' % address


def client_line(name, address):
    """The line of a client with this name and address."""
    if '/' in address:
        family, port = 'L', 0
    else:
        family, port = ipaddress.ip_address(address.removeprefix('IPv6:')).version, PORT
    return line('%s %d' % (line('client %s' % family, os.fsencode(name)), port), os.fsencode(address))


def macro_lines(macros):
    """The lines of macros, each a stage, a name and a value, in the order of the stages."""
    lines = []
    for stage in STAGES:
        pairs = [list(map(os.fsencode, pair)) for place, *pair in macros if place == stage]
        if 1 + sum(len(text) + 1 for pair in pairs for text in pair) > PAYLOAD:
            sys.exit('no packet has room for the macros of %s' % stage)
        lines += [line('macro ' + stage, *pair) for pair in pairs]
    return lines


def check(fields, body, texts):
    """Ends the program where a session file can't have this mail, with these other texts of its connection."""
    for name, value in fields:
        if b'\0' in value:
            sys.exit('a NUL in the header field %s' % name.decode())
        if len(name) + len(value) + 2 > PAYLOAD:
            sys.exit('no packet has room for the header field %s' % name.decode())
    # A packet has five bytes before its payload, and a NUL after each text. Three are without a payload.
    total = 3 * 5 + sum(len(text) + 6 for text in texts) + sum(len(name) + len(value) + 7 for name, value in fields)
    if total + len(body) + 5 * -(-len(body) // PAYLOAD) > MESSAGE:
        sys.exit('the packets of the mail have more than %d bytes' % MESSAGE)


def given_words():
    """The words of the command line. The last one is the file, also after `--to ADDR ..`."""
    if len(sys.argv) < 2 or sys.argv[-1] in ('-h', '--help'):
        sys.exit(__doc__)
    parser = argparse.ArgumentParser(
        add_help=False, usage=' '.join(map(str.strip, __doc__.splitlines()[2:4])).removeprefix('python3 examples/'))
    parser.add_argument('--from', dest='sender', type=os.fsencode)
    parser.add_argument('--to', nargs='+', action='extend', type=os.fsencode)
    parser.add_argument('--helo', type=os.fsencode)
    parser.add_argument('--client', nargs=2, default=['mail.example.org', '192.0.2.1'])
    parser.add_argument('--macro', nargs=3, action='append', default=[])
    return parser.parse_args(sys.argv[1:-1]), sys.argv[-1]


def main():
    given, path = given_words()
    with open(path, 'rb') as file:
        fields, body = read_mail(file.read())
    client, address = given.client
    helo = os.fsencode(client) if given.helo is None else given.helo
    sender = in_brackets(sender_of(fields) if given.sender is None else given.sender)
    recipients = [in_brackets(recipient) for recipient in given.to or recipients_of(fields)]
    texts = []
    for stage, *pair in given.macro:
        if stage not in STAGES:
            sys.exit('no stage with macros is called %s: %s' % (stage, ', '.join(STAGES)))
        texts += list(map(os.fsencode, pair)) * (len(recipients) if stage == 'rcpt' else 1)
    check(fields, body, [*map(os.fsencode, given.client), helo, sender, *recipients, *texts])
    lines = [client_line(client, address), line('helo', helo), *macro_lines(given.macro)]
    lines += ['message', line('sender', sender)]
    lines += [line('recipient', recipient) for recipient in recipients]
    lines += [line('header', *field) for field in fields]
    print('\n'.join(lines + [line('body', body), 'end']))


if __name__ == '__main__':
    try:
        main()
    except (OSError, ValueError) as fault:
        sys.exit(str(fault))
