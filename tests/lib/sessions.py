"""Mails and traces, with the sessions that the scripts of examples/ have to make of them: all written by hand."""
import re
import struct

from lib import tables

# What a session begins with where no client is given.
CLIENT = 'client 4 "mail.example.org" 49152 "192.0.2.1"\nhelo "mail.example.org"\n'
# Mails, with the words that go before the file: a name, the words, the mail, and the session.
MAILS = [
    ('by its fields', [], rb'''From: "Ada, of X" <ada@example.org>, x@example.org
To: Brook <brook@example.net>, Friends: cleo@example.net, "d e"@example.net;
Cc: brook@example.net,
 <eve@example.net> (Eve, of Y)
Subject: Lunch

Lunch at one?
'''.replace(b'\n', b'\r\n'), r'''message
sender "<ada@example.org>"
recipient "<brook@example.net>"
recipient "<cleo@example.net>"
recipient "<\"d e\"@example.net>"
recipient "<eve@example.net>"
header "From" " \"Ada, of X\" <ada@example.org>, x@example.org"
header "To" " Brook <brook@example.net>, Friends: cleo@example.net, \"d e\"@example.net;"
header "Cc" " brook@example.net,\n <eve@example.net> (Eve, of Y)"
header "Subject" " Lunch"
body "Lunch at one?\r\n"
end
'''),
    ('the path is the sender', [], b'Return-Path: <bounce@example.org>\nReturn-Path: <old@example.org>\n'
     b'FROM: ada@example.org\nTO: brook@example.net\n\nHi\n', r'''message
sender "<bounce@example.org>"
recipient "<brook@example.net>"
header "Return-Path" " <bounce@example.org>"
header "Return-Path" " <old@example.org>"
header "FROM" " ada@example.org"
header "TO" " brook@example.net"
body "Hi\r\n"
end
'''),
    ('an empty path', [], b'Return-Path: <>\nFrom: ada@example.org\nTo: brook@example.net\n\n', r'''message
sender "<>"
recipient "<brook@example.net>"
header "Return-Path" " <>"
header "From" " ada@example.org"
header "To" " brook@example.net"
body ""
end
'''),
    ('folded fields with CRLF', ['--from', 'a@x', '--to', 'b@y'],
     b'Subject: one\r\n\ttwo\r\n   three \r\nX-First:\r\n folded\r\nX-Blank: a\r\n \r\nX-Last: b\r\n\r\nHi\r\n',
     r'''message
sender "<a@x>"
recipient "<b@y>"
header "Subject" " one\n\ttwo\n   three "
header "X-First" "\n folded"
header "X-Blank" " a\n "
header "X-Last" " b"
body "Hi\r\n"
end
'''),
    ('values as they are', ['--from', 'a@x', '--to', 'b@y'],
     b'X-None:value\nX-Two:  value\nX-Tab:\tvalue\nX-Empty:\nX-Space: \nX-Before : v\nX:Y:Z\n\n', r'''message
sender "<a@x>"
recipient "<b@y>"
header "X-None" "value"
header "X-Two" "  value"
header "X-Tab" "\tvalue"
header "X-Empty" ""
header "X-Space" " "
header "X-Before" " v"
header "X" "Y:Z"
body ""
end
'''),
    ('bytes and quotes', ['--from', 'a@x', '--to', 'b@y'],
     b'Subject: caf\xc3\xa9 \xff\x7f\x01 "q" \\\n\n"\\" caf\xc3\xa9\x00\t\x85\xa0\x0b\x0c\rbare\r\r\n', r'''message
sender "<a@x>"
recipient "<b@y>"
header "Subject" " caf\xc3\xa9 \xff\x7f\x01 \"q\" \\"
body "\"\\\" caf\xc3\xa9\x00\t\x85\xa0\x0b\x0c\rbare\r\r\n"
end
'''),
    ('addresses of bytes', [], b'From: <caf\xc3\xa9@example.org>\nTo: \xff\xfe@example.net\n\n', r'''message
sender "<caf\xc3\xa9@example.org>"
recipient "<\xff\xfe@example.net>"
header "From" " <caf\xc3\xa9@example.org>"
header "To" " \xff\xfe@example.net"
body ""
end
'''),
    ('dot lines, both line ends, and none', ['--from', 'a@x', '--to', 'b@y'],
     b'Subject: dots\r\n\n.\n..\r\n.hidden\n\n\r\nlast', r'''message
sender "<a@x>"
recipient "<b@y>"
header "Subject" " dots"
body ".\r\n..\r\n.hidden\r\n\r\n\r\nlast\r\n"
end
'''),
    ('no body, and no line end', ['--from', 'a@x', '--to', 'b@y'], b'Subject: x', r'''message
sender "<a@x>"
recipient "<b@y>"
header "Subject" " x"
body ""
end
'''),
    ('a line that is no field', ['--from', 'a@x', '--to', 'b@y'], b'Subject: x\nno field\n\nHi\n', r'''message
sender "<a@x>"
recipient "<b@y>"
header "Subject" " x"
body "no field\r\n\r\nHi\r\n"
end
'''),
    ('nothing', ['--from', 'a@x', '--to', 'b@y'], b'', 'message\nsender "<a@x>"\nrecipient "<b@y>"\nbody ""\nend\n'),
    ('words for all', ['--to', '<b@y>', 'c@z', '--from', '', '--to', 'd@z', '--helo', 'h "x"',
                       '--client', 'six.example', 'IPv6:2001:db8::25'],
     b'Subject: x\n\n', r'''client 6 "six.example" 49152 "IPv6:2001:db8::25"
helo "h \"x\""
message
sender "<>"
recipient "<b@y>"
recipient "<c@z>"
recipient "<d@z>"
header "Subject" " x"
body ""
end
'''),
    ('a local client', ['--client', 'localhost', '/run/mail', '--from=a@x', '--to=b@y'],
     b'\nHi', r'''client L "localhost" 0 "/run/mail"
helo "localhost"
message
sender "<a@x>"
recipient "<b@y>"
body "Hi\r\n"
end
'''),
    ('with macros', [
        '--macro', 'eoh', 'e', '7', '--macro', 'rcpt', '{rcpt_addr}', 'b@y', '--macro', 'eom', 'm', '6',
        '--macro', 'mail', 'i', '4"X', '--macro', 'data', 'd', '5', '--macro', 'rcpt', 'x', '',
        '--macro', 'connect', 'j', 'mx', '--macro', 'helo', 'h', '2'],
     b'From: a@x\nTo: b@y\n\nHi\n', r'''client 4 "mail.example.org" 49152 "192.0.2.1"
helo "mail.example.org"
macro connect "j" "mx"
macro helo "h" "2"
macro mail "i" "4\"X"
macro rcpt "{rcpt_addr}" "b@y"
macro rcpt "x" ""
macro data "d" "5"
macro eoh "e" "7"
macro eom "m" "6"
message
sender "<a@x>"
recipient "<b@y>"
header "From" " a@x"
header "To" " b@y"
body "Hi\r\n"
end
'''),
]
# Mails of which there is no session: a name, the words, the mail, and what is said.
NO_SESSIONS = [
    ('no sender', ['--to', 'b@y'], b'To: c@z\n\n', 'no sender: give --from ADDR\n'),
    ('no recipient', [], b'From: a@x\nTo: undisclosed-recipients:;\n\n', 'no recipient: give --to ADDR\n'),
    ('a NUL', [], b'From: a@x\nTo: b@y\nSubject: a\0b\n\n', 'a NUL in the header field Subject\n'),
    ('a great field', [], b'From: a@x\nTo: b@y\nSubject: ' + b'x' * 65526 + b'\n\n',
     'no packet has room for the header field Subject\n'),
    ('a great mail', [], b'From: a@x\nTo: b@y\n\n' + b'x' * (1 << 24),
     'the packets of the mail have more than 16777216 bytes\n'),
    ('a stage without macros', ['--macro', 'body', 'i', '1'], b'From: a@x\nTo: b@y\n\n',
     'no stage with macros is called body: connect, helo, mail, rcpt, data, eoh, eom\n'),
    ('great macros', ['--macro', 'mail', 'i', 'x' * 65533], b'From: a@x\nTo: b@y\n\n',
     'no packet has room for the macros of mail\n'),
    ('no address', ['--client', 'h', 'h'], b'From: a@x\nTo: b@y\n\n',
     "'h' does not appear to be an IPv4 or IPv6 address\n"),
]


def options(protocol):
    """The packets in which a filter agrees on no actions and on these protocol bits."""
    texts = [''.join('{%02x}' % byte for byte in struct.pack('>III', 6, *bits))
             for bits in [(0x1ff, 0x1ff7ff), (0, protocol)]]
    return ['> O ' + texts[0], '< O ' + texts[1]]


OPENING = options(0) + ['> C h.example{00}U', '< c', '> H mail{00}', '< c']
OPENED = 'client U "h.example"\nhelo "mail"\n'
ENDING = ['> T', '< c', '> N', '< c', '> E', '< c']
SENT = 'message\nsender "a@x"\nrecipient "b@y"\nbody ""\nend\n'
BEGINNING = ['> M a@x{00}', '< c', '> R b@y{00}', '< c']
# Traces: a name, their packets (other lines of a trace stand as they are), the session, and what is said of the rest.
TRACES = [
    ('a body in chunks', OPENING + BEGINNING + [
        '> T', '< c', '> L A{00}b{00}', '< c', '> L A{00} {00}', '< c', '> N', '< c', '> B {0d}{0a}{00}', '< c',
        '> B "', '< c', '> E end', '< c', '> A', '> Q'], OPENED + r'''message
sender "a@x"
recipient "b@y"
header "A" " b"
header "A" "  "
body "\r\n\x00\"end"
end
''', ''),
    ('with leading spaces', options(0x100000) + ['', '  # a comment'] + OPENING[2:] + BEGINNING + [
        '> L A{00} b{00}', '< c', '> L A{00}{00}', '< c'] + ENDING, OPENED + r'''message
sender "a@x"
recipient "b@y"
header "A" " b"
header "A" ""
body ""
end
''', ''),
    ('two messages and macros', options(0) + [
        '> D Cj{00}mx{00}a{00}{00}', '> C h.example{00}6{00}{19}2001:db8::25{00}', '< c', '> D H', '> H mail{00}',
        '< c', '> D Mi{00}1{00}', '> M <a@x>{00}SIZE=1{00}BODY=7BIT{00}', '< c', '> D R',
        '> R b@y{00}NOTIFY=NEVER{00}', '< c',
        '> D Rr{00}1{00}', '> R c@z{00}', '< c', '> D Nn{00}1{00}', '> D Tt{00}1{00}', '> D Li{00}1{00}',
        '> D Li{00}1{00}', '> D Ee{00}1{00}'] + ENDING + [
        '> D Mi{00}2{00}', '> M {00}', '< c', '> D Rr{00}1{00}', '> R b@y{00}', '< c'] + ENDING,
     r'''client 6 "h.example" 25 "2001:db8::25"
helo "mail"
macro connect "j" "mx"
macro connect "a" ""
macro mail "i" "1"
macro rcpt "r" "1"
macro data "t" "1"
macro eoh "n" "1"
macro eom "e" "1"
message
sender "<a@x>" "SIZE=1" "BODY=7BIT"
recipient "b@y" "NOTIFY=NEVER"
recipient "c@z"
body ""
end
message
sender ""
recipient "b@y"
body ""
end
''', '''line 20: macros before L, here and after: no stage of a session has them
line 29: other macros before M, here and after: a session has one list
'''),
    ('greetings', OPENING[:4] + [
        '> D Ht{00}none{00}', '> H first{00}', '< c', '> D Ht{00}TLS{00}', '> H mail{00}', '< c'] + BEGINNING + ENDING
     + ['> H late{00}', '< c', '> U XYZ "1"{00}', '< c', '> Q'], OPENED + 'macro helo "t" "TLS"\n' + SENT,
     '''line 9: another greeting, of which a session has one
line 21: another greeting, of which a session has one
line 23: an unknown command "XYZ \\"1\\""
'''),
    ('messages that do not end', OPENING + [
        '> M refused@x{00}', '< r'] + BEGINNING + ['> A'] + BEGINNING + ['> T', '< y 550 No{00}', '> A']
     + BEGINNING[:-1] + ['< r', '> A'] + BEGINNING[:-1] + [
         '< a', '> M last@x{00}', '< c', '> R b@y{00}', '# cut', '> 000000'],
     OPENED + SENT * 4 + SENT.replace('a@x', 'last@x'),
     '''line 9: the message of line 7 has no recipient, and is left out
line 13: the message of line 9 is aborted: a session plays it to its end
line 20: the message of line 14 was settled before its end: a session plays it to its end
line 25: the message of line 21 is aborted: a session plays it to its end
line 30: the message of line 26 was settled before its end: a session plays it to its end
end: > truncated 3 bytes
end: the message of line 30 has no end: a session plays it to its end
'''),
    ('what is agreed not to be sent', options(0x7f) + ['> E', '< c', '> E', '< a', '> Q'],
     'client U ""\nhelo ""\n' + SENT.replace('a@x', '<>').replace('b@y', '<>') * 2,
     '''line 2: no header fields are sent, as was agreed
line 2: no bodies are sent, as was agreed
line 3: a message without a sender: "<>" stands for it
line 3: messages without a recipient, as was agreed: "<>" stands for it
end: no client: an empty text stands for it
end: no greeting: an empty text stands for it
'''),
    ('another client', OPENING + BEGINNING + ENDING + [
        '> K', '> D Cj{00}mx{00}', '> C two{00}U', '< c', '> H two{00}', '< c'] + BEGINNING + ENDING + ['> Q'],
     OPENED + SENT,
     'line 19: another client, which is left out with its messages\n'),
    ('what is not in a session', OPENING + BEGINNING + [
        '> L {00}v{00}', '< c', '> L A B{00}v{00}', '< c', '> L A{00}{x*65532}{00}', '< c', '> L A{00}{x*65531}{00}',
        '< c', '> L A{00}v{00}', '< c', '> B {x*65535}', '< s'] + ENDING, OPENED + SENT.replace(
            'body ""', 'header "A" " %s"\nheader "A" " v"\nbody "%s"' % ('x' * 65531, 'x' * 65535)),
     '''line 11: a header field that no session has: ""
line 13: a header field that no session has: "A B"
line 15: a header field that no session has: "A"
line 22: the rest of this body is not sent, as the filter asked for
'''),
    ('too large', OPENING + BEGINNING + ['> B {x*65535}'] * 256 + ENDING + BEGINNING + ENDING, OPENED + SENT,
     'end: the message of line 7 is too large for a session\n'),
    ('cut anywhere', OPENING[:2] + [
        '> 0000000c43682e65', '> 78616D706c65005500000006486d', '< ', '> 61696c00\r', '> '], OPENED, ''),
    ('nothing', [], 'client U ""\nhelo ""\n',
     'end: no client: an empty text stands for it\nend: no greeting: an empty text stands for it\n'),
]
# Traces with a fault, and what is said.
FAULTS = [
    (['> 000'], 'line 1: bad line'), (['>00'], 'line 1: bad line'), (['', '= 00'], 'line 2: bad line'),
    (['\t'], 'line 1: bad line'), (['> 00000000'], 'line 1: a packet of length 0'),
    (['> 00010001'], 'line 1: a packet of length 65537'), (['< Q'], 'line 1: < unknown code Q'),
    (['> {01}'], 'line 1: > unknown code \\x01'), (OPENING + ['> M'], 'line 7: > malformed M'),
    (['> C h{00}'], 'line 1: > malformed C'), (['> C h{00}5{00}{00}{00}'], 'line 1: > malformed C'),
    (['> C h{00}4{00}{00}1'], 'line 1: > malformed C'), (['> H a{00}b{00}'], 'line 1: > malformed H'),
    (['> D'], 'line 1: > malformed D'), (['> D Mi{00}'], 'line 1: > malformed D'),
    (['> O {00}'], 'line 1: > malformed O'), (['> M a{00}', '> L A{00}'], 'line 2: > malformed L'),
    (['> Q x'], 'line 1: > malformed Q'), (['> M a{00}', '> T x'], 'line 2: > malformed T'),
    (['< O {00}'], 'line 1: < malformed O')]


def traced(lines):
    """A trace: each packet as a line, and other lines as they are."""

    def traced_line(text):
        if not re.fullmatch(r'[<>] (\{..\}|.)( .*)?', text):
            return text
        return text[:2] + tables.packet_of(text[2:].encode(), None).hex()

    return ''.join(traced_line(text) + '\n' for text in lines).encode()
