"""Edits of which docs/PROTOCOL.md says, in `Where mail servers differ`, what this program, Postfix and Sendmail make of
them, and those of header fields that were seen, for tests/interop.sh: each is asked for by `milter_tool serve`, and
what the mail server delivers is compared with the table. The column of this program is played in memory.
"""
import os
import re
import subprocess
import tempfile

import mail_server
import peers
from lib import programs

ADA, BOB, EVE = '<ada@example.org>', '<bob@example.net>', '<eve@example.net>'
FIELDS = [('X-A', '1'), ('X-A', '2'), ('X-A', '3'), ('Subject', 'a')]
NAMES = ['X-A', 'x-a', 'X-New', 'Subject', 'subject']
COLUMNS = ['here', 'Postfix', 'Sendmail']
# By the edits, in this program, Postfix and Sendmail: the header fields of a message with FIELDS to BOB and EVE, and
# who it goes to. Sendmail adds a field before the first one of its name, also where that was deleted (addheader() of
# its sendmail/headers.c).
BOTH = sorted([BOB, EVE])
TABLE = {
    ('change-header 1 "X-A" ""', 'change-header 1 "X-A" "new"'): [
        ('new 3 a', BOTH), ('new 3 a', BOTH), ('new 2 3 a', BOTH)],
    ('change-header 1 "X-A" ""', 'change-header 2 "X-A" "new"'): [
        ('2 new a', BOTH), ('2 new a', BOTH), ('new 3 a', BOTH)],
    ('change-header 5 "X-A" "new"',): [('1 2 3 a new', BOTH), ('1 2 3 a new', BOTH), ('new 1 2 3 a', BOTH)],
    ('change-header 5 "Subject" "new"',): [('1 2 3 a new', BOTH), ('1 2 3 a new', BOTH), ('1 2 3 new a', BOTH)],
    ('change-header 1 "X-New" "new"',): 3 * [('1 2 3 a new', BOTH)],
    ('add-header "X-A" "new"',): [('1 2 3 a new', BOTH), ('1 2 3 a new', BOTH), ('new 1 2 3 a', BOTH)],
    ('add-header "X-New" "new"', 'add-header "X-New" "newer"'): [
        ('1 2 3 a new newer', BOTH), ('1 2 3 a new newer', BOTH), ('1 2 3 a newer new', BOTH)],
    ('del-header "X-A"',): 3 * [('a', BOTH)],
    ('del-header "x-a"',): 3 * [('a', BOTH)],
    ('del-header "X-New"',): 3 * [('1 2 3 a', BOTH)],
    ('del-header "X-A"', 'del-header "Subject"'): 3 * [('', BOTH)],
    ('del-header "X-A"', 'add-header "X-A" "new"'): [('a new', BOTH), ('a new', BOTH), ('new a', BOTH)],
    ('del-header "Subject"', 'add-header "Subject" "new"'): 3 * [('1 2 3 new', BOTH)],
    ('del-header "X-A"', 'prefix-header "X-A" "new "'): 3 * [('a', BOTH)],
    ('prefix-header "X-A" "new "', 'del-header "X-A"'): 3 * [('a', BOTH)],
    ('prefix-header "X-A" "new "',): 3 * [('new 1 2 3 a', BOTH)],
    ('prefix-header "subject" "new "',): 3 * [('1 2 3 new a', BOTH)],
    ('prefix-header "X-New" "new "',): 3 * [('1 2 3 a', BOTH)],
    ('prefix-header "X-A" "new "', 'prefix-header "X-A" "[x] "'): 3 * [('[x] new 1 2 3 a', BOTH)],
    ('change-header 1 "X-A" "4"', 'prefix-header "X-A" "new "'): 3 * [('new 4 2 3 a', BOTH)],
    ('change-header 1 "X-A" ""', 'prefix-header "X-A" "new "'): 3 * [('2 3 a', BOTH)],
    ('prefix-header "X-A" "new "', 'change-header 2 "X-A" ""'): 3 * [('new 1 3 a', BOTH)],
    ('insert-header 2 "X-New" "new"',): [('1 2 new 3 a', BOTH), ('1 new 2 3 a', BOTH), ('new 1 2 3 a', BOTH)],
    ('del-rcpt "bob@example.net"',): [('1 2 3 a', BOTH), ('1 2 3 a', [EVE]), ('1 2 3 a', [EVE])],
    ('del-rcpt "<BOB@example.net>"',): [('1 2 3 a', BOTH), ('1 2 3 a', BOTH), ('1 2 3 a', BOTH)],
    ('add-rcpt "<bob@example.net>"',): [
        ('1 2 3 a', sorted(BOTH + [BOB])), ('1 2 3 a', sorted(BOTH + [BOB])), ('1 2 3 a', BOTH)],
}
# The name of the field after the edit of its value under another form of its name.
FORM = 'change-header 1 "x-a" "new"'
FORMS = ['X-A', 'x-a', 'X-A']
# Header fields as they are sent, and as both mail servers deliver them with a text before their values; and fields of a
# name that is deleted, above and below these.
VALUES = {
    'Subject: Lunch': 'Subject: new Lunch',
    'X-Folded: one\n two\n\tthree': 'X-Folded: new one\n two\n\tthree',
    'X-Blanks:  two': 'X-Blanks: new  two',
    'X-None:no blank': 'X-None: new no blank',
    'X-Empty:': 'X-Empty: new ',
    'X-Word: =?utf-8?q?caf=C3=A9?=': 'X-Word: new =?utf-8?q?caf=C3=A9?=',
    'X-Long: ' + 900 * 'x': 'X-Long: new ' + 900 * 'x'}
DELETED = ['X-Gone: one\n two', 'x-gone:', 'X-GONE:three']
# A field of a name of which each mail server adds one of its own, that no filter sees.
RECEIVED = 'Received: from a.example by b.example; Mon, 23 Nov 2026 14:00:00 +0000\r\n'


def rules_of(folder, edits):
    """A file of rules that asks for these edits."""
    lines = ['rules 2'] + ['at eob do ' + edit for edit in edits]
    return programs.written(os.path.join(folder, 'rules'), ''.join(line + '\n' for line in lines))


def in_memory(program, folder, edits):
    """What the program makes of the message: its header fields, and who it goes to."""
    lines = ['client U "mail.example.org"', 'helo "mail.example.org"', 'message', 'sender "%s"' % ADA]
    lines += ['recipient "%s"' % address for address in (BOB, EVE)]
    lines += ['header "%s" " %s"' % field for field in FIELDS] + ['end', '']
    session = programs.written(os.path.join(folder, 'session'), '\n'.join(lines))
    printed = subprocess.run([program, 'play', session, '--rules', rules_of(folder, edits)], stdout=subprocess.PIPE,
                             check=True, text=True).stdout
    return (re.findall(r'(?m)^header "(.*)" " (.*)"$', printed), sorted(re.findall(r'(?m)^recipient "(.*)"$', printed)))


def delivered_of(program, server, address, edits, header):
    """What a mail server delivers of a message with this header."""
    with peers.Service(program, address, rules_of(server.work, edits)):
        with server.connected('inet') as client:
            client.sendmail(ADA, [BOB, EVE], header + '\r\na body\r\n')
        text, = server.received(1)
    return text


def delivered(program, server, address, edits):
    """What a mail server delivers of the message with FIELDS: its header fields, and who it goes to."""
    text = delivered_of(program, server, address, edits, ''.join('%s: %s\r\n' % field for field in FIELDS))
    found = [tuple(line.split(': ')) for line in mail_server.fields(text, *NAMES)]
    return found, mail_server.envelope(text)[1]


def compare(checks, column, made):
    """Compares what is made of each row's edits with a column of the table."""
    for edits, row in TABLE.items():
        fields, recipients = made(edits)
        checks.check('%s: %s' % (COLUMNS[column], '; '.join(edits)),
                     (' '.join(value for _, value in fields), recipients), row[column])
    fields, _ = made([FORM])
    checks.check('%s: %s' % (COLUMNS[column], FORM), [name for name, value in fields if value == 'new'],
                 [FORMS[column]])


def name_of(line):
    """The name of the header field of a line, in lower case."""
    return line.split(':')[0].lower()


def compare_values(checks, program, server, address):
    """Compares what becomes of values of several forms, and of the fields that are deleted."""
    edits = ['prefix-header "%s" "new "' % line.split(':')[0] for line in VALUES] + ['del-header "X-Gone"']
    sent = DELETED + list(VALUES) + DELETED
    text = delivered_of(program, server, address, edits, ''.join(line + '\n' for line in sent).replace('\n', '\r\n'))
    lines = re.split('\n(?=[^ \t])', text.split('\n\n', 1)[0])
    found = [line for line in lines if name_of(line) in map(name_of, sent)]
    checks.check('%s: values' % server.name, found, list(VALUES.values()))


def compare_received(checks, program, server, address):
    """Compares which fields `Received` are left where all that a filter sees are deleted: the mail server's own."""
    text = delivered_of(program, server, address, ['del-header "Received"'], 2 * RECEIVED + 'Subject: a\r\n')
    hosts = ['b.example', 'mx.example.net']
    found = [host for host in hosts if re.search(r'(?m)^Received: .*\n?.*\bby ' + host, text)]
    checks.check('%s: deleted but its own' % server.name, found, ['mx.example.net'])


def play(checks, program, kind=None):
    """This program's column, or that of a kind of mail server, which is made of a folder and its filter's address."""
    with tempfile.TemporaryDirectory() as work:
        os.chmod(work, 0o755)
        if kind is None:
            compare(checks, 0, lambda edits: in_memory(program, work, edits))
            return
        address = 'inet:%d@127.0.0.1' % peers.free_port()
        with kind(work, address, address) as server:
            compare(checks, COLUMNS.index(server.name), lambda edits: delivered(program, server, address, edits))
            for part in (compare_values, compare_received):
                part(checks, program, server, address)
