"""Lists of each kind behind a mail server of its own, for tests/interop.sh: `milter_tool serve` has one rule file with
all of them, and a client is refused by what they have, and by nothing else. A list that changes holds for the
connections that come then, and those that are open keep the one that they began with.

What a list of a kind has is written here, by docs/RULES.md.
"""
import os
import re
import tempfile

import cookbook
import mail_server
import peers
from lib import programs
from mail_server import MESSAGE

RULES = """\
rules 2
list networks networks "networks"
list senders addresses "senders"
list domains domains "domains"
list names texts "names"
list mailboxes addresses "mailboxes"
at mail when address in networks do code "550 5.7.1 This network is listed"
at mail when helo in names do code "550 5.7.1 This name is listed"
at mail when sender-address in senders do code "550 5.7.1 This sender is listed"
at mail when sender-domain in domains do code "550 5.7.1 This domain is listed"
at rcpt when not rcpt-address in mailboxes do code "550 5.1.1 No such mailbox"
"""
FILES = {
    'networks': '# On the loopback.\n127.0.0.8/29\n\n127.0.0.3\n2001:db8::/32\n',
    'senders': '  Eve@Example.ORG\n<>\n',
    'domains': 'example.com\n.example.edu\n',
    'names': 'Spam.example.org\n[192.0.2.7]\n',
    'mailboxes': 'bob@example.net\n"carl"@example.net\r\n'}
NETWORK, NAME, SENDER, DOMAIN = [
    '550 5.7.1 This %s is listed' % word for word in ('network', 'name', 'sender', 'domain')]
NO_MAILBOX = '550 5.1.1 No such mailbox'
ADA, BOB, HELO = '<ada@example.org>', '<bob@example.net>', 'mail.example.org'
# What is replied to a sender, by the address that its client connects from, the client's name, and the sender.
ADDRESSES = {
    '127.0.0.1': 'taken', '127.0.0.3': NETWORK, '127.0.0.4': 'taken', '127.0.0.7': 'taken', '127.0.0.8': NETWORK,
    '127.0.0.15': NETWORK, '127.0.0.16': 'taken'}
NAMES = {
    'spam.example.org': NAME, 'SPAM.Example.org': NAME, '[192.0.2.7]': NAME, 'spam.example.org.example': 'taken',
    'mx.spam.example.org': 'taken', '[192.0.2.70]': 'taken'}
SENDERS = {
    '<eve@example.org>': SENDER, 'EVE@example.org': SENDER, '<"eve"@example.org>': SENDER, '<>': SENDER,
    '<steve@example.org>': 'taken', '<eve@mail.example.org>': 'taken', '<eve+1@example.org>': 'taken',
    '<ada@example.com>': DOMAIN, '<ada@Example.COM>': DOMAIN, '<ada@mail.example.com>': 'taken',
    '<ada@mail.example.edu>': DOMAIN, '<ada@a.b.example.edu>': DOMAIN, '<ada@example.edu>': 'taken',
    '<ada@notexample.com>': 'taken', '<ada@example.com.example>': 'taken'}
# What is replied to a recipient.
RECIPIENTS = {
    BOB: 'taken', '<Bob@Example.NET>': 'taken', '<"bob"@example.net>': 'taken', '<carl@example.net>': 'taken',
    '<eve@example.net>': NO_MAILBOX, '<bob@mail.example.net>': NO_MAILBOX, '<bobby@example.net>': NO_MAILBOX}
SECOND = {'senders': 'ada@example.org\n'}


def put(folder, files):
    """Puts the files of lists into a folder, each by a rename."""
    for name, text in files.items():
        path = os.path.join(folder, name)
        os.replace(programs.written(path + '.new', text), path)


def said(client, sender, recipients=()):
    """The replies to a sender and to recipients, without the address that Sendmail's have."""
    return [re.sub(r'\S+[.]{3} ', '', reply) for reply in cookbook.said(client, sender, recipients)]


def replies_to(server, kind, senders, **how):
    """The reply to each of these senders, on one connection."""
    with server.connected(kind, **how) as client:
        client.ehlo()
        return {sender: said(client, sender)[0] for sender in senders}


def play_lists(checks, server, kind):
    """Each client, each sender and each recipient."""
    name = '%s, %s: listed ' % (server.name, kind)
    checks.check(name + 'networks', {each: replies_to(server, kind, [ADA], source=each)[ADA] for each in ADDRESSES},
                 ADDRESSES)
    checks.check(name + 'names', {each: replies_to(server, kind, [ADA], greeting=each)[ADA] for each in NAMES}, NAMES)
    checks.check(name + 'senders', replies_to(server, kind, SENDERS), SENDERS)
    with server.connected(kind) as client:
        client.ehlo()
        found = said(client, ADA, RECIPIENTS)
        checks.check(name + 'recipients', dict(zip(RECIPIENTS, found[1:])), RECIPIENTS)
        found = mail_server.reply(client.sendmail, ADA, [BOB, '<eve@example.net>'], MESSAGE)
    checks.check(name + 'recipients, and others: delivered',
                 (found, [mail_server.envelope(text)[1] for text in server.received(1)]), ('taken', [[BOB]]))


def play_changes(checks, server, kind):
    """A list that changes while a connection is open."""
    name = '%s, %s: a list that changed' % (server.name, kind)
    with server.connected(kind) as client:
        client.ehlo()
        put(server.work, SECOND)
        checks.check(name + ', before', said(client, ADA), ['taken'])
    senders = {ADA: SENDER, '<eve@example.org>': 'taken'}
    checks.check(name, replies_to(server, kind, senders), senders)
    put(server.work, FILES)
    senders = {ADA: 'taken', '<eve@example.org>': SENDER}
    checks.check(name + ', back', replies_to(server, kind, senders), senders)


def play(checks, program, new_server):
    """Starts a mail server and two services, and plays all of it."""
    with tempfile.TemporaryDirectory() as work:
        os.chmod(work, 0o755)
        inet, unix = 'inet:%d@127.0.0.1' % peers.free_port(), 'unix:' + os.path.join(work, 'filter')
        put(work, FILES)
        rules = programs.written(os.path.join(work, 'rules'), RULES)
        with peers.Service(program, inet, rules), peers.Service(program, unix, rules):
            with new_server(work, inet, unix) as server:
                for kind in server.ports:
                    for part in (play_lists, play_changes):
                        part(checks, server, kind)
