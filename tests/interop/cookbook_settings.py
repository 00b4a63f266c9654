"""What docs/RULES.md says belongs to Postfix, for tests/interop.sh: its lines for main.cf, master.cf and tables are
taken out of the document, and a Postfix of its own has them. What it then replies to whom is written here, by the
document and by Postfix's manual pages (access(5), header_checks(5), postconf(5)).
"""
import os
import re
import subprocess
import tempfile

import cookbook
import logins
from lib import programs, recipes

NETWORKS, LISTS, PATTERNS = 'Networks of clients', 'The same by tables of Postfix', 'Regular expressions'
NO_MAIL, OUR_OWN, SPAM = recipes.NO_MAIL, recipes.OUR_OWN, recipes.SPAM
ANY_SENDER, TO = '<ada@example.org>', '<brook@example.net>'
# Clients of one's own network, and others.
OWN, OTHER = '192.0.2.7', '198.51.100.7'
# Postfix takes mail from anywhere for one's own domain.
DOMAIN = """\
relay_domains = example.net
smtpd_relay_restrictions = permit_mynetworks, permit_sasl_authenticated, reject_unauth_destination
smtpd_authorized_xclient_hosts = 127.0.0.0/8
"""
NO_RELAY = '554 5.7.1 <cleo@example.com>: Relay access denied'
# Lines for two more of Postfix's lists, which the document names.
FURTHER_LISTS = """\
smtpd_sender_restrictions = check_sender_access hash:/etc/postfix/senders
smtpd_helo_restrictions = check_helo_access hash:/etc/postfix/greetings
"""
# A filter that lets all mail pass.
ACCEPTS = ['at connect do accept']
# A message is refused by what a line of its header or of its body has, and not by other lines.
MESSAGES = {
    'Subject: Win the lottery\r\n\r\nNow.\r\n': SPAM, 'SUBJECT: Lottery\r\n\r\nNow.\r\n': SPAM,
    'Subject: Now\r\n\r\nSo it said:\r\nSubject: Win the lottery\r\n': SPAM,
    'Subject: Lotteryland\r\n\r\nNow.\r\n': 'taken', 'X-Subject: lottery\r\n\r\nNow.\r\n': 'taken',
    'Subject: Now\r\n\r\nWin the lottery\r\n': 'taken'}


def reply_to(client, recipient, sender=ANY_SENDER):
    """The last reply to an envelope with this recipient."""
    return cookbook.said(client, sender, [recipient])[-1]


def play_networks(checks, program):
    """Networks that no filter is asked about, and a service that has none."""
    settings, _ = recipes.passage(NETWORKS)
    table = recipes.quoted(NETWORKS, 'DISABLE')
    refused = '<noreply@example.net>'
    rules = recipes.rules()['Refuse a recipient however it is written']
    rules.append('at rcpt when %s do code "550 5.7.1 A client of 10.0.0.0"' % recipes.quoted(NETWORKS, '^address has'))
    with cookbook.running(program, DOMAIN + settings, {'milter_map': table + '\n127.0.0.3 DISABLE\n'}) as server:
        with server.asking(rules):
            for address, recipient, reply in [
                    (OWN, refused, 'taken'), (OTHER, refused, NO_MAIL), (OTHER, TO, 'taken'),
                    ('110.0.0.7', TO, '550 5.7.1 A client of 10.0.0.0'), ('110.0.1.7', TO, 'taken'),
                    (OWN, '<cleo@example.com>', 'taken'), (OTHER, '<cleo@example.com>', NO_RELAY)]:
                with server.client(address) as client:
                    checks.check('networks: %s to %s' % (address, recipient), reply_to(client, recipient), reply)
            for source, reply in [('127.0.0.3', 'taken'), ('127.0.0.4', NO_MAIL)]:
                with server.connected('inet', source=source) as client:
                    client.ehlo()
                    checks.check('networks: connected from ' + source, reply_to(client, refused), reply)
            play_service(checks, server, refused)


def play_service(checks, server, refused):
    """A service that has no filter, by the document's line below it, where all others have one."""
    with open(os.path.join(server.config, 'master.cf')) as file:
        lines = [line.strip() for line in file]
    checks.check('the line for master.cf', lines.count(recipes.quoted(NETWORKS, 'smtpd_milters=')), 1)
    for kind, reply in [('inet', NO_MAIL), ('unix', 'taken')]:
        with server.client(OTHER, kind=kind) as client:
            checks.check('a service with a filter, or with none: ' + kind, reply_to(client, refused), reply)


def rejected(what, text):
    """How Postfix refuses an address, or a greeting, by the text of a table; its reply has the address too."""
    code, status, words = text.split(' ', 2)
    return '%s %s <>: %s rejected: %s' % (code, status, what, words)


def check_refused(checks, name, reply, expected):
    """Compares a reply without the address in it."""
    checks.check(name, re.sub('<.*>', '<>', reply), expected)


def play_recipients(checks, name, client, is_own):
    """The recipients of the two lists, in each way to write an address."""
    for written in recipes.writings('noreply'):
        check_refused(checks, 'lists: %s, from %s' % (written, name), reply_to(client, written),
                      rejected('Recipient address', NO_MAIL))
    for written in recipes.writings('staff'):
        check_refused(checks, 'lists: %s, from %s' % (written, name), reply_to(client, written),
                      'taken' if is_own else rejected('Recipient address', OUR_OWN))
    checks.check('lists: %s, from %s' % (TO, name), reply_to(client, TO), 'taken')


def play_further_lists(checks, server):
    """The lists of senders and of greetings."""
    for written in recipes.writings('ceo'):
        with server.client(OTHER) as client:
            check_refused(checks, 'lists: the sender ' + written, reply_to(client, TO, written),
                          rejected('Sender address', '550 5.7.1 Log in'))
    for helo in ['mx.example.net', 'MX.Example.NET']:
        with server.client(OTHER, helo) as client:
            check_refused(checks, 'lists: the greeting ' + helo, reply_to(client, TO),
                          rejected('Helo command', '550 5.7.1 This is not your name'))
    with server.client(OTHER) as client:
        checks.check('lists: neither the sender nor the greeting', reply_to(client, TO), 'taken')


def play_lists(checks, program, kind):
    """Lists of addresses for all, and of those for one's own people, in tables of this kind, whatever a filter lets
    pass."""
    made = recipes.quoted(LISTS, '^postmap')
    tables = {'refused': recipes.quoted(LISTS, '^noreply@') + '\n', 'internal': 'staff@example.net %s\n' % OUR_OWN,
              'senders': 'ceo@example.net 550 5.7.1 Log in\n',
              'greetings': 'mx.example.net 550 5.7.1 This is not your name\n'}
    with logins.Logins() as people:
        settings = DOMAIN + people.settings() + 'mynetworks = 192.0.2.0/24\n' + FURTHER_LISTS
        settings = (settings + recipes.passage(LISTS)[0]).replace('hash:', kind)
        with cookbook.running(program, settings, tables) as server:
            for name in tables:
                words = made.replace('refused', name).replace('hash:/etc/postfix', kind + server.config).split()
                subprocess.run([words[0], '-c', server.config, *words[1:]], check=True)
            with server.asking(ACCEPTS):
                with server.client(OTHER) as other, server.client(OWN) as own, server.client(OTHER) as logged_in:
                    logged_in.login('ada', logins.PASSWORD)
                    for name, client in [('another', other), ('a client that has logged in', logged_in),
                                         ('a client of the network', own)]:
                        play_recipients(checks, name, client, client is not other)
                play_further_lists(checks, server)


def play_patterns(checks, program):
    """Regular expressions for header fields, and for lines of the body, whatever a filter lets pass."""
    line = recipes.quoted(PATTERNS, '^/')
    tables = {'header_checks': line + '\n', 'body_checks': line + '\n'}
    with cookbook.running(program, cookbook.ANYONE + recipes.passage(PATTERNS)[0], tables) as server:
        with server.asking(ACCEPTS), server.client() as client:
            for message, reply in MESSAGES.items():
                replies = cookbook.said(client, ANY_SENDER, [TO], message)
                checks.check('patterns: %r' % message, replies, ['taken', 'taken', reply])


def kinds_of_tables():
    """The kinds of tables that this Postfix has, which it says where there is a main.cf."""
    with tempfile.TemporaryDirectory() as config:
        programs.written(os.path.join(config, 'main.cf'), '')
        done = subprocess.run(['postconf', '-c', config, '-m'], check=True, stdout=subprocess.PIPE)
    return done.stdout.decode().split()


def play(checks, program):
    """All of it."""
    checks.part('networks', play_networks, program)
    has = kinds_of_tables()
    for kind in [recipes.quoted(LISTS, '^hash:$'), recipes.quoted(LISTS, '^lmdb:$')]:
        if kind[:-1] in has:
            checks.part('lists ' + kind, play_lists, program, kind)
        else:
            print('%s not run, this Postfix has no such tables' % kind)
    checks.part('patterns', play_patterns, program)
