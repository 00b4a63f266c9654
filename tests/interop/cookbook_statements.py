"""What docs/RULES.md says that Postfix does with the rules of a filter, for tests/interop.sh: how it sends
addresses, macros and header fields, which replies it passes on, and what its own `sendmail` submits. What is expected
is what the document says; texts that it has in backticks are taken out of it.
"""
import os
import subprocess
import time

import cookbook
import logins
import mail_server
import peers
from cookbook import said
from lib import recipes

ELSEWHERE = '192.0.2.1'
SENDER, TO, NO_REPLY = '<ada@example.org>', '<brook@example.net>', '<noreply@example.net>'
NO_MAIL, OUR_OWN = recipes.NO_MAIL, recipes.OUR_OWN
WHOLE, HOWEVER = 'Refuse a recipient by its whole address', 'Refuse a recipient however it is written'
LOGGED_IN, PEOPLE = 'A sender for clients that have logged in', "An address for one's own people"
NO_RECIPIENT = 'Postfix refuses no recipient'
LOG_IN = '550 5.7.1 Log in'
FORMS = """\
Subject: =?utf-8?q?caf=C3=A9?=\r
X-Folded: one\r
 two\r
X-Blanks:  two\r
X-None:no blank\r
Content-Transfer-Encoding: quoted-printable\r
\r
caf=C3=A9\r
"""
# What a filter finds in this message, and what it doesn't.
FOUND = [r'header "Subject" is "=?utf-8?q?caf=C3=A9?="', r'header "X-Folded" is "one\n two"',
         r'header "X-Blanks" is " two"', r'header "X-None" is "no blank"', r'body has "caf=C3=A9\r\n"']
NOT_FOUND = [r'header "Subject" has "caf\xc3\xa9"', r'header "X-Folded" has "\r"', r'body has "caf\xc3\xa9"',
             r'header "X-Folded" is "one two"']
# What a filter finds of a message that Postfix's own `sendmail` submits with an empty sender, for Brook@Example.NET.
SUBMITTED = ['sender is ""', 'rcpt is "Brook@Example.NET"', 'macro "{rcpt_addr}" is "Brook@Example.NET"',
             'host is "localhost"', 'address is "127.0.0.1"', 'helo is "localhost"', 'macro "{auth_authen}" lacks ""']


def code(text):
    """A verdict with this reply."""
    return 'code "%s"' % text


def in_rule(text):
    """A text as a rule has it."""
    return text.replace('"', '\\"')


def marks(conditions):
    """Rules that add a field with the number of each condition that holds."""
    return ['at eob when %s do add-header "X-Holds" "%d"' % (condition, number)
            for number, condition in enumerate(conditions)]


def marked(text):
    """The numbers that such rules added to a message."""
    return [int(line.split(': ')[1]) for line in mail_server.fields(text, 'X-Holds')]


def play_writings(checks, server):
    """The ways to write an address: what was written, what Postfix reads, and where it delivers to."""
    ways = recipes.writings('brook')
    checks.check('the ways to write an address', len(ways), 7)
    rules = ['at %s when %s is "%s" and macro "%s" is "brook@example.net" do code "550 5.7.1 Read"' % (
        stage, field, in_rule(way), macro)
        for way in ways for stage, field, macro in (('mail', 'sender', '{mail_addr}'), ('rcpt', 'rcpt', '{rcpt_addr}'))]
    with server.asking(rules), server.client() as client, server.client(kind='unix') as unasked:
        for way in ways:
            checks.check('%s as a sender' % way, said(client, way, [TO]), ['550 5.7.1 Read'])
            checks.check('%s as a recipient' % way, said(client, SENDER, [way]), ['taken', '550 5.7.1 Read'])
            said(unasked, way, [way], 'Subject: Lunch\r\n\r\nAt one.\r\n')
            found = [mail_server.envelope(text) for text in server.arrived()]
            checks.check('%s, delivered' % way, [(sender.split()[0].lower(), [each.lower() for each in recipients])
                                                 for sender, recipients in found], [(TO, [TO])])


def play_recipes_written(checks, server):
    """The recipes for one address, and the ways to write it: those that compare the macro too hold for all, and the one
    that compares the address alone for all but that with a percent sign."""
    of_recipe = recipes.rules()
    for title, name, text in [(HOWEVER, 'noreply', NO_MAIL), (WHOLE, 'noreply', NO_MAIL), (PEOPLE, 'staff', OUR_OWN)]:
        with server.asking(of_recipe[title]), server.client() as client:
            for way in recipes.writings(name):
                reply = 'taken' if title == WHOLE and '%' in way else text
                checks.check('%s: %s' % (title, way), said(client, SENDER, [way]), ['taken', reply])
    with server.asking(of_recipe[LOGGED_IN]), server.client() as client:
        for way in recipes.writings('ceo'):
            checks.check('%s: %s' % (LOGGED_IN, way), said(client, way, [TO]), [LOG_IN])
    with server.asking(['at rcpt when rcpt has "noreply@example.net" do ' + code(NO_MAIL)]), server.client() as client:
        others = ['<donoreply@example.net>', '<noreply@example.net.example>']
        checks.check('has, in place of is', said(client, SENDER, others), ['taken', NO_MAIL, NO_MAIL])


def play_symbols(checks, server):
    """Lists of macros, with the one that a rule compares and without it."""
    for title, stage, macro, sender, recipient, replies in [
            (HOWEVER, 'rcpt', '{rcpt_addr}', SENDER, '<noreply%example.net>', ['taken', NO_MAIL]),
            (LOGGED_IN, 'mail', '{mail_addr}', '<ceo%example.net>', TO, [LOG_IN])]:
        for names, expected in [(macro, replies), ('{client_addr}', ['taken', 'taken'])]:
            rules = ['symbols %s "%s"' % (stage, names)] + recipes.rules()[title]
            with server.asking(rules), server.client() as client:
                checks.check('symbols %s with %s' % (stage, names), said(client, sender, [recipient]), expected)


def play_login(checks, server):
    """The name of a login, which Postfix sends from the sender on."""
    rules = ['at helo when macro "{auth_authen}" has "" do code "550 5.7.1 At helo"',
             'at mail when macro "{auth_authen}" is "ada" do code "550 5.7.1 At mail"']
    with server.asking(rules), server.client() as client:
        checks.check('no login', said(client, SENDER, [TO]), ['taken', 'taken'])
        client.login('ada', logins.PASSWORD)
        client.ehlo('mail.example.org')
        checks.check('a login', said(client, SENDER, [TO]), ['550 5.7.1 At mail'])
    with server.asking(recipes.rules()[LOGGED_IN] + recipes.rules()[PEOPLE]), server.client() as client:
        client.login('ada', logins.PASSWORD)
        found = said(client, '<ceo@example.net>', ['<staff@example.net>'])
        checks.check('the recipes for clients that have logged in', found, ['taken', 'taken'])


def play_values(checks, server):
    """The values of header fields, and the body, as a filter has them."""
    with server.asking(marks(FOUND + NOT_FOUND)), server.client() as client:
        said(client, SENDER, [TO], FORMS)
        checks.check('values', [marked(text) for text in server.arrived()], [list(range(len(FOUND)))])


def play_malformed(checks, server):
    """Replies that Postfix takes for malformed; on another connection it asks again."""
    problem = recipes.quoted('A reply has', '^451')
    for verdict in [recipes.quoted('A reply has', '^code'), code('550')]:
        with server.asking(['at rcpt when rcpt is "%s" do %s' % (NO_REPLY, verdict)]):
            with server.client() as client:
                checks.check('malformed: ' + verdict, said(client, SENDER, [TO, NO_REPLY, TO]),
                             ['taken', 'taken', problem, problem])
                checks.check('malformed: %s, and then' % verdict, said(client, SENDER, [TO]), [problem])
            with server.client() as client:
                checks.check('malformed: %s, another connection' % verdict, said(client, SENDER, [TO]),
                             ['taken', 'taken'])


def play_replies(checks, server):
    """Percent signs, and a reply whose second line has no code."""
    twice = recipes.quoted('A percent', '^code')
    text = twice[len('code "'):-1]
    for verdict, reply in [(twice, text.replace('%%', '%')), (twice.replace('%%', '%'), text.replace('%%', ''))]:
        with server.asking(['at rcpt do ' + verdict]), server.client() as client:
            checks.check('percent signs: ' + verdict, said(client, SENDER, [TO]), ['taken', reply])
    with server.asking([r'at rcpt do code "550-5.1.6 This address has moved\r\nto example.com"']):
        client = server.client()
        client.docmd('MAIL FROM:' + SENDER)
        client.putcmd('RCPT TO:' + TO)
        checks.check('a second line without a code', [client.file.readline() for _ in range(2)],
                     [b'550-5.1.6 This address has moved\r\n', b'to example.com\r\n'])
        client.close()


def play_accepts(checks, server):
    """For how much mail `accept` holds: at connect and at helo for the connection, and else for the message."""
    spam = 'X-Spam-Flag: YES\r\n\r\nWin.\r\n'
    first, *others = recipes.rules()['Let a client pass first']
    for rule in [first, 'at helo when helo is "mail.example.org" do accept']:
        with server.asking([rule] + others), server.client('192.0.2.25') as client:
            for _ in range(2):
                checks.check(rule, said(client, SENDER, [TO], spam), ['taken', 'taken', 'taken'])
    rules = ['at mail when sender is "<first@example.org>" do accept',
             'at rcpt when rcpt is "<first@example.net>" do accept'] + recipes.rules()[WHOLE]
    with server.asking(rules), server.client() as client:
        for stage, sender, recipients in [('mail', '<first@example.org>', []),
                                          ('rcpt', SENDER, ['<first@example.net>'])]:
            checks.check('accept at ' + stage, said(client, sender, recipients + [NO_REPLY]),
                         ['taken'] * (len(recipients) + 2))
            checks.check('accept at %s, and then' % stage, said(client, SENDER, [NO_REPLY]), ['taken', NO_MAIL])
    server.arrived()


def play_fields_taken(checks, server):
    """Fields that are taken out: the first one, all of them, and those that a client has forged above a rule that adds
    one."""
    taken, marked_by = recipes.rules()['Take out a header field'], recipes.rules()['Mark a message']
    first = ['at eob do change-header 1 "X-External" ""']
    forged = 'X-External: one\r\nSubject: Lunch\r\nx-external: two\r\n\r\nAt one.\r\n'
    for rules, login, expected in [(first, None, ['x-external: two']), (taken, None, []),
                                   (taken + marked_by, None, ['X-External: yes']), (taken + marked_by, 'ada', [])]:
        with server.asking(rules), server.client(login=login) as client:
            said(client, SENDER, [TO], forged)
            found = [mail_server.fields(text, 'X-External', 'x-external') for text in server.arrived()]
            checks.check('fields that are taken out: %s, %s' % (rules, login), found, [expected])


def play_own_host(checks, server):
    """A message of Postfix's own host, to which it adds fields that are missing before it asks, and one of another."""
    rule, = recipes.rules()['A header field is missing']
    for name in ['Message-ID', 'Date', 'From']:
        with server.asking([rule.replace('header "Message-ID"', 'header "%s"' % name)]):
            for address, reply in [('127.0.0.1', 'taken'), (ELSEWHERE, '550 5.7.1 A message needs a Message-ID')]:
                with server.client(address) as client:
                    replies = said(client, SENDER, [TO], 'Subject: Lunch\r\n\r\nAt one.\r\n')
                    checks.check('no %s, from %s' % (name, address), replies, ['taken', 'taken', reply])
    server.arrived()


def play_submitted(checks, server):
    """What Postfix's own `sendmail` submits: addresses without brackets, and no login."""
    message, of_recipe = 'Subject: Lunch\n\nAt one.\n', recipes.rules()
    with server.asking(marks(SUBMITTED)):
        server.submit('<>', 'Brook@Example.NET', message)
        checks.check('submitted', [marked(text) for text in server.arrived()], [list(range(len(SUBMITTED)))])
    for rules, text in [(of_recipe[LOGGED_IN], 'Log in'), (['at eoh do code "550 5.7.1 Not eoh"'], 'Not eoh'),
                        (['at eob do code "550 5.7.1 Not eob"'], 'Not eob')]:
        with server.asking(rules):
            server.submit('ceo@example.net', 'brook@example.net', message)
            # Who submitted it gets a notice.
            found = [(mail_server.envelope(each)[1], 'Diagnostic-Code: X-Postfix; ' + text in each)
                     for each in server.arrived()]
            checks.check('submitted, and refused: ' + text, found, [(['<ceo@example.net>'], True)])
    for rules, recipient in [(of_recipe[PEOPLE], 'staff@example.net'),
                             ([recipes.quoted(NO_RECIPIENT, '^at rcpt')] + of_recipe[WHOLE], 'noreply@example.net')]:
        with server.asking(rules):
            server.submit('ada@example.org', recipient, message)
            found = [mail_server.envelope(text)[1] for text in server.arrived()]
            checks.check('submitted, which continues at rcpt, to ' + recipient, found, [['<%s>' % recipient]])


def play_recipient_submitted(checks, server):
    """A recipient of submitted mail is refused: Postfix keeps the message, and asks again."""
    warning = recipes.quoted(NO_RECIPIENT, '^can.t reject')
    kept = os.path.join(server.work, 'queue', 'maildrop')
    with server.asking(recipes.rules()[WHOLE]):
        server.submit('ada@example.org', 'noreply@example.net', 'Subject: Lunch\n\nAt one.\n')
        count = 0
        for _ in range(10 * peers.SECONDS):
            with open(os.path.join(server.work, 'log')) as file:
                count = file.read().count(warning)
            if count > 1:
                break
            time.sleep(0.1)
        checks.check('submitted, and refused at rcpt', (count > 1, len(os.listdir(kept))), (True, 1))
        subprocess.run(['postsuper', '-c', server.config, '-d', 'ALL', 'maildrop'], check=True,
                       stderr=subprocess.DEVNULL)
        checks.check('submitted, and refused at rcpt: delivered', server.arrived(), [])


def play_hold(checks, server):
    """Messages on hold: one is released, and one is deleted."""
    with server.asking(recipes.rules()['Hold a message']), server.client() as client:
        for option, count in [('-H', 1), ('-d', 0)]:
            said(client, SENDER, [TO], 'Subject: Your invoice\r\n\r\nPay.\r\n')
            held = [each for _, _, files in os.walk(os.path.join(server.work, 'queue', 'hold')) for each in files]
            for each in held:
                subprocess.run(['postsuper', '-c', server.config, option, each], check=True, stderr=subprocess.DEVNULL)
            subprocess.run(['postqueue', '-c', server.config, '-f'], check=True)
            checks.check('on hold, postsuper ' + option, (len(held), len(server.arrived()), server.held()),
                         (1, count, 0))


PARTS = [play_writings, play_recipes_written, play_symbols, play_login, play_values, play_malformed, play_replies,
         play_accepts, play_fields_taken, play_own_host, play_submitted, play_recipient_submitted, play_hold]


def play(checks, program):
    """All of it."""
    with logins.Logins() as people, cookbook.running(program, cookbook.ANYONE + people.settings()) as server:
        for part in PARTS:
            checks.part(part.__name__, part, server)
