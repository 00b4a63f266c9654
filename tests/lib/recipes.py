"""The recipes of docs/RULES.md: the lines that the document has, and the sessions of each recipe, with what becomes
of their messages by what the document says of the recipe.
"""
import collections
import os
import re

from lib import programs

DOCUMENT = os.path.join(programs.TOP, 'docs', 'RULES.md')
# The first line of a file whose conditions are of more kinds.
WIDE = 'rules 2'
# What a session has that isn't said otherwise.
USUAL = {
    'host': 'mail.example.org', 'address': '192.0.2.1', 'helo': 'mail.example.org', 'macros': [],
    'sender': '<ada@example.org>', 'recipients': ['<brook@example.net>'], 'headers': [('Subject', 'Lunch')],
    'body': r'Lunch at one?\r\n'}
# A session and what becomes of its message. `given` is what it has unlike USUAL. `verdicts` are those that aren't
# `continue`, by their stage and number; `end` is the stage and number of the one that ends the message, and None where
# all stages are gone through. `outcome` is what becomes of it, and `released` what it then has unlike the session.
Row = collections.namedtuple('Row', 'given verdicts end outcome released')


def passes(**given):
    """A session to which the recipe doesn't apply: its message is released as it is."""
    return Row(given, {}, None, 'released', {})


def edited(released, **given):
    """A session whose message is released with these parts."""
    return Row(given, {}, None, 'released', released)


def ends(stage, verdict, outcome, **given):
    """A session whose message is ended by this verdict at this stage."""
    return Row(given, {(stage, 1): verdict}, (stage, 1), outcome, {})


def refused(stage, text, **given):
    """A session whose message is refused at this stage with this text."""
    outcome = {'connect': 'refused-at-connection', 'helo': 'refused-at-connection', 'rcpt': 'no-recipients'}
    return ends(stage, 'code "%s"' % text, outcome.get(stage, 'refused "%s"' % text), **given)


def fields(*more):
    """Header fields: the usual one, and these."""
    return USUAL['headers'] + list(more)


def login(name='ada'):
    """The macro of a client that has logged in."""
    return 'mail', '{auth_authen}', name


SPAM = '550 5.7.1 Refused as spam'
INTERNAL = '550 5.7.1 This text is internal'
NO_MAIL = '550 5.1.1 This address takes no mail'
OUR_OWN = '550 5.7.2 This list is for our own people'
STAFF = {'recipients': ['<staff@example.net>'], 'macros': [('rcpt', '{rcpt_addr}', 'staff@example.net')]}
NO_REPLY = ('rcpt', '{rcpt_addr}', 'noreply@example.net')
CEO = ('mail', '{mail_addr}', 'ceo@example.net')
NO_DOMAIN = '550 5.7.1 No mail from this domain'
HELD = {'quarantine': 'looked at by a person'}
TOO_MANY = '550 5.5.3 Too many recipients'
MANY = ['<list-%d@example.net>' % number for number in range(50)]
TOO_LARGE = '552 5.3.4 Too large for this list'
# 50,000 bytes in lines.
LARGE = (48 * 'x' + r'\r\n') * 1000
# Ways to write the address `noreply@example.net`, as a session file has them.
WRITTEN = ['<noreply@example.net>', 'noreply@example.net', '<NoReply@Example.NET>', r'<\"noreply\"@example.net>',
           '<noreply@example.net.>', '<@other.example:noreply@example.net>']
YES, NO = ('X-Spam-Flag', 'YES'), ('X-Spam-Flag', 'NO')
WON = r'You won the Lottery.\r\n'
BULK = ('X-Bulk', 'yes')
EXTERNAL = ('X-External', 'yes')
BLOCKED = '550 5.7.1 Your network is blocked'
PARTNER = ('X-Partner', 'yes')
SUSPENDED = '550 5.7.1 This login is suspended'
NO_MAILBOX = '550 5.1.1 No such mailbox'

# The recipes by their titles, each with its sessions.
RECIPES = {
    'A header field is there': [
        edited({'headers': fields(('List-Unsubscribe', '<https://example.org/>'), BULK)},
               headers=fields(('List-Unsubscribe', '<https://example.org/>'))),
        edited({'headers': fields(('LIST-unsubscribe', ''), BULK)}, headers=fields(('LIST-unsubscribe', ''))),
        passes(),
        passes(headers=fields(('X-List-Unsubscribe', '<https://example.org/>')))],
    'A header field is missing': [
        refused('eoh', '550 5.7.1 A message needs a Message-ID'),
        refused('eoh', '550 5.7.1 A message needs a Message-ID', headers=[]),
        passes(headers=fields(('Message-ID', '<1@example.org>'))),
        passes(headers=fields(('message-id', '')))],
    'Either of two things': [
        refused('eoh', SPAM, headers=fields(YES)),
        refused('eoh', SPAM, headers=fields(('X-Virus', 'Eicar'))),
        refused('eoh', SPAM, headers=fields(('X-Virus', 'Eicar'), YES)),
        refused('eoh', SPAM, headers=fields(('X-Spam-Flag', 'NO'), YES)),
        refused('eoh', SPAM, headers=fields(('X-Spam-Flag', 'yes'))),
        passes(),
        passes(headers=fields(('X-Spam-Flag', 'YES?')))],
    'Either of two things, with an edit': [
        edited({'headers': fields(('List-Id', 'a list'), BULK)}, headers=fields(('List-Id', 'a list'))),
        edited({'headers': fields(('Precedence', 'bulk'), BULK)}, headers=fields(('Precedence', 'bulk'))),
        edited({'headers': fields(('Precedence', 'List'), BULK)}, headers=fields(('Precedence', 'List'))),
        edited({'headers': fields(('Precedence', 'bulk'), ('List-Id', ''), BULK)},
               headers=fields(('Precedence', 'bulk'), ('List-Id', ''))),
        passes(),
        passes(headers=fields(('Precedence', 'listless')))],
    'Mark a message': [
        edited({'headers': fields(EXTERNAL)}),
        edited({'headers': fields(EXTERNAL, EXTERNAL)}, headers=fields(EXTERNAL)),
        passes(macros=[login()]),
        edited({'headers': fields(EXTERNAL)}, address='127.0.0.10'),
        passes(address='127.0.0.1'),
        passes(address='127.0.0.1', macros=[login()])],
    'Take out a header field': [
        edited({'headers': fields()}, headers=fields(EXTERNAL)),
        edited({'headers': fields()}, headers=[('x-external', 'one')] + fields(('X-External', ''), EXTERNAL)),
        passes(),
        passes(headers=fields(('X-Internal', 'yes')))],
    'A header field that nobody forges': [
        edited({'headers': fields()}, headers=[('x-spam-flag', 'yes')] + fields(YES)),
        edited({'headers': fields(YES)}, body=WON),
        edited({'headers': fields(YES)}, headers=[NO] + fields(('X-SPAM-FLAG', 'never')), body=WON),
        passes(),
        passes(headers=fields(('X-Spam-Level', '*')))],
    'Tag the subject': [
        edited({'headers': [YES, ('Subject', '[SPAM] Lunch')]}, headers=[YES] + fields()),
        edited({'headers': [('Subject', '[SPAM] Lunch'), YES, ('Subject', 'Dinner')]},
               headers=fields(YES, ('Subject', 'Dinner'))),
        edited({'headers': [('Subject', '[SPAM] =?utf-8?q?caf=C3=A9?='), YES]},
               headers=[('Subject', '=?utf-8?q?caf=C3=A9?='), YES]),
        edited({'headers': [YES, ('Subject', '[SPAM]')]}, headers=[YES]),
        passes(),
        passes(headers=fields(NO)),
        passes(headers=[NO])],
    'Let a client pass first': [
        ends('connect', 'accept', 'released', address='192.0.2.25', headers=fields(YES)),
        ends('connect', 'accept', 'released', address='192.0.2.25'),
        refused('eoh', SPAM, headers=fields(YES)),
        refused('eoh', SPAM, address='192.0.2.250', headers=fields(YES)),
        passes()],
    'Let networks pass first': [
        ends('connect', 'accept', 'released', address='198.51.100.7', headers=fields(YES)),
        ends('connect', 'accept', 'released', address='198.51.100.255'),
        refused('eoh', SPAM, headers=fields(YES)),
        refused('eoh', SPAM, address='198.51.101.0', headers=fields(YES)),
        refused('eoh', SPAM, address='198.51.99.255', headers=fields(YES)),
        passes(address='198.51.10.7')],
    "An address for one's own people": [
        refused('rcpt', OUR_OWN, **STAFF),
        refused('rcpt', OUR_OWN, **{**STAFF, 'recipients': ['<Staff@Example.NET>']}),
        refused('rcpt', OUR_OWN, **{**STAFF, 'address': '127.0.0.10'}),
        refused('rcpt', OUR_OWN, recipients=['staff@example.net.']),
        refused('rcpt', OUR_OWN, **{**STAFF, 'recipients': ['<staff%example.net>']}),
        passes(**{**STAFF, 'macros': STAFF['macros'] + [login()]}),
        passes(**{**STAFF, 'address': '127.0.0.1'}),
        passes(),
        passes(recipients=['<staff@example.net.example>'],
               macros=[('rcpt', '{rcpt_addr}', 'staff@example.net.example')])],
    'A sender for clients that have logged in': [
        refused('mail', '550 5.7.1 Log in', sender='<ceo@example.net>', macros=[CEO]),
        refused('mail', '550 5.7.1 Log in', sender='CEO@example.net', macros=[CEO]),
        refused('mail', '550 5.7.1 Log in', sender=r'<\"ceo\"@example.net>'),
        refused('mail', '550 5.7.1 Log in', sender='<ceo%example.net>', macros=[CEO]),
        passes(sender='<ceo@example.net>', macros=[CEO, login()]),
        passes(macros=[('mail', '{mail_addr}', 'ada@example.org')]),
        passes(sender='<vice-ceo@example.net>', macros=[('mail', '{mail_addr}', 'vice-ceo@example.net')])],
    'Refuse a list of networks': [
        refused('connect', BLOCKED, address='203.0.113.255'),
        refused('connect', BLOCKED, address='198.51.100.7'),
        passes(),
        passes(address='203.0.112.255'),
        passes(address='198.51.100.70')],
    'Let listed senders pass': [
        passes(sender='<cleo@example.com>', headers=fields(YES)),
        passes(sender='Cleo@Example.COM.', headers=fields(YES)),
        passes(sender='<>', headers=fields(YES)),
        passes(),
        refused('eoh', SPAM, headers=fields(YES)),
        refused('eoh', SPAM, sender='<cleo@mail.example.com>', headers=fields(YES))],
    'Mark what partners send': [
        edited({'headers': fields(PARTNER)}, sender='<cleo@Example.com>'),
        edited({'headers': fields(PARTNER)}, sender='<cleo@mx.mail.example.com>'),
        edited({'headers': fields(PARTNER)}, sender='<ada@mail.example.org>'),
        passes(),
        passes(sender='<cleo@notexample.com>'),
        passes(sender='<>')],
    'Logins that may send no more': [
        refused('mail', SUSPENDED, macros=[login('mallory')]),
        refused('mail', SUSPENDED, macros=[login('Mallory')]),
        passes(),
        passes(macros=[login()]),
        passes(macros=[login('mallory2')])],
    'The null sender': [
        refused('rcpt', '550 5.7.1 This address sends no mail', sender='<>', recipients=['<news@example.net>']),
        refused('rcpt', '550 5.7.1 This address sends no mail', sender='<>', recipients=['News@example.net']),
        passes(sender='<>'),
        passes(recipients=['<news@example.net>'])],
    'Mail from a domain and those below it': [
        refused('mail', NO_DOMAIN),
        refused('mail', NO_DOMAIN, sender='<ada@lists.Example.COM>'),
        passes(sender='<ada@notexample.org>'),
        passes(sender='<ada@example.org.example>'),
        passes(sender='<>')],
    "Refuse one's own name as a greeting": [
        refused('helo', '550 5.7.1 This is not your name', helo='mx.example.net'),
        refused('helo', '550 5.7.1 This is not your name', helo='MX.example.net', address='127.0.0.10'),
        passes(helo='mx.example.net', address='127.0.0.1'),
        passes(),
        passes(helo='mx.example.net.example')],
    'Refuse a recipient by its whole address': [
        *[refused('rcpt', NO_MAIL, recipients=[written]) for written in WRITTEN],
        Row({'recipients': ['<noreply@example.net>', '<brook@example.net>']}, {('rcpt', 1): 'code "%s"' % NO_MAIL},
            None, 'released', {'recipients': ['<brook@example.net>']}),
        passes(),
        passes(recipients=['<donoreply@example.net>', '<noreply@example.net.example>', '<noreply@mail.example.net>'])],
    'Refuse a recipient however it is written': [
        *[refused('rcpt', NO_MAIL, recipients=[written], macros=[NO_REPLY])
          for written in WRITTEN + ['<noreply%example.net>']],
        *[refused('rcpt', NO_MAIL, recipients=[written]) for written in WRITTEN],
        passes(macros=[('rcpt', '{rcpt_addr}', 'brook@example.net')]),
        passes(recipients=['<donoreply@example.net>'], macros=[('rcpt', '{rcpt_addr}', 'donoreply@example.net')]),
        passes(recipients=['<noreply%example.net>'])],
    'Only recipients that are there': [
        refused('rcpt', NO_MAILBOX, recipients=['<cleo@example.net>']),
        refused('rcpt', NO_MAILBOX, recipients=['Cleo@Example.net']),
        Row({'recipients': ['<cleo@example.net>', '<Brook@example.net>']}, {('rcpt', 1): 'code "%s"' % NO_MAILBOX},
            None, 'released', {'recipients': ['<Brook@example.net>']}),
        passes(),
        passes(recipients=['<Postmaster@example.net>', r'<\"brook\"@example.net>']),
        passes(recipients=['<cleo@example.org>'])],
    'Refuse recipients by a pattern': [
        refused('rcpt', NO_MAIL, recipients=['<brook+test@example.net>']),
        refused('rcpt', NO_MAIL, recipients=['<Brook+Testing@Example.NET.>']),
        refused('rcpt', NO_MAIL, recipients=['tmp-1a2b@example.net']),
        passes(),
        passes(recipients=['<brook+test@example.net.example>', '<tmp-1a2@example.net>', '<x-tmp-1a2b@example.net>'])],
    'Too many recipients': [
        refused('data', TOO_MANY, recipients=MANY + ['<brook@example.net>']),
        refused('data', TOO_MANY, recipients=MANY + ['<brook@example.net>', '<cleo@example.net>']),
        passes(recipients=MANY),
        passes()],
    'A reply of several lines': [
        refused('rcpt', r'550-5.1.6 This address has moved\r\n550 5.1.6 to example.com',
                recipients=['<old@example.net>']),
        passes(),
        passes(recipients=['<bold@example.net>'])],
    'A copy for an archive': [
        edited({'recipients': ['<brook@example.net>', '<archive@example.net>']}, sender='<cleo@example.net>'),
        edited({'recipients': ['<brook@example.net>', '<archive@example.net>']}, sender='<cleo@Example.NET>'),
        passes(),
        passes(sender='<cleo@example.net.example>'),
        passes(sender='<cleo@mail.example.net>'),
        passes(sender='<>')],
    'A copy of what one of several gets': [
        edited({'recipients': ['<legal@example.net>', '<brook@example.net>', '<archive@example.net>']},
               recipients=['<legal@example.net>', '<brook@example.net>']),
        edited({'recipients': ['<brook@example.net>', '<board@example.net>', '<archive@example.net>']},
               recipients=['<brook@example.net>', '<board@example.net>']),
        passes(),
        passes(recipients=['<brook@example.net>', '<illegal@example.net>'])],
    'Hold a message': [
        edited(HELD, headers=[('Subject', 'Your invoice, at last')]),
        edited(HELD, headers=[('subject', 'INVOICE')]),
        edited(HELD, headers=[('Subject', 'Past due')]),
        passes(),
        passes(headers=[('Subject', 'In voice')]),
        passes(body=r'Your invoice.\r\n')],
    'Drop a message': [
        ends('eoh', 'discard', 'discarded', headers=fields(('X-Spam-Level', '*' * 10))),
        ends('eoh', 'discard', 'discarded', headers=fields(('X-Spam-Level', '*' * 12))),
        passes(),
        passes(headers=fields(('X-Spam-Level', '*' * 9)))],
    'A large message to a list': [
        refused('eob', TOO_LARGE, recipients=['<staff@example.net>'], body=LARGE + r'x\r\n'),
        refused('eob', TOO_LARGE, recipients=['<brook@example.net>', '<Staff@example.net>'], body=LARGE + r'x\r\n'),
        passes(recipients=['<staff@example.net>'], body=LARGE),
        passes(recipients=['<staff@example.net>']),
        passes(body=LARGE + r'x\r\n')],
    'A tag at the end of the body': [
        refused('eob', INTERNAL, body=r'The plan.\r\n[internal]\r\n'),
        refused('eob', INTERNAL, body=r'One.\r\n[internal]\r\n[internal]\r\n'),
        passes(),
        passes(body=r'The plan.\r\n[internal]\r\nEnd.\r\n'),
        passes(body=r'The plan.\r\nNot [internal]\r\n'),
        passes(body=r'The plan.\r\n[Internal]\r\n'),
        passes(body=r'[internal]\r\n')],
    'Another body': [
        edited({'body': r'The text of this message was removed.\r\n'}, headers=fields(('X-Virus', 'Eicar'))),
        passes(),
        passes(headers=fields(('X-Virus-Scanned', 'yes')))],
}


# What becomes of a message that `reject` ends at a stage: no text of its own is given to the client.
REJECTED = {'connect': 'refused-at-connection', 'helo': 'refused-at-connection', 'rcpt': 'no-recipients'}


def rejected(stage, **given):
    """A session whose message is ended by `reject` at this stage."""
    return ends(stage, 'reject', REJECTED.get(stage, 'refused "550 5.7.1 Command rejected"'), **given)


def subject(value):
    """The header fields of a message with this subject alone."""
    return [('Subject', value)]


HOLD = {'quarantine': 'HOLD'}
LEGAL = ['<legal@example.net>', '<brook@example.net>']
TO_NO_REPLY = ['<brook@example.net>', '<NoReply@example.net>']
MAILER = ('X-Mailer', 'Pigeon')
# The rules beside rows of other programs' tables, each with sessions to which it applies, and to which it doesn't.
# After one that says `continue` all else is rejected.
OF_TABLES = {
    'at rcpt when rcpt-address is "noreply@example.net" do code "550 5.1.1 No mail"': [
        refused('rcpt', '550 5.1.1 No mail', recipients=['noreply@Example.net']), passes()],
    'at rcpt when rcpt-domain under "example.org" do reject': [
        rejected('rcpt', recipients=['<cleo@example.org>']), rejected('rcpt', recipients=['<cleo@lists.example.org>']),
        passes(recipients=['<cleo@notexample.org>'])],
    'at rcpt when rcpt-domain like "*.example.org" do reject': [
        rejected('rcpt', recipients=['<cleo@lists.example.org>']), passes(recipients=['<cleo@example.org>'])],
    'at rcpt when rcpt-address begins "sales@" do code "450 4.2.1 Later"': [
        refused('rcpt', '450 4.2.1 Later', recipients=['<Sales@example.net>']),
        passes(recipients=['<presales@example.net>'])],
    'at eob when recipients-address is "legal@example.net" do quarantine "HOLD"': [
        edited(HOLD, recipients=LEGAL), passes()],
    'at mail when sender-address is "" do reject': [rejected('mail', sender='<>'), passes()],
    'at mail when sender-domain under "example.org" do discard': [
        ends('mail', 'discard', 'discarded', sender='<ada@mail.example.org>'), passes(sender='<ada@example.com>')],
    'at connect when host under "example.org" do continue': [
        passes(), passes(host='example.org'), rejected('connect', host='mail.example.com')],
    'at connect when address within "203.0.113.0/24" do reject': [
        rejected('connect', address='203.0.113.255'), passes(address='203.0.112.255')],
    'at helo when helo is any-case "localhost" do reject': [
        rejected('helo', helo='LocalHost'), passes(helo='localhost.example')],
    'at eoh when header "Subject" has any-case "lottery" do reject': [
        rejected('eoh', headers=subject('The Lottery is won')), passes(headers=subject('A lot'))],
    'at eoh when header "X-Spam-Flag" is any-case "YES" do discard': [
        ends('eoh', 'discard', 'discarded', headers=fields(('x-spam-flag', 'Yes'))),
        passes(headers=fields(('X-Spam-Flag', 'YES!')))],
    'at eob when header "Subject" begins any-case "re:" "fwd:" do quarantine "HOLD"': [
        edited(HOLD, headers=subject('Re: lunch')), edited(HOLD, headers=subject('FWD: lunch')),
        passes(headers=subject('More: lunch'))],
    'at eob do del-header "X-Mailer"': [
        edited({'headers': fields()}, headers=[MAILER] + fields(('x-mailer', 'Dove'), MAILER)), passes()],
    'at eob do prefix-header "Subject" "[list] "': [
        edited({'headers': subject('[list] Lunch')}),
        edited({'headers': subject('[list] Lunch') + fields()}, headers=fields() + fields()),
        passes(headers=[MAILER])],
    'at eob when header "X-Spam-Flag" is any-case "YES" do prefix-header "Subject" "[SPAM] "': [
        edited({'headers': subject('[SPAM] Lunch') + [YES]}, headers=fields(YES)), passes(headers=fields(NO)),
        passes(headers=[YES])],
    'at eob do del-header "X-Spam-Flag"': [
        edited({'headers': fields()}, headers=[YES] + fields(NO, YES)), passes()],
    'at eob do change-header 1 "X-Spam-Flag" ""': [
        edited({'headers': fields(NO)}, headers=[YES] + fields(NO)), passes()],
    'at eob when header "Precedence" begins any-case "bulk" do insert-header 0 "X-Bulk" "yes"': [
        edited({'headers': [BULK] + fields(('Precedence', 'Bulk'))}, headers=fields(('Precedence', 'Bulk'))),
        passes(headers=fields(('Precedence', 'no bulk')))],
    'at eob when body has any-case "unsubscribe" do reject': [
        rejected('eob', body=r'To Unsubscribe, write.\r\n'), passes()],
    'at rcpt when host under "example.org" do continue': [passes(), rejected('rcpt', host='mail.example.com')],
    'at rcpt when address is "192.0.2.25" do continue': [
        passes(address='192.0.2.25'), rejected('rcpt', address='192.0.2.250')],
    'at rcpt when address begins "192.0.2." do continue': [passes(), rejected('rcpt', address='192.0.20.1')],
    'at rcpt when address within "192.0.2.0/26" do continue': [
        passes(), passes(address='192.0.2.63'), rejected('rcpt', address='192.0.2.64')],
    'at rcpt when rcpt-address like "postmaster@*" "postmaster+*@*" do continue': [
        passes(recipients=['<Postmaster@example.net>']), passes(recipients=['<postmaster+mx@example.org>']),
        rejected('rcpt', recipients=['<postmasters@example.net>'])],
    'at rcpt when rcpt-domain under "example.net" do continue': [
        passes(), rejected('rcpt', recipients=['<brook@notexample.net>'])],
    'at mail when sender-address is "eve@example.org" do reject': [
        rejected('mail', sender='<Eve@example.org.>'), passes(sender='<steve@example.org>')],
    'at mail when sender-domain is "example.org" "example.com" do reject': [
        rejected('mail'), rejected('mail', sender='<ada@example.com>'), passes(sender='<ada@mail.example.org>')],
    'at mail when address within "203.0.113.7" "2001:db8::/32" do reject': [
        rejected('mail', address='203.0.113.7'), passes(address='203.0.113.70')],
    'at data when recipients-address is "noreply@example.net" do reject': [
        rejected('data', recipients=TO_NO_REPLY), rejected('data', recipients=TO_NO_REPLY[::-1]), passes()],
    'at mail when sender-domain is "example.org" do reject': [
        rejected('mail'), passes(sender='<ada@mail.example.org>')],
    'at mail when address within "203.0.113.0/25" do reject': [
        rejected('mail', address='203.0.113.127'), passes(address='203.0.113.128')],
    'at rcpt when rcpt-address is "noreply@example.net" do reject': [
        rejected('rcpt', recipients=['<@mx.example:noreply@example.net>']), passes()],
    'at mail when macro "{auth_authen}" lacks "" and sender-address is "ceo@example.net" do reject': [
        rejected('mail', sender='<ceo@example.net>'), passes(sender='<ceo@example.net>', macros=[login()]), passes()],
    'at connect when address in refused-clients do reject': [
        rejected('connect', address='203.0.113.255'), passes(address='203.0.112.255')],
    'at mail when sender-address in refused-senders do reject': [
        rejected('mail', sender='<Eve@example.org.>'), passes(sender='<steve@example.org>')],
    'at mail when sender-domain in refused-domains do reject': [
        rejected('mail'), rejected('mail', sender='<ada@lists.example.org>'), passes(sender='<ada@notexample.org>')],
    'at rcpt when host in known-hosts do continue': [
        passes(), passes(host='example.org'), rejected('rcpt', host='mail.notexample.org')],
    'at rcpt when address in known-networks do continue': [
        passes(address='198.51.100.25'), passes(address='192.0.2.63'), passes(address='203.0.113.255'),
        rejected('rcpt', address='192.0.2.64')],
    'at mail when address in bad-networks do reject': [
        rejected('mail', address='203.0.113.7'), passes(address='203.0.113.70')],
    'at mail when sender-address in bad-senders do reject': [
        rejected('mail', sender='<Eve@example.org>'), passes(sender='<eve@mail.example.org>')],
    'at mail when sender-domain in bad-domains do reject': [
        rejected('mail'), rejected('mail', sender='<ada@example.com>'), passes(sender='<ada@mail.example.org>')],
    'at eob when address in internal do add-header "X-Internal" "yes"': [
        edited({'headers': fields(('X-Internal', 'yes'))}),
        edited({'headers': fields(('X-Internal', 'yes'))}, address='127.0.0.1'), passes(address='127.0.0.2')],
    'at connect when host in peers do accept': [
        ends('connect', 'accept', 'released'), ends('connect', 'accept', 'released', host='MX.example.com'),
        passes(host='example.org'), passes(host='mx2.example.com')],
    'at mail when address in src do reject': [
        rejected('mail', address='203.0.113.127'), passes(address='203.0.113.128')],
    'at mail when sender-address in mail-from do reject': [
        rejected('mail', sender='<eve@Example.org>'), passes(sender='<eve@example.com>')],
}
# The files of the lists in these rules, by their names.
FILES_OF_TABLES = {
    'refused-clients': ['203.0.113.0/24'],
    'refused-senders': ['eve@example.org'],
    'refused-domains': ['example.org', '.example.org'],
    'known-hosts': ['example.org', '.example.org'],
    'known-networks': ['198.51.100.25', '192.0.2.0/26', '203.0.113.0/24'],
    'bad-networks': ['203.0.113.7', '2001:db8::/32'],
    'bad-senders': ['eve@example.org'],
    'bad-domains': ['example.org', 'example.com'],
    'internal': ['127.0.0.1', '192.0.2.0/24'],
    'peers': ['.example.org', 'mx.example.com'],
    'src': ['203.0.113.0/25'],
    'mail-from': ['eve@example.org'],
}


def text():
    """The text of the document."""
    with open(DOCUMENT, encoding='utf-8') as file:
        return file.read()


def blocks():
    """The lines of the document's recipes: of each line the title of its recipe, the name of the file of a list that it
    belongs to, or None where that is the rule file, and the line. The file of a list comes after a line that says so."""
    title, file = None, None
    for line in text().splitlines():
        heading, names_file = re.match('(#+) (.*)', line), re.match('`([a-z-]+)` has an? .* a line', line)
        if heading:
            title, file = heading[2] if heading[1] == '###' else None, None
        elif names_file:
            file = names_file[1]
        elif title and line.startswith('    '):
            yield title, file, line.strip()


def rules():
    """The rules of the document's recipes: the lines of each by its title."""
    found = collections.defaultdict(list)
    for title, file, line in blocks():
        if file is None:
            found[title].append(line)
    return dict(found)


def files():
    """The files of lists: the lines of each by its name. Those of recipes are in the document."""
    found = collections.defaultdict(list, FILES_OF_TABLES)
    for _, file, line in blocks():
        if file is not None:
            found[file].append(line)
    return dict(found)


def write_files(folder, lines_of=None):
    """Writes the files of lists into the folder of a rule file."""
    for name, lines in (lines_of or files()).items():
        programs.written(os.path.join(folder, name), ''.join(line + '\n' for line in lines))


def in_tables():
    """The rules beside rows of other programs' tables."""
    return re.findall(r'(?m)^\| .* \| `(at .*)` \|$', text())


def lists_in(lines):
    """The lines of the lists that these rules refer to, as the document has them."""
    found = dict((line.split()[1], line) for line in re.findall(r'list [a-z-]+ [a-z]+ "[a-z-]+"', text()))
    return [found[name] for line in lines for name in re.findall(r' in ([a-z-]+)', re.sub('".*?"', '', line))]


def as_file(lines):
    """The lines as those of one file, in which `rules 2` stands once, as the first line, and behind it the lines of
    lists."""
    others = [line for line in lines if line != WIDE]
    lists = [line for line in others if line.startswith('list ')]
    rest = [line for line in others if not line.startswith('list ')]
    return [WIDE] * (len(others) < len(lines)) + list(dict.fromkeys(lists)) + rest


def passage(lead):
    """Of the passage whose first words in bold begin so: its lines of settings, and what its sentences have in
    backticks."""
    whole = text()
    start = whole.index('**' + lead)
    end = re.compile(r'^(- )?\*\*|^#', re.M).search(whole, start + 2).start()
    lines = whole[start:end].splitlines()
    settings = ''.join(line[4:] + '\n' for line in lines if line.startswith('    '))
    sentences = ' '.join(line.strip() for line in lines if not line.startswith('    '))
    return settings, re.findall('`([^`]+)`', sentences)


def quoted(lead, pattern):
    """The one text in backticks of a passage that has this pattern."""
    (found,) = [each for each in passage(lead)[1] if re.search(pattern, each)]
    return found


def writings(name):
    """The ways to write the address of this name at one's own domain, as the document has them for `brook`."""
    whole = text()
    start = whole.index('Postfix 3.7 takes')
    found = re.findall('`([^`]+)`', whole[start:whole.index(' for `<brook@example.net>`', start)])
    return [each.replace('brook', name).replace('Brook', name.capitalize()) for each in found + ['<brook@example.net>']]
