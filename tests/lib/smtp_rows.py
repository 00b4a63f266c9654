"""What is said to examples/python/mail_server.py, and rules of its filters, with what becomes of the mail."""
from lib.smtp import DEFAULTS, MOVED, RECIPIENTS, REFUSES_ONE, REJECTED, TEXT, filed

TOO_MANY = 101
EHLO = '250-mx.example.org 250-PIPELINING 250-SIZE 250'
BEGUN = b'MAIL FROM:<ada@example.org>\r\nRCPT TO:<brook@example.net>\r\n'
STARTED = BEGUN + b'DATA\r\n'
MAIL, TAKEN = STARTED + TEXT + b'.\r\n', '250 250 354 250'
# Lines that are written at once, the first words of the replies after those to the greetings, and the texts of the
# mails.
DIALOGUES = [
    ('a mail, and what follows it', MAIL + b'NOOP\r\nQUIT\r\n', TAKEN + ' 250 221', [TEXT]),
    ('two mails', MAIL * 2, TAKEN + ' ' + TAKEN, [TEXT] * 2),
    ('dot stuffing', STARTED + b'A: b\r\n\r\n..\r\n...x\r\n.y\r\n.\r\n', TAKEN, [b'A: b\r\n\r\n.\r\n..x\r\ny\r\n']),
    ('no header', STARTED + b'no field\r\nA: b\r\n.\r\n', TAKEN, [b'\r\nno field\r\nA: b\r\n']),
    ('no text', STARTED + b'.\r\n', TAKEN, [b'\r\n']),
    ('a header alone', STARTED + b'A:b\r\n.\r\n', TAKEN, [b'A:b\r\n\r\n']),
    ('letters of either case, and blanks', b'mail from: <ada@example.org> size=9\r\nrcpt to: <brook@example.net>\r\n'
     b'data\r\n' + TEXT + b'.\r\n', TAKEN, [TEXT]),
    ('lines that end with LF', STARTED.replace(b'\r', b'') + TEXT + b'.\r\n', TAKEN, [TEXT]),
    ('RSET', BEGUN + b'RSET\r\nDATA\r\n' + MAIL, '250 250 250 503 ' + TAKEN, [TEXT]),
    ('a greeting within a message', BEGUN + b'HELO again\r\nDATA\r\n' + MAIL, '250 250 250 503 ' + TAKEN, [TEXT]),
    ('a wrong order', b'DATA\r\nRCPT TO:<b@c>\r\nMAIL FROM:<a@b>\r\nMAIL FROM:<a@b>\r\nDATA\r\nDATA now\r\n',
     '503 503 250 503 503 503', []),
    ('a wrong order, with a recipient', BEGUN + b'MAIL FROM:<a@b>\r\nDATA now\r\n', '250 250 503 501', []),
    ('wrong senders', b'MAIL\r\nMAIL FROM:a@b\r\nMAIL FROM:<a@b>x\r\nMAIL FROM:<a@b\r\nMAIL FROM:<>\r\n',
     '501 501 501 501 250', []),
    ('wrong recipients', b'MAIL FROM:<>\r\nRCPT TO:<>\r\nRCPT <b@c>\r\nRCPT TO:<b@c> A=B\r\n', '250 501 501 250', []),
    ('wrong commands', b'EHLO\r\n\r\nFROB\r\nVRFY ada\r\nNOOP\0\r\n', '501 500 500 502 500', []),
    ('a command that is too long', b'NOOP ' + b'x' * 70000 + b'\r\nNOOP\r\n', '500 250', []),
    ('a command that is as long as can be', b'NOOP %s\r\nNOOP %s\r\n' % (b'x' * 2041, b'x' * 2042), '250 500', []),
    ('a line of text that is too long', STARTED + b'x' * 999 + b'\r\n.\r\nNOOP\r\n', '250 250 354 500 250', []),
    ('a line of text that is as long as can be', STARTED + b'\r\n' + b'x' * 998 + b'\r\n.\r\n', TAKEN,
     [b'\r\n' + b'x' * 998 + b'\r\n']),
    ('an end with LF alone', STARTED + TEXT + b'.\n\r\n.\r\nNOOP\r\n', '250 250 354 500 250', []),
    ('a mail within a text, after LF alone', STARTED + TEXT + b'x\n.\r\n' + MAIL + b'NOOP\r\n',
     '250 250 354 500 250', []),
    ('the same, after a line that is too long', STARTED + b'x' * 1000 + b'\n.\r\n' + MAIL + b'NOOP\r\n',
     '250 250 354 500 250', []),
    ('the same, after a line of many reads', STARTED + b'x' * 70000 + b'\n.\r\n' + MAIL + b'NOOP\r\n',
     '250 250 354 500 250', []),
    ('a line of text of many reads', STARTED + b'x' * 70000 + b'\r\n.\r\nNOOP\r\n', '250 250 354 500 250', []),
    ('recipients that are too many', BEGUN + b'RCPT TO:<c@d>\r\n' * (TOO_MANY - 1), '250 ' * 101 + '452', []),
    ('a size that is declared', b'MAIL FROM:<a@b> SIZE=10485761\r\nMAIL FROM:<a@b> BODY=8BITMIME SIZE=10485760\r\n',
     '552 250', []),
    ('a size that is no number', b'MAIL FROM:<a@b> SIZE=many\r\n', '552', []),
    ('a text that is too long', STARTED + (b'x' * 78 + b'\r\n') * 131073 + b'.\r\nNOOP\r\n',
     '250 250 354 552 250', []),
    ('a header with a NUL', STARTED + b'A: \0\r\n.\r\nNOOP\r\n', '250 250 354 554 250', []),
    ('an end within a text', STARTED + TEXT, '250 250 354 421', []),
    ('an end within a command', b'NOOP\r\nNOO', '250', [])]

EDITS = '''at eob do add-header "X-Added" "yes"
at eob do change-header 1 "Subject" "Dinner"
at eob do replace-body "At eight\\r\\n"
at eob do add-rcpt "<eve@example.net>"
at eob do del-rcpt "<brook@example.net>"
at eob do change-from "<changed@example.org>"
'''
EDITED = b'Subject: Dinner\r\nX-Note: one\r\n\ttwo\r\nX-Added: yes\r\n\r\nAt eight\r\n'
ADDS = 'at eob do add-header "X-Added" "yes"\n'
ADDED = TEXT.replace(b'\r\n\r\n', b'\r\nX-Added: yes\r\n\r\n')
HELD = 'at eob do quarantine "looked at by a person"\n'
KNOWS_ALL = '''at rcpt when macro "{rcpt_addr}" is "dora@example.net" and macro "j" is "mx.example.org" and macro \
"{mail_addr}" is "ada@example.org" and host is "[127.0.0.1]" and address is "127.0.0.1" and helo is \
"client.example.org" do code "550 5.1.1 Moved"
'''
# Rules, the replies to the recipients that aren't 250 and to the text, and the files of the Maildir and of quarantine.
ROWS = [
    ('one recipient of three', REFUSES_ONE, {1: MOVED}, None, [filed(recipients=RECIPIENTS[::2])], []),
    ('all recipients', 'at rcpt do tempfail\n', dict.fromkeys(range(3), DEFAULTS['tempfail']),
     (503, b'5.5.1 No valid recipients'), [], []),
    ('a header field', 'at header when header "Subject" is "Lunch" do reject\n', {}, REJECTED, [], []),
    ('the end', 'at eob do code "554 5.7.1 No"\n', {}, (554, b'5.7.1 No'), [], []),
    ('an added field', ADDS, {}, None, [filed(ADDED)], []),
    ('another body', 'at eob do replace-body "new\\r\\n.\\r\\n"\n', {}, None,
     [filed(TEXT.replace(b'Lunch at one?', b'new\r\n.'))], []),
    ('all edits', EDITS, {}, None, [filed(EDITED, RECIPIENTS[1:] + ['eve@example.net'], 'changed@example.org')], []),
    ('no recipient left', ''.join('at eob do del-rcpt "<%s>"\n' % name for name in RECIPIENTS), {}, None, [], []),
    ('quarantine', HELD, {}, None, [], [filed(quarantine='looked at by a person')]),
    ('edits, and accept', ADDS + 'at eob do accept\n', {}, None, [filed(ADDED)], []),
    ('edits, and reject', ADDS + 'at eob do reject\n', {}, REJECTED, [], []),
    ('accept at the body', 'at body do accept\n' + ADDS, {}, None, [filed()], []),
    ('accept at the sender', 'at mail do accept\nat eob do reject\n', {}, None, [filed()], []),
    ('accept of the client', 'at connect do accept\nat mail do reject\n', {}, None, [filed()], []),
    ('skip', 'protocol SKIP\nat body do skip\n', {}, None, [filed()], []),
    ('client, greeting and macros', KNOWS_ALL, {2: MOVED}, None, [filed(recipients=RECIPIENTS[:2])], [])]
ROWS += [('discard at ' + stage, 'at %s do discard\n' % stage, {}, None, [], [])
         for stage in ['mail', 'rcpt', 'data', 'header', 'eoh', 'body', 'eob']]
