"""The recipes of docs/RULES.md over SMTP, for tests/interop.sh: a Postfix of its own that asks `milter_tool serve`
with the rules of each recipe, and the sessions of tests/lib/recipes.py. Clients say who they are by XCLIENT.

Of each session it is known what Postfix replies to the sender, to each recipient and to the message, and what is
delivered: where from, to whom, with which header fields and which body.
"""
import contextlib
import glob
import os
import re
import smtplib
import tempfile
import time

import mail_server
import peers
import postfix
from lib import programs, recipes

# Lines of main.cf: a client may send mail to anyone, and say who it is.
ANYONE = 'mynetworks = 0.0.0.0/0\nsmtpd_authorized_xclient_hosts = 127.0.0.0/8\n'
QUEUES = ['maildrop', 'incoming', 'active', 'deferred']


class Server(postfix.Postfix):
    """A running Postfix with further lines of main.cf, and tables by the names of their files. It asks the filter at
    `filter`, also of what its own `sendmail` submits, but at its second port none."""

    def __init__(self, program, work, main=ANYONE, tables=()):
        self.program, self.filter = program, 'inet:%d@127.0.0.1' % peers.free_port()
        config = os.path.join(work, 'config')
        asked = 'smtpd_milters = %s\n' % postfix.in_postfix(self.filter)
        super().__init__(work, self.filter, '', main=asked + main.replace('/etc/postfix/', config + '/'))
        for name, text in dict(tables).items():
            programs.written(os.path.join(config, name), text)

    def asking(self, rules, *options):
        """The filter, with these rules and options."""
        lines = recipes.as_file(rules)
        recipes.write_files(self.work)
        path = programs.written(os.path.join(self.work, 'rules'), ''.join(line + '\n' for line in lines))
        return peers.Service(self.program, self.filter, path, options=options)

    def client(self, address='192.0.2.1', helo='mail.example.org', login=None, kind='inet'):
        """A client at this address that has greeted so, and that has logged in where a login is given."""
        # Postfix takes it for a client of its own host by where it connects from, whatever XCLIENT says.
        client = self.connected(kind, 'test.example.org', '127.0.0.1' if address == '127.0.0.1' else '127.0.0.2')
        client.ehlo()
        words = ['XCLIENT', 'ADDR=' + address, 'NAME=mail.example.org'] + (['LOGIN=' + login] if login else [])
        client.docmd(' '.join(words))
        client.ehlo(helo)
        return client

    def arrived(self):
        """The texts of the messages that were delivered since the last call, once none is on its way."""
        for _ in range(10 * peers.SECONDS):
            # A message goes from each of them to the next one.
            if not any(files for name in QUEUES for _, _, files in os.walk(os.path.join(self.work, 'queue', name))):
                break
            time.sleep(0.1)
        return self.received(len(glob.glob(self.delivered + '/message.*')))


@contextlib.contextmanager
def running(program, main=ANYONE, tables=()):
    """A running Postfix with these lines and tables."""
    with tempfile.TemporaryDirectory() as work:
        os.chmod(work, 0o755)
        with Server(program, work, main, tables) as server:
            yield server


def smtp_reply(code, text):
    """A reply of SMTP, or 'taken' where nothing is refused."""
    return '%d %s' % (code, text.decode()) if code >= 400 else 'taken'


def data_said(client, message):
    """The reply to DATA where that is refused, and else to the message."""
    try:
        return smtp_reply(*client.data(message.encode()))
    except smtplib.SMTPDataError as error:
        return smtp_reply(error.smtp_code, error.smtp_error)


def said(client, sender, recipients, message=None):
    """The replies to a sender, to each recipient, and to a message, up to the one after which nothing is left."""
    replies = [smtp_reply(*client.docmd('MAIL FROM:' + sender))]
    if replies == ['taken']:
        replies += [smtp_reply(*client.docmd('RCPT TO:' + recipient)) for recipient in recipients]
        if message is not None and 'taken' in replies[1:]:
            replies.append(data_said(client, message))
    client.rset()
    return replies


def plain(text):
    """A text of a session file without its escapes."""
    return text.encode().decode('unicode_escape')


def message_of(headers, body):
    """The message with these header fields and this body."""
    return ''.join('%s: %s\r\n' % each for each in headers) + '\r\n' + plain(body)


def played(server, row):
    """The replies to the session of a row."""
    parts = {**recipes.USUAL, **row.given}
    login = [value for _, name, value in parts['macros'] if name == '{auth_authen}']
    with server.client(parts['address'], parts['helo'], *login) as client:
        return said(client, plain(parts['sender']), [plain(each) for each in parts['recipients']],
                    message_of(parts['headers'], parts['body']))


def reply_of(verdict):
    """The reply to what has this verdict, as `said` has it."""
    code = re.match(r'code "(\d*)', verdict)
    if code is None:
        return 'taken'
    lines = plain(verdict[len('code "'):-1]).split('\r\n')
    return code[1] + ' ' + '\n'.join(line[4:] for line in lines)


def replies_of(row):
    """What Postfix replies to the session of a row, by its verdicts. A greeting that is refused it tells at the
    sender."""
    at, verdict = row.end or (None, None), row.verdicts.get(row.end, 'continue')
    if at[0] in ('connect', 'helo', 'mail') and reply_of(verdict) != 'taken':
        return [reply_of(verdict)]
    recipients = {**recipes.USUAL, **row.given}['recipients']
    replies = [reply_of(row.verdicts.get(('rcpt', nth), 'continue')) for nth in range(1, len(recipients) + 1)]
    if 'taken' not in replies:
        return ['taken'] + replies
    return ['taken'] + replies + [reply_of(verdict)]


def parts_of(text, names):
    """The sender and the recipients of a message that was delivered, its header fields of these names, and its body."""
    sender, recipients = mail_server.envelope(text)
    return (sender.split()[0], recipients, [line.rstrip() for line in mail_server.fields(text, *names)],
            mail_server.body(text))


def as_delivered(written):
    """An address as Postfix delivers it, however a client wrote it: within brackets, without a dot at its end, and
    without quotes, which none of the recipes' addresses needs."""
    local, at, domain = plain(written).strip('<>').rpartition('@')
    return '<%s%s%s>' % (local.strip('"'), at, domain.rstrip('.'))


def delivered_of(row):
    """The same, of each message of a row that is delivered."""
    if row.outcome != 'released' or 'quarantine' in row.released:
        return []
    parts = {**recipes.USUAL, **row.given, **row.released}
    recipients = sorted(map(as_delivered, parts['recipients']))
    headers = [('%s: %s' % each).rstrip() for each in parts['headers']]
    return [(as_delivered(parts['sender']), recipients, headers, plain(parts['body']).replace('\r\n', '\n'))]


def is_of_smtp(rules, row):
    """Whether Postfix sends the macros that a row has: in each session it sends those with the addresses."""
    text, given = '\n'.join(rules), {name for _, name, _ in row.given.get('macros', [])}
    return all(name in given or name not in text or part not in row.given
               for part, name in (('sender', '{mail_addr}'), ('recipients', '{rcpt_addr}')))


def play_recipe(checks, server, title, rules, rows, options=()):
    """The sessions of a recipe, with a filter that has these options."""
    names = {name for row in rows for parts in (recipes.USUAL, row.given, row.released)
             for name, _ in parts.get('headers', [])}
    with server.asking(rules, *options):
        for number, row in enumerate(rows, 1):
            if is_of_smtp(rules, row):
                replies = played(server, row)
                delivered = [parts_of(text, names) for text in server.arrived()]
                what = ' '.join(['%s, session %d over SMTP' % (title, number), *options])
                checks.check(what, (replies, delivered, server.held()),
                             (replies_of(row), delivered_of(row), int('quarantine' in row.released)))


def play(checks, program):
    """The recipes of the document, each with its sessions: what comes of them is the same by the stages that the rules
    need and by all stages."""
    with running(program) as server:
        for title, rules in recipes.rules().items():
            for options in [[], ['--all-stages']]:
                play_recipe(checks, server, title, rules, recipes.RECIPES[title], options)
