"""A Postfix of its own on the loopback, with the filter, for tests/interop.sh.

Its queue and settings are in a temporary folder. One port of it has `milter_tool filter` at a TCP address, another one
at a Unix address; what `sendmail` submits goes by `milter_tool answer`, with a process for each connection.
"""
import os
import re
import shutil
import subprocess
import tempfile

import mail_server
import peers
from lib import programs
from mail_server import ADDED, FROM, MESSAGE, TO, body, envelope, fields

MAIN = """\
compatibility_level = 3.6
queue_directory = {work}/queue
data_directory = {work}/data
maillog_file = {work}/log
maillog_file_prefixes = {work}
mail_owner = postfix
setgid_group = postdrop
myhostname = mx.example.net
mydestination =
mynetworks = 127.0.0.0/8
inet_interfaces = 127.0.0.1
inet_protocols = ipv4
smtpd_peername_lookup = no
smtpd_relay_restrictions = permit_mynetworks, reject
disable_dns_lookups = yes
smtp_host_lookup = native
smtp_address_preference = ipv4
default_transport = smtp:[127.0.0.1]:{sink}
relay_transport = smtp:[127.0.0.1]:{sink}
alias_maps =
milter_protocol = 6
milter_default_action = tempfail
milter_connect_timeout = 30s
milter_command_timeout = 30s
milter_content_timeout = 60s
non_smtpd_milters = {submitted}
message_size_limit = 16000000
smtpd_error_sleep_time = 0
smtpd_soft_error_limit = 100
smtpd_hard_error_limit = 100
virtual_alias_maps =
soft_bounce = no
"""
MASTER = """\
127.0.0.1:{inet_port} inet n - {chroot} - - smtpd
    -o smtpd_milters={inet}
127.0.0.1:{unix_port} inet n - {chroot} - - smtpd
    -o smtpd_milters={unix}
pickup unix n - n 1 1 pickup
cleanup unix n - n - 0 cleanup
qmgr unix n - n 300 1 qmgr
rewrite unix - - n - - trivial-rewrite
bounce unix - - n - 0 bounce
defer unix - - n - 0 bounce
trace unix - - n - 0 bounce
smtp unix - - n - - smtp
error unix - - n - - error
discard unix - - n - - discard
showq unix n - n - - showq
postlog unix-dgram n - n - 1 postlogd
proxymap unix - - n - - proxymap
anvil unix - - n - 1 anvil
scache unix - - n - 1 scache
"""


def in_postfix(address):
    """An address of a filter as Postfix takes it; an empty one is none."""
    return 'inet:' + peers.plain(address) if address.startswith('inet:') else address


class Postfix(mail_server.MailServer):
    """A running Postfix with its sink. Where no filter of submitted mail is given it is the one at the TCP address. Its
    smtpd may be chrooted. Further lines of main.cf stand in place of those for the same."""
    name = 'Postfix'
    deferred = '451 4.7.1 Service unavailable - try again later'
    no_recipient = '55'
    # It hands a greeting to the filter before the abort that is due.
    greeting_within = ['H', 'A']
    greetings = 100

    def __init__(self, work, inet, unix, submitted=None, chroot='n', main=''):
        super().__init__(work)
        self.config = os.path.join(work, 'config')
        for name in ('config', 'queue', 'data'):
            os.mkdir(os.path.join(work, name))
        shutil.chown(os.path.join(work, 'data'), 'postfix')
        values = {'work': work, 'sink': self.sink_port, 'submitted': in_postfix(submitted or inet),
                  'inet': in_postfix(inet), 'unix': in_postfix(unix), 'inet_port': self.ports['inet'],
                  'unix_port': self.ports['unix'], 'chroot': chroot}
        given = re.findall(r'^\w+', main, re.M)
        lines = [line for line in MAIN.format(**values).splitlines() if line.split()[0] not in given]
        programs.written(os.path.join(self.config, 'main.cf'), ''.join(line + '\n' for line in lines) + main)
        programs.written(os.path.join(self.config, 'master.cf'), MASTER.format(**values))

    def start(self):
        """Starts it."""
        subprocess.run(['postfix', '-c', self.config, 'start'], check=True, stdout=subprocess.DEVNULL,
                       stderr=subprocess.DEVNULL)

    def stop(self):
        """Ends it."""
        subprocess.run(['postfix', '-c', self.config, 'stop'], stdout=subprocess.DEVNULL, stderr=subprocess.DEVNULL)

    def refused(self, _, text):
        """How it says to a client that an address is refused with this text."""
        return text

    def submit(self, sender, recipient, message):
        """Submits a message with Postfix's own `sendmail`."""
        subprocess.run(['/usr/sbin/sendmail', '-C', self.config, '-i', '-f', sender, recipient], check=True,
                       input=message.encode())

    def sent_by_source(self, kind, count):
        """Sends messages on one connection with Postfix's own `smtp-source`."""
        subprocess.run(['smtp-source', '-d', '-s', '1', '-m', str(count), '-f', FROM, '-t', TO,
                        '-M', 'mail.example.org', '127.0.0.1:%d' % self.ports[kind]], check=True)

    def held(self):
        """How many messages are on hold; they are deleted."""
        queue = os.path.join(self.work, 'queue', 'hold')
        found = sum(len(files) for _, _, files in os.walk(queue))
        subprocess.run(['postsuper', '-c', self.config, '-d', 'ALL', 'hold'], stderr=subprocess.DEVNULL)
        return found


def play_own_clients(checks, postfix):
    """What Postfix's own clients send."""
    for kind in postfix.ports:
        postfix.sent_by_source(kind, 20)
        texts = postfix.received(20)
        checks.check('smtp-source, %s' % kind, [fields(text, 'X-Passed') for text in texts], 20 * [['X-Passed: yes']])
    postfix.submit(FROM, TO, MESSAGE)
    text, = postfix.received(1)
    checks.check('submitted', (fields(text, 'X-Passed'), body(text)), (['X-Passed: yes'], 'a body\nof two lines\n'))
    postfix.submit(FROM, 'edited@example.net', MESSAGE)
    text, = postfix.received(1)
    checks.check('submitted, edited', (envelope(text)[1], fields(text, 'X-Added'), body(text)),
                 (ADDED, ['X-Added: added'], 'another body\nof two lines\n'))


def play(checks, program):
    """Starts a Postfix and two filters, and plays all of it."""
    with tempfile.TemporaryDirectory() as work:
        os.chmod(work, 0o755)
        sockets = os.path.join(work, 'sockets')
        os.mkdir(sockets)
        os.chmod(sockets, 0o755)
        inet, unix = 'inet:%d@127.0.0.1' % peers.free_port(), 'unix:' + os.path.join(sockets, 'filter')
        rules = peers.rules_of('mail_server')
        # The connections of the refusals, of the refused greeting, of the edits, and of smtp-source.
        with peers.Filter(program, inet, rules, 4) as first, peers.Filter(program, unix, rules, 4) as second:
            os.chmod(peers.plain(unix), 0o666)
            submitted, end_answers = peers.answering(program, rules)
            with Postfix(work, inet, unix, submitted) as postfix:
                for kind in postfix.ports:
                    mail_server.play_refusals(checks, postfix, kind)
                    mail_server.play_edits(checks, postfix, kind)
                play_own_clients(checks, postfix)
            # Postfix closes the connection without a word where the greeting was refused.
            lines = 'connection 1 quit\nconnection 2 ended 0\nconnection 3 quit\nconnection 4 quit\n'
            for served in (first, second):
                checks.check('Postfix: the lines of the filter', served.finished(), (lines, 0))
            checks.check('Postfix: the statuses of answer', set(end_answers()), {0})


def play_chrooted(checks, program):
    """An smtpd that sees nothing but its queue directory, with filters at a port and in that directory; to the latter
    the group of Postfix may connect."""
    with tempfile.TemporaryDirectory() as work:
        os.chmod(work, 0o755)
        inet, rules = 'inet:%d@127.0.0.1' % peers.free_port(), peers.rules_of('mail_server')
        server = Postfix(work, inet, 'unix:milter/filter', chroot='y')
        folder = os.path.join(work, 'queue', 'milter')
        os.mkdir(folder)
        shutil.chown(folder, 'root', 'postfix')
        os.chmod(folder, 0o750)
        with peers.Service(program, inet, rules), \
                peers.Service(program, 'unix:%s/filter' % folder, rules, 'postfix'), server:
            server.name = 'Postfix, chrooted'
            for kind in server.ports:
                mail_server.play_refusals(checks, server, kind)
