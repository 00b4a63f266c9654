"""A Sendmail of its own on the loopback, for tests/interop.sh, run from an unpacked copy of Debian's packages: those of
Sendmail and of Postfix can't both be installed.

Its queue and settings are in a temporary folder; /etc/mail has no part in it. interop.sh says how to unpack it.
"""
import glob
import os
import shutil
import signal
import subprocess

import mail_server

SETTINGS = """\
OSTYPE(`linux')dnl
define(`confDOMAIN_NAME', `mx.example.net')dnl
define(`QUEUE_DIR', `{work}/queue')dnl
define(`STATUS_FILE', `{work}/status')dnl
define(`HELP_FILE', `')dnl
define(`ALIAS_FILE', `')dnl
define(`confPID_FILE', `{work}/pid')dnl
define(`confCR_FILE', `-o {work}/relay-domains')dnl
define(`confSERVICE_SWITCH_FILE', `{work}/switch')dnl
define(`confDONT_BLAME_SENDMAIL', `TrustStickyBit')dnl
define(`confLOG_LEVEL', `0')dnl
define(`confTO_IDENT', `0')dnl
define(`confDONT_PROBE_INTERFACES', `true')dnl
define(`confQUEUE_LA', `10000')dnl
define(`confREFUSE_LA', `10000')dnl
define(`SMART_HOST', `relay:[127.0.0.1]')dnl
define(`RELAY_MAILER_ARGS', `TCP $h {sink}')dnl
FEATURE(`no_default_msa')dnl
FEATURE(`nocanonify')dnl
FEATURE(`accept_unresolvable_domains')dnl
DAEMON_OPTIONS(`Name=inet, Family=inet, Addr=127.0.0.1, Port={inet_port}, Listen=100, InputMailFilters=inet')dnl
DAEMON_OPTIONS(`Name=unix, Family=inet, Addr=127.0.0.1, Port={unix_port}, Listen=100, InputMailFilters=unix')dnl
MAIL_FILTER(`inet', `S={inet}, F=T, T=C:30s;S:30s;R:30s;E:60s')dnl
MAIL_FILTER(`unix', `S={unix}, F=T, T=C:30s;S:30s;R:30s;E:60s')dnl
MAILER(`smtp')dnl
"""
# It asks no server of names.
SWITCH = 'hosts files\naliases files\n'
# Before it reads its settings it looks the machine's name up, and waits for a minute where that has no dot: so it sees
# another name, for which it asks no one.
NAMED = ['unshare', '--uts', 'sh', '-c', 'hostname 127.0.0.1 && exec "$@"', 'sh']
UNPACKED = '/opt/sendmail'


def program_in(root):
    """The program of an unpacked copy."""
    return os.path.join(root, 'usr/libexec/sendmail/sendmail')


def missing(root):
    """What there is not of what Sendmail needs, or None."""
    if not os.path.exists(program_in(root)):
        return 'no unpacked copy at ' + root
    return None if shutil.which('m4') else 'no m4'


class Sendmail(mail_server.MailServer):
    """A running Sendmail with its sink."""
    name = 'Sendmail'
    deferred = '451 4.3.2 Please try again later'
    no_recipient = '503'
    # Where a greeting ends a transaction it sends the abort first.
    greeting_within = ['A', 'H']
    # It waits for a second before it takes the third greeting of a connection, and twice as long at each further one.
    greetings = 4

    def __init__(self, root, work, inet, unix):
        super().__init__(work)
        self.program = program_in(root)
        self.queue = os.path.join(work, 'queue')
        os.mkdir(self.queue, 0o700)
        values = {'work': work, 'sink': self.sink_port, 'inet': inet, 'unix': unix, 'inet_port': self.ports['inet'],
                  'unix_port': self.ports['unix']}
        macros = os.path.join(root, 'usr/share/sendmail/cf/')
        made = subprocess.run(['m4', '-D_CF_DIR_=' + macros, macros + 'm4/cf.m4', '-'], check=True,
                              input=SETTINGS.format(**values).encode(), stdout=subprocess.PIPE).stdout
        self.config = os.path.join(work, 'sendmail.cf')
        for name, text in ((self.config, made), (os.path.join(work, 'switch'), SWITCH.encode())):
            with open(name, 'wb') as file:
                file.write(text)

    def start(self):
        """Starts it, in a group of processes of its own. What couldn't be delivered is tried again each second."""
        self.process = subprocess.Popen(NAMED + [self.program, '-C', self.config, '-bD', '-q1s'],
                                        stdin=subprocess.DEVNULL, start_new_session=True)

    def stop(self):
        """Ends it, with the processes that it has for connections."""
        os.killpg(self.process.pid, signal.SIGTERM)
        self.process.wait()

    def refused(self, address, text):
        """How it says to a client that an address is refused with this text: with the address, unless it defers it."""
        code, status, words = text.split(' ', 2)
        return '%s %s <%s>... %s' % (code, status, address, words) if code.startswith('5') else text

    def held(self):
        """How many messages are on hold; they are deleted."""
        found = glob.glob(self.queue + '/hf*')
        for name in found:
            os.remove(name)
        return len(found)
