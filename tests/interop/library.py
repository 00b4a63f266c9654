"""The examples of the library for C and real peers, for tests/interop.sh: the filters of examples/c and examples/python
behind a Postfix of its own, and the mail server's side of examples/c with OpenDKIM, which signs.

The library is built as tests/test_c_library.py does it; the environment variable ARCHIVE names an archive of it that is
there.
"""
import contextlib
import os
import re
import subprocess
import sys
import tempfile

import mail_server
import mta
import peers
import postfix
from lib import c_library, c_plays
from mail_server import FROM, MESSAGE, TO

NOT_TAKEN, REFUSAL = 'noreply@example.net', '550 5.1.1 This address takes no mail'


@contextlib.contextmanager
def running(command, address, **options):
    """A run of a filter that listens at an address."""
    process = subprocess.Popen(command, **options)
    try:
        peers.listening(address)
        yield
    finally:
        process.kill()
        process.wait()


def play_filter(checks, server, kind):
    """A recipient is refused and another one isn't, on one connection, and the message has the field of the filter."""
    with server.connected(kind) as client:
        for _ in range(2):
            found = mail_server.reply(client.sendmail, FROM, [NOT_TAKEN], MESSAGE)
            checks.check('%s, library, %s: refused' % (server.name, kind), found, REFUSAL)
            client.rset()
            client.sendmail(FROM, [TO], MESSAGE)
    texts = server.received(2)
    checks.check('%s, library, %s: passed' % (server.name, kind),
                 [(mail_server.fields(text, 'Subject', 'X-Filtered'), mail_server.body(text)) for text in texts],
                 2 * [(['Subject: first', 'X-Filtered: mx.example.net'], 'a body\nof two lines\n')])


def play_filters(checks, library):
    """The filter in C at a TCP address, and the one in Python at a Unix address."""
    with tempfile.TemporaryDirectory() as work:
        os.chmod(work, 0o755)
        port, path = peers.free_port(), os.path.join(work, 'filter')
        inet, unix = 'inet:%d@127.0.0.1' % port, 'unix:' + path
        script = os.path.join(c_plays.PYTHON, 'filter.py')
        with running([c_library.example(library, 'c'), '127.0.0.1', str(port)], inet), \
                running([sys.executable, script, unix], unix, env=c_plays.of_binding(library)):
            os.chmod(path, 0o666)
            with postfix.Postfix(work, inet, unix) as server:
                for kind in server.ports:
                    play_filter(checks, server, kind)


def play_mail_server(checks, library):
    """OpenDKIM asks the mail server's side for its signature, and lets the message pass."""
    source = os.path.join(peers.TOP, 'examples', 'c', 'mail_server.c')
    program = c_library.compiled(library, source, 'mail_server')
    with tempfile.TemporaryDirectory() as work:
        port = peers.free_port()
        with mta.signing(work, 'inet:%d@127.0.0.1' % port):
            done = subprocess.run([program, '127.0.0.1', str(port), '<%s>' % FROM, '<%s>' % TO], input=MESSAGE.encode(),
                                  stdout=subprocess.PIPE, stderr=subprocess.STDOUT, timeout=peers.SECONDS, check=False)
    printed = done.stdout.decode(errors='replace')
    signature = r'edit 2 \d+ "DKIM-Signature" "v=1; a=rsa-sha256; c=relaxed/simple; d=example\.org; s=test;[^"]*"\n'
    is_signed = re.fullmatch(signature + '(continue|accept)\n', printed) is not None
    checks.check('library: OpenDKIM', (is_signed, done.returncode, '' if is_signed else printed), (True, 0, ''))


def play(checks):
    """Builds the library, and plays all of it."""
    with tempfile.TemporaryDirectory() as library:
        c_library.made(c_library.built(os.environ.get('ARCHIVE')), library)
        checks.part('Postfix, library', play_filters, library)
        checks.part('library, OpenDKIM', play_mail_server, library)
