"""Other programs that send mail to examples/python/mail_server.py, or are its filters, where the machine has them."""
import base64
import hashlib
import os
import re
import subprocess
import tempfile

from lib import programs, serving
from lib.checks import expect
from lib.smtp import MOVED, OK_MAIL, OK_RCPT, RECIPIENTS, SENDER, TEXT, Server, expect_taken, filed, sent

SIGNING = '''Mode s
Domain example.org
Selector test
KeyFile {folder}/key
Socket local:{folder}/socket
InternalHosts {folder}/hosts
Background no
RequireSafeKeys no
UserID root
Canonicalization relaxed/simple
'''


def by_swaks(program, _tool, folder):
    """A mail by swaks."""
    with Server(program, folder) as server:
        done = subprocess.run(
            ['swaks', '--server', '%s:%d' % server.at, '--from', SENDER, '--to', ','.join(RECIPIENTS), '--helo', 'a',
             '--data', '-', '--silent', '3'], input=TEXT, capture_output=True, timeout=serving.SECONDS, check=False)
        expect('swaks', (done.returncode, done.stderr), (0, b''))
        expect('files', [text.startswith(filed()) for text in server.files()], [True])


def by_opendkim(program, _tool, folder):
    """A mail that OpenDKIM signs: its field stands first, and its hash is that of the body."""
    place = tempfile.mkdtemp(dir=folder)
    subprocess.run(['openssl', 'genrsa', '-out', os.path.join(place, 'key'), '2048'], check=True, capture_output=True)
    programs.written(os.path.join(place, 'hosts'), '127.0.0.0/8\n')
    programs.written(os.path.join(place, 'conf'), SIGNING.format(folder=place))
    address = os.path.join(place, 'socket')
    with subprocess.Popen(['opendkim', '-f', '-x', os.path.join(place, 'conf')]) as signer:
        try:
            serving.connected(address, lambda: signer.poll() is not None).close()
            with Server(program, folder, ['--filter', 'unix:' + address]) as server:
                expect_taken(sent(server, b'From: ada@example.org\r\n' + TEXT)[1])
                found, = server.files()
        finally:
            signer.terminate()
    first = rb'Delivered-To: dora@example.net\nDKIM-Signature: v=1;'
    signed = re.search(first + rb'[^:]*d=example.org;(?s:.*?)bh=([^;]*);', found)
    expect('a signature', bool(signed), True)
    body = b'Lunch at one?\r\n'
    expect('its hash', re.sub(rb'\s', b'', signed[1]), base64.b64encode(hashlib.sha256(body).digest()))


REFUSING = '''#include <libmilter/mfapi.h>
#include <stdlib.h>
#include <string.h>
static sfsistat on_rcpt(SMFICTX *context, char **words)
{
	if (strcmp(words[0], "<carol@example.net>"))
		return SMFIS_CONTINUE;
	if (smfi_setreply(context, "550", "5.1.1", "Moved") != MI_SUCCESS)
		abort();
	return SMFIS_REJECT;
}
int main(int count, char **words)
{
	struct smfiDesc filter = { .xxfi_name = "refusing", .xxfi_version = SMFI_VERSION, .xxfi_envrcpt = on_rcpt };

	return count != 2 || smfi_register(filter) || smfi_setconn(words[1]) || smfi_main();
}
'''


def by_libmilter(program, _tool, folder):
    """A mail to a filter on libmilter that refuses one recipient of three."""
    place = tempfile.mkdtemp(dir=folder)
    source = programs.written(os.path.join(place, 'refusing.c'), REFUSING)
    subprocess.run(['gcc', '-o', os.path.join(place, 'refusing'), source, '-lmilter', '-lpthread'], check=True)
    address = os.path.join(place, 'socket')
    with subprocess.Popen([os.path.join(place, 'refusing'), 'unix:' + address]) as filter_run:
        try:
            serving.connected(address, lambda: filter_run.poll() is not None).close()
            with Server(program, folder, ['--filter', 'unix:' + address]) as server:
                replies, end = sent(server)
                expect('replies', replies, [OK_MAIL, OK_RCPT, MOVED, OK_RCPT])
                expect_taken(end)
                server.expect_files([filed(recipients=RECIPIENTS[::2])])
        finally:
            filter_run.kill()
