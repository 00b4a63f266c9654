"""What a Postfix sent to a filter is sent again by `milter_tool replay`, for tests/interop.sh: a message of two
recipients, each with macros of its own, of which rules refuse one by them."""
import os
import subprocess
import tempfile

import peers
import postfix
from lib import programs
from mail_server import FROM, MESSAGE, TO, envelope, fields

REFUSED = 'refused@example.net'
RULES = """\
rules 2
at rcpt when macro "{rcpt_addr}" is "%s" do code "550 5.1.1 Not this recipient"
at eob do add-header "X-Passed" "yes"
"""
REPLY = '< y "550 5.1.1 Not this recipient"'


def rules_for(work, refused):
    """The path of a rule file that refuses this recipient."""
    return programs.written(os.path.join(work, refused + '.rules'), RULES % refused)


def replay(program, address, trace):
    """What `replay` printed, what it wrote on standard error, and its status."""
    done = subprocess.run([program, 'replay', address, trace, '--wait', '30'], stdin=subprocess.DEVNULL,
                          capture_output=True, timeout=peers.SECONDS, check=False)
    return done.stdout.decode().splitlines(), done.stderr.decode(), done.returncode


def recorded(checks, program, work):
    """The path of the trace of a message that Postfix sent to two recipients, one of which was refused."""
    address, recorder = ('inet:%d@127.0.0.1' % peers.free_port() for _ in range(2))
    with peers.Service(program, address, rules_for(work, REFUSED)), postfix.Postfix(work, recorder, address) as server:
        recording = peers.Recording(program, recorder, address, work)
        with server.connected('inet') as client:
            refused = client.sendmail(FROM, [TO, REFUSED], MESSAGE)
        trace = recording.trace()
        text, = server.received(1)
    checks.check('recorded: refused', {to: code for to, (code, _) in refused.items()}, {REFUSED: 550})
    delivered = envelope(text)[1], fields(text, 'X-Passed')
    checks.check('recorded: delivered', delivered, (['<%s>' % TO], ['X-Passed: yes']))
    return trace


def play(checks, program):
    """Records it, and sends it to filters with the same rules, and with others."""
    with tempfile.TemporaryDirectory() as work:
        os.chmod(work, 0o755)
        trace = recorded(checks, program, work)
        for name, refused, status in [('same rules', REFUSED, 0), ('other rules', TO, 1)]:
            address = 'inet:%d@127.0.0.1' % peers.free_port()
            with peers.Service(program, address, rules_for(work, refused)):
                lines, errors, found = replay(program, address, trace)
            differs = errors.startswith('differs at line ')
            checks.check('replayed, %s: status' % name, (found, differs), (status, status == 1))
            others = [line for line in lines if not line.startswith('  ')]
            expected = [] if status == 0 else ['- < c', '+ ' + REPLY, '- ' + REPLY, '+ < c']
            # Where the other recipient is refused, the replies to both differ, in the order of the recipients.
            checks.check('replayed, %s: replies' % name, sorted(others), sorted(expected))
