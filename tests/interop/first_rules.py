"""The rule files that a reader copies first, with a Postfix, for tests/interop.sh: however a client writes the address
that takes no mail, it is refused, but with a percent sign; and where no body is sent, none is too large for the filter.
"""
import cookbook
from cookbook import said
from lib import first_rules, recipes

SENDER, TO = '<ada@example.org>', '<brook@example.net>'
# Postfix takes messages of up to 30 MB, and this one has 18 MB.
LARGE = 'message_size_limit = 30000000\n'
MESSAGE = 'Subject: Lunch\r\n\r\n' + 250000 * ('x' * 70 + '\r\n')
DEFERRED = '451 4.7.1 Service unavailable - try again later'


def play_writings(checks, server):
    """Each way to write the address, with each of the files."""
    for name, lines in first_rules.rule_files().items():
        with server.asking(lines), server.client() as client:
            for way in recipes.writings('noreply'):
                reply = 'taken' if '%' in way else recipes.NO_MAIL
                checks.check('%s: %s' % (name, way), said(client, SENDER, [way]), ['taken', reply])
            others = ['<donoreply@example.net>', TO]
            checks.check('%s: others' % name, said(client, SENDER, others), ['taken', 'taken', 'taken'])


def play_large(checks, server):
    """A message that is too large for a filter: it passes where its body isn't sent, and is deferred where it is."""
    rules = first_rules.of_readme()[0]
    for options, expected in [([], 'taken'), (['--all-stages'], DEFERRED)]:
        with server.asking(rules, *options), server.client() as client:
            checks.check('18 MB %s' % options, said(client, SENDER, [TO], MESSAGE)[2], expected)


def play(checks, program):
    """All of it."""
    with cookbook.running(program, cookbook.ANYONE + LARGE) as server:
        for part in (play_writings, play_large):
            checks.part('first rules: ' + part.__name__, part, server)
