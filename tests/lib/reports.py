"""What `milter_tool mta` prints of sessions: the text of reports, and rows of what a filter does, each with its rules
for `milter_tool filter`, its words for tests/interop/scripted.c, a session, and the reports that are expected. These
are worked out here from the row alone: which stages are sent and answered, and the one verdict at each.
"""
import collections

STAGES = ['connect', 'helo', 'mail', 'rcpt', 'data', 'header', 'eoh', 'body', 'eob']
# The verdict with a code, in reports and in rules; and the replies by which the verdicts refuse.
CODE = 'code "550 5.7.1 No"'
REPLIES = {
    'reject': '550 5.7.1 Command rejected', 'tempfail': '451 4.3.2 Please try again later', CODE: '550 5.7.1 No'}
# The bits by which a stage is not sent, and not answered.
WITHOUT = dict(zip(STAGES, ['NOCONNECT', 'NOHELO', 'NOMAIL', 'NORCPT', 'NODATA', 'NOHDRS', 'NOEOH', 'NOBODY']))
SILENT = dict(zip(STAGES, ['NR_CONN', 'NR_HELO', 'NR_MAIL', 'NR_RCPT', 'NR_DATA', 'NR_HDR', 'NR_EOH', 'NR_BODY']))
OPENING = '''client 4 "client.example.org" 12345 "192.0.2.17"
helo "client.example.org"
macro connect "j" "mx.example.org"
macro connect "{tls_version}" "TLSv1.3"
macro mail "i" "4BxYz12345"
'''
SENDER = 'sender "<ada@example.org>" "SIZE=100"\n'
RECIPIENTS = ['recipient "<bob@example.net>"\n', 'recipient "<carol@example.net>" "NOTIFY=NEVER"\n']
HEADERS = ['header "Subject" " first"\n', 'header "X-Remove" " gone"\n']
BODY = 'body "a body\\r\\n"\n'
# A body of three chunks.
LONG_BODY = 'body "%s"\n' % ('x' * 131071)
EDITED = '''quarantine "looked at by a person"
sender "<changed@example.org>" "RET=HDRS"
recipient "<carol@example.net>" "NOTIFY=NEVER"
recipient "<added@example.net>"
recipient "<with@example.net>" "NOTIFY=NEVER"
header "X-Top" "{space}inserted at the top"
header "Subject" "{space}changed"
header "X-Added" "{space}added"
body "another body\\r\\nin two pieces\\r\\n"
end
'''
EDIT_RULES = '''at eob do add-header "X-Added" "added"
at eob do insert-header 0 "X-Top" "inserted at the top"
at eob do change-header 1 "Subject" "changed"
at eob do change-header 1 "X-Remove" ""
at eob do progress
at eob do add-rcpt "<added@example.net>"
at eob do add-rcpt-par "<with@example.net>" "NOTIFY=NEVER"
at eob do del-rcpt "<bob@example.net>"
at eob do change-from "<changed@example.org>" "RET=HDRS"
at eob do replace-body "another body\\r\\n"
at eob do replace-body "in two pieces\\r\\n"
at eob do quarantine "looked at by a person"
'''
MACRO_RULES = '''at eob when macro "j" is "mx.example.org" do add-header "X-Macro" "mx.example.org"
at eob when macro "{tls_version}" is "TLSv1.3" do add-header "X-Macro" "TLSv1.3"
at eob when macro "i" is "4BxYz12345" do add-header "X-Macro" "4BxYz12345"
'''

Row = collections.namedtuple('Row', 'name words rules session expected options')


def released(headers=(), body=BODY):
    """The text of the message without edits, but for these header fields that were added."""
    return SENDER + ''.join(RECIPIENTS) + ''.join(HEADERS) + ''.join(headers) + body + 'end\n'


def session(count=1, body=BODY):
    """The session file of so many messages."""
    message = 'message\n' + SENDER + ''.join(RECIPIENTS) + ''.join(HEADERS) + body + 'end\n'
    return OPENING + message * count


def commands(body):
    """The stages of a message's commands, each with its number."""
    counts = {'rcpt': len(RECIPIENTS), 'header': len(HEADERS), 'body': 1 if body == BODY else 3}
    return [(stage, nth + 1) for stage in STAGES for nth in range(counts.get(stage, 1))]


def acted(stage, nth=1, verdict='continue'):
    """The line of a verdict that is acted on, for the command of a stage with this number."""
    return 'acted %s %d %s\n' % (stage, nth, verdict)


def by_default(number, cause, lines=(), on_loss='tempfail'):
    """The report of a message that is settled by default for this cause, after verdicts with these lines. Where it is
    released, these end with the text of the message."""
    outcome = 'refused "%s"' % REPLIES[on_loss] if on_loss in REPLIES else 'released'
    return 'message %d default %s %s\n' % (number, cause, outcome) + ''.join(lines)


def dialogue(verdict, at, unsent, unasked, body):
    """The lines of the verdicts that are acted on, where this one is given at a stage, and the stage that ended it."""
    lines, skips = [], False
    for stage, nth in commands(body):
        if stage in (unsent, unasked) or skips and stage == 'body':
            continue
        given = verdict if stage == at else 'continue'
        lines.append(acted(stage, nth, given))
        skips |= given == 'skip'
        refuses_one = stage == 'rcpt' and given in REPLIES
        if given not in ('continue', 'skip') and not refuses_one or refuses_one and nth == len(RECIPIENTS):
            return ''.join(lines), stage
    return ''.join(lines), 'eob'


def expected(count=1, verdict='continue', at='eob', unsent=None, unasked=None, body=BODY, text=None):
    """The reports of so many messages of which each gets this verdict at this stage."""
    lines, ended = dialogue(verdict, at, unsent, unasked, body)
    client = ended in ('connect', 'helo')
    text = text or released(body=body)
    if verdict in ('continue', 'accept', 'skip') or at in (unsent, unasked):
        end = 'released\n' + lines + text
    elif verdict == 'discard':
        end = 'discarded\n' + lines
    elif client:
        end = 'refused-at-connection\n' + lines
    elif ended == 'rcpt':
        end = 'no-recipients\n' + lines
    else:
        end = 'refused "%s"\n' % REPLIES[verdict] + lines
    by = 'connection' if client else 'filter'
    first = 'connection %s\n' % verdict if client else ''
    return first + ''.join('message %d %s %s' % (number + 1, by, end) for number in range(count))


def verdict_rows():
    """Each verdict at each stage where it can be given, on a session of two messages."""
    for at in STAGES:
        for verdict in ['accept', 'reject', 'tempfail', CODE, 'discard']:
            if verdict == 'discard' and at in ('connect', 'helo'):
                continue
            words = ['%s=%s' % (at, verdict.split()[0])]
            yield Row('%s at %s' % (verdict, at), words, 'at %s do %s\n' % (at, verdict), session(2),
                      expected(2, verdict, at), [])


def bit_rows():
    """Each stage that isn't sent, and each that isn't answered."""
    for stage in STAGES[:-1]:
        yield Row('without ' + stage, ['without=' + stage], 'protocol %s\n' % WITHOUT[stage], session(2),
                  expected(2, unsent=stage), [])
        yield Row('silent at ' + stage, ['silent=' + stage], 'protocol %s\n' % SILENT[stage], session(2),
                  expected(2, unasked=stage), [])


def other_rows():
    """Skip, edits, symbol lists, and offers without some of them."""
    yield Row('no rules', [], '', session(3), expected(3), [])
    yield Row('no messages', None, '', OPENING, '', [])
    yield Row('skip', ['skip', 'body=skip'], 'at body do skip\n', session(body=LONG_BODY),
              expected(verdict='skip', at='body', body=LONG_BODY), [])
    yield Row('a long body', [], '', session(body=LONG_BODY), expected(body=LONG_BODY), [])
    yield Row('edits', ['edits'], EDIT_RULES, session(2), expected(2, text=EDITED.replace('{space}', ' ')), [])
    yield Row('edits, with the leading space', ['edits', 'leading'], 'protocol HDR_LEADSPC\n' + EDIT_RULES, session(),
              expected(text=EDITED.replace('{space}', '')), [])
    yield Row('edits of a message that is refused', ['edits', 'eob=reject'], EDIT_RULES + 'at eob do reject\n',
              session(), expected(verdict='reject'), [])
    yield Row('macros', ['values'], MACRO_RULES, session(),
              expected(text=released('header "X-Macro" " %s"\n' % value
                                    for value in ['mx.example.org', 'TLSv1.3', '4BxYz12345'])), [])
    lists = 'symbols connect "{tls_version} {not_given}"\nsymbols mail "{not_given}"\n'
    yield Row('symbol lists', ['values', 'symbols=connect:{tls_version} {not_given}', 'symbols=mail:{not_given}'],
              lists + MACRO_RULES, session(), expected(text=released(['header "X-Macro" " TLSv1.3"\n'])), [])
    yield Row('no actions are offered', None, EDIT_RULES, session(), expected(), ['--actions', 'none'])
    yield Row('one action is offered', None, EDIT_RULES, session(),
              expected(text=released(['header "X-Added" " added"\n']).replace(
                  HEADERS[0], 'header "X-Top" " inserted at the top"\n' + HEADERS[0])), ['--actions=ADDHDRS'])
    yield Row('no protocol bits are offered', None, 'protocol NOHELO|NR_MAIL|SKIP\nat body do skip\n',
              session(body=LONG_BODY), expected(body=LONG_BODY), ['--protocol', 'none'])


def rows():
    """All rows. The words are None where a filter on libmilter can't be set so."""
    yield from verdict_rows()
    yield from bit_rows()
    yield from other_rows()
