"""Plays commands of a mail server to a filter's end of the Python binding, and has it give the answers that another
filter's end gave to them, which are read from its replies.
"""
import contextlib
import itertools

from lib.packets import code_of, number_of, packets_of, texts_of

VERDICTS = {'c': 'CONTINUE', 'a': 'ACCEPT', 'r': 'REJECT', 't': 'TEMPFAIL', 'd': 'DISCARD', 's': 'SKIP'}
# The edits, by their codes.
EDITS = {
    'h': lambda answer, payload: answer.add_header(*texts_of(payload)),
    'i': lambda answer, payload: answer.insert_header(number_of(payload), *texts_of(payload[4:])),
    'm': lambda answer, payload: answer.change_header(number_of(payload), *texts_of(payload[4:])),
    'e': lambda answer, payload: answer.change_sender(*texts_of(payload)),
    '+': lambda answer, payload: answer.add_recipient(*texts_of(payload)),
    '-': lambda answer, payload: answer.delete_recipient(*texts_of(payload)),
    'b': lambda answer, payload: answer.replace_body(payload),
    'q': lambda answer, payload: answer.quarantine(*texts_of(payload)),
}
# The bytes of options before their symbol lists, and the stages of these by their numbers.
OPTIONS, LISTED = 17, ['CONNECT', 'HELO', 'MAIL', 'RCPT', 'DATA', 'EOB', 'EOH']


def answers_of(deiruska, replies):
    """The answers in the replies after the options: of each the Answer, and how often progress was reported before."""
    answer, reports = deiruska.Answer(), 0
    for packet in packets_of(replies):
        code, payload = code_of(packet), packet[5:]
        if code in EDITS:
            EDITS[code](answer, payload)
        elif code == 'p':
            reports += 1
        else:
            answer.verdict = deiruska.Verdict[VERDICTS.get(code, 'CONTINUE')]
            answer.code = texts_of(payload)[0] if code == 'y' else None
            yield answer, reports
            answer, reports = deiruska.Answer(), 0


def can_be_given(commands, replies):
    """Whether the binding can give the answers in these replies: no recipient is added with parameters, and each reply
    is one to a question, as those to unknown commands aren't."""
    packets = list(packets_of(replies))
    if not packets or any(code_of(packet) == '2' for packet in packets):
        return False
    return all(packet[4:5] != b'U' for packet in packets_of(commands))


def played(deiruska, connection, commands, answers, piece):
    """Feeds commands in pieces, and gives these answers. Answers the bytes that are sent, and the number of the fault
    for which the connection is given up, or 0; or that more is asked than there are answers."""
    sent, pieces, fed, at = [], (commands[it:it + piece] for it in range(0, len(commands), piece)), b'', 0
    while True:
        step = connection.step
        if step == deiruska.Step.SEND:
            sent.append(connection.pending)
            connection.sent(len(sent[-1]))
        elif step == deiruska.Step.ANSWER:
            answer, reports = next(answers, (None, 0))
            if answer is None:
                return b''.join(sent), 'a question more'
            for _ in range(reports):
                connection.progress()
            connection.answer(answer)
        elif step == deiruska.Step.FEED:
            if at == len(fed):
                fed, at = next(pieces, b''), 0
            if not fed:
                return b''.join(sent), 0
            with contextlib.suppress(deiruska.FilterFault):
                at += connection.feed(fed, at)
        else:
            fault = connection.fault
            return b''.join(sent), fault.number if fault else 0


def replayed(deiruska, commands, replies, piece):
    """Plays commands to a connection that wants what the options of these replies have, and gives the answers in
    them."""
    options, macros = next(packets_of(replies)), {}
    version, actions, protocol = (number_of(options[at:]) for at in (5, 9, 13))
    lists = options[OPTIONS:]
    while lists:
        names = lists[4:].partition(b'\0')[0]
        macros[deiruska.Stage[LISTED[number_of(lists)]]] = names
        lists = lists[4 + len(names) + 1:]
    connection = deiruska.FilterConnection(actions, protocol, version, macros)
    return played(deiruska, connection, commands, answers_of(deiruska, replies[len(options):]), piece)


def ruled(deiruska, rules, commands, piece):
    """Plays commands to a connection that wants what rules do, and has them answer."""
    connection = deiruska.RuledConnection(rules)
    connection.answer = lambda _: connection.answer_by(rules)
    return played(deiruska, connection, commands, zip(itertools.repeat(rules), itertools.repeat(0)), piece)


def let_pass(deiruska, commands, piece):
    """Plays commands to a connection that wants nothing and lets all mail go on."""
    answers = zip(iter(deiruska.Answer, None), itertools.repeat(0))
    return played(deiruska, deiruska.FilterConnection(), commands, answers, piece)
