"""The answer at the end of a message by rules that change header fields: a model of the two actions `del-header` and
`prefix-header` among other edits and verdicts, written from docs/RULES.md. Names, values and texts are bytes.
"""
import collections

from lib.packets import packet_of

# The most bytes of a payload, and of the packets of an answer's edits.
PAYLOAD_MAX, EDITS_MAX = 65_535, 16_777_216
VERDICTS = {'continue': b'c', 'accept': b'a', 'reject': b'r', 'tempfail': b't', 'discard': b'd'}
# An action of a rule: its word, the number that comes first, or None, and its texts.
Action = collections.namedtuple('Action', 'word number texts')


def is_same(name, other):
    """Whether two names of header fields are the same."""
    return name.lower() == other.lower()


def line_of(action):
    """The rule of an action whose texts need no escapes."""
    number = [] if action.number is None else [str(action.number)]
    return ' '.join(['at eob do', action.word, *number] + ['"%s"' % text.decode() for text in action.texts])


def value_before(edits, seen, name):
    """The value that the first field of the name has after these edits; None where there is none."""
    given = [action.texts[1] for action in edits
             if action.word == 'change-header' and action.number == 1 and is_same(action.texts[0], name)]
    if given:
        return given[-1] or None
    return next((value for other, value in seen if is_same(other, name)), None)


def edits_of(action, edits, seen):
    """The edits of an action after these ones, where these header fields were seen."""
    name, *more = action.texts
    if action.word == 'del-header':
        count = sum(is_same(other, name) for other, _ in seen)
        return [Action('change-header', number, (name, b'')) for number in range(count, 0, -1)]
    if action.word == 'prefix-header':
        value = value_before(edits, seen, name)
        room = PAYLOAD_MAX - 4 - len(name) - 2
        changed = b'' if value is None else (more[0] + value)[:room]
        return [Action('change-header', 1, (name, changed))] if changed else []
    return [action]


def packet(edit):
    """The packet of an edit of header fields."""
    code = {'add-header': b'h', 'insert-header': b'i', 'change-header': b'm'}[edit.word]
    number = b'' if edit.number is None else edit.number.to_bytes(4, 'big')
    return packet_of(code + number + b''.join(text + b'\0' for text in edit.texts))


def answer(actions, seen):
    """The packets of the answer by these actions, all of whose rules apply, where these header fields were seen."""
    edits, verdict = [], 'continue'
    for action in actions:
        if action.word in VERDICTS:
            verdict = action.word
            break
        edits += edits_of(action, edits, seen)
    packets = [packet(edit) for edit in edits]
    if sum(map(len, packets)) > EDITS_MAX:
        packets, verdict = [], 'tempfail'
    return b''.join(packets) + packet_of(VERDICTS[verdict])
