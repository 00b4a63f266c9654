"""Plays one message to `milter_tool answer` by many rules that look at each recipient, and by rules that look at
everything that came at each header field and at each chunk of a body, and prints what that costs; ends with status 1
where the cost grows faster than the message, or where rules of the first form cost more than with an older program.

    python3 rules.py PROGRAM FOLDER [OLDER]
"""
import os
import struct
import subprocess
import sys

FIELDS = [
    'host', 'address', 'helo', 'sender', 'sender-address', 'sender-domain', 'rcpt', 'rcpt-address', 'rcpt-domain',
    'recipients', 'recipients-address', 'recipients-domain', 'header "X"', 'body', 'macro "{x}"']
# Conditions of which none ends a message: what is looked for isn't there, and where it has to be missing a second
# condition isn't met.
TESTS = {
    'is': 'is "nowhere"', 'has': 'has "nowhere" "never"', 'lacks': 'lacks "nowhere" and sender is "nobody"',
    'begins': 'begins "nowhere" "never"', 'ends': 'ends "nowhere" "never"', 'like': 'like "*no?here*" "never*"',
    'under': 'under "nowhere" "never"'}
# Conditions of other kinds, of which none ends a message either: the client is in no such network, and no number is
# above its limit.
OTHERS = {
    'address within': 'address within "10.0.0.0/8" "2001:db8::/32"', 'size over': 'size over 16777216',
    'rcpts over': 'rcpts over 4294967295'}
# The fields whose values are domains, which alone have the test under.
DOMAINS = ['host', 'helo', 'sender-domain', 'rcpt-domain', 'recipients-domain']
# The kind of list that each field may be looked for in, and an entry of one that no message has.
KINDS = {
    'host': 'domains', 'address': 'networks', 'helo': 'domains', 'sender': 'texts', 'sender-address': 'addresses',
    'sender-domain': 'domains', 'rcpt': 'texts', 'rcpt-address': 'addresses', 'rcpt-domain': 'domains',
    'recipients': 'texts', 'recipients-address': 'addresses', 'recipients-domain': 'domains', 'macro "{x}"': 'texts',
    'macro "{y}"': 'texts'}
ENTRIES = {
    'addresses': 'nobody%d@nowhere.example', 'domains': 'nowhere%d.example', 'networks': '10.0.%d.0/24',
    'texts': 'nowhere %d'}
# How many entries a list has.
LISTED = 200
COUNTS = [1_000, 10_000, 100_000]
SIZES = [1, 10, 100, 1_000, 10_000, 65_535]
BODY = 1_000_000
# How many times as much ten times as much of a message may cost: ten times, and what a run of a few milliseconds is off
# by.
MOST = 20
# The shortest time, in seconds, of which ten times is compared.
LEAST = 0.004
RUNS = 3
# Many rules at rcpt, none of which holds: what a rule looks at, the text for each number, and whether all texts stand
# in one rule. The first ones are also measured in a file of the first form, which an older program reads too.
AT_RCPT = [
    ('rcpt is', '<user%04d@example.net>', False), ('rcpt is', '<user%04d@example.net>', True),
    ('rcpt-address is', 'user%04d@example.net', False), ('rcpt-address is', 'user%04d@example.net', True),
    ('rcpt-domain under', 'user%04d.example.net', False), ('rcpt-domain under', 'user%04d.example.net', True)]
RULES = 10_000
RECIPIENTS = [1, 200, 2_000]
# How many times as much as with an older program the same rules may cost: as much, and what such runs are off by.
MORE = 1.25


def packet(payload):
    return struct.pack('>I', len(payload)) + payload


def message(middle, recipients=packet(b'R<b@y>\0')):
    """The bytes of a connection with one message, with these packets between its recipients and its end."""
    return b''.join([
        packet(b'O' + struct.pack('>III', 6, 0x1ff, 0x1fffff)), packet(b'Chost\0004\0\x19192.0.2.1\0'),
        packet(b'Hhelo\0'), packet(b'DM{x}\0value\0'), packet(b'M<a@x>\0'), recipients, packet(b'T'), middle,
        packet(b'E'), packet(b'Q')])


def run(program, rules, given):
    """The processor time of a run on these bytes, in user mode."""
    with open(given, 'rb') as stdin:
        started = subprocess.Popen([program, 'answer', '--rules', rules], stdin=stdin, stdout=subprocess.DEVNULL)
        _, status, used = os.wait4(started.pid, 0)
    if status:
        sys.exit('answer ended with status %d' % status)
    return used.ru_utime


def fastest(programs, rules, given):
    """The time of the fastest run of each program, which run in turn."""
    turns = [[run(program, rules, given) for program in programs] for _ in range(RUNS)]
    return [min(times) for times in zip(*turns)]


def seconds(program, rules, given):
    """The time of the fastest run of a program."""
    return fastest([program], rules, given)[0]


def written(folder, name, content):
    path = os.path.join(folder, name)
    with open(path, 'wb') as file:
        file.write(content)
    return path


def has_test(field, test):
    """Whether a condition on the field may have the test."""
    return not (test == 'under' and field not in DOMAINS or test == 'like' and field == 'body')


def conditions_on(fields):
    """The conditions on these fields, with each test that they may have: the field, the test and the condition."""
    tested = [
        (field, test, '%s %s' % (field, condition))
        for field in fields for test, condition in TESTS.items() if has_test(field, test)]
    return tested + [(field, 'in', '%s in %s' % (field, KINDS[field])) for field in fields if field in KINDS]


def lists_in(folder):
    """The lines of a rule file that name a list of each kind."""
    lines = []
    for kind, entry in ENTRIES.items():
        path = written(folder, kind, ''.join(entry % number + '\n' for number in range(LISTED)).encode())
        lines.append('list %s %s "%s"\n' % (kind, kind, path))
    return ''.join(lines)


def is_linear(times):
    """Whether each of these times, each of ten times as much as the one before, is at most so much of it."""
    return all(later <= MOST * max(time, LEAST) for time, later in zip(times, times[1:]))


def file_at_rcpt(condition, text, is_one):
    """The rules of a file in which so many texts are looked for in each recipient."""
    texts = ['"%s"' % text % number for number in range(RULES)]
    return ''.join(
        'at rcpt when %s %s do reject\n' % (condition, it) for it in ([' '.join(texts)] if is_one else texts)).encode()


def print_row(name, times, fault=''):
    print('%-30s %s%s' % (name, ' '.join('%8.3f' % time for time in times), fault and '  ' + fault))


def many_at_rcpt(program, folder, older):
    """Prints what many rules at rcpt cost, and by an older program where there is one; whether none is too dear."""
    paths = []
    for count in RECIPIENTS:
        recipients = b''.join(packet(b'R<user%04d@example.com>\0' % number) for number in range(count))
        paths.append(written(folder, 'rcpt%d' % count, message(packet(b'N'), recipients)))
    print('seconds for {:,} texts at rcpt, and {} recipients:'.format(
        RULES, ', '.join('{:,}'.format(count) for count in RECIPIENTS)))
    rules = written(folder, 'rules', file_at_rcpt(*AT_RCPT[0]))
    times, *before = zip(*(fastest([program] + [older] * bool(older), rules, path) for path in paths))
    is_well = not before or times[-1] <= MORE * before[0][-1]
    print_row('rcpt is, first form', times, '' if is_well else 'MORE THAN BEFORE')
    if before:
        print_row('the same, by the older program', before[0])
    else:
        print('the same by an older program is left out: there is none at OLD')
    for condition, text, is_one in AT_RCPT:
        rules = written(folder, 'rules', b'rules 2\n' + file_at_rcpt(condition, text, is_one))
        times = [seconds(program, rules, path) for path in paths]
        is_right = is_linear(times[1:])
        is_well &= is_right
        print_row(condition + ', one rule' * is_one, times, '' if is_right else 'NOT LINEAR')
    return is_well


def main(program, folder, older=''):
    given = {}
    for count in COUNTS:
        fields = b''.join(packet(b'LX\0 v%06d\0' % number) for number in range(count))
        given['header', count] = written(folder, 'header%d' % count, message(fields + packet(b'N')))
        with_macros = b''.join(
            packet(b'DL{y}\0%d\0' % number) + packet(b'LX\0 v%06d\0' % number) for number in range(count))
        given['macros', count] = written(folder, 'macros%d' % count, message(with_macros + packet(b'N')))
        chunks = b''.join(packet(b'B' + b'x') for _ in range(count))
        given['body', count] = written(folder, 'body%d' % count, message(packet(b'N') + chunks))
        recipients = b''.join(packet(b'R<user%06d@example.com>\0' % number) for number in range(count))
        given['rcpt', count] = written(folder, 'recipients%d' % count, message(packet(b'N'), recipients))
    failed = not many_at_rcpt(program, folder, older)
    others = [(*name.split(), condition) for name, condition in OTHERS.items()]
    all_conditions = conditions_on(FIELDS) + others
    at_rcpt = conditions_on([it for it in FIELDS if 'header' not in it and it != 'body'])
    lists = lists_in(folder)
    kinds = [
        ('rcpt', 'rcpt', 'recipients', at_rcpt + [it for it in others if it[0] == 'rcpts']),
        ('header', 'header', 'header fields', all_conditions), ('body', 'body', 'chunks of one byte', all_conditions),
        ('macros', 'header', 'header fields with macros before each', conditions_on(['macro "{x}"', 'macro "{y}"']))]
    for kind, stage, what, conditions in kinds:
        print('seconds for %s %s:' % (', '.join('{:,}'.format(count) for count in COUNTS), what))
        for field, test, condition in conditions:
            rule = 'rules 2\n%sat %s when %s do reject\n' % (lists, stage, condition)
            rules = written(folder, 'rules', rule.encode())
            times = [seconds(program, rules, given[kind, count]) for count in COUNTS]
            is_right = is_linear(times)
            failed |= not is_right
            print('%-18s %-6s %s%s' % (
                field, test, ' '.join('%8.3f' % time for time in times), '' if is_right else '  NOT LINEAR'))
    print('seconds for a body of {:,} bytes, by chunks of {} bytes:'.format(
        BODY, ', '.join('{:,}'.format(size) for size in SIZES)))
    paths = []
    for size in SIZES:
        whole, rest = divmod(BODY, size)
        chunks = packet(b'B' + b'x' * size) * whole + (packet(b'B' + b'x' * rest) if rest else b'')
        paths.append(written(folder, 'size%d' % size, message(packet(b'N') + chunks)))
    for _, test, condition in conditions_on(['body']):
        rules = written(folder, 'rules', ('rules 2\nat body when %s do reject\n' % condition).encode())
        times = [seconds(program, rules, path) for path in paths]
        # A byte of its own costs a packet; more than that is a body that is gone over again.
        is_right = all(time <= MOST * max(times[0], LEAST) for time in times)
        failed |= not is_right
        print('%-18s %-6s %s%s' % (
            'body', test, ' '.join('%8.3f' % time for time in times), '' if is_right else '  NOT LINEAR'))
    return 1 if failed else 0


if __name__ == '__main__':
    sys.exit(main(*sys.argv[1:]))
