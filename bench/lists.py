"""Reads lists of rule files with 1,000,000 entries of each kind by `milter_tool answer`, looks for values in them, and
prints what that costs: the seconds and MiB to read a list, and the lookups a second of values that are in it and that
aren't. Beside each is the same by sets of Python. Ends with status 1 where a list takes more than a second or 200 MiB,
or where fewer than 100,000 values a second are looked for.

    python3 lists.py PROGRAM FOLDER

Seconds are of the processor, in user mode and in the system. To read a list is a run on a connection without a client,
less the same with a list of one entry. A lookup is a rule `at rcpt when FIELD in L do reject` for one recipient, less
the same rule without the condition; so it also brings an address or a domain into its canonical form. Networks are
looked up at connect, for one client after another on one connection.
"""
import ipaddress
import os
import resource
import socket
import struct
import subprocess
import sys
import time

from rules import RUNS, packet

ENTRIES = 1_000_000
# How many values of each are looked for.
LOOKUPS = {'addresses': 250_000, 'domains': 250_000, 'networks': 50_000, 'texts': 250_000}
# The recipients of a message.
RECIPIENTS = 1_000
# The most seconds and MiB that a list may take to read, and the least lookups a second.
MOST_SECONDS = 1
MOST_MIB = 200
LEAST_LOOKUPS = 100_000
# How many numbers there are, of which each has an entry and a value of its own.
NUMBERS = 10_000_000
REFUSAL = b'\0\0\0\1r'


def numbers(places):
    """The numbers of these places: no two are the same, and neighbours are far from each other."""
    return (place * 7_368_787 % NUMBERS for place in places)


def address(number):
    return 'user%07d@host%03d.example.com' % (number, number % 1_000)


def domain(number):
    return 'host%07d.example.com' % number


def text(number):
    return 'Name-%07d' % number


def ipv4(number):
    """An address whose first 24 bits no other number has."""
    return socket.inet_ntoa(struct.pack('>I', number * 429))


def ipv6(number):
    """An address whose first 48 bits no other number has."""
    return socket.inet_ntop(socket.AF_INET6, ((0x2000 << 112) + (number << 80) + 1).to_bytes(16, 'big'))


# For each list its kind, the field that is looked for in it, and the entry and the value of a number.
LISTS = {
    'addresses': ('addresses', 'rcpt-address', address, lambda number: '<%s>' % address(number)),
    'domains': ('domains', 'rcpt-domain', domain, lambda number: '<user@%s>' % domain(number)),
    'IPv4 networks': ('networks', 'address', lambda number: '%s/%d' % (ipv4(number), 24 + number % 9), ipv4),
    'IPv6 networks': ('networks', 'address', lambda number: '%s/%d' % (ipv6(number), 48 + number % 17), ipv6),
    'texts': ('texts', 'rcpt', text, text)}


def client(value):
    return packet(b'Chost\0%d\0\x19' % (6 if ':' in value else 4) + value.encode() + b'\0')


def connection(kind, values):
    """The packets of a connection with a client for each of the values, or with a recipient for each."""
    yield packet(b'O' + struct.pack('>III', 6, 0x1ff, 0x1fffff))
    if kind == 'networks':
        yield from (client(value) + packet(b'K') for value in values)
    else:
        yield client('192.0.2.1') + packet(b'Hhelo\0')
        for place, value in enumerate(values):
            if place % RECIPIENTS == 0:
                yield packet(b'M<a@x>\0')
            yield packet(b'R' + value.encode() + b'\0')
            if (place + 1) % RECIPIENTS == 0:
                yield packet(b'T') + packet(b'N') + packet(b'E')
    yield packet(b'Q')


def file_of(folder, name, parts):
    """The path of a new file of these parts, which aren't kept: a run has at least the peak of who starts it."""
    path = os.path.join(folder, name)
    with open(path, 'wb') as file:
        file.writelines(parts)
    return path


def list_of(folder, name, entry, count):
    """The path of a new list of so many entries."""
    return file_of(folder, name, (entry(number).encode() + b'\n' for number in numbers(range(count))))


def rules_of(folder, name, kind, listed, condition):
    """The path of a new file of one rule with this condition, and of a list."""
    stage = 'connect' if kind == 'networks' else 'rcpt'
    rule = 'rules 2\nlist L %s "%s"\nat %s %sdo reject\n' % (kind, os.path.basename(listed), stage, condition)
    return file_of(folder, name, [rule.encode()])


def run(program, rules, given, refused):
    """The seconds of a run on these bytes, which refuses so many, and its peak in KiB."""
    with open(given, 'rb') as stdin, open(given + '.answers', 'w+b') as stdout:
        started = subprocess.Popen([program, 'answer', '--rules', rules], stdin=stdin, stdout=stdout)
        _, status, used = os.wait4(started.pid, 0)
        stdout.seek(0)
        found = stdout.read().count(REFUSAL)
    if status or found != refused:
        sys.exit('answer ended with status %d, and refused %d in place of %d' % (status, found, refused))
    return used.ru_utime + used.ru_stime, used.ru_maxrss


def least(runs):
    """The least of each figure of the runs."""
    return [min(figures) for figures in zip(*runs)]


def reading(program, rules_of_one, rules, start):
    """The seconds to read a list, and the MiB that a run has with it."""
    before = least(run(program, rules_of_one, start, 0) for _ in range(RUNS))
    after = least(run(program, rules, start, 0) for _ in range(RUNS))
    return after[0] - before[0], after[1] / 1024


def lookups(program, unlisted, rules, given, count, found):
    """The lookups a second of so many values of a connection, of which so many are found."""
    without, of_list = least(
        (run(program, unlisted, given, count)[0], run(program, rules, given, found)[0]) for _ in range(RUNS))
    return count / (of_list - without)


def here(program, folder, kind, field, paths, places, value):
    """What the program takes for a list, and for the values of these places, of which the first are in it."""
    condition = 'when %s in L ' % field
    one, rules, unlisted = (
        rules_of(folder, *words) for words in (
            ('one', kind, paths[0], condition), ('rules', kind, paths[1], condition), ('unlisted', kind, paths[1], '')))
    figures = reading(program, one, rules, file_of(folder, 'start', connection(kind, ())))
    for is_in, of_values in zip((True, False), places):
        given = file_of(folder, 'given', connection(kind, map(value, numbers(of_values))))
        count = len(of_values)
        figures += (lookups(program, unlisted, rules, given, count, count * is_in),)
    return figures


def in_texts(path):
    """Whether a value is in this list of addresses or of texts, by a set of Python."""
    with open(path) as file:
        entries = {line.rstrip('\n').lower() for line in file}
    return lambda value: value.strip('<>').lower() in entries


def in_domains(path):
    """Whether the domain of a value is in this list, or what it ends with, by a set of Python."""
    with open(path) as file:
        entries = {line.rstrip('\n').lower() for line in file}

    def is_in(value):
        domain = value.rstrip('>').rpartition('@')[2].lower()
        labels = domain.split('.')
        return domain in entries or any('.' + '.'.join(labels[at:]) in entries for at in range(1, len(labels)))
    return is_in


def in_networks(path):
    """Whether an address is in a network of this list, by a set of Python for each number of fixed bits."""
    networks = {}
    with open(path) as file:
        for line in file:
            network = ipaddress.ip_network(line.rstrip('\n'), strict=False)
            shift = network.max_prefixlen - network.prefixlen
            networks.setdefault(shift, set()).add(int(network.network_address) >> shift)

    def is_in(value):
        number = int(ipaddress.ip_address(value))
        return any(number >> shift in found for shift, found in networks.items())
    return is_in


PEERS = {'addresses': in_texts, 'domains': in_domains, 'networks': in_networks, 'texts': in_texts}


def peer(kind, path, *given):
    """Prints what this process takes for a list, and for the values in each file: all of them are in it, or none."""
    begun = time.process_time()
    is_in = PEERS[kind](path)
    figures = [time.process_time() - begun, resource.getrusage(resource.RUSAGE_SELF).ru_maxrss / 1024]
    for is_found, values in zip((True, False), given):
        with open(values) as file:
            lines = file.read().split()
        begun = time.process_time()
        found = sum(map(is_in, lines))
        figures.append(len(lines) / (time.process_time() - begun))
        if found != len(lines) * is_found:
            sys.exit('%d of %d values are found' % (found, len(lines)))
    print(*figures)


def in_python(kind, path, given):
    """What Python takes for the same: the shortest times, and so the most lookups."""
    command = [sys.executable, __file__, 'peer', kind, path] + given
    runs = [
        [float(figure) for figure in subprocess.run(command, stdout=subprocess.PIPE, check=True).stdout.split()]
        for _ in range(RUNS)]
    seconds, peaks, *rates = zip(*runs)
    return [min(seconds), min(peaks), *map(max, rates)]


def print_row(name, who, figures, fault=''):
    print('%-14s %-8s %6.2f %6.0f %10.0f %10.0f%s' % (name, who, *figures, fault and '  ' + fault), flush=True)


def measure(program, folder, name):
    """Prints what a list takes, here and in Python; whether it takes no more than it may."""
    kind, field, entry, value = LISTS[name]
    count = LOOKUPS[kind]
    places = range(0, ENTRIES, ENTRIES // count), range(ENTRIES, ENTRIES + count)
    paths = [list_of(folder, 'list%d' % length, entry, length) for length in (1, ENTRIES)]
    figures = here(program, folder, kind, field, paths, places, value)
    is_well = figures[0] <= MOST_SECONDS and figures[1] <= MOST_MIB and min(figures[2:]) >= LEAST_LOOKUPS
    print_row(name, 'here', figures, '' if is_well else 'TOO MUCH')
    given = [
        file_of(folder, 'values%d' % at, (value(number).encode() + b'\n' for number in numbers(of_values)))
        for at, of_values in enumerate(places)]
    print_row(name, 'Python', in_python(kind, paths[1], given))
    return is_well


def main(program, folder):
    print('lists of {:,} entries: seconds, MiB, and lookups a second of values in them and of others:'.format(ENTRIES))
    return 0 if all([measure(program, folder, name) for name in LISTS]) else 1


if __name__ == '__main__':
    if sys.argv[1] == 'peer':
        peer(*sys.argv[2:])
    else:
        sys.exit(main(*sys.argv[1:]))
