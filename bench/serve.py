#!/usr/bin/env python3
"""Plays many connections at once on a filter, by bench/load.c.

    python3 bench/serve.py LOAD SOCKET rate BODY AT_ONCE CONNECTIONS MESSAGES COMMAND..
    python3 bench/serve.py LOAD SOCKET idle COUNT COMMAND..

starts the command on processor 1 and waits until it listens at the Unix socket. `rate` plays so many connections, some
of them at once, with so many messages each, by the program LOAD on processor 0, three times; it prints the least
nanoseconds that these took, and the least of the filter's own processor time (0 where others do its work). `idle`
prints the KiB of memory that the filter has beside so many idle connections, before them and with them. The message is
that of bench/filter.py, with a body of so many bytes.
"""
import os
import subprocess
import sys
import tempfile
import time

import filter as small

TIMES = 3


def processor_time(process):
    """The nanoseconds of processor time of a process."""
    with open('/proc/%d/stat' % process) as stat:
        ticks = sum(map(int, stat.read().rpartition(')')[2].split()[11:13]))
    return ticks * 10 ** 9 // os.sysconf('SC_CLK_TCK')


def memory(process):
    """The KiB of memory of a process."""
    with open('/proc/%d/status' % process) as status:
        return next(int(line.split()[1]) for line in status if line.startswith('VmRSS:'))


def is_there(path):
    """Whether a program listens at this path."""
    with open('/proc/net/unix') as sockets:
        return any(line.split()[3] == '00010000' and line.rstrip().endswith(' ' + path) for line in sockets)


def rate(process, load, path, script, opening, words):
    """The least times of a load."""
    walls, own = [], []
    for _ in range(TIMES):
        before = processor_time(process)
        command = ['taskset', '-c', '0', load, path, script, str(opening)] + words
        walls.append(int(subprocess.run(command, stdout=subprocess.PIPE, check=True).stdout))
        own.append(processor_time(process) - before)
    print(min(walls), min(own))


def idle(process, load, path, script, opening, count):
    """The memory of a filter before and with idle connections."""
    before = memory(process)
    command = [load, path, script, str(opening), count, count, '0']
    with subprocess.Popen(command, stdin=subprocess.PIPE, stdout=subprocess.PIPE) as loading:
        loading.stdout.readline()
        time.sleep(0.5)
        print(before, memory(process))
        loading.stdin.close()


def main():
    load, path, what, *words = sys.argv[1:]
    count = 4 if what == 'rate' else 1
    options, command = words[:count], words[count:]
    started = subprocess.Popen(['taskset', '-c', '1'] + command, stdout=subprocess.DEVNULL)
    try:
        while not is_there(path):
            if started.poll() is not None:
                sys.exit('the filter ended with status %d' % started.returncode)
            time.sleep(0.02)
        with tempfile.NamedTemporaryFile() as script:
            opening = b''.join(small.opening())
            script.write(opening)
            if what == 'rate':
                script.write(b''.join(small.message(int(options[0]))))
            script.flush()
            if what == 'rate':
                rate(started.pid, load, path, script.name, len(opening), options[1:])
            else:
                idle(started.pid, load, path, script.name, len(opening), options[0])
    finally:
        started.kill()
        started.wait()


if __name__ == '__main__':
    main()
