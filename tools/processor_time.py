#!/usr/bin/env python3
"""Says how much time of a processor the proofs of each crate take, while another command makes them.

    tools/processor_time.py FIGURES

It looks at the checker's processes on this machine, twice a second, until it is asked to end (SIGTERM). Then it prints
a line for each of the ten dearest crates, and for all of them; and a line for each crate that took more than a quarter
more than FIGURES says, a file with a crate and its seconds in each line. Seconds of a crate are those of its proof, its
tests and its mutants. A crate whose proof was kept by an earlier run takes none, and one that takes less than a minute
is not compared: other work beside makes a difference of a fifth.
"""

import os
import re
import signal
import sys
import time

PAUSE = 0.5
DEAREST = 10
# What a crate has to take at least, in seconds, and how much more than before, to be named.
COMPARED, MORE = 60, 1.25
TICKS = os.sysconf("SC_CLK_TCK")


def read(path):
    """The bytes of a file; none where it is gone."""
    try:
        with open(path, "rb") as file:
            return file.read()
    except OSError:
        return b""


def crate_of(process):
    """The crate that a process of the checker proves; none where it is another process."""
    found = re.search(rb"/rattle\0.*--crate-name\0(\w+)", read(f"/proc/{process}/cmdline"), re.DOTALL)
    return found and found[1].decode()


def watch(times):
    """Takes note of each process of the checker that runs now: its crate, and the time of a processor that it has taken
    with its threads and the processes that it ended. A process is known by its number and the time of its start."""
    for process in filter(str.isdigit, os.listdir("/proc")):
        fields = read(f"/proc/{process}/stat").rpartition(b")")[2].split()
        if len(fields) > 19:
            name = process, fields[19]
            crate = times[name][0] if name in times else crate_of(process)
            if crate:
                times[name] = crate, sum(map(int, fields[11:15])) / TICKS


def by_crate(times):
    """The seconds of each crate."""
    found = {}
    for crate, seconds in times.values():
        found[crate] = found.get(crate, 0) + seconds
    return found


def report(found, before):
    """Prints the dearest crates, all of them, and those that take more than before."""
    for crate in sorted(found, key=lambda it: -found[it])[:DEAREST]:
        print(f"{found[crate]:8.0f} s  {crate}")
    print(f"{sum(found.values()) / 60:8.1f} processor minutes for the proofs of {len(found)} crates")
    for crate, seconds in sorted(found.items()):
        if seconds > max(COMPARED, MORE * before.get(crate, seconds)):
            print(f"{crate} takes {seconds:.0f} s of a processor, and took {before[crate]:.0f} s")


def main():
    (figures,) = sys.argv[1:]
    lines = [line.split() for line in read(figures).decode().splitlines()]
    before = {crate: float(seconds) for crate, seconds in lines}
    ends, times = [], {}
    signal.signal(signal.SIGTERM, lambda *_: ends.append(True))
    while not ends:
        watch(times)
        time.sleep(PAUSE)
    report(by_crate(times), before)


if __name__ == "__main__":
    main()
