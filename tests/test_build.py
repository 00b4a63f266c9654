#!/usr/bin/env python3
"""Builds small repositories by tools/build.py: what is built runs, is taken over where nothing changed and built again
where something did, and says that it isn't proved; a failed check says so and ends the program by SIGILL; a fault of the
source is printed as the compiler says it, with status 1; a folder that can't be written is named; and after Ctrl-C
nothing is left running. A new toolchain in which tools/build.py no longer finds its way fails here.

The last line is 'N passed, M failed'; the status is 1 where one failed.
"""
import contextlib
import os
import signal
import subprocess
import sys
import tempfile
import time

from lib import runner
from lib.programs import TOP, ended, written

BUILD = [sys.executable, os.path.join(TOP, 'tools', 'build.py')]
NEWS = b'build: nothing is proved of what this builds; `make prove` proves it\n'
# The program prints its version, and then an element of five, by the number that stands on its standard input.
MAIN = '''//! A small program.
#![tactic(auto)]

use std::io::Read;

/// The version of the program.
pub const VERSION: &str = "1.2";

fn main(rt: HostRuntime) -> anyhow::Result<()> {
    let mut given = Vec::new(rt.alloc());
    rt.reader().read_to_end(&mut given)?;
    println!(rt; "{VERSION}")?;
    let place = given.len();
    println!(rt; "{}", [2, 3, 5, 7, 11][place])?;
    Ok(())
}
'''
FAILED = b'a check failed that a proof rules out; this program was built without one\n'


@contextlib.contextmanager
def repository(text=MAIN):
    """A folder with one crate, the program `small`."""
    with tempfile.TemporaryDirectory() as top:
        os.makedirs(os.path.join(top, 'crates', 'small', 'src'))
        written(os.path.join(top, 'crates.txt'), 'small: anyhow\n')
        written(os.path.join(top, 'crates', 'small', 'src', 'main.rt'), text)
        yield top


def built(top):
    """How tools/build.py ends that builds the program."""
    return ended([*BUILD, '--top', top, 'small'])


def runs():
    """What is built, by what it prints; once more with nothing changed, and with another text."""
    with repository() as top:
        program, source = os.path.join(top, 'build', 'small'), os.path.join(top, 'crates', 'small', 'src', 'main.rt')
        end = built(top)
        yield None if end[0] == 0 and end[2].startswith(NEWS) else 'not built: %s' % (end,)
        version = b'1.2 (built without its proof)\n'
        yield None if ended([program], b'ab') == (0, version + b'5\n', b'') else 'it prints otherwise'
        end = ended([program], b'abcde')
        yield None if end == (-signal.SIGILL, version, FAILED) else 'a failed check: %s' % (end,)
        end = built(top)
        yield None if end == (0, b'', b'') else 'built again: %s' % (end,)
        written(source, MAIN.replace('2, 3, 5', '2, 3, 6'))
        built(top)
        yield None if ended([program], b'ab') == (0, version + b'6\n', b'') else 'the change is not built'


def faulty():
    """A source with a fault, and one that can't be read as Rattle at all."""
    for change, said in [(('given.len()', 'given.length()'), b'crates/small/src/main.rt:13:17: error['),
                         (('fn main(', 'fn main'), b'crates/small/src/main.rt:')]:
        with repository(MAIN.replace(*change)) as top:
            status, out, errors = built(top)
            is_well = (status, out) == (1, b'') and said in errors and errors.endswith(b'build: small is not built\n')
            yield None if is_well else 'a fault of the source: %s' % ((status, out, errors),)
            yield None if not os.path.exists(os.path.join(top, 'build', 'small')) else 'something is built'


def unwritable():
    """A file where the folder is to be, and a name that crates.txt doesn't have."""
    with repository() as top:
        place = written(os.path.join(top, 'build'), '')
        status, _, errors = built(top)
        yield None if status == 1 and place.encode() in errors else 'an unwritable folder: %r' % errors
        os.remove(place)
        end = ended([*BUILD, '--top', top, 'large'])
        yield None if end[0] == 1 and end[2] else 'a crate that is not there: %s' % (end,)


def at_work(top):
    """The processes that have to do with this folder."""
    found = []
    for process in filter(str.isdigit, os.listdir('/proc')):
        with contextlib.suppress(OSError), open('/proc/%s/cmdline' % process, 'rb') as words:
            if top.encode() in words.read():
                found.append(process)
    return found


def interrupted():
    """After Ctrl-C nothing runs on, and no folder of the work is left."""
    with repository() as top:
        with subprocess.Popen([*BUILD, '--top', top, 'small'], stderr=subprocess.DEVNULL) as build:
            while len(at_work(top)) < 2 and build.poll() is None:
                time.sleep(0.05)
            time.sleep(1)
            build.send_signal(signal.SIGINT)
            status = build.wait()
        yield None if status == 128 + signal.SIGINT else 'it was interrupted, and ended with %d' % status
        time.sleep(0.2)
        yield None if not at_work(top) else 'processes are left: %s' % at_work(top)
        left = [it for it in os.listdir(os.path.join(top, 'build')) if it.startswith('work')]
        yield None if not left else 'left: %s' % left


if __name__ == '__main__':
    sys.exit(runner.run_all([runs, faulty, unwritable, interrupted]))
