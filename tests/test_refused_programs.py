#!/usr/bin/env python3
"""Checks that the compiler refuses each program of tests/refused_programs/, with each error that a line
`// refused: TEXT` of it has: what the libraries' types are to forbid. Its line `// libraries: NAME..` has what it
uses. (Their files end in .txt, since a .rt file may be in a crate alone.) Nothing is proved here.
"""
import glob
import os
import re
import shutil
import subprocess
import sys
import tempfile

from lib import runner
from lib.programs import TOP

# The crate that each program is tried as.
CRATE = 'refused_program'


def libraries():
    """The crates that are libraries, lowest first: of each its name, and its line of crates.txt."""
    with open(os.path.join(TOP, 'crates.txt'), encoding='utf-8') as file:
        for line in file:
            crate = line.partition(':')[0]
            if os.path.isfile(os.path.join(TOP, 'crates', crate, 'src', 'lib.rt')):
                yield crate, line


def copy_libraries(folder):
    """Copies the libraries to a folder, and answers their lines of crates.txt."""
    shutil.copy(os.path.join(TOP, 'HANDLES'), folder)
    lines = ''
    for crate, line in libraries():
        lines += line
        for part in ['src', 'specs', 'proofs']:
            path = os.path.join('crates', crate, part)
            if os.path.isdir(os.path.join(TOP, path)):
                shutil.copytree(os.path.join(TOP, path), os.path.join(folder, path))
    return lines


def said_of(program, folder, lines):
    """What the compiler says of the text of a program, beside the libraries with these lines in this folder."""
    crate = os.path.join(folder, 'crates', CRATE)
    os.makedirs(os.path.join(crate, 'src'), exist_ok=True)
    with open(os.path.join(folder, 'crates.txt'), 'w', encoding='utf-8') as file:
        file.write(lines + '%s: %s\n' % (CRATE, ' '.join(re.findall(r'^// libraries: (.*)', program, re.M))))
    with open(os.path.join(crate, 'src', 'main.rt'), 'w', encoding='utf-8') as file:
        file.write(program)
    done = subprocess.run(['rt', 'try'], cwd=crate, stdout=subprocess.PIPE, stderr=subprocess.STDOUT, check=False)
    return done.stdout.decode(errors='replace')


def play():
    """All programs, one after another, beside the same copy of the libraries."""
    with tempfile.TemporaryDirectory() as folder:
        lines = copy_libraries(folder)
        for path in sorted(glob.glob(os.path.join(TOP, 'tests', 'refused_programs', '*.txt'))):
            with open(path, encoding='utf-8') as file:
                program = file.read()
            said = said_of(program, folder, lines)
            errors = re.findall(r'^// refused: (.*)', program, re.M)
            is_refused = bool(errors) and all(error in said for error in errors)
            end = '\n'.join(said.splitlines()[-3:])
            yield None if is_refused else '%s was not refused as it says: %s' % (os.path.basename(path), end)


if __name__ == '__main__':
    sys.exit(runner.run_all([play]))
