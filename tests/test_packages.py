#!/usr/bin/env python3
"""Makes the tar file and the Debian packages of the proved program and of the library for C, in copies of what they
are made of, installs both in a folder, and looks at what is there: the program runs, its manual page has each
subcommand, mandoc finds no mistake in the pages where it is installed, bash completes the program's words, and so do
zsh and fish where they are installed, the units start the program where it is, and the documents are there. With the
library a program in C is compiled and run, and so is one in Python; its manual page has each function. No two packages
have the same file. Two tar files are the same, and `make uninstall` removes what `make install` put, and nothing else.
And the units of systemd/ say what they are, and are those that docs/SERVICE.md shows; those that make a Unix socket give
it a group and a mode, and the one of `serve` is exposed as little as systemd-analyze says, where that is installed.

`tests/test_packages.py ARCHIVE` takes another archive of the library than that in build/. The packages for Debian are made where debhelper
is installed; tests/packages.sh installs them. The last line is 'N passed, M failed'; the status is 1 where one failed.
"""
import functools
import glob
import gzip
import os
import re
import shutil
import subprocess
import sys
import tempfile

from lib import c_library, completions, packed, programs, runner
from lib.programs import BUILDS, TOP, ended, need, tool, written

USE = '#include <deiruska.h>\nint main(void) { return (deiruska_version() & ~DEIRUSKA_UNPROVED) != DEIRUSKA_VERSION; }\n'
# The sections of manual pages, and the pages of the program and of the library.
PAGES = ['man1/milter_tool.1', 'man5/milter_rules.5', 'man5/milter_session.5'], ['man3/deiruska.3']
# The most that systemd-analyze says of the exposure of this unit, in tenths.
HARDENED, EXPOSURE_MAX = 'deiruska-serve.service', 15
# The folder of the library in a package for Debian.
LIB = 'lib/x86_64-linux-gnu'
UNITS = sorted(os.listdir(os.path.join(TOP, 'systemd')))


def read(*path):
    """The text of a file."""
    with open(os.path.join(*path), encoding='utf-8') as file:
        return file.read()


def unpacked(package, place):
    """Unpacks a package in a folder, and answers that."""
    os.makedirs(place, exist_ok=True)
    is_tar = package.endswith('.tar.gz')
    subprocess.run(['tar', '-xzf', package, '-C', place] if is_tar else ['dpkg-deb', '-x', package, place], check=True)
    return place


def looked_at(root, folder_of_program, units_at=None):
    """Looks at what is unpacked below a root. The units name the program in this folder, and are in lib/systemd/system
    where no other folder is given."""
    program = os.path.join(root, 'bin', 'milter_tool')
    helped = subprocess.run([program, '--help'], stdout=subprocess.PIPE, check=False, text=True)
    yield None if helped.returncode == 0 else '%s does not run' % program
    with gzip.open(os.path.join(root, 'share', 'man', 'man1', 'milter_tool.1.gz'), 'rt') as page:
        sections = re.findall(r'(?m)^\.SH MILTER_TOOL (\w+)', page.read())
    commands = re.findall(r'(?m)^  (\w+)  ', helped.stdout)
    yield None if sections + ['HELP'] == [it.upper() for it in commands] else 'the manual page has %s' % sections
    yield from linted(os.path.join(root, 'share', 'man'), PAGES[0])
    yield from completions.checked(os.path.join(root, 'share'), folder_of_program == '/usr/bin')
    for unit in UNITS:
        started = re.findall(r'(?m)^ExecStart=(\S+)', read(units_at or os.path.join(root, 'lib/systemd/system'), unit))
        is_well = started.count(folder_of_program + '/milter_tool') == len(started)
        is_well &= bool(started) == unit.endswith('.service')
        yield None if is_well else '%s starts %s' % (unit, started)
    for name in ['docs/TESTING.md', 'examples/conversation.trace']:
        yield None if read(TOP, name) == read(root, 'share', 'doc', 'deiruska', name) else '%s differs' % name
    yield from documented(os.path.join(root, 'share', 'doc', 'deiruska'), 16)


def documented(folder, least):
    """Whether there are so many documents at least, and each link of theirs leads to a file of the folder; and each but
    for its links is a document of the repository."""
    documents = glob.glob(os.path.join(folder, '**', '*.md'), recursive=True)
    yield None if len(documents) >= least else 'documents: %s' % documents
    for document in documents:
        name = os.path.relpath(document, folder)
        for target in re.findall(r'\]\(([^)#:\s]+)', read(document)):
            path = os.path.join(os.path.dirname(document), target)
            yield None if os.path.isfile(path) else '%s: a link to %s' % (name, target)
        given = [path for path in [os.path.join(TOP, name), os.path.join(TOP, 'docs', name)] if os.path.exists(path)]
        whole, lines = read(given[0]).splitlines(), read(document).splitlines()
        same = len(whole) == len(lines) and all(one == other for one, other in zip(whole, lines) if '](' not in one)
        yield None if same else '%s differs in more than its links' % name


def linted(folder, names):
    """Whether each manual page is there and, where mandoc is, has no mistake for it."""
    for name in names:
        path = os.path.join(folder, name + '.gz')
        yield None if os.path.exists(path) else 'no manual page %s' % name
        if shutil.which('mandoc'):
            found = subprocess.run(['mandoc', '-T', 'lint', '-W', 'warning', path], stdout=subprocess.PIPE,
                                   stderr=subprocess.STDOUT, check=False, text=True).stdout
            yield None if not found else 'mandoc of %s: %s' % (name, found)


def compiled(prefix, libdir, folder):
    """How a program ends that was compiled with the library below a prefix, statically and with the shared library; and
    its settings for pkg-config."""
    source, lib = written(os.path.join(folder, 'use.c'), USE), os.path.join(prefix, libdir)
    for name, words in [('static', [os.path.join(lib, 'libdeiruska.a')]), ('shared', ['-L', lib, '-ldeiruska'])]:
        program = os.path.join(folder, name)
        include = os.path.join(prefix, 'include')
        subprocess.run(['cc', '-I', include, source, '-o', program, *words], check=True)
        yield ended([program], env={**os.environ, 'LD_LIBRARY_PATH': lib})
    settings = dict(line.split('=', 1) for line in read(lib, 'pkgconfig/deiruska.pc').splitlines() if '=' in line)
    yield settings['prefix'], settings['libdir'], settings['includedir']


def library(prefix, target, libdir, documents, python, folder):
    """Looks at the library below a prefix, which is to be at a target. There are the folders of the library and of its
    documents, and somewhere that of the package for Python."""
    yield from linted(os.path.join(prefix, 'share/man'), PAGES[1])
    with gzip.open(os.path.join(prefix, 'share/man/man3/deiruska.3.gz'), 'rt') as page:
        text = page.read()
    missing = [name for name in c_library.functions() if not re.search(r'\b%s\(' % name, text)]
    yield 'the manual page lacks %s' % missing if missing else None
    for name in ['C.md', 'examples/filter.c', 'examples/filter.rs', 'examples/test_filter.py']:
        yield None if os.path.isfile(os.path.join(prefix, 'share/doc', documents, name)) else '%s is missing' % name
    yield from documented(os.path.join(prefix, 'share/doc', documents), 1)
    wanted = [(0, b'', b''), (0, b'', b''), (target, '${prefix}/' + libdir, '${prefix}/include')]
    found = list(compiled(prefix, libdir, folder))
    yield None if found == wanted else 'what is compiled: %s' % found
    environment = {**os.environ, 'PYTHONPATH': python, 'PYTHONDONTWRITEBYTECODE': '1',
                   'DEIRUSKA_LIBRARY': os.path.join(prefix, libdir, 'libdeiruska.so.0')}
    end = ended([sys.executable, '-c', 'import deiruska.testing; print(deiruska.version())'], env=environment)
    expected = version() + programs.unproved().encode()
    yield None if end == (0, b'%s\n' % expected, b'') else 'the package for Python: %s' % (end,)


def version():
    """The number of the program's version."""
    return ended([tool(BUILDS[0]), '--version'])[1].split()[1]


def tree(root):
    """All files and folders below a root."""
    found = [os.path.join(at, name) for at, folders, names in os.walk(root) for name in folders + names]
    return sorted(os.path.relpath(it, root) for it in found)


def placed(archive):
    """Installs into a folder in which there are a file of another program and an empty folder, twice, looks at what is
    there, and uninstalls it again."""
    with tempfile.TemporaryDirectory() as folder:
        packed.copied(folder, archive)
        script, root = os.path.join(folder, 'tools', 'package.sh'), os.path.join(folder, 'root')
        prefix = os.path.join(root, 'usr', 'local')
        for name in ['bin', 'man/man1', 'share/man/man5']:
            os.makedirs(os.path.join(prefix, name))
        foreign = written(os.path.join(prefix, 'bin', 'foreign'), 'of another program')
        before = tree(root)
        for _ in range(2):
            yield (None if ended(['bash', script, 'install', root, '/usr/local'])[0] == 0 else 'it is not installed')
        yield from looked_at(prefix, '/usr/local/bin')
        if archive is not None:
            yield from library(prefix, '/usr/local', 'lib', 'libdeiruska', c_library.BINDING, folder)
        end = ended(['bash', script, 'uninstall', root, '/usr/local'])
        left = sorted(set(tree(root)) ^ set(before))
        yield None if end == (0, b'', b'') and not left else 'not uninstalled: %s, %s' % (end, left)
        yield None if read(foreign) == 'of another program' else 'a file of another program is changed'
        end = ended(['bash', script, 'uninstall', root, '/usr/local'])
        yield None if end[0] == 1 and b'is not there' in end[2] else 'uninstalled twice: %s' % (end,)


def archived():
    """Looks at the tar file, which is the same when it is made again."""
    with tempfile.TemporaryDirectory() as folder:
        packed.copied(folder, None)
        [package] = packed.packages_of(folder, 'dist')
        first = bytes_of(package)
        yield from looked_at(glob.glob(unpacked(package, os.path.join(folder, 'unpacked')) + '/*')[0], '/usr/local/bin')
        yield None if [bytes_of(it) for it in packed.packages_of(folder, 'dist')] == [first] else 'two tar files differ'


def refused():
    """Whether neither `make dist` nor `make deb` packs a program that was built without its proof, but where it is
    asked to."""
    with tempfile.TemporaryDirectory() as folder:
        packed.copied(folder, None)
        program = os.path.join(folder, 'build', 'milter_tool')
        os.chmod(written(program, '#!/bin/sh\necho "milter_tool 0.1.0 (built without its proof)"\n'), 0o755)
        for kind in ['dist', 'deb']:
            end = ended(['bash', os.path.join(folder, 'tools', 'package.sh'), kind], env={**os.environ, 'UNPROVED': ''})
            is_said = end[2] == b'make %s takes the proved program: run `make prove`, or set UNPROVED=1\n' % kind.encode()
            yield None if end[:2] == (1, b'') and is_said else 'packed without a proof: %s' % (end,)


def bytes_of(path):
    """The bytes of a file."""
    with open(path, 'rb') as file:
        return file.read()


def rules():
    """Whether the rules of the package for Debian have no fault and no rule, and its version is the program's."""
    path = os.path.join(TOP, 'debian', 'mail.rules')
    end = ended([tool(BUILDS[0]), 'rules', '--check', path])
    yield None if end == (0, b'', b'') else 'debian/mail.rules: %s' % (end,)
    printed = ended([tool(BUILDS[0]), 'rules', path])[1]
    yield None if b'version' in printed and b'\nat ' not in printed else 'debian/mail.rules has rules: %s' % printed
    newest = re.match(r'deiruska \((.*?)\)', read(TOP, 'debian', 'changelog'))[1]
    yield None if newest.encode() == version() else 'debian/changelog is of version %s' % newest


def packages(archive):
    """Looks at the packages for Debian, all of them unpacked in one folder."""
    with tempfile.TemporaryDirectory() as folder:
        packed.copied(folder, archive)
        root, files = os.path.join(folder, 'unpacked'), []
        for package in packed.packages_of(folder, 'deb'):
            listed = subprocess.run(['dpkg-deb', '-c', package], stdout=subprocess.PIPE, check=True, text=True).stdout
            files += [line.split(None, 5)[5] for line in listed.splitlines() if not line.startswith('d')]
            unpacked(package, root)
        yield None if len(set(files)) == len(files) else 'a file is in two packages'
        usr = os.path.join(root, 'usr')
        yield from looked_at(usr, '/usr/bin', os.path.join(root, 'lib/systemd/system'))
        python = os.path.join(usr, 'lib/python3/dist-packages')
        yield from library(usr, '/usr', LIB, 'libdeiruska-dev', python, folder)
        same = read(root, 'etc/deiruska/mail.rules') == read(TOP, 'debian', 'mail.rules')
        yield None if same else 'the rules of the package differ'
        shutil.rmtree(os.path.join(folder, 'build'))
        end = ended(['make', '-C', folder, '-f', 'debian/rules', 'override_dh_auto_install'])
        is_said = b"milter_tool is not there: run 'make prove'" in end[2]
        yield None if end[0] != 0 and is_said else 'packed without the program: %s' % (end,)


def units():
    """Whether each unit is called for the project and says what it is, and the document shows it as it is."""
    shown = read(TOP, 'docs', 'SERVICE.md')
    for unit in UNITS:
        described = re.findall(r'(?m)^Description=(\S.*)$', read(TOP, 'systemd', unit))
        is_well = len(described) == 1 and unit.startswith('deiruska-')
        yield None if is_well else '%s has the descriptions %s' % (unit, described)
        lines = ''.join('    ' + line if line.strip() else line for line in read(TOP, 'systemd', unit).splitlines(True))
        yield None if lines in shown else 'docs/SERVICE.md does not show %s as it is' % unit


def hardened():
    """Whether the units with a Unix socket say who may connect, and how little the one of `serve` is exposed."""
    for unit in UNITS:
        text = read(TOP, 'systemd', unit)
        if 'unix:' in text:
            wanted = ['Group=postfix', 'UMask=0007', 'RuntimeDirectory=deiruska', 'RuntimeDirectoryMode=0750']
            missing = [line for line in wanted if line not in text.splitlines()]
            yield '%s lacks %s' % (unit, missing) if missing else None
    if shutil.which('systemd-analyze'):
        for command in [['verify', '--man=no'], ['security', '--offline=true', '--threshold=%d' % EXPOSURE_MAX]]:
            with tempfile.TemporaryDirectory() as folder:
                path = os.path.join(folder, HARDENED)
                with open(path, 'w', encoding='utf-8') as unit:
                    unit.write(read(TOP, 'systemd', HARDENED).replace('/usr/local/bin/milter_tool', sys.executable))
                done = subprocess.run(['systemd-analyze', *command, path], stdout=subprocess.PIPE,
                                      stderr=subprocess.STDOUT, check=False, text=True)
                is_well = done.returncode == 0 and not re.search(re.escape(HARDENED) + r':\d+:', done.stdout)
                yield None if is_well else '%s of %s: %s' % (command, HARDENED, done.stdout[-1000:])


if __name__ == '__main__':
    need('tool')
    lacking = c_library.missing()
    if lacking:
        print('not installed, and the library is not looked at: %s' % ', '.join(lacking))
    its_archive = None if lacking else c_library.built(*sys.argv[1:])
    if completions.missing():
        print('not installed, and not asked what they complete: %s' % ', '.join(completions.missing()))
    plays = [functools.partial(placed, its_archive), archived, refused, rules, units, hardened]
    lacking += packed.missing()
    if lacking:
        print('not installed, and the packages for Debian are not made: %s' % ', '.join(lacking))
    else:
        plays.append(functools.partial(packages, its_archive))
    sys.exit(runner.run_all(plays))
