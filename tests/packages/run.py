#!/usr/bin/env python3
"""The checks of tests/packages.sh, which says what they are.

    python3 tests/packages/run.py ARCHIVE
"""
import contextlib
import os
import re
import shutil
import subprocess
import sys
import tempfile

HERE = os.path.dirname(os.path.abspath(__file__))
sys.path.insert(0, os.path.dirname(HERE))

from lib import packed, runner  # noqa: E402
from lib.programs import ended, written  # noqa: E402

SUITE = 'bookworm'
PACKAGES = ['deiruska', 'libdeiruska0', 'libdeiruska-dev', 'python3-deiruska']
# What is added to the version of the packages to which is upgraded.
NEWER = '+newer'
# The services, of which one is enabled before the upgrade, and the rules that an administrator writes.
SERVICE, RULES = 'deiruska-serve.service', 'rules 2\nat mail do reject\n'
UNITS = ['deiruska-answer.socket', 'deiruska-filter.service', SERVICE]
# Where files come and go whatever is installed.
CHANGING = (
    '/asked', '/enabled', '/packages', '/proc', '/tmp', '/var/cache', '/var/lib/apt', '/var/lib/dpkg', '/var/log')


def run(*command, **options):
    """Runs a command that passes, and answers what it printed."""
    done = subprocess.run(command, stdout=subprocess.PIPE, stderr=subprocess.STDOUT, check=False, text=True, **options)
    if done.returncode != 0:
        raise RuntimeError('%s: %s' % (' '.join(command), done.stdout[-2000:]))
    return done.stdout


def without_symbols(paths):
    """The packages that are installed here, by their names."""
    named = {os.path.basename(path).partition('_')[0]: path for path in paths}
    return {name: named[name] for name in PACKAGES}


def newer(folder):
    """Makes packages of a newer version in a copy."""
    path = os.path.join(folder, 'debian', 'changelog')
    with open(path, encoding='utf-8') as file:
        text = file.read()
    written(path, text.replace(')', NEWER + ')', 1) + '\n' + text)
    shutil.rmtree(os.path.join(folder, 'dist'))
    return without_symbols(packed.packages_of(folder, 'deb'))


class Debian:
    """A Debian in a folder."""

    def __init__(self, root):
        self.root = root

    @contextlib.contextmanager
    def made(self):
        """Makes it. Its /proc is mounted for as long as it is used: below a folder that is removed it must not be."""
        run('debootstrap', '--variant=minbase', SUITE, self.root, os.environ['MIRROR'])
        run('mount', '-t', 'proc', 'proc', self.path('/proc'))
        try:
            self.run('apt-get', 'install', '-y', '--no-install-recommends', 'python3')
            os.makedirs(self.path('/run/systemd/system'))
            shutil.copy(os.path.join(HERE, 'systemctl'), self.path('/usr/bin/systemctl'))
            os.chmod(self.path('/usr/bin/systemctl'), 0o755)
            for name in ['/asked', '/enabled']:
                written(self.path(name), '')
            yield self
        finally:
            run('umount', self.path('/proc'))

    def path(self, name):
        """The path of one of its files."""
        return os.path.join(self.root, name.lstrip('/'))

    def run(self, *command):
        """Runs a command in it."""
        environment = {**os.environ, 'DEBIAN_FRONTEND': 'noninteractive', 'LC_ALL': 'C.UTF-8'}
        return run('chroot', self.root, *command, env=environment)

    def install(self, packages):
        """Installs packages, or upgrades to them."""
        os.makedirs(self.path('/packages'), exist_ok=True)
        names = ['/packages/' + os.path.basename(shutil.copy(it, self.path('/packages'))) for it in packages.values()]
        self.run('apt-get', 'install', '-y', '--no-install-recommends', *names)

    def asked(self):
        """What systemctl was asked to do since it was looked at, of units."""
        with open(self.path('/asked'), encoding='utf-8') as file:
            lines = [line.split() for line in file.read().splitlines()]
        written(self.path('/asked'), '')
        words = [[it for it in line if not it.startswith('-')] for line in lines]
        return [line for line in words if line[0] not in ('daemon-reload', 'is-enabled', 'is-active')]

    def versions(self):
        """The versions of the packages that are installed, by name."""
        form = '${binary:Package} ${Version} ${Status}\n'
        lines = self.run('dpkg-query', '-W', '-f', form).splitlines()
        found = [line.split() for line in lines if 'deiruska' in line and line.endswith(' installed')]
        return {line[0].partition(':')[0]: line[1] for line in found}

    def files(self):
        """The files that are there."""
        found = set()
        for at, folders, names in os.walk(self.root):
            inner = at[len(self.root):] + '/'
            folders[:] = [it for it in folders if inner + it not in CHANGING]
            found.update(inner + it for it in folders + names)
        return found - set(CHANGING)


def compared(what, found, expected):
    """What is wrong with what was found, or None."""
    return None if found == expected else '%s: %r, expected %r' % (what, found, expected)


def served(debian, session):
    """Starts what the unit of the service starts, and plays a session to it. Answers the reports."""
    with open(debian.path('/lib/systemd/system/' + SERVICE), encoding='utf-8') as file:
        [line] = re.findall(r'(?m)^ExecStart=(.*)$', file.read().replace('\\\n', ''))
    os.makedirs(debian.path('/run/deiruska'))
    with subprocess.Popen(['chroot', debian.root, *line.split()], stdout=subprocess.DEVNULL) as service:
        try:
            return debian.run('milter_tool', 'mta', 'unix:/run/deiruska/milter.sock', session, '--wait', '30')
        finally:
            service.terminate()
            service.wait()
            shutil.rmtree(debian.path('/run/deiruska'))


def used(debian, version):
    """Uses what is installed: the program, with the rules that come with it, and the library."""
    yield compared('the program', debian.run('milter_tool', '--version'), 'milter_tool %s\n' % version)
    yield compared('the rules', debian.run('milter_tool', 'rules', '--check', '/etc/deiruska/mail.rules'), '')
    session = '/usr/share/doc/deiruska/examples/two_messages.session'
    outcomes = re.findall(r'(?m)^message \d+ (.*)$', served(debian, session))
    yield compared('what the service refuses', outcomes, ['filter released'] * 2)
    library = debian.run('python3', '-c', 'import deiruska; print(deiruska.version())')
    yield compared('the library', library, version + '\n')


def lived(debian, first, second, version):
    """Installs the packages, upgrades, removes and purges them."""
    before = debian.files()
    debian.install(first)
    yield compared('the versions', debian.versions(), dict.fromkeys(PACKAGES, version))
    yield compared('what an installation does with units', debian.asked(), [])
    links = [it for it in debian.files() - before if it.startswith('/etc/') and not it.startswith('/etc/deiruska')]
    yield compared('what is new in /etc', links, [])
    yield from used(debian, version)
    written(debian.path('/etc/deiruska/mail.rules'), RULES)
    written(debian.path('/enabled'), SERVICE + '\n')
    debian.install(second)
    yield compared('the newer versions', debian.versions(), dict.fromkeys(PACKAGES, version + NEWER))
    yield compared('what an upgrade does with units', debian.asked(), [['restart', SERVICE]])
    with open(debian.path('/etc/deiruska/mail.rules'), encoding='utf-8') as file:
        yield compared('the rules after an upgrade', file.read(), RULES)
    debian.run('apt-get', 'remove', '-y', *PACKAGES)
    yield compared('what a removal does with units', debian.asked(), [['stop', *UNITS]])
    left = {it for it in debian.files() ^ before if not it.startswith('/var/lib/systemd')}
    yield compared('what a removal leaves', left, {'/etc/deiruska', '/etc/deiruska/mail.rules'})
    debian.run('dpkg', '--purge', *PACKAGES)
    yield compared('what a purge leaves', debian.files() ^ before, set())


def checks(archive):
    """All checks."""
    with tempfile.TemporaryDirectory() as folder:
        os.chmod(folder, 0o755)
        copies = [packed.copied(os.path.join(folder, name), archive) for name in ['one', 'another']]
        settings = [{'TZ': 'UTC', 'LC_ALL': 'C.UTF-8'}, {'TZ': 'Asia/Tokyo', 'LC_ALL': 'C'}]
        made = [packed.packages_of(copy, 'deb', **setting) for copy, setting in zip(copies, settings)]
        for one, other in zip(*made):
            end = ended(['cmp', one, other])
            yield compared('%s, made twice' % os.path.basename(one), end, (0, b'', b''))
        said = ended(['lintian', '--fail-on', 'none', *made[0]])
        yield compared('what lintian says', said[:2], (0, b''))
        first = without_symbols(made[0])
        version = os.path.basename(first['deiruska']).split('_')[1]
        with Debian(os.path.join(folder, 'root')).made() as debian:
            yield from lived(debian, first, newer(copies[1]), version)


def answers(archive):
    """What was wrong in each check, or None; what the checks raise themselves is one more, which failed."""
    try:
        yield from checks(archive)
    except (RuntimeError, subprocess.SubprocessError) as wrong:
        yield str(wrong)


if __name__ == '__main__':
    sys.exit(runner.run_all([lambda: answers(os.path.abspath(sys.argv[1]))]))
