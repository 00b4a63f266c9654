"""Copies of what packages are made of, in which they are made."""
import os
import shutil
import subprocess

from lib import c_library
from lib.programs import BUILDS, TOP, tool

# What packages are made of, beside what is built.
PACKED = [
    'README.md', 'CHANGELOG.md', 'SECURITY.md', 'bindings', 'debian', 'docs', 'examples', 'include', 'systemd', 'tools']
# The library for C, as `make` leaves it.
LIBRARY = os.path.join('build', 'deiruska')


def copied(folder, archive):
    """Copies what packages are made of to a folder, with the program, and makes the library there of its archive, where
    there is one. Answers the folder."""
    os.makedirs(folder, exist_ok=True)
    for name in PACKED:
        given, made = os.path.join(TOP, name), os.path.join(folder, name)
        (shutil.copytree if os.path.isdir(given) else shutil.copy)(given, made)
    program = tool(BUILDS[0])
    os.makedirs(os.path.join(folder, 'build'))
    shutil.copy(program, os.path.join(folder, 'build'))
    if archive is not None:
        c_library.made(archive, os.path.join(folder, LIBRARY))
    return folder


def packages_of(folder, kind, **settings):
    """Makes the packages of this kind in a copy, with settings of the environment, and answers their paths."""
    command, environment = ['bash', os.path.join(folder, 'tools', 'package.sh'), kind], {**os.environ, 'UNPROVED': '1', **settings}
    made = subprocess.run(command, stdout=subprocess.PIPE, check=True, text=True, env=environment)
    return [os.path.join(folder, line) for line in made.stdout.splitlines()]


def missing():
    """What isn't installed of what makes the packages for Debian: programs, or else packages."""
    programs = [name for name in ['dh', 'dh_python3', 'dpkg-buildpackage'] if not shutil.which(name)]
    if programs:
        return programs
    control = os.path.join(TOP, 'debian', 'control')
    done = subprocess.run(['dpkg-checkbuilddeps', control], stderr=subprocess.PIPE, check=False, text=True)
    return [done.stderr.strip().rpartition(': ')[2]] if done.returncode != 0 else []
