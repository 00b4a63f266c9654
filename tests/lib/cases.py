"""Reads the case folders cases/GROUP/NAME; cases/README.md says what is in them."""
import collections
import glob
import os

from lib import programs

# A case: its name `GROUP/NAME`, the words of its run or None, the path of its script or None, its standard input, and
# how its run ends: a status, an output and errors.
Case = collections.namedtuple('Case', 'name words script given expected')


def content(folder, name):
    """What a file of a case has; a file that isn't there is empty."""
    path = os.path.join(folder, name)
    if not os.path.isfile(path):
        return b''
    with open(path, 'rb') as file:
        return file.read()


def output(folder):
    """What the run of a case prints. A build without a proof says so after its version."""
    text = content(folder, 'stdout')
    is_version = folder.rstrip('/').endswith('help/version')
    return text.replace(b'\n', programs.unproved().encode() + b'\n') if is_version else text


def case_in(folder):
    """The case of this folder."""
    script = os.path.join(folder, 'run')
    text = content(folder, 'args').decode()
    words = text.removesuffix('\n').split('\n') if text else []
    is_script = os.path.isfile(script)
    return Case(
        os.path.relpath(folder, os.path.join(programs.TOP, 'cases')), None if is_script else words,
        script if is_script else None, content(folder, 'stdin'),
        (int(content(folder, 'status') or 0), output(folder), content(folder, 'stderr')))


def cases():
    """All cases, in the order of their names."""
    for folder in sorted(glob.glob(os.path.join(programs.TOP, 'cases', '*', '*', ''))):
        yield case_in(folder)


def command_of(case, build):
    """The command that plays a case on this build of milter_tool."""
    program = programs.tool(build)
    if case.script is None:
        return [program] + case.words
    return ['env', 'program=' + program, 'bash', case.script]
