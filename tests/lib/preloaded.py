"""Runs programs with a shared object preloaded that is compiled from a C file of this folder, by the toolchain's own
compiler. The object reports to the file descriptor that PRELOADED_REPORT names what came about of what it was set to
do.
"""
import os
import subprocess

from lib import programs

FLAGS = ['-shared', '-fPIC', '-O1', '-Wall', '-Werror', '-nostdlib', '-fuse-ld=lld']
SECONDS = 60


def compiled(source, folder):
    """Compiles a C file of this folder to an object in the other one, and answers its path."""
    kit = os.path.dirname(subprocess.run(['rt', 'doc'], capture_output=True, check=True).stdout.decode().strip())
    path = os.path.join(folder, source + '.so')
    compiler = os.path.join(kit, 'toolchain', 'bin', 'clang')
    here = os.path.dirname(os.path.abspath(__file__))
    subprocess.run([compiler] + FLAGS + ['-o', path, os.path.join(here, source)], check=True)
    return path


def run_with(preloaded, named, run):
    """Has this function run a program with the object preloaded and these variables: it is called with options of
    subprocess.Popen. Answers what it answers, and what the object reported: bytes, fewer than 65,536."""
    ends, reports = os.pipe()
    environment = {'LD_PRELOAD': preloaded, 'PRELOADED_REPORT': str(reports)}
    environment.update((name, str(value)) for name, value in named.items())
    try:
        answer = run(env=environment, pass_fds=[reports])
    finally:
        os.close(reports)
        with os.fdopen(ends, 'rb') as report:
            reported = report.read()
    return answer, reported


def ended(command, given, preloaded, named):
    """Runs a command with the object preloaded and these variables. Answers its status, output and errors, and what
    the object reported."""
    return run_with(
        preloaded, named, lambda **started: programs.ended(command, given, timeout=SECONDS, **started))


def is_refused(refuser, number, run):
    """Has this function run a program as run_with does, with the allocation of this number refused by refuse.c as it
    was compiled. Answers what it answers, and whether the program came to that allocation."""
    answer, reported = run_with(refuser, {'REFUSED_ALLOCATION': number}, run)
    return answer, bool(reported)


def refused(command, given, refuser, number):
    """Runs a command with its allocation of this number refused. Answers its status, output and errors, and whether it
    came to that allocation."""
    return is_refused(
        refuser, number, lambda **started: programs.ended(command, given, timeout=SECONDS, **started))
