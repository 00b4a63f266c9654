#!/usr/bin/env python3
"""Plays the rows of the tables cases/tables/*.table on their programs as both compilers built them;
cases/tables/README.md has the format. The tables *_failed_calls.table are left to test_failed_calls.py.
"""
import sys
import tempfile

from lib import programs, runner, tables

# The kinds of which what is printed is itself an input, of which the same is printed again.
CANONICAL = ['rules']


def play_of(row, code, build):
    """A play of this row with this code on this build of its program."""

    def play():
        name = tables.row_name(row) + build
        with tempfile.TemporaryDirectory() as folder:
            run = tables.prepared(row, code, build, folder)
            wrong = programs.compared(name, programs.ended(run.command, run.given), run.expected)
            status, out, _ = run.expected
            if wrong is None and tables.kind_of(row.table) in CANONICAL and status == 0:
                with open(run.path, 'wb') as file:
                    file.write(out)
                wrong = programs.compared(name + ' again', programs.ended(run.command, out), run.expected)
        yield wrong

    return play


def plays():
    """All rows, each with each of its codes."""
    for table in tables.names():
        if not table.endswith('_failed_calls'):
            for row in tables.rows_of(table):
                for build in programs.BUILDS:
                    for code in row.codes:
                        yield play_of(row, code, build)


if __name__ == '__main__':
    programs.need(*programs.PROGRAMS)
    sys.exit(runner.run_all(plays()))
