#!/usr/bin/env python3
"""Plays each case folder cases/GROUP/NAME on milter_tool as both compilers built it; cases/README.md says what is in a
folder.
"""
import sys

from lib import cases, programs, runner


def play_of(case, build):
    """A play of this case on this build."""

    def play():
        end = programs.ended(cases.command_of(case, build), case.given)
        yield programs.compared(case.name + build, end, case.expected)

    return play


if __name__ == '__main__':
    programs.need('tool')
    sys.exit(runner.run_all(play_of(case, build) for build in programs.BUILDS for case in cases.cases()))
