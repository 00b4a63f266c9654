#!/usr/bin/env python3
"""Prints the manual page of a milter_tool program, made of what the program itself prints as its help.

    tools/man_page.py PROGRAM
"""

import re
import subprocess
import sys

# The day of the pages.
DATE = "2026-11-26"


def printed(program, *words):
    return subprocess.run([program, *words], stdout=subprocess.PIPE, check=True, text=True).stdout


def escaped(text):
    """A text as troff prints it: backslashes and hyphens as they are, and no line that is taken for a request."""
    text = text.replace("\\", "\\e").replace("-", "\\-").replace("'", "\\(aq")
    return re.sub(r"(?m)^\.", r"\\&.", text)


def as_it_is(text):
    """A text with its lines and blanks kept, from the first column on: they have up to 80 columns."""
    return f".in 0\n.EX\n{escaped(text.rstrip())}\n.EE\n.in\n"


def main():
    (program,) = sys.argv[1:]
    name, version = printed(program, "--version").strip().split(" ", 1)
    summary, _, rest = printed(program, "--help").partition("\n\n")
    commands = re.findall(r"(?m)^  (\w+)  ", rest)
    print(f'.TH {name.upper()} 1 {DATE} "{name} {version}"')
    print(f".SH NAME\n{escaped(name)} \\- {escaped(summary[0].lower() + summary[1:])}")
    print(f".SH SYNOPSIS\n{as_it_is(rest.partition('Usage: ')[2].partition(chr(10))[0])}", end="")
    print(f".SH DESCRIPTION\n{as_it_is(rest.partition(chr(10) * 2)[2])}", end="")
    for command in commands:
        if command != "help":
            print(f".SH {escaped(f'{name} {command}').upper()}\n{as_it_is(printed(program, 'help', command))}", end="")


if __name__ == "__main__":
    main()
