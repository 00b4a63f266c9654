#!/usr/bin/env python3
"""Prints the manual page of the library for C, made of include/deiruska.h and of the first filter of docs/C.md.

    tools/header_page.py
"""

import os
import re
import textwrap

from man_page import DATE, as_it_is, escaped

TOP = os.path.dirname(os.path.dirname(os.path.realpath(__file__)))
# What the page leaves out: what is for compilers alone.
LEFT_OUT = r'(?ms)^#ifdef __cplusplus.*?^#endif\n|^#(?:ifndef DEIRUSKA_H|define DEIRUSKA_H|include .*?|endif)\n'
# What a header consists of, one after the other.
PARTS = re.compile(
    r'(?s)\s*(?:/\* -+ (?P<title>[^-]+) -+ \*/|/\*(?P<comment>.*?)\*/|(?P<define>#define [^\n]*)'
    r'|enum \w+ \{(?P<enum>.*?)\};|(?P<code>typedef struct \{.*?\} \w+;|[^;/#]*;))(?P<gap>\n*)')
# The columns of a declaration, and the blanks before what doesn't fit its first line.
COLUMNS, INDENT = 70, 8 * " "


def read(*path):
    with open(os.path.join(TOP, *path), encoding="utf-8") as file:
        return file.read()


def words(text):
    """A text with what is code in bold."""
    parts = re.split(r"`([^`]*)`|(\b(?:deiruska|DEIRUSKA)_\w+)", " ".join(text.split()))
    return "".join(f"\\fB{escaped(it)}\\fR" if n % 3 else escaped(it) for n, it in enumerate(parts) if it)


def lines_of(comment):
    """The lines of a comment, without what they begin with."""
    return "\n".join(re.sub(r"^ ?\*? ?", "", line) for line in comment.strip().splitlines())


def paragraphs(text):
    """The paragraphs of a text, and its numbered ones as a list."""
    page = ""
    for paragraph in re.split(r"\n\s*\n|\n(?=\d\. )", text.strip()) if text else []:
        number, rest = re.fullmatch(r"(?s)(\d\.)? ?(.*)", paragraph.strip()).groups()
        page += (f".IP {number} 4\n" if number else ".PP\n") + words(rest) + "\n"
    return page


def enumerated(lines):
    """The numbers of an enum, each with its comment; a comment on a line of its own is a paragraph."""
    page = ""
    for name, value, comment, alone in re.findall(
            r"(?s)(\w+) = (-?\d+),?[ ]*(?:/\*(.*?)\*/)?|/\*(.*?)\*/", lines):
        if alone:
            page += f".PP\n{words(alone)}\n"
        else:
            page += f".TP\n\\fB{name}\\fR = {escaped(value)}\n{words(comment) or '.br'}\n"
    return page


def wrapped(code):
    """Declarations, whose lines have room in a narrow window. They are broken before a parameter."""
    made = []
    for line in re.sub(r",\n +", ", ", code.strip()).splitlines():
        whole = re.sub("(?<!,) ", "\0", line)
        made += textwrap.wrap(whole, COLUMNS, subsequent_indent=INDENT, break_on_hyphens=False) or [""]
    return "\n".join(made).replace("\0", " ")


def body_of(header):
    """The page of the header after its first comment: what a comment stands above comes before it."""
    page, comment, code = "", "", ""
    for part in PARTS.finditer(header):
        if part["title"]:
            page += f".SH {part['title'].strip().upper()}\n"
        elif part["comment"] is not None:
            comment = lines_of(part["comment"])
        elif part["enum"] is not None:
            page, comment = page + paragraphs(comment) + enumerated(part["enum"]), ""
        else:
            code += (part["define"] or part["code"]).strip() + "\n"
        is_last = len(part["gap"]) > 1 or header[part.end():part.end() + 2] == "/*"
        if code and is_last:
            page += f".PP\n{as_it_is(wrapped(code))}"
            page += f".RS 4\n{paragraphs(comment).removeprefix('.PP' + chr(10))}.RE\n" if comment else ""
            comment = code = ""
        elif comment and len(part["gap"]) > 1:
            page, comment = page + paragraphs(comment), ""
    return page


def main():
    header = read("include", "deiruska.h")
    number = int(re.search(r"#define DEIRUSKA_VERSION (\w+)", header)[1], 16)
    version = f"{number >> 16}.{number >> 8 & 255}.{number & 255}"
    first, rest = re.fullmatch(r"(?s)/\*(.*?)\*/(.*)", re.sub(LEFT_OUT, "", header)).groups()
    (name, summary), _, description = (
        it.split(": ", 1) if n == 0 else it for n, it in enumerate(lines_of(first).partition("\n\n")))
    print(f'.TH DEIRUSKA 3 {DATE} "libdeiruska {version}"')
    print(f".SH NAME\ndeiruska \\- {words(summary.rstrip('.'))}")
    print(f".SH SYNOPSIS\n.B #include <{name.strip()}>\n.PP\ncc FILE $(pkg\\-config \\-\\-cflags \\-\\-libs deiruska)")
    print(f".SH DESCRIPTION\n{paragraphs(description).removeprefix('.PP' + chr(10))}", end="")
    print(re.sub(r"(?m)^(\.SH .*\n)\.PP\n", r"\1", body_of(rest)), end="")
    example = re.search(r"(?s)```c\n(.*?)```", read("docs", "C.md"))[1]
    print(f".SH EXAMPLES\n{as_it_is(example)}.SH SEE ALSO\n.BR milter_tool (1)")


if __name__ == "__main__":
    main()
