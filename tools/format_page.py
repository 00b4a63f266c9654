#!/usr/bin/env python3
"""Prints the manual page of a form of file, made of sections of documents and of an example.

    tools/format_page.py NAME SUMMARY EXAMPLE SECTION ..

NAME is the page's, SUMMARY its one line; EXAMPLE is a file of examples/, and each SECTION a title of one of DOCUMENTS,
without `(*own*)`.
"""

import os
import re
import sys

from man_page import DATE, as_it_is, escaped

TOP = os.path.dirname(os.path.dirname(os.path.realpath(__file__)))
# The documents that have forms of files.
DOCUMENTS = ["RULES.md", "PROTOCOL.md", "TESTING.md"]


def read(*path):
    with open(os.path.join(TOP, *path), encoding="utf-8") as file:
        return file.read()


def section(text, title):
    """The lines under a title, up to the next one."""
    found = re.search(rf"(?ms)^## {re.escape(title)}(?: \(\*own\*\))?\n(.*?)(?=^## |\Z)", text)
    return found.group(1).strip().splitlines()


def words(text):
    """A line of text: what is code in bold, links as their texts, and without the marks of this project's own rules."""
    text = re.sub(r" ?\(\*own\*\)", "", re.sub(r"\[([^]]*)\]\([^)]*\)", r"\1", text))
    text = re.sub(r"\*\*([^*]+)\*\*", r"\1", text)
    parts = re.split(r"`([^`]*)`", text.replace("\\|", "|"))
    return "".join(f"\\fB{escaped(it)}\\fR" if n % 2 else escaped(it) for n, it in enumerate(parts))


def cells(line):
    """The cells of a line of a table."""
    return [it.strip() for it in re.split(r"(?<!\\)\|", line.strip("|"))]


def row(heads, line):
    """A line of a table, as an entry of a list: the first cell, under it the second and the others with their heads."""
    first, second, *others = cells(line)
    more = [f"({head[0].lower() + head[1:]}: {it})" for head, it in zip(heads[2:], others) if it]
    text = " ".join(filter(None, [second, *more]))
    empty = "\\&"
    return f".TP\n{words(first) or empty}\n{words(text) or '.br'}\n"


def page_of(lines):
    """Paragraphs, lists and tables; a table begins with its first head."""
    page, text, heads = "", [], []

    def flush():
        nonlocal page, text
        if text:
            mark = ".IP \\(bu 2\n" if text[0].startswith("- ") else ".PP\n"
            page += mark + words(" ".join(text).removeprefix("- ")) + "\n"
        text = []

    for line in lines:
        is_row = line.startswith("|")
        if is_row or not line or line.startswith("- "):
            flush()
        if not is_row:
            heads = []
            text += [line.strip()] if line else []
        elif not heads:
            heads = cells(line)
            page += f".SS {words(heads[0])}\n"
        elif not line.startswith("|--"):
            page += row(heads, line)
    flush()
    return page.removeprefix(".PP\n")


def main():
    name, summary, example, *titles = sys.argv[1:]
    text = "\n".join(read("docs", it) for it in DOCUMENTS)
    print(f'.TH {name.upper()} 5 {DATE} "milter_tool"\n.SH NAME\n{name} \\- {escaped(summary)}')
    for n, title in enumerate(titles):
        head = "DESCRIPTION" if n == 0 else title.upper()
        print(f".SH {head}\n{page_of(section(text, title))}", end="")
    print(f".SH EXAMPLES\n{as_it_is(read('examples', example))}.SH SEE ALSO\n.BR milter_tool (1)")


if __name__ == "__main__":
    main()
