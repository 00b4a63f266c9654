#!/usr/bin/env python3
"""Prints what a shell needs to complete the words of a milter_tool command, made of the help that the program prints.

    tools/completion.py PROGRAM bash|zsh|fish
"""

import collections
import re
import sys

from man_page import printed

# A subcommand, with its options and its arguments.
Command = collections.namedtuple("Command", "name summary options arguments")
# An option: its letter or none, its name, the name of its value or none, and the values where these are few.
Option = collections.namedtuple("Option", "letter name value summary values")
# An argument, with whether there may be several of it, and whether it is a path.
Argument = collections.namedtuple("Argument", "name is_repeated is_path")

BASH = """\
# Completes the words of milter_tool in bash.
_milter_tool() {{
    local word=${{COMP_WORDS[COMP_CWORD]}} words= command= files=yes
    [ "$COMP_CWORD" = 1 ] || command=${{COMP_WORDS[1]}}
    case "$command ${{COMP_WORDS[COMP_CWORD - 1]}}" in
{values}
    *)
        case $command in
{options}
        esac
        ;;
    esac
    mapfile -t COMPREPLY < <(compgen -W "$words" -- "$word")
    if [ "$files" ] && [ "$command" ] && [[ $word != -* ]]; then
        mapfile -t -O "${{#COMPREPLY[@]}}" COMPREPLY < <(compgen -f -- "$word")
    fi
}}
complete -o filenames -F _milter_tool milter_tool
"""
ZSH = """\
#compdef milter_tool
# Completes the words of milter_tool in zsh.
_milter_tool() {{
    local -a commands
    commands=(
{commands}
    )
    if (( CURRENT == 2 )); then
        _describe -t commands command commands
        _arguments {options}
        return
    fi
    shift words
    (( CURRENT -= 1 ))
    case $words[1] in
{cases}
    esac
}}
_milter_tool "$@"
"""
FISH = """\
# Completes the words of milter_tool in fish.
function __milter_tool_is
    set -l words (commandline -opc)
    test (count $words) -gt 1; and test $words[2] = $argv[1]
end
complete -c milter_tool -f
"""


def section(text, title):
    """The lines of a help's section, up to the next line that isn't indented."""
    found = re.search(rf"(?m)^{title}:\n((?:[ ]+.*\n|\n)*)", text)
    return found.group(1) if found else ""


def options_of(text):
    """The options of a help."""
    entry = r"(?m)^ +(?:(-\w), )?(--[\w-]+)(?: <(\w+)>)?\s+(\S.*)\n((?:\s*\[.*\n)?)"
    for letter, name, value, summary, more in re.findall(entry, section(text, "Options")):
        values = re.search(r"\[possible values: (.*)\]", more)
        yield Option(letter, name, value, summary, values[1].split(", ") if values else [])


def commands_of(program):
    """The subcommands of a program."""
    for name, summary in re.findall(r"(?m)^  (\w+) +(\S.*)$", section(printed(program, "--help"), "Commands")):
        text = printed(program, "help", name)
        entries = re.findall(r"(?m)^ +[<[](\w+)[>\]](\.\.\.)?\s+(\S.*)$", section(text, "Arguments"))
        arguments = [Argument(it, bool(more), "path" in said) for it, more, said in entries]
        yield Command(name, summary, list(options_of(text)), arguments)


def bash(commands, first):
    names = [it.name for it in commands]
    values = [f"    '{command.name} {option.name}') words='{' '.join(option.values)}' files= ;;"
              for command in commands for option in command.options if option.values]
    options = [f"        '') words='{' '.join([*names, *(it.name for it in first)])}' ;;"]
    for command in commands:
        words = names[:-1] if command.name == "help" else [it.name for it in command.options]
        options.append(f"        {command.name}) words='{' '.join(words)}' ;;")
    return BASH.format(values="\n".join(values), options="\n".join(options))


def quoted(text):
    """A text in single quotes, as all three shells have them."""
    return "'" + text.replace("'", "'\\''") + "'"


def zsh_option(option):
    """What zsh's _arguments needs of an option."""
    values = f"({' '.join(option.values)})" if option.values else "_files" if option.value == "FILE" else " "
    summary = re.sub(r"([][:])", r"\\\1", option.summary)
    return quoted(f"{option.name}[{summary}]" + (f":{option.value}:{values}" if option.value else ""))


def zsh(commands, first):
    cases = []
    for command in commands:
        words = [zsh_option(it) for it in command.options]
        for place, argument in enumerate(command.arguments, 1):
            words.append(quoted("%s:%s:%s" % (
                "*" if argument.is_repeated else place, argument.name, "_files" if argument.is_path else " ")))
        if command.name == "help":
            words = [quoted(f"1:COMMAND:({' '.join(it.name for it in commands[:-1])})")]
        cases.append(f"    {command.name}) _arguments \\\n        " + " \\\n        ".join(words) + " ;;")
    described = [quoted(f"{it.name}:" + it.summary.replace(":", "\\:")) for it in commands]
    return ZSH.format(commands="\n".join("        " + it for it in described),
                      options=" ".join(map(zsh_option, first)), cases="\n".join(cases))


def fish_option(condition, option):
    """The line of fish for an option, which is offered where a condition holds."""
    value = f" -x -a {quoted(' '.join(option.values))}" if option.values else (
        " -r -F" if option.value == "FILE" else " -x" if option.value else "")
    names = (f" -s {option.letter[1:]}" if option.letter else "") + f" -l {option.name[2:]}"
    return f"complete -c milter_tool -n {quoted(condition)}{names}{value} -d {quoted(option.summary)}"


def fish(commands, first):
    none = "__fish_use_subcommand"
    lines = [f"complete -c milter_tool -n {none} -a {it.name} -d {quoted(it.summary)}" for it in commands]
    lines += [fish_option(none, option) for option in first]
    for command in commands:
        condition = f"__milter_tool_is {command.name}"
        if command.name == "help":
            names = " ".join(it.name for it in commands[:-1])
            lines.append(f"complete -c milter_tool -n {quoted(condition)} -a {quoted(names)}")
            continue
        lines += [fish_option(condition, option) for option in command.options]
        if any(it.is_path for it in command.arguments):
            lines.append(f"complete -c milter_tool -n {quoted(condition)} -F")
    return FISH + "\n".join(lines) + "\n"


def main():
    program, shell = sys.argv[1:]
    made = {"bash": bash, "zsh": zsh, "fish": fish}[shell]
    print(made(list(commands_of(program)), list(options_of(printed(program, "--help")))), end="")


if __name__ == "__main__":
    main()
