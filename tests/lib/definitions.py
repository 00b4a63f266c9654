"""What tests ask of the definitions of specs/, which tools/specs.py reads, and of the lemmas of proofs/: which ones the
clauses of one function name, which ones tools/definitions.py explains, and what the lemmas speak of that one crate
uses of another.
"""
import glob
import os
import re
import subprocess
import sys

from lib.programs import TOP

TOOLS = os.path.join(TOP, 'tools')
sys.path.append(TOOLS)
import specs  # noqa: E402, it is there once the folder is


def made():
    """What tools/definitions.py prints."""
    return subprocess.run([sys.executable, os.path.join(TOOLS, 'definitions.py')], stdout=subprocess.PIPE, check=True,
                          encoding='utf-8').stdout


def parts(text):
    """The parts of a text of this form, by their crate and file."""
    return {(crate[0], part[0]): part[1] for crate in re.findall(r'(?ms)^## `(\w+)`$(.*?)(?=^## |\Z)', text)
            for part in re.findall(r'(?ms)^### `(\w+)`$(.*?)(?=^### |\Z)', crate[1])}


def explained(text):
    """The definitions that a text of this form explains: of each its crate, its file and its name."""
    return {(*place, name) for place, part in parts(text).items()
            for name in re.findall(r'(?m)^- (?:\*\*)?`(?:record |data |law )?([^\s`]+)', part)}


def missing(text):
    """The definitions of specs/ that a text of this form neither explains nor names."""
    there = parts(text)
    for crate in specs.shown():
        for path in glob.glob(os.path.join(TOP, 'crates', crate, 'specs', '*.antt')):
            file = os.path.splitext(os.path.basename(path))[0]
            for name in re.findall(r'(?m)^(?:pub )?(?:abbrev|unfoldable|record|data) (?:pub )?([^\s:]+)',
                                   specs.text_of(path)):
                if not re.search(r'`(?:record |data |law )?%s[\s`]' % re.escape(name), there.get((crate, file), '')):
                    yield crate, file, name


def named_by(path, function, clauses=None):
    """The definitions that these clauses of a function name, or all of its clauses."""
    text = specs.text_of(path)
    used = specs.names_used(text)
    head = re.search(r'(?s)\bfn %s\b.*?\n\{' % function, text)[0]
    found = re.findall(r'(?s)ensures (\w+) \{(.*?)\}\n(?=\s*(?://|ensures|\{))', head)
    text = '\n'.join(clause for name, clause in found if clauses is None or name in clauses)
    return {used[word] for word in specs.NAME.findall(text) if word in used}


def shared_lemmas():
    """The files of proofs/ that another crate uses, and those that they use; of each its crate, its file, and whether
    it speaks of definitions and of such lemmas alone."""
    shared = set()
    for path in glob.glob(os.path.join(TOP, 'crates', '*', '**', '*.*t*'), recursive=True):
        own = os.path.relpath(path, os.path.join(TOP, 'crates')).split(os.sep)[0]
        if re.search(r'/(src|specs|proofs)/.*\.(rt|antt)$', path) and '/out/' not in path:
            used = re.findall(r'Rattle\.((?:milter|example)_\w+)\.proofs\.(\w+)', specs.text_of(path))
            shared |= {(crate, file) for crate, file in used if crate != own}
    waiting = list(shared)
    while waiting:
        text = specs.text_of('crates', waiting[-1][0], 'proofs', waiting.pop()[1] + '.antt')
        used = set(re.findall(r'(?m)^use Rattle\.((?:milter|example)_\w+)\.proofs\.(\w+)', text)) - shared
        shared |= used
        waiting += used
    for crate, file in sorted(shared):
        text = specs.text_of('crates', crate, 'proofs', file + '.antt')
        kinds = re.findall(r'(?m)^use Rattle\.(?:milter|example)_\w+\.(\w+)', text)
        yield crate, file, bool(text) and set(kinds) <= {'specs', 'proofs'}
