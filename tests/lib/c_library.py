"""The library for C: its header, what is built of its crates, and what is compiled with it."""
import os
import re
import shutil
import subprocess
import sys

from lib import programs

HEADER = os.path.join(programs.TOP, 'include', 'deiruska.h')
BINDING = os.path.join(programs.TOP, 'bindings', 'python')
ARCHIVE = os.path.join(programs.BUILD, 'libmilter_c.a')
WARNINGS = ['-Wall', '-Wextra', '-Wpedantic', '-Wconversion', '-Wshadow', '-Werror']
# The words of the header for those of the crates' edits.
SPELLED = {'Rcpt': 'recipient', 'Par': 'parameters', 'Del': 'delete', 'From': 'sender'}
# What compiles the examples in other languages than C.
COMPILERS = {'cpp': ['g++'], 'go': ['go', 'pkg-config'], 'rust': ['rustc']}
# What the library and its callers are made with.
NEEDED = ['cc', 'ld', 'ar', 'nm', 'objcopy', 'readelf']


def missing():
    """The programs that aren't installed of those that the library is made with."""
    return [name for name in NEEDED if not shutil.which(name)]


def need():
    """Ends the test, which counts nothing, where a program that the library is made with isn't installed."""
    if missing():
        print('not installed, and the library is not made: %s' % ', '.join(missing()))
        print('0 passed, 0 failed')
        sys.exit(0)


def run(command, **options):
    """Runs a command that passes, and answers what it prints."""
    return subprocess.run(command, stdout=subprocess.PIPE, check=True, text=True, cwd=programs.TOP, **options).stdout


def built(given=None):
    """The archive of the crate milter_c: the given one, or the one in build/."""
    if given is not None:
        return os.path.abspath(given)
    programs.need_files([ARCHIVE])
    return ARCHIVE


def made(archive, folder):
    """Makes the library of the archive in a folder, and answers that."""
    run(['bash', os.path.join(programs.TOP, 'tools', 'library.sh'), 'make', archive, folder])
    return folder


def shared(library):
    """The path of the shared object of a library."""
    return os.path.join(library, 'lib', 'libdeiruska.so.0')


def compiled(library, source, name, *words):
    """Compiles a C program, statically with the library, and answers its path."""
    path = os.path.join(library, name)
    include, archive = os.path.join(library, 'include'), os.path.join(library, 'lib', 'libdeiruska.a')
    flags = ['-std=c11', '-D_DEFAULT_SOURCE', '-O1', '-g', *WARNINGS, '-Wstrict-prototypes', '-I', include]
    run(['cc', *flags, source, archive, '-o', path, *words])
    return path


def example(library, language):
    """Compiles the filter of examples/ in a language, with the library, and answers its path."""
    folder = os.path.join(programs.TOP, 'examples', language)
    [source] = [os.path.join(folder, name) for name in os.listdir(folder) if name.startswith('filter.')]
    path, lib = os.path.join(library, 'example_' + language), os.path.join(library, 'lib')
    include, archive = os.path.join(library, 'include'), os.path.join(lib, 'libdeiruska.a')
    if language == 'c':
        return compiled(library, source, 'example_c')
    commands = {
        'cpp': ['g++', '-std=c++11', '-O1', *WARNINGS, '-I', include, source, archive, '-o', path],
        'go': ['go', 'build', '-o', path, source],
        'rust': ['rustc', '-D', 'warnings', '-L', lib, '-l', 'static=deiruska', source, '-o', path]}
    environment = {**os.environ, 'PKG_CONFIG_PATH': os.path.join(lib, 'pkgconfig'), 'GO111MODULE': 'off',
                   'GOCACHE': os.path.join(library, 'go')}
    run(commands[language], env=environment)
    return path


def header():
    """The header without its comments."""
    with open(HEADER, encoding='utf-8') as file:
        return re.sub(r'(?s)/\*.*?\*/', '', file.read())


def functions():
    """The functions of the header: of each its name, what it answers, and the types of its parameters."""
    found = {}
    for answer, name, parameters in re.findall(r'(?m)^(\w+) (deiruska_\w+)\(([^)]*)\);', header()):
        types = [re.sub(r' ?\w+$', '', it.strip()) for it in parameters.split(',')]
        found[name] = answer, [it for it in types if it]
    return found


def numbers():
    """The numbers of the header, by their names without DEIRUSKA_."""
    pairs = re.findall(r'(?m)^(?:#define |\s*)DEIRUSKA_(\w+)(?: =)? (-?\w+?)u?,?\s*$', header())
    return {name: int(number, 0) for name, number in pairs}


def symbols(path, *words):
    """The names that an archive or a shared object defines for others."""
    lines = run(['nm', '--defined-only', '-P', *words, path]).splitlines()
    return {line.split()[0].partition('@')[0] for line in lines if re.match(r'\S+ [TDBR] ', line)}


def source(crate, file):
    """The text of a file of a crate."""
    with open(os.path.join(programs.TOP, 'crates', crate, 'src', file), encoding='utf-8') as opened:
        return opened.read()


def constants(crate, file):
    """The constants of a file of a crate: their names, as the header has them, and their numbers."""
    for name, number in re.findall(r'const (\w+)(?:: \w+)? = (-?[0-9a-fx_]+);', source(crate, file)):
        yield name, int(number.replace('_', ''), 0)


def edits():
    """The numbers of edits in the crates, by the names that the header has for their variants."""
    arm = r'(?s)Edit::(\w+).*? => (?:\w+\(|EditParts \{\s*number: )(\d+)'
    for variant, number in re.findall(arm, source('milter_c_objects', 'edit_parts.rt')):
        words = re.findall('[A-Z][a-z]+', variant)
        yield '_'.join(['EDIT', *(SPELLED.get(word, word).upper() for word in words)]), int(number)
