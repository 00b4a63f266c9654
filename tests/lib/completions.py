"""What shells complete of lines, by the scripts that tools/completion.py makes."""
import os
import shutil
import subprocess

# The lines, with the words that each shell offers for their last ones.
LINES = {
    'milter_tool se': ['serve', 'session'],
    'milter_tool re': ['record', 'replay'],
    'milter_tool --ver': ['--version'],
    'milter_tool mta --e': ['--expect', '--explain'],
    'milter_tool trace --e': ['--explain'],
    'milter_tool mta --loss re': ['reject'],
    'milter_tool play --loss ': ['accept', 'reject', 'tempfail'],
    'milter_tool help pl': ['play'],
    'milter_tool serve --no': []}
# The path of each shell's script below PREFIX/share, for a PREFIX of /usr and for any other one.
SCRIPTS = {
    'bash': ['bash-completion/completions/milter_tool'] * 2,
    'zsh': ['zsh/vendor-completions/_milter_tool', 'zsh/site-functions/_milter_tool'],
    'fish': ['fish/vendor_completions.d/milter_tool.fish'] * 2}
BASH = ('source "$1"; COMP_WORDS=("${@:2}"); COMP_CWORD=$(($# - 2)); _milter_tool; printf "%s\\n" "${COMPREPLY[@]}"')
FISH = 'source $argv[1]; complete -C $argv[2]'


def command_of(shell, script, line):
    """The command that prints what a shell completes of a line, by its script."""
    if shell == 'bash':
        return ['bash', '-c', BASH, 'bash', script, *line.split(' ')]
    if shell == 'zsh':
        return ['zsh', '-f', os.path.join(os.path.dirname(__file__), 'complete.zsh'), os.path.dirname(script), line]
    return ['fish', '--no-config', '-c', FISH, script, line]


def completed(shell, script, line):
    """The words that a shell offers for the last one of a line."""
    printed = subprocess.run(command_of(shell, script, line), stdout=subprocess.PIPE, check=True, text=True,
                             timeout=60).stdout
    return sorted(it.split('\t')[0] for it in printed.splitlines() if it)


def missing():
    """The shells that aren't installed."""
    return [shell for shell in SCRIPTS if not shutil.which(shell)]


def checked(share, is_usr):
    """Looks at what each shell that is installed completes, by the scripts below a folder share."""
    for shell, (in_usr, elsewhere) in SCRIPTS.items():
        script = os.path.join(share, in_usr if is_usr else elsewhere)
        yield None if os.path.isfile(script) else '%s is not there' % script
        for line, wanted in LINES.items():
            if shell not in missing():
                found = completed(shell, script, line)
                yield None if found == wanted else '%s completes %s as %s' % (shell, line, found)
