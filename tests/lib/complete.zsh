# Prints what zsh completes of a line, a word a line: zsh -f complete.zsh FOLDER LINE, where FOLDER has the file
# _milter_tool. The line is typed into an interactive zsh, in which a tab prints what compadd is given.
zmodload zsh/zpty
folder=$(mktemp -d)
cat >"$folder/setup" <<END
PROMPT=
fpath=(${(q)1} \$fpath)
autoload -Uz compinit
compinit -u -D
END
cat >>"$folder/setup" <<'END'
capture() {
    compadd() {
        local -a hits
        if [[ ${@[1,(i)(-|--)]} != *-(O|A|D)\ * ]]; then
            builtin compadd -A hits "$@"
            (( $#hits )) && print -rl -- $hits >>$folder/found
        fi
        builtin compadd "$@"
    }
    _main_complete
    exit
}
zle -C capture .complete-word capture
bindkey '^I' capture
END
: >"$folder/found"
zpty inner zsh -f -i
zpty -w inner "folder=${(q)folder}; source ${(q)folder}/setup; print -r READY \$((1 + 1))"
zpty -r inner line '*READY 2*'
zpty -w -n inner "$2"$'\t'
while zpty -r inner line; do :; done
cat "$folder/found"
rm -rf "$folder"
