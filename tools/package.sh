#!/usr/bin/env bash
# Puts the program in place, or packs it: the program, its manual pages, what bash, zsh and fish complete of it,
# the units for systemd, the documents and the examples.
#
#     tools/package.sh install DESTDIR PREFIX   in place, as DESTDIR/PREFIX/bin/milter_tool and so on, and where the
#                                               library for C is built also that
#     tools/package.sh uninstall DESTDIR PREFIX away again, and nothing else
#     tools/package.sh stage FOLDER PREFIX      in FOLDER, to be moved to PREFIX
#     tools/package.sh dist                     dist/deiruska-VERSION-x86_64-linux.tar.gz
#     tools/package.sh deb                      dist/deiruska_VERSION_amd64.deb, and the packages of the library for C
#
# The program is one file that needs the C library alone, and so does the shared library for C: the packages are for
# machines without the toolchain. Those for Debian take debhelper and dh-python. What is in build/ is taken; `dist` and
# `deb` take what is proved alone, unless UNPROVED=1 is set.
set -euo pipefail
cd "$(dirname "${BASH_SOURCE[0]}")/.."
program=build/milter_tool
library=build/deiruska
# What the packages are made of, beside what is built.
packed=(README.md CHANGELOG.md SECURITY.md bindings debian docs examples include systemd tools)

# The version of the program.
version() { "$program" --version | cut -d ' ' -f 2; }

# Prints the manual page of a form of file.
format_page() {
    case $1 in
    milter_rules)
        python3 tools/format_page.py "$1" 'what a filter asks of a mail server, and what it answers' mail.rules \
            'Rule files' 'Conditions' 'Lists' 'Actions' 'Faults' 'Words and quotes'
        ;;
    milter_session)
        python3 tools/format_page.py "$1" 'the messages that a test mail server plays' policy.session \
            'The session file' 'Words and quotes'
        ;;
    esac
}

# Puts what shells complete below the folder $1, for a program that will be in the folder $2. zsh has what comes in
# packages apart from what an administrator installs.
put_completions() {
    local zsh=site-functions
    if [ "$2" = /usr/bin ]; then zsh=vendor-completions; fi
    install -d "$1/bash-completion/completions" "$1/zsh/$zsh" "$1/fish/vendor_completions.d"
    python3 tools/completion.py "$program" bash >"$1/bash-completion/completions/milter_tool"
    python3 tools/completion.py "$program" zsh >"$1/zsh/$zsh/_milter_tool"
    python3 tools/completion.py "$program" fish >"$1/fish/vendor_completions.d/milter_tool.fish"
}

# Puts all of it below the folder $1, for a machine on which the program will be in the folder $2.
put() {
    local root=$1 bin=$2 unit page
    install -D -m 755 "$program" "$root/bin/milter_tool"
    install -d "$root/share/man/man1" "$root/share/man/man5" "$root/lib/systemd/system"
    python3 tools/man_page.py "$program" | gzip -n9 >"$root/share/man/man1/milter_tool.1.gz"
    for page in milter_rules milter_session; do
        format_page "$page" | gzip -n9 >"$root/share/man/man5/$page.5.gz"
    done
    put_completions "$root/share" "$bin"
    for unit in systemd/*; do
        sed "s|/usr/local/bin/|$bin/|" "$unit" >"$root/lib/systemd/system/$(basename "$unit")"
    done
    python3 tools/documents.py program "$root/share/doc/deiruska"
}

# Packs a tar file, with $1 as the folder to work in.
pack_tar() {
    local name date
    name=deiruska-$(version)-x86_64-linux
    put "$1/$name" /usr/local/bin
    date=$(sed -n 's/^ -- .*>  //p' debian/changelog | head -n 1)
    tar -C "$1" --sort=name --mtime="$date" --owner=0 --group=0 --numeric-owner -I 'gzip -n9' \
        -cf "dist/$name.tar.gz" "$name"
    echo "dist/$name.tar.gz"
}

# Packs the packages for Debian as debian/ has them, in a copy of what they are made of, with $1 as the folder to work
# in.
pack_deb() {
    local copy=$1/deiruska package
    if ! command -v dh >/dev/null; then
        echo "make deb takes Debian's packages debhelper and dh-python" >&2
        exit 1
    fi
    mkdir "$copy"
    tar -cf - "${packed[@]}" "$program" "$library" | tar -C "$copy" -xf -
    if ! (cd "$copy" && dpkg-buildpackage -b -us -uc) >"$1/log" 2>&1; then
        tail -n 40 "$1/log" >&2
        exit 1
    fi
    for package in "$1"/*.deb; do
        cp "$package" dist
        echo "dist/$(basename "$package")"
    done
}

# Puts the program and the library below the folder $1/$2, for use below the folder $2.
stage() {
    put "$1$2" "$2/bin"
    if [ -d "$library" ]; then bash tools/library.sh install "$1" "$2"; fi
}

# Says which program is taken, and ends where it is to be a proved one and isn't.
say_which() {
    case $("$program" --version) in
    *'without its proof'*)
        if [ "$1" != install ] && [ "${UNPROVED-}" != 1 ]; then
            echo "make $1 takes the proved program: run \`make prove\`, or set UNPROVED=1" >&2
            exit 1
        fi
        echo "make $1 takes the program and the library that were built without their proof" >&2
        ;;
    *) echo "make $1 takes the proved program and library" >&2 ;;
    esac
}

umask 022
work=$(mktemp -d)
trap 'rm -rf "$work"' EXIT
case ${1-} in
stage)
    stage "$2" "$3"
    ;;
install)
    say_which install
    stage "$work" "$3"
    python3 tools/installed.py put "$work" "$2" "$3"
    ;;
uninstall)
    python3 tools/installed.py remove "$2" "$3"
    ;;
dist)
    say_which dist
    mkdir -p dist
    pack_tar "$work"
    ;;
deb)
    say_which deb
    mkdir -p dist
    pack_deb "$work"
    ;;
*)
    sed -n '2,/^set/{/^set/d;s/^# \{0,1\}//;p}' "${BASH_SOURCE[0]}" >&2
    exit 2
    ;;
esac
