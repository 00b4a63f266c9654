#!/usr/bin/env bash
# Connects `milter_tool` to real peers, over TCP and over Unix sockets. `filter`, `serve` and `answer`: to miltertest,
# which plays the scripts of interop/, to `serve` several at once beside a connection that says nothing, and to a
# Postfix of its own on the loopback, which takes mail and delivers it edited or refuses it. With `serve` a Postfix
# has a chrooted smtpd, and a Postfix and a Sendmail have many clients at once, one of which is idle after its
# greeting, and random sequences of SMTP commands with greetings within a transaction, of which each reply has to be
# what the rules say. A Postfix has the greylist of examples/. What a Postfix sent to a filter, of a message with
# two recipients, is sent again by `replay`. A Postfix is played the sessions of the recipes of docs/RULES.md, and
# what that says of Postfix, with its lines for main.cf, master.cf and tables; those of the kind `lmdb:` where the
# package postfix-lmdb is there. The rule files of README.md and docs/SERVICE.md have to refuse an address however it
# is written. What both mail servers make of edits is compared with the table of docs/PROTOCOL.md, and both refuse by
# lists of each kind, also by new ones. The filters in C and Python of examples/ are behind a Postfix, and the mail
# server's side in C shows a message to OpenDKIM, on the library that tests/test_c_library.py built, or of the archive
# that ARCHIVE names. `mta`: to filters on Sendmail's libmilter, one that does what its words say (interop/scripted.c)
# and OpenDKIM. `probe`: to a filter on libmilter (interop/passing.c), OpenDKIM, and one on pymilter where that is
# installed. Where Debian's package haproxy is there, three `serve` are behind HAProxy with a Postfix under load,
# while one is killed and comes back, and one is drained and started with other rules: a line 'proxied: N messages,
# ..' counts what was refused, delivered and deferred. It needs Debian's packages miltertest, postfix, libmilter-dev
# and opendkim, a C compiler, openssl, and root, as whom Postfix and Sendmail start. It isn't part of the test
# command. The program is built first where it has to be; another one may be given. The last line is 'N passed, M
# failed'.
#
#     sudo [SENDMAIL_ROOT=FOLDER] bash tests/interop.sh [PROGRAM]
#
# Debian's packages of Sendmail and of Postfix can't both be installed. So Sendmail is run from an unpacked copy of its
# packages, in the folder SENDMAIL_ROOT, or in /opt/sendmail where that isn't given. This makes one:
#
#     sudo apt-get install m4 libdb5.3 libldap-2.5-0 libnsl2 libsasl2-2 libwrap0
#     cd "$(mktemp -d)" && apt-get download sendmail-bin sendmail-cf
#     for package in sendmail-*.deb; do sudo dpkg -x "$package" /opt/sendmail; done
#
# Without one a line 'sendmail: not run, ..' says so, and it is no failure; and so with 'haproxy: not run, ..'.
set -u
cd "$(dirname "${BASH_SOURCE[0]}")/.."
PATH=$PATH:/usr/sbin:/sbin
missing=()
command -v miltertest >/dev/null || missing+=(miltertest)
command -v postfix >/dev/null && command -v smtp-sink >/dev/null || missing+=(postfix)
command -v opendkim >/dev/null || missing+=(opendkim)
[ -f /usr/include/libmilter/mfapi.h ] || missing+=(libmilter-dev)
if [ ${#missing[@]} != 0 ]; then
    echo "interop.sh needs Debian's packages miltertest, postfix, libmilter-dev and opendkim." \
        "Not there: ${missing[*]}" >&2
    exit 2
fi
if [ "$(id -u)" != 0 ]; then
    echo "interop.sh starts a Postfix of its own, which needs root" >&2
    exit 2
fi
program=${1:-}
if [ -z "$program" ]; then
    make -s all >/dev/null || exit 1
    program=build/milter_tool
fi
exec python3 tests/interop/run.py "$program"
