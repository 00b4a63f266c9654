#!/usr/bin/env bash
# Installs the packages for Debian in a Debian of its own, which debootstrap makes in a temporary folder: they are built
# twice, in two folders, with equal bytes; lintian has nothing to say of them; they are installed, upgraded, removed and
# purged, and the rules that an administrator wrote stay until then. What the unit of the service starts lets mail
# pass. Nothing is enabled or started by the installation; an upgrade restarts the service, and a removal stops it:
# systemd doesn't run there, and what `systemctl` is asked for is written down in its place. It needs Debian's packages
# debhelper, dh-python, lintian and debootstrap, a C compiler, root, and Debian's registry, of which MIRROR may name
# another copy. It isn't part of the test command. What is packed is what `make prove` built; ARCHIVE takes an archive
# of the library in place of that one. The last line is 'N passed, M failed'.
#
#     sudo [ARCHIVE=FILE] [MIRROR=URL] bash tests/packages.sh
set -u
cd "$(dirname "${BASH_SOURCE[0]}")/.."
PATH=$PATH:/usr/sbin:/sbin
missing=()
for name in dh dh_python3 dpkg-buildpackage lintian debootstrap cc; do
    command -v "$name" >/dev/null || missing+=("$name")
done
if [ ${#missing[@]} != 0 ]; then
    echo "packages.sh needs Debian's packages debhelper, dh-python, lintian and debootstrap, and a C compiler." \
        "Not there: ${missing[*]}" >&2
    exit 2
fi
if [ "$(id -u)" != 0 ]; then
    echo "packages.sh installs packages in a Debian of its own, which needs root" >&2
    exit 2
fi
export MIRROR=${MIRROR:-http://deb.debian.org/debian}
# What is mounted there is gone with the script.
exec unshare --mount python3 tests/packages/run.py "${ARCHIVE:-build/libmilter_c.a}"
