# shellcheck shell=bash
# What the benches share. Each begins with
#
#     . "$(dirname "${BASH_SOURCE[0]}")/lib.sh"
#
# and is at the top of the repository then, with a folder `work` that is gone at its end.
set -eu
cd "$(dirname "${BASH_SOURCE[0]}")/.."
work=$(mktemp -d)
trap 'rm -rf "$work"' EXIT
# More bytes than are copied or cleared at once; and settings of the C library by which it copies, or clears, none by
# `rep movsb`, or `rep stosb`, which callgrind counts a byte at a time.
NEVER=1000000000
COPIES=glibc.cpu.x86_rep_movsb_threshold=$NEVER
CLEARINGS=glibc.cpu.x86_rep_stosb_threshold=$NEVER
CALLGRIND=(valgrind --tool=callgrind --callgrind-out-file=/dev/null)
# The library for C as `make` leaves it, or another one.
LIBRARY=${LIBRARY:-build/deiruska}

# ---- what is measured

# tool [PROGRAM]: leaves `program`, the one that is given, or `milter_tool`, which is built where it has to be
tool() {
    program=${1:-}
    if [ -z "$program" ]; then
        make -s all >/dev/null
        program=build/milter_tool
    fi
}

# built NAME: builds the program of this crate where it has to be
built() { python3 tools/build.py "$1" || exit 1; }

# libmilter: makes the filter on Sendmail's libmilter
libmilter() { cc -O2 -o "$work/libmilter" bench/filter.c -lmilter -lpthread; }

# library: makes the filter on libdeiruska, where that is built; status 1 where it isn't
library() {
    [ -f "$LIBRARY/lib/libdeiruska.a" ] || return 1
    cc -O2 -I "$LIBRARY/include" -o "$work/library" bench/library.c "$LIBRARY/lib/libdeiruska.a"
}

# load: makes the generator of load
load() { cc -O2 -o "$work/load" bench/load.c; }

# client: makes the mail server's end on go-milter; status 1 where Go or go-milter isn't installed
client() {
    command -v go >/dev/null || return 1
    cp bench/client.go "$work/client.go"
    (cd "$work" && GOPATH=/usr/share/gocode GO111MODULE=off GOCACHE=$work/cache go build -o client client.go)
}

# ---- how it is measured

# collected: of what callgrind prints, how many instructions it counted
collected() { sed -n 's/.*Collected : //p'; }

# counted COMMAND..: the instructions of a run, with no copy and no clearing a byte at a time
counted() { GLIBC_TUNABLES=$COPIES:$CLEARINGS "${CALLGRIND[@]}" "$@" 2>&1 >/dev/null | collected; }

# best COMMAND: the least of three runs of a line of the shell, in nanoseconds
best() {
    local least=0 from took
    for _ in 1 2 3; do
        from=$(date +%s%N)
        bash -c "$1"
        took=$(($(date +%s%N) - from))
        if [ "$least" = 0 ] || [ "$took" -lt "$least" ]; then least=$took; fi
    done
    echo "$least"
}

# timed SOCKET COMMAND..: runs a command once a filter listens at the socket, and prints the nanoseconds by the clock
# and of the command's processor time
timed() {
    python3 - "$@" <<'PYTHON'
import os
import resource
import subprocess
import sys
import time

path, *command = sys.argv[1:]
while not any(line.split()[3] == '00010000' and line.rstrip().endswith(path) for line in open('/proc/net/unix')):
    time.sleep(0.01)
start = time.monotonic_ns()
with open(os.devnull, 'wb') as printed:
    subprocess.run(command, stdout=printed, check=True)
took = time.monotonic_ns() - start
used = resource.getrusage(resource.RUSAGE_CHILDREN)
print(took, round(1e9 * (used.ru_utime + used.ru_stime)))
PYTHON
}

# leasts: of lines of two numbers, the least of the first ones and the least of the second ones
leasts() {
    awk '
        { for (i = 1; i <= 2; i++) if (NR == 1 || $i < least[i]) least[i] = $i }
        END { print least[1], least[2] }'
}

# rate NAME COUNT UNIT ONCE OFTEN: how many units a second of COUNT messages of so many units, by the clock and by
# processor time: of what a run of one and a run of COUNT more took, each in nanoseconds by both
rate() {
    awk -v name="$1" -v count="$2" -v unit="$3" -v took="$4 $5" 'BEGIN {
        split(took, times, " ")
        printf "%-10s %8.0f %8.0f\n", name, count * unit * 1e9 / (times[3] - times[1]),
            count * unit * 1e9 / (times[4] - times[2])
    }'
}
