#!/usr/bin/env bash
# Measures `milter_tool load` beside other generators of load, on one filter, `milter_tool serve`, over a Unix socket:
# `load.c`, which sends packets that were made before and looks at the code of each reply alone, and, of one connection,
# a mail server's end on go-milter (`client.go`), where Go and go-milter are installed (golang-go,
# golang-github-emersion-go-milter-dev). A message has sixteen commands, with ten header fields and 4 KiB of body. The
# filter has processor 1 for itself, the generator processor 0. For 1, 50 and 500 connections at once it prints how many
# messages a second the filter takes of a generator, and the microseconds of processor time that a generator takes for
# one, the best of three runs. It fails where `load` makes less than four fifths of the messages a second that `load.c`
# makes. It takes a C compiler and Python. The program is built first where it has to be; another one may be given.
#
#     bash bench/load.sh [PROGRAM]
. "$(dirname "${BASH_SOURCE[0]}")/lib.sh"
tool "$@"
MESSAGES=20000
BODY=4096
load
if client; then
    has_client=yes
else
    has_client=
    echo "go-milter isn't installed: it is left out"
fi
python3 bench/session.py 1 "$BODY" >"$work/session"
opening=$(PYTHONPATH=bench python3 -c "
import sys
import filter as small
opening = b''.join(small.opening())
open(sys.argv[1], 'wb').write(opening + b''.join(small.message($BODY)))
print(len(opening))" "$work/script")
taskset -c 1 "$program" serve "unix:$work/socket" --at-once 10000 >/dev/null 2>&1 &
filter=$!
trap 'kill "$filter"; rm -rf "$work"' EXIT

# fastest WORD..: runs this command three times, and prints the least seconds by the clock and of its processor time
fastest() {
    python3 - "$@" <<'PYTHON'
import os
import subprocess
import sys
import time


def run(command):
    """The seconds that a command takes, and those of its processor time."""
    start, before = time.monotonic(), os.times()
    subprocess.run(['taskset', '-c', '0'] + command, stdout=subprocess.DEVNULL, check=True)
    after = os.times()
    return (time.monotonic() - start,
            after.children_user + after.children_system - before.children_user - before.children_system)


runs = [run(sys.argv[1:]) for _ in range(3)]
print(min(wall for wall, _ in runs), min(own for _, own in runs))
PYTHON
}

# measure NAME AT_ONCE WORD..: prints how many messages a second this command makes, and its processor time for one
measure() {
    fastest "${@:3}" | awk -v name="$1" -v at_once="$2" -v count="$MESSAGES" '
        { printf "%-10s %4d %8.0f a second %8.2f microseconds each\n", name, at_once, count / $1, $2 * 1e6 / count }'
}

while [ ! -S "$work/socket" ]; do sleep 0.02; done
for at_once in 1 50 500; do
    {
        measure load.c "$at_once" "$work/load" "$work/socket" "$work/script" "$opening" "$at_once" "$at_once" \
            $((MESSAGES / at_once))
        measure load "$at_once" "$program" load "unix:$work/socket" "$work/session" --at-once "$at_once" \
            --messages "$MESSAGES"
    } | tee "$work/measured"
    if [ "$at_once" = 1 ] && [ -n "$has_client" ]; then
        measure go-milter 1 "$work/client" "$work/socket" "$MESSAGES" "$BODY"
    fi
    awk '{ rate[$1] = $3 } END { exit rate["load"] < 0.8 * rate["load.c"] }' "$work/measured"
done
