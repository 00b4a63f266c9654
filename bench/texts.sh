#!/usr/bin/env bash
# Measures how session files are read and reports printed. First the user instructions for each byte of body that
# `milter_tool session` takes to read a session file and print it, which callgrind counts; it counts a copy by
# `rep movsb` and a clearing by `rep stosb` a byte at a time, so that both are turned off in the C library. Then
# `milter_tool mta`, which reads ten messages of 10 MiB from a session file, plays them and prints the reports, beside
# a mail server's end on go-milter (`client.go`) that makes the same messages and prints a word for each. Both ask a
# filter on Sendmail's libmilter (`filter.c`) over a Unix socket. It prints the least of five runs, in seconds by the
# clock and of processor time of the mail server's end, and the ratios. It takes valgrind, libmilter (libmilter-dev), a
# C compiler, Python, and Go with go-milter (golang-go, golang-github-emersion-go-milter-dev). The program is built
# first where it has to be; another one may be given.
#
#     bash bench/texts.sh [PROGRAM]
. "$(dirname "${BASH_SOURCE[0]}")/lib.sh"
tool "$@"
MIB=1048576
COUNT=10
BODY=$((10 * MIB))
libmilter
client || { echo "go-milter isn't installed"; exit 1; }

# instructions COUNT: what callgrind counts of `session` with so many messages of 1 MiB
instructions() {
    python3 bench/session.py "$1" "$MIB" >"$work/session"
    counted "$program" session "$work/session"
}

# least NAME WORD..: plays the messages five times by this command, and prints the least times
least() {
    for _ in 1 2 3 4 5; do
        rm -f "$work/socket"
        "$work/libmilter" "$work/socket" &
        timed "$work/socket" "${@:2}"
        wait
    done | leasts | awk -v name="$1" '{ print name, $1 / 1e9, $2 / 1e9 }'
}

echo "user instructions for a byte of body, read and printed by session:"
few=$(instructions 2)
many=$(instructions 12)
awk -v few="$few" -v many="$many" -v bytes="$((10 * MIB))" 'BEGIN { printf "%.1f\n", (many - few) / bytes }'
python3 bench/session.py "$COUNT" "$BODY" >"$work/session"
echo "$COUNT messages with a body of 10 MiB, seconds by the clock and of processor time:"
{
    least mta "$program" mta "unix:$work/socket" "$work/session"
    least go-milter "$work/client" "$work/socket" "$COUNT" "$BODY"
} | awk '
    { printf "%-10s %8.3f %8.3f\n", $1, $2, $3; clock[NR] = $2; used[NR] = $3 }
    END { printf "%-10s %8.1f %8.1f\n", "ratio", clock[1] / clock[2], used[1] / used[2] }'
