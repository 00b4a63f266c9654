#!/usr/bin/env bash
# Measures a mail server's end (`MtaCore`) in memory, alone and beside a filter's end that lets all mail go on
# (`FilterCore` with `Pass`): `milter_tests_driver pair` plays a session file to such a filter, and `milter_tests_driver
# mta` answers each command by itself. `milter_tests_driver stages` shows the same messages to such a filter stage by
# stage (`MtaConnection`); that end alone, with the loop around it, is what is left without the filter's end. A message
# has ten header fields, and so sixteen commands where its body has 4 KiB, and 176 where it has 10 MiB. A line for each
# session has the user instructions of a message at both ends, and those at the mail server's end alone. They are
# callgrind's, without those of a run that reads the session file and sends none of its messages; callgrind counts a
# copy by `rep movsb` and a clearing by `rep stosb` a byte at a time, so that both are turned off in the C library.
# Status 1 where a message of a session of 10,000 takes more than 1.1 times what one of a session of 100 takes. It takes
# valgrind, Python and some minutes. The program is built first where it has to be.
#
#     bash bench/core.sh
. "$(dirname "${BASH_SOURCE[0]}")/lib.sh"
SMALL=4096
SMALL_COMMANDS=16
LARGE=10485760
LARGE_COMMANDS=176
# The packets before the first message.
OPENING=3

# instructions WORD..: what callgrind counts of a run of the driver
instructions() { counted build/milter_tests_driver "$@"; }

# pass PACKETS: what the mail server's end takes for the first packets of the session, and their replies
pass() {
    { cat "$work/session"; printf '%%%%\nconfig 0 0 tempfail\ndialled\npass %s\n' "$1"; } >"$work/script"
    instructions mta <"$work/script"
}

# measure COUNT BODY COMMANDS: prints the line of a session, and leaves `both`, the instructions of both ends
measure() {
    local alone staged
    python3 bench/session.py "$1" "$2" >"$work/session"
    both=$(instructions pair play <"$work/session")
    both=$(((both - $(instructions pair read <"$work/session")) / $1))
    alone=$((($(pass $((OPENING + $1 * $3))) - $(pass "$OPENING")) / $1))
    staged=$(instructions stages play <"$work/session")
    staged=$(((staged - $(instructions stages read <"$work/session")) / $1))
    printf '%6d messages of %8d bytes: %9d, the mail server'"'"'s end alone %9d\n' "$1" "$2" "$both" "$alone"
    printf '%36s %9d, that end alone %22d\n' 'stage by stage:' "$staged" $((staged - both + alone))
}

python3 bench/session.py 1 "$SMALL" >"$work/session"
built milter_tests_driver pair read <"$work/session"
echo "user instructions of a message:"
measure 1 "$SMALL" "$SMALL_COMMANDS"
measure 100 "$SMALL" "$SMALL_COMMANDS"
of_100=$both
measure 10000 "$SMALL" "$SMALL_COMMANDS"
of_10000=$both
measure 1 "$LARGE" "$LARGE_COMMANDS"
measure 3 "$LARGE" "$LARGE_COMMANDS"
[ $((of_10000 * 10)) -le $((of_100 * 11)) ]
