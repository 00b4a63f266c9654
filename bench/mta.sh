#!/usr/bin/env bash
# Measures `milter_tool mta`, which plays session files, against `milter_tool filter` and against a filter on Sendmail's
# libmilter (`filter.c`): all over a Unix socket, the mail server's end and the filter on one processor together. For
# each filter a line has how many messages of sixteen commands with 4 KiB of body are played a second, and MB a second
# of messages with 10 MiB of body, by the clock and by the processor time of `mta` alone: the least of three runs,
# without the time of a run that plays one message. In both the session file is read first, which the difference has in
# it. It takes libmilter (libmilter-dev), a C compiler, Python and some minutes. The program is built first where it has
# to be; another one may be given.
#
#     bash bench/mta.sh [PROGRAM]
. "$(dirname "${BASH_SOURCE[0]}")/lib.sh"
tool "$@"
SMALL=4096
SMALL_COUNT=2000
LARGE=10485760
LARGE_COUNT=10
FILTERS='filter libmilter'
libmilter

# play FILTER: plays the session to a filter, and prints the nanoseconds of it, and of processor time of `mta`
play() {
    rm -f "$work/socket"
    case $1 in
    filter) "$program" filter "unix:$work/socket" >/dev/null & ;;
    libmilter) "$work/libmilter" "$work/socket" & ;;
    esac
    timed "$work/socket" "$program" mta "unix:$work/socket" "$work/session"
    wait
}

# least COUNT BODY FILTER: the least of three runs
least() {
    python3 bench/session.py "$1" "$2" >"$work/session"
    for _ in 1 2 3; do
        play "$3"
    done | leasts
}

# rates COUNT BODY UNIT: for each filter, how many units of these messages are played a second, where a message has UNIT
rates() {
    local once often
    for filter in $FILTERS; do
        once=$(least 1 "$2" "$filter")
        often=$(least $(($1 + 1)) "$2" "$filter")
        rate "$filter" "$1" "$3" "$once" "$often"
    done
}

taskset -cp 0 $$ >/dev/null
echo "$SMALL_COUNT messages of sixteen commands, messages/s by the clock and by processor time of mta:"
rates "$SMALL_COUNT" "$SMALL" 1
echo "$LARGE_COUNT messages with a body of 10 MiB, MB/s by the clock and by processor time of mta:"
rates "$LARGE_COUNT" "$LARGE" 10.48576
