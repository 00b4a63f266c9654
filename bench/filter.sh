#!/usr/bin/env bash
# Measures `milter_tool answer` and `milter_tool filter` beside a filter on Sendmail's libmilter (`filter.c`), which
# also lets all mail go on and keeps the body, and beside the same on libdeiruska (`library.c`) where that is built,
# with one generator (`filter.py`) that waits for each reply. `answer` has a socket as its standard streams; the others
# listen at a Unix socket, and one connection is made. For each it prints the user instructions of a message of sixteen
# commands, with ten header fields and 4 KiB of body, how many of these messages it takes a second, and MB of messages
# of 10 MiB a second, both by the clock and by the filter's processor time, the generator and the filter each on a
# processor of its own. It also prints the user instructions of a connection of one such message, for `filter`, `serve`
# and libmilter. The instructions are callgrind's, without those of a run of one message or one connection; callgrind
# counts a copy by `rep movsb` a byte at a time, so that this is turned off in the C library. It takes libmilter
# (libmilter-dev), a C compiler, valgrind, Python and some minutes. The program is built first where it has to be;
# another one may be given. libdeiruska is that of `make`, or another one in the folder LIBRARY.
#
#     [LIBRARY=FOLDER] bash bench/filter.sh [PROGRAM]
. "$(dirname "${BASH_SOURCE[0]}")/lib.sh"
tool "$@"
AGAIN=100
SMALL=4096
SMALL_COUNT=2000
LARGE=10485760
LARGE_COUNT=50
FILTERS='answer filter libmilter'
MANY='filter serve libmilter'
libmilter
if library; then FILTERS="$FILTERS library" MANY="$MANY library"; fi

# play COUNT BODY FILTER COMMAND..: plays messages on a filter, which runs under the command
play() {
    local count=$1 body=$2 filter=$3
    shift 3
    rm -f "$work/socket"
    case $filter in
    answer) python3 bench/filter.py 1 "$count" "$body" - "$@" "$program" answer ;;
    filter) python3 bench/filter.py 1 "$count" "$body" "$work/socket" "$@" "$program" filter "unix:$work/socket" ;;
    *) python3 bench/filter.py 1 "$count" "$body" "$work/socket" "$@" "$work/$filter" "$work/socket" ;;
    esac
}

# connect COUNT BODY FILTER COMMAND..: plays connections of one message on a filter, which runs under the command
connect() {
    local count=$1 body=$2 filter=$3
    shift 3
    rm -f "$work/socket"
    case $filter in
    filter) set -- "$count" 1 "$body" "$work/socket" "$@" "$program" filter "unix:$work/socket" --count "$count" ;;
    serve) set -- "$count+" 1 "$body" "$work/socket" "$@" "$program" serve "unix:$work/socket" ;;
    *) set -- "$count+" 1 "$body" "$work/socket" "$@" "$work/$filter" "$work/socket" many ;;
    esac
    python3 bench/filter.py "$@"
}

# instructions PLAY COUNT FILTER: what callgrind counts of a run of this play
instructions() {
    GLIBC_TUNABLES=$COPIES "$1" "$2" "$SMALL" "$3" "${CALLGRIND[@]}" 2>&1 >/dev/null | collected
}

# cost PLAY FILTER: the user instructions of one in a play of many, without those of a play of one
cost() {
    printf '%-10s %8d\n' "$2" $((($(instructions "$1" $((AGAIN + 1)) "$2") - $(instructions "$1" 1 "$2")) / AGAIN))
}

# least COUNT BODY FILTER: the least of three runs, in nanoseconds by the clock and of processor time
least() {
    for _ in 1 2 3; do
        play "$1" "$2" "$3" taskset -c 1
    done | leasts
}

# rates COUNT BODY UNIT: for each filter, how many units of these messages it takes a second, where a message has UNIT
rates() {
    local once often
    for filter in $FILTERS; do
        once=$(least 1 "$2" "$filter")
        often=$(least $(($1 + 1)) "$2" "$filter")
        rate "$filter" "$1" "$3" "$once" "$often"
    done
}

echo "a message of sixteen commands, user instructions:"
for filter in $FILTERS; do cost play "$filter"; done
echo "a connection of one such message, user instructions:"
for filter in $MANY; do cost connect "$filter"; done
taskset -cp 0 $$ >/dev/null
echo "$SMALL_COUNT such messages, messages/s by the clock and by processor time:"
rates "$SMALL_COUNT" "$SMALL" 1
echo "$LARGE_COUNT messages with a body of 10 MiB, MB/s by the clock and by processor time:"
rates "$LARGE_COUNT" "$LARGE" 10.48576
