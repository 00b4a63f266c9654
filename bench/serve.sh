#!/usr/bin/env bash
# Measures `milter_tool serve` beside a filter on Sendmail's libmilter (`filter.c`, which libmilter serves by threads),
# which also lets all mail go on and keeps the body, beside the same on libdeiruska (`library.c`, one thread) where that
# is built, and beside `milter_tool answer` under socat (a process for each connection) where socat is installed. One
# generator (`load.c`) plays mail servers that wait for each reply, over a Unix socket. The filter has processor 1 for
# itself, the generator processor 0. For 1, 50 and 500 connections at once it prints how many connections of one message
# each a filter takes a second, and how many messages a second over connections that stay, the best of three runs: by
# the clock and, but for socat, by the filter's own processor time; and the KiB of memory of the filter before and with
# 500 and 9,990 idle connections, which have negotiated and sent nothing more. A message has sixteen commands, with ten
# header fields and 4 KiB of body.
#
# It also prints how many messages of 10 MiB a second a filter takes that refuses one recipient, over connections that
# stay. `serve` with one rule at rcpt, and a filter on libmilter of that callback, negotiate the same bits: of a message
# they are sent the sender, the recipient and the end alone, and don't reply to the sender. Beside these are the same
# rule with --all-stages, and the filter on libmilter of before, which are sent all of it and reply to each packet.
#
# It takes libmilter (libmilter-dev), a C compiler, Python, some minutes and 1 GiB of memory. The program is built first
# where it has to be; another one may be given. libdeiruska is that of `make`, or another one in the folder LIBRARY.
#
#     [LIBRARY=FOLDER] bash bench/serve.sh [PROGRAM]
. "$(dirname "${BASH_SOURCE[0]}")/lib.sh"
tool "$@"
CONNECTIONS=5000
MESSAGES=10000
BODY=4096
LARGE_BODY=10485760
LARGE_MESSAGES=500
LARGE_UNSENT=100000
IDLE='500 9990'
FILTERS='serve libmilter'
if library; then FILTERS="$FILTERS library"; fi
IDLE_FILTERS=$FILTERS
if command -v socat >/dev/null; then FILTERS="$FILTERS answer"; fi
libmilter
load
cat >"$work/rules" <<'RULES'
rules 2
at rcpt when rcpt-address is "noreply@example.net" do code "550 5.1.1 This address takes no mail"
RULES

# play FILTER WORD..: plays connections on a filter, or on one with a rule at rcpt
play() {
    local filter=$1 serve=("$program" serve "unix:$work/socket" --at-once 10000)
    shift
    rm -f "$work/socket"
    case $filter in
    serve) set -- "$@" "${serve[@]}" ;;
    serve-rcpt) set -- "$@" "${serve[@]}" --rules "$work/rules" ;;
    serve-all) set -- "$@" "${serve[@]}" --rules "$work/rules" --all-stages ;;
    libmilter-rcpt) set -- "$@" "$work/libmilter" "$work/socket" rcpt ;;
    libmilter | libmilter-all | library) set -- "$@" "$work/${filter%-*}" "$work/socket" many ;;
    answer) set -- "$@" socat "UNIX-LISTEN:$work/socket,fork,backlog=128" "EXEC:$program answer" ;;
    esac
    python3 bench/serve.py "$work/load" "$work/socket" "$@"
}

# measure WHAT FILTER BODY AT_ONCE CONNECTIONS MESSAGES: how many a second the filter takes, connections or messages
measure() {
    play "$2" rate "$3" "$4" "$5" "$6" >"$work/times"
    awk -v what="$1" -v filter="${2%-*}" -v at_once="$4" -v count=$(($5 * $6)) '
        { printf "%-12s %4d %-10s %8.0f %s\n", what, at_once, filter, count * 1e9 / $1,
            filter == "answer" ? "" : sprintf("%8.0f", count * 1e9 / $2) }' "$work/times"
}

echo "a second, by the clock and by processor time:"
for at_once in 1 50 500; do
    for filter in $FILTERS; do
        count=$CONNECTIONS
        if [ "$filter" = answer ]; then count=$((CONNECTIONS / 10)); fi
        measure connections "$filter" "$BODY" "$at_once" "$count" 1
        measure messages "$filter" "$BODY" "$at_once" "$at_once" $((MESSAGES / at_once))
    done
done
echo "messages of 10 MiB a second, where no more is sent than a rule at rcpt needs, and where all is:"
for at_once in 1 50; do
    for filter in serve libmilter; do
        measure recipient "$filter-rcpt" "$LARGE_BODY" "$at_once" "$at_once" $((LARGE_UNSENT / at_once))
    done
    for filter in serve libmilter; do
        measure all "$filter-all" "$LARGE_BODY" "$at_once" "$at_once" $((LARGE_MESSAGES / at_once))
    done
done
echo "KiB before and with idle connections:"
for idle in $IDLE; do
    for filter in $IDLE_FILTERS; do
        printf '%-12s %4d %-10s ' idle "$idle" "$filter"
        play "$filter" idle "$idle"
    done
done
