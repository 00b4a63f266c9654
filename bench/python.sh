#!/usr/bin/env bash
# Measures a filter in Python on libdeiruska (`deiruska.serve`) beside one on libmilter by pymilter, both of which
# (`filters.py`) are asked about each command, let it go on, and accept at the end of each message. One generator
# (`load.c`) plays mail servers that wait for each reply, over a Unix socket, on processor 0; the filter has processor
# 1. For 1 and 50 connections that stay it prints how many messages a second a filter takes, the best of three runs: by
# the clock and by the filter's own processor time. A message has sixteen commands, with ten header fields and 4 KiB of
# body. It takes pymilter (python3-milter), a C compiler and a minute. Python is `python3`, or PYTHON, for which
# pymilter is installed. libdeiruska is that of `make`, or another one in the folder LIBRARY.
#
#     [PYTHON=PROGRAM] [LIBRARY=FOLDER] bash bench/python.sh
. "$(dirname "${BASH_SOURCE[0]}")/lib.sh"
python=${PYTHON:-python3}
export DEIRUSKA_LIBRARY=$LIBRARY/lib/libdeiruska.so.0 PYTHONPATH=bindings/python PYTHONDONTWRITEBYTECODE=1
MESSAGES=2000
BODY=4096
load

# measure FILTER AT_ONCE: how many messages a second the filter takes
measure() {
    rm -f "$work/socket"
    "$python" bench/serve.py "$work/load" "$work/socket" rate "$BODY" "$2" "$2" $((MESSAGES / $2)) \
        "$python" bench/filters.py "$1" "$work/socket" |
        awk -v filter="$1" -v at_once="$2" -v count="$MESSAGES" '
            { printf "%4d %-10s %8.0f %8.0f\n", at_once, filter, count * 1e9 / $1, count * 1e9 / $2 }'
}

echo "messages a second, by the clock and by processor time:"
for at_once in 1 50; do
    for filter in deiruska pymilter; do measure "$filter" "$at_once"; done
done
