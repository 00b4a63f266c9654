#!/usr/bin/env bash
# Measures a world (`milter_world`), with a filter that lets all mail go on: `milter_tests_driver world` plays a session
# file by `play`, and by `run` in rounds of 1 byte and of 100, and `milter_tests_driver pair` drives the same two ends by
# a loop of its own. A message has ten header fields, and so sixteen commands where its body has 4 KiB. A line for each
# session has the user instructions of a message: callgrind's, without those of a run that only reads the session file;
# callgrind counts a copy by `rep movsb` and a clearing by `rep stosb` a byte at a time, so that both are turned off in
# the C library. Status 1 where `play` takes more than 2.5 times what the loop takes, or where rounds take more than 1.1
# times as much for each message of a session ten times as long. It takes valgrind, Python and some minutes. The
# program is built first where it has to be.
#
#     bash bench/world.sh
. "$(dirname "${BASH_SOURCE[0]}")/lib.sh"
BODY=4096
# More rounds than a message takes, of 100 bytes and of 1.
ROUNDS_OF_100=150
ROUNDS_OF_1=6000

# instructions WORD..: what callgrind counts of a run of the driver on the session
instructions() { counted build/milter_tests_driver "$@" <"$work/session"; }

# a_message COUNT READ WORD..: the instructions of one of so many messages, without those of reading them
a_message() { echo $((($(instructions "${@:3}") - $2) / $1)); }

# measure COUNT: prints the line of a session of so many messages, and leaves each number
measure() {
    local read
    python3 bench/session.py "$1" "$BODY" >"$work/session"
    read=$(instructions world read)
    loop=$(a_message "$1" "$read" pair play)
    played=$(a_message "$1" "$read" world play)
    of_100=$(a_message "$1" "$read" world run dial "rounds $((ROUNDS_OF_100 * $1)) 100")
    of_1=$(a_message "$1" "$read" world run dial "rounds $((ROUNDS_OF_1 * $1)) 1")
    printf '%5d messages: the loop %8d, play %8d, rounds of 100 bytes %8d, of 1 byte %8d\n' \
        "$1" "$loop" "$played" "$of_100" "$of_1"
}

python3 bench/session.py 1 "$BODY" >"$work/session"
built milter_tests_driver world read <"$work/session"
echo "user instructions of a message of $BODY bytes:"
measure 10
before_100=$of_100
before_1=$of_1
measure 100
[ $((played * 2)) -le $((loop * 5)) ] && [ $((of_100 * 10)) -le $((before_100 * 11)) ] &&
    [ $((of_1 * 10)) -le $((before_1 * 11)) ]
