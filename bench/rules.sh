#!/usr/bin/env bash
# Measures what rules cost that look at all recipients so far at each recipient, at all header fields so far at each
# header field, and at the whole body so far at each chunk of it, for each field and each test, `in` a list of 200
# entries too: one message of 1,000 to 100,000 recipients or header fields, with macros before each of these and without,
# or of as many chunks of one byte; and a body of 1,000,000 bytes in chunks of 1 to 65,535 bytes, to
# `milter_tool answer`. Before these it measures 10,000 rules at rcpt, and one rule with as many texts, on a message of
# 1 to 2,000 recipients. It prints the processor time of the fastest of three runs, and fails where ten times as much of
# a message costs more than twenty times as much. It takes Python and some minutes. The program is built first where it
# has to be; another one may be given.
#
# After these it measures lists of 1,000,000 entries of each kind, beside sets of Python (`lists.py`): the processor
# time and the peak of memory of reading one, and the lookups a second. It fails where one takes more than a second or
# 200 MiB, or where fewer than 100,000 values a second are looked for.
#
# With an older program at OLD both go through 10,000 rules at rcpt of the first form, in turn, and it fails where they
# cost a quarter more than they did; less is what such runs are off by. Without OLD that row is left out. The last
# program before rule files had a wider form is built in half an hour by
#
#     git worktree add --detach /tmp/before 241ad378 && make -C /tmp/before
#
# and is /tmp/before/build/milter_tool then.
#
#     [OLD=PROGRAM] bash bench/rules.sh [PROGRAM]
. "$(dirname "${BASH_SOURCE[0]}")/lib.sh"
tool "$@"
status=0
python3 bench/rules.py "$program" "$work" "${OLD:-}" || status=1
python3 bench/lists.py "$program" "$work" || status=1
exit "$status"
