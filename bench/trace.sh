#!/usr/bin/env bash
# Times `milter_tool trace` over 64 MiB of packets in hexadecimal, cut into lines of 64 KiB and again of 32 bytes, and
# over 8 MiB of the same, beside what `xxd -r -p` takes for the same digits in the same run; and then over a stream of
# small packets, each a header field of 60 bytes, whose name and value are printed in quotes. It prints a line for each:
# what ran, bytes of packets, seconds (the best of three), and MB of packets a second; then the figures that the program
# is held to: 64 MiB takes at most 9 times 8 MiB, and for the first stream no longer than `xxd`. Status 1 where one is
# missed. It takes about 150 MB of a temporary folder. The program is built first where it has to be; another one may be
# given.
#
#     bash bench/trace.sh [PROGRAM]
. "$(dirname "${BASH_SOURCE[0]}")/lib.sh"
tool "$@"

# packets MEBIBYTES: packets of a body chunk and of a short answer in turn, 64 KiB of packets at a time
packets() {
    python3 - "$1" <<'PYTHON'
import struct, sys
def packet(code, payload): return struct.pack(">I", 1 + len(payload)) + code + payload
block = b""
number = 0
while len(block) < 65536 - 600:
    block += packet(b"B", bytes((number + at) % 256 for at in range(40 + number % 17)))
    number += 1
block += packet(b"B", bytes(65536 - len(block) - 5))
sys.stdout.buffer.write(block * (int(sys.argv[1]) * 16))
PYTHON
}

# headers MEBIBYTES: packets of a header field of 60 bytes; one in sixteen has a line end and a byte that isn't ASCII
headers() {
    python3 - "$1" <<'PYTHON'
import struct, sys
def packet(code, payload): return struct.pack(">I", 1 + len(payload)) + code + payload
plain = packet(b"L", b"X-Header" + bytes(1) + b"a value of fifty bytes, with \"quotes\" and blanks. " + bytes(1))
folded = packet(b"L", b"X-Header" + bytes(1) + b"a value of fifty bytes, on two\n\tlines, and one: \xe9 " + bytes(1))
assert len(plain) == len(folded) == 65
block = plain * 15 + folded
sys.stdout.buffer.write(block * (int(sys.argv[1]) * 1048576 // len(block)))
PYTHON
}

# lines WIDTH: the bytes of its input as lines of `> ` and WIDTH digits
lines() { xxd -p -c 0 | tr -d '\n' | fold -w "$1" | sed 's/^/> /'; }

row() { # row NAME MEBIBYTES NANOSECONDS
    awk -v name="$1" -v mebibytes="$2" -v took="$3" 'BEGIN {
        printf "%-33s %9d bytes %8.3f s %8.1f MB/s\n", name, mebibytes * 1048576, took / 1e9, mebibytes * 1048.576e6 / took }'
}

status=0
bound() { # bound NAME FIGURE BOUND
    if awk -v figure="$2" -v bound="$3" 'BEGIN { exit !(figure <= bound) }'; then
        echo "$1: $2, at most $3: within"
    else
        echo "$1: $2, at most $3: MISSED"
        status=1
    fi
}

for width in 65536 32; do
    for mebibytes in 64 8; do
        packets "$mebibytes" | lines "$width" >"$work/input"
        sed 's/^> //' "$work/input" >"$work/digits"
        took=$(best "'$program' trace <'$work/input' >/dev/null")
        row "trace, lines of $width digits" "$mebibytes" "$took"
        plain=$(best "xxd -r -p <'$work/digits' >/dev/null")
        row "xxd -r -p, lines of $width digits" "$mebibytes" "$plain"
        if [ "$mebibytes" = 64 ]; then
            long=$took
            beside=$plain
        fi
    done
    bound "64 MiB over 8 MiB, lines of $width" "$(awk -v a="$long" -v b="$took" 'BEGIN { printf "%.1f", a / b }')" 9
    bound "trace over xxd, lines of $width" "$(awk -v a="$long" -v b="$beside" 'BEGIN { printf "%.2f", a / b }')" 1
done
for mebibytes in 64 8; do
    headers "$mebibytes" | lines 65536 >"$work/input"
    took=$(best "'$program' trace <'$work/input' >/dev/null")
    row "trace, header fields of 60 bytes" "$mebibytes" "$took"
    if [ "$mebibytes" = 64 ]; then long=$took; fi
done
bound "64 MiB over 8 MiB, header fields" "$(awk -v a="$long" -v b="$took" 'BEGIN { printf "%.1f", a / b }')" 9
exit "$status"
