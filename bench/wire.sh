#!/usr/bin/env bash
# Measures what it takes to read and to encode packets, with `milter_tests_driver packets`: user instructions for a
# message of 16 packets, with ten header fields and 4 KiB of body, and MB of packets a second for bodies of 10 MiB,
# beside a plain copy of the same bytes in the same run. The instructions are callgrind's, without those of a run over
# the message once; callgrind counts a copy by `rep movsb` a byte at a time, so that this is turned off in the C
# library. It prints a line for each, and takes valgrind, Python and half a minute. The program is built first where it
# has to be.
. "$(dirname "${BASH_SOURCE[0]}")/lib.sh"
built milter_tests_driver packets split 1 </dev/null
program=build/milter_tests_driver
AGAIN=100

# message BODY: the packets of a message whose body has so many bytes
message() {
    python3 - "$1" <<'PYTHON'
import struct, sys
def packet(code, payload): return struct.pack(">I", 1 + len(payload)) + code + payload
def strings(*texts): return b"".join(text.encode() + b"\0" for text in texts)
FIELDS = [
    ("Received", "from mail.example.org (mail.example.org [192.0.2.17])\n\t"
                 "by mx.example.net with ESMTPS id 4BxYz12345"),
    ("From", "Ada <ada@example.org>"), ("To", "Bob <bob@example.net>"),
    ("Subject", "A message of an ordinary length, to be measured"), ("Date", "Mon, 23 Nov 2026 14:00:00 +0000"),
    ("Message-ID", "<20261123140000.1234@example.org>"), ("MIME-Version", "1.0"),
    ("Content-Type", "text/plain; charset=utf-8"), ("Content-Transfer-Encoding", "8bit"), ("User-Agent", "Example/1.0")]
size = int(sys.argv[1])
out = packet(b"C", strings("mail.example.org") + b"4" + struct.pack(">H", 12345) + strings("192.0.2.17"))
out += packet(b"H", strings("mail.example.org"))
out += packet(b"M", strings("<ada@example.org>", "SIZE=%d" % size))
out += packet(b"R", strings("<bob@example.net>"))
for field in FIELDS: out += packet(b"L", strings(*field))
body = bytes((7 * at + 3) % 251 + 1 for at in range(size))
for at in range(0, size, 65535): out += packet(b"B", body[at:at + 65535])
sys.stdout.buffer.write(out + packet(b"E", b""))
PYTHON
}

# instructions WORK COUNT: what callgrind counts of a run
instructions() {
    GLIBC_TUNABLES=$COPIES "${CALLGRIND[@]}" "$program" packets "$1" "$2" <"$work/message" 2>&1 >/dev/null | collected
}

# took WORK COUNT: the least of three runs, in nanoseconds
took() { best "'$program' packets $1 $2 <'$work/body' >/dev/null"; }

message 4096 >"$work/message"
message 10485760 >"$work/body"
echo "a message of 16 packets and $(stat -c %s "$work/message") bytes, user instructions:"
for what in split borrowed owned encode; do
    once=$(instructions "$what" 1)
    often=$(instructions "$what" $((AGAIN + 1)))
    printf '%-8s %8d\n' "$what" $(((often - once) / AGAIN))
done
echo "a message with a body of 10 MiB, MB/s:"
for what in copy split borrowed owned encode; do
    once=$(took "$what" 1)
    often=$(took "$what" 41)
    awk -v what="$what" -v took=$((often - once)) -v size="$(stat -c %s "$work/body")" 'BEGIN {
        printf "%-8s %8.0f\n", what, 40 * size / took * 1000 }'
done
