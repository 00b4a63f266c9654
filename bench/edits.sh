#!/usr/bin/env bash
# Times `apply` over messages of 10,000 header fields or recipients and 10,000 edits of one kind: `milter_tests_driver
# edits` reads a session file and the packets of the edits, decodes them, and applies them. This prints a line for each
# kind: seconds of processor time (the least of three runs of the program) and the most memory; and the same for lists
# of edits of 1 MiB of the kinds that cost most. Status 1 where a kind takes more than a second for 10,000 edits. The
# program is built first where it has to be.
. "$(dirname "${BASH_SOURCE[0]}")/lib.sh"
printf 'client U ""\nhelo ""\nmessage\nsender ""\nrecipient ""\nend\n\0' >"$work/empty"
built milter_tests_driver edits count <"$work/empty"
python3 - "$work" build/milter_tests_driver <<'PYTHON'
import os, struct, subprocess, sys

work, program = sys.argv[1:]
COUNT = 10_000
MEBIBYTE = 1048576


def session(headers, recipients):
    lines = ['client U ""', 'helo ""', "message", 'sender "ada@example.org"']
    lines += [f'recipient "{recipient}"' for recipient in recipients]
    lines += [f'header "{name}" " a value of some bytes, as header fields have them"' for name in headers]
    return ("\n".join(lines + ["end"]) + "\n").encode()


def packet(code, payload):
    return struct.pack(">I", len(payload) + 1) + code + payload


def strings(*texts):
    return b"".join(text.encode() + b"\0" for text in texts)


def indexed(code, index, name, value):
    return packet(code, struct.pack(">I", index) + strings(name, value))


names = [f"X-{i:05}" for i in range(COUNT)]
same = ["Received"] * COUNT
one = ["b@example.net"]
users = [f"user{i:05}@example.net" for i in range(COUNT)]
of_names, of_same, of_users = session(names, one), session(same, one), session([], users)
kinds = {
    "no edit": (of_names, b""),
    "add a header field": (of_names, packet(b"h", strings("X-New", "value")) * COUNT),
    "insert one as the first": (of_names, indexed(b"i", 0, "X-New", "value") * COUNT),
    "insert one as the last": (of_names, indexed(b"i", 99_999, "X-New", "value") * COUNT),
    "change the last of a name": (of_same, indexed(b"m", COUNT, "Received", "value") * COUNT),
    "change one of each name": (of_names, b"".join(indexed(b"m", 1, name, "value") for name in names)),
    "change one that is absent": (of_names, indexed(b"m", 1, "X-None", "") * COUNT),
    "delete the first": (of_names, b"".join(indexed(b"m", 1, name, "") for name in names)),
    "delete the last": (of_same, b"".join(indexed(b"m", COUNT - i, "Received", "") for i in range(COUNT))),
    "add a recipient": (of_users, packet(b"+", strings("c@example.net")) * COUNT),
    "delete a recipient": (of_users, b"".join(packet(b"-", strings(user)) for user in users)),
    "delete an absent recipient": (of_users, packet(b"-", strings("c@example.net")) * COUNT),
}
short = session(["A"], one)
insert, absent = indexed(b"i", 0, "A", ""), indexed(b"m", 0, "B", "")
add, delete = packet(b"h", strings("A", "")), packet(b"-", strings(""))
half = MEBIBYTE // 2
worst = {
    "1 MiB of inserts": (short, insert * (MEBIBYTE // len(insert))),
    "1 MiB of adds and changes": (short, add * (half // len(add)) + absent * (half // len(absent))),
    "1 MiB of recipients": (short, packet(b"+", b"\0") * (half // 6) + packet(b"-", b"x\0") * (half // 7)),
}


def run(name, file, edits, times):
    """The least seconds of processor time of so many runs."""
    path = f"{work}/input"
    with open(path, "wb") as out:
        out.write(file + b"\0" + edits)
    best = 1e9
    for _ in range(times):
        with open(path, "rb") as packets:
            process = subprocess.Popen([program, "edits", "count"], stdin=packets, stdout=subprocess.PIPE)
            text = process.stdout.read().decode().strip()
            _, status, usage = os.wait4(process.pid, 0)
            best = min(best, usage.ru_utime + usage.ru_stime)
        if status:
            sys.exit(f"{name}: status {status >> 8}")
    print(f"{name:28s} {best:8.3f} s {usage.ru_maxrss / 1024:8.1f} MiB, then {text}", flush=True)
    return best


slowest = max(run(name, *kind, 3) for name, kind in kinds.items())
for name, kind in worst.items():
    run(name, *kind, 1)
print(f"the slowest kind of 10,000 edits takes {slowest:.3f} s, at most 1")
sys.exit(slowest > 1)
PYTHON
