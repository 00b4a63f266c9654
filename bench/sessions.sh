#!/usr/bin/env bash
# Times `milter_tool session`, which reads a session file and prints it in its canonical form, over files of 1, 64 and
# 127 MiB: messages of 1 MiB each, with twenty recipients, forty header fields and a body in lines of 82 bytes; and over
# the worst forms of 32 MiB: messages of 36 bytes each, one line of words, and lines that are no session at all. It
# prints a line for each: bytes, seconds (the best of three, from the start of the program to its end), MB a second, and
# the most memory; then the figures that it is held to: 127 MiB takes at most 2.2 times 64 MiB, and a file whose first
# line is at fault at most a second. Status 1 where one is missed. The program is built first where it has to be;
# another one may be given.
#
#     bash bench/sessions.sh [PROGRAM]
. "$(dirname "${BASH_SOURCE[0]}")/lib.sh"
tool "$@"
python3 - "$work" "$program" <<'PYTHON'
import os, subprocess, sys, time

work, program = sys.argv[1:]
MEBIBYTE = 1048576
opening = b'client 4 "mail.example.org" 49152 "192.0.2.1"\nhelo "mail.example.org"\n'
opening += b'macro connect "j" "mx.example.net"\nmacro mail "{mail_addr}" "ada@example.org"\n'


def large_message():
    lines = [b"message", b'sender "<ada@example.org>" "SIZE=100000"']
    lines += [b'recipient "<user%03d@example.net>"' % i for i in range(20)]
    value = b'"a value of some bytes, with \\"quotes\\" and a fold\\r\\n\\tof it"'
    lines += [b'header "X-Header-%02d" %s' % (i, value) for i in range(40)]
    start = b"\n".join(lines) + b"\n"
    body = b'body "a line of a body as mail has it, seventy bytes and a line end; byte \\xe9.\\r\\n"\n'
    return start + body * ((MEBIBYTE - len(start) - 4) // len(body)) + b"end\n"


def repeated(bytes_, size):
    return bytes_ * (size * MEBIBYTE // len(bytes_))


files = {
    "1 MiB": lambda: opening + large_message(),
    "64 MiB": lambda: opening + large_message() * 64,
    "127 MiB": lambda: opening + large_message() * 127,
    "32 MiB of small messages": lambda: opening + repeated(b'message\nsender ""\nrecipient ""\nend\n', 32),
    "32 MiB of one line": lambda: b"client " + repeated(b'"" ', 32) + b"\n",
    "32 MiB of lines at fault": lambda: repeated(b"x\n", 32),
}


def write(path, content):
    """Writes the file in a process of its own: the most memory of a child is at least its parent's."""
    child = os.fork()
    if child == 0:
        with open(path, "wb") as file:
            file.write(content())
        os._exit(0)
    os.waitpid(child, 0)


best = {}
for name, content in files.items():
    path = f"{work}/session"
    write(path, content)
    for _ in range(3):
        began = time.perf_counter()
        process = subprocess.Popen([program, "session", path], stdout=subprocess.DEVNULL, stderr=subprocess.DEVNULL)
        _, status, usage = os.wait4(process.pid, 0)
        best[name] = min(best.get(name, 1e9), time.perf_counter() - began)
    size, most = os.path.getsize(path), usage.ru_maxrss / 1024
    speed = size / best[name] / 1e6
    print(f"{name:26s} {size:10d} bytes {best[name]:8.4f} s {speed:8.1f} MB/s {most:8.1f} MiB, status {status >> 8}")
twice = best["127 MiB"] / best["64 MiB"]
print(f"127 MiB takes {twice:.2f} times 64 MiB, at most 2.2")
sys.exit(twice > 2.2 or best["32 MiB of lines at fault"] > 1)
PYTHON
