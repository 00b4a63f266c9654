#!/usr/bin/env python3
"""Prints a session file of so many messages, each with ten header fields and a body of so many bytes, in lines of 64.

    python3 bench/session.py COUNT BODY
"""
import sys

LINE = 'x' * 62 + '\\r\\n'
LINE_LEN = 64
# Lines of a body in one line of the file.
LINES_EACH = 512


def main():
    count, body = int(sys.argv[1]), int(sys.argv[2])
    print('client U "mail.example.org"\nhelo "mail.example.org"')
    for _ in range(count):
        print('message\nsender "ada@example.org"\nrecipient "bob@example.net"')
        for n in range(10):
            print(f'header "X-Field-{n}" " a value of some bytes, as header fields have them"')
        for at in range(0, body // LINE_LEN, LINES_EACH):
            print(f'body "{LINE * min(LINES_EACH, body // LINE_LEN - at)}"')
        print('end')


if __name__ == '__main__':
    main()
