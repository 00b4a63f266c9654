"""A test of the template beside this file, for pytest. It has the steps of the example in miltertest's manual page.

    PYTHONPATH=. pytest test_template.py
"""
from deiruska import Address, Answer, Family, Stage, Verdict
from deiruska.testing import play
from template import COPIES_TO, Template

MESSAGE = b"""From: user@example.com
Date: Tue, 22 Dec 2009 13:04:12 -0800
Subject: Signing test

This is a test!
"""
PROGRAM = MESSAGE.replace(b"\n\n", b"\nContent-Type: application/x-msdownload\n\n")


def played(message: bytes):
    """What the filter does with a message."""
    return play(Template(), message, sender="user@example.com", host="localhost",
                client=Address(b"127.0.0.1", Family.INET, 12345), macros={Stage.MAIL: {"i": "test-id"}})


def test_a_header_field_is_inserted():
    found = played(MESSAGE)
    assert (found.verdict, found.stage) == (Answer(Verdict.CONTINUE), Stage.EOB)
    assert found.edited.startswith(b"X-Filtered: by template.py\r\nFrom: user@example.com\r\n")
    assert found.recipients == [b"<bob@example.net>", COPIES_TO.encode()]


def test_programs_are_refused():
    assert played(PROGRAM).verdict == Answer(code="554 5.7.1 Programs are not taken")
