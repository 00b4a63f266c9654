"""A test of the filter beside this file, for pytest:

    PYTHONPATH=. pytest test_sender_domain.py
"""
import socket
from unittest import mock

from deiruska import Answer, Verdict
from deiruska.testing import play
from sender_domain import SenderDomain

MESSAGE = b"From: Ada <ada@example.org>\n\nA line.\n"


def verdict(resolver, message=MESSAGE):
    """The verdict on a message where look-ups end so."""
    with mock.patch("socket.getaddrinfo", side_effect=resolver):
        return play(SenderDomain(), message).verdict


def test_a_domain_that_exists():
    assert verdict([[(socket.AF_INET, socket.SOCK_STREAM, 0, "", ("192.0.2.1", 0))]]) == Answer()


def test_a_domain_that_does_not_exist():
    found = verdict(socket.gaierror(socket.EAI_NONAME, "no such name"))
    assert found == Answer(code="554 5.7.1 sender domain does not exist")


def test_a_look_up_that_fails():
    assert verdict(socket.gaierror(socket.EAI_AGAIN, "try again")) == Answer(Verdict.TEMPFAIL)


def test_no_domain():
    assert verdict(AssertionError, b"From: somebody\n\nA line.\n") == Answer()
