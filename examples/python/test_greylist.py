"""A test of the greylist beside this file, for pytest:

    PYTHONPATH=. pytest test_greylist.py
"""
import os
import tempfile
from unittest import mock

from deiruska import Answer, Verdict
from deiruska.testing import play
from greylist import ON_ERROR, AllowList, Greylist, Store

RECIPIENT = b"<bob@example.net>"


def refusals(path, now, allowed=()):
    """The recipients that are refused of a message that comes at this second, by a filter that was just started."""
    greylist = Greylist(Store(path, 300, 3_600, 3_600), AllowList(allowed), ON_ERROR["tempfail"])
    with mock.patch("time.time", return_value=now):
        return play(greylist, b"Subject: hello\n\nA line.\n", recipients=[RECIPIENT]).refusals


def deferred(seconds):
    """The answer to a try that comes too early by so many seconds."""
    return {RECIPIENT: Answer(code="451 4.7.1 Greylisted, try again in %d seconds" % seconds)}


def test_a_later_try_passes():
    with tempfile.TemporaryDirectory() as folder:
        path = os.path.join(folder, "triples")
        assert refusals(path, 1_000) == deferred(300)
        assert refusals(path, 1_299) == deferred(1)
        assert refusals(path, 1_300) == {}


def test_what_is_allowed_passes():
    with tempfile.TemporaryDirectory() as folder:
        assert refusals(os.path.join(folder, "triples"), 1_000, ["@example.net"]) == {}


def test_nothing_passes_without_a_database():
    with tempfile.TemporaryDirectory() as folder:
        assert refusals(folder, 1_000) == {RECIPIENT: Answer(Verdict.TEMPFAIL)}
