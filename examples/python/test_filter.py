"""A test of the filter beside this file, for pytest:

    PYTHONPATH=. pytest test_filter.py
"""
from deiruska import Answer
from deiruska.testing import play
from filter import Filter


def test_noreply_is_refused():
    played = play(Filter(), b"Subject: hello\n\nA line.\n", recipients=["<bob@example.net>", "<noreply@example.net>"])
    assert played.refusals == {b"<noreply@example.net>": Answer(code="550 5.1.1 This address takes no mail")}
    assert played.edited == b"Subject: hello\r\nX-Filtered: unknown\r\n\r\nA line.\r\n"
