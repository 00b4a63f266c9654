"""Answers of a filter."""
from typing import List, NamedTuple, Optional, Tuple, Union

from ._library import Text, bytes_of
from ._names import Verdict

# The bytes of a body that one packet has room for.
CHUNK_MAX = 65535


class Edit(NamedTuple):
    """An edit: the name of the method of `Answer` that asks for it, and what that is called with, texts as bytes."""

    name: str
    values: Tuple[Union[int, bytes], ...]


class Answer:
    """An answer to a question: a verdict, or a refusal with a code of its own, and edits, which come at the end of a
    message alone. Each method for an edit asks for one more, and answers the same Answer. Edits that the mail server
    didn't offer aren't sent.

    `code` is the text of a refusal: three digits, of which the first is 4 or 5, a blank, and more.
    """

    def __init__(self, verdict: Verdict = Verdict.CONTINUE, *, code: Optional[Text] = None) -> None:
        self.verdict = Verdict(verdict)
        self.code = None if code is None else bytes_of(code)
        self.edits: List[Edit] = []
        if self.code is not None and self.verdict is not Verdict.CONTINUE:
            raise ValueError("an answer has a verdict or a code")

    def __eq__(self, other: object) -> bool:
        if not isinstance(other, Answer):
            return NotImplemented
        return (self.verdict, self.code, self.edits) == (other.verdict, other.code, other.edits)

    def __repr__(self) -> str:
        given = "Verdict.%s" % self.verdict.name if self.code is None else "code=%r" % self.code
        edits = ("%s(%s)" % (name, ", ".join(map(repr, values))) for name, values in self.edits)
        return ".".join(["Answer(%s)" % given, *edits])

    def _with(self, name: str, *values: Union[int, Text]) -> "Answer":
        self.edits.append(Edit(name, tuple(it if isinstance(it, int) else bytes_of(it) for it in values)))
        return self

    def add_header(self, name: Text, value: Text) -> "Answer":
        """Adds a header field after the others."""
        return self._with("add_header", name, value)

    def insert_header(self, index: int, name: Text, value: Text) -> "Answer":
        """Inserts a header field after `index` others."""
        return self._with("insert_header", index, name, value)

    def change_header(self, index: int, name: Text, value: Text) -> "Answer":
        """Changes the value of the header field of this name at a place, counted from 1."""
        return self._with("change_header", index, name, value)

    def delete_header(self, index: int, name: Text) -> "Answer":
        """Deletes the header field of this name at a place, counted from 1."""
        return self.change_header(index, name, b"")

    def change_sender(self, address: Text, parameters: Text = b"") -> "Answer":
        """Changes the sender, with these ESMTP parameters."""
        return self._with("change_sender", address, parameters)

    def add_recipient(self, address: Text) -> "Answer":
        """Adds a recipient."""
        return self._with("add_recipient", address)

    def delete_recipient(self, address: Text) -> "Answer":
        """Deletes a recipient."""
        return self._with("delete_recipient", address)

    def replace_body(self, body: Text) -> "Answer":
        """Replaces the body; in chunks, where one packet doesn't have room for it. A second call appends to it."""
        whole = bytes_of(body)
        for start in range(0, max(len(whole), 1), CHUNK_MAX):
            self._with("replace_body", whole[start:start + CHUNK_MAX])
        return self

    def quarantine(self, reason: Text) -> "Answer":
        """Puts the message into quarantine."""
        return self._with("quarantine", reason)
