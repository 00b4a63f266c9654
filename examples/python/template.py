#!/usr/bin/env python3
"""A filter to begin with: it logs who sends, looks into the message at its end, marks it, and has a copy sent. It does
what the template of pymilter's documentation does.

    python3 template.py inet:8891@127.0.0.1
"""
import asyncio
import email
import email.policy
import logging
import sys
from email.message import Message

import deiruska
from deiruska import Answer, Shown, Stage, Verdict

COPIES_TO = "<archive@example.com>"
# A blank line stands between the header and the body.
LINE_END = b"\r\n"


def message_of(shown: Shown) -> Message:
    """The message, with its header fields decoded."""
    lines = [name + b":" + value + LINE_END for name, value in shown.headers]
    return email.message_from_bytes(b"".join(lines) + LINE_END + shown.body, policy=email.policy.default)


class Template:
    """Its methods are the stages at which it is asked."""

    async def connect(self, shown: Shown) -> None:
        """A client has connected."""
        logging.info("connection from %r at %r", shown.host, shown.address)

    async def mail(self, shown: Shown) -> Answer:
        """A sender. The null sender is that of bounces."""
        logging.info("%s: from %r", (shown.macro("i") or b"-").decode(), shown.sender)
        return Answer()

    async def eob(self, shown: Shown) -> Answer:
        """The end of a message: all of it is shown, and edits may be asked for."""
        message = message_of(shown)
        if any(part.get_content_type() == "application/x-msdownload" for part in message.walk()):
            return Answer(code="554 5.7.1 Programs are not taken")
        logging.info("%r to %r", message["subject"], shown.recipients)
        return Answer(Verdict.CONTINUE).insert_header(0, "X-Filtered", "by template.py").add_recipient(COPIES_TO)


if __name__ == "__main__":
    if len(sys.argv) != 2:
        sys.exit("usage: template.py inet:PORT@HOST | unix:PATH")
    logging.basicConfig(level=logging.INFO)
    try:
        # Macros that the mail server is asked for; without this it sends those of its own settings.
        asyncio.run(deiruska.serve(Template(), sys.argv[1], macros={Stage.MAIL: "i"}))
    except KeyboardInterrupt:
        pass
