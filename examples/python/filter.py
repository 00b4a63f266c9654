#!/usr/bin/env python3
"""A filter that looks each recipient up, refuses those that take no mail, and marks what it lets pass.

    python3 filter.py inet:8891@127.0.0.1

The line `smtpd_milters = inet:127.0.0.1:8891` in Postfix's main.cf has it asked about each message.
"""
import asyncio
import logging
import sys

import deiruska
from deiruska import Answer, Protocol, Shown

NO_MAIL = {b"<noreply@example.net>"}


async def takes_mail(address: bytes) -> bool:
    """Whether an address takes mail. A database or another server would be asked here: other connections go on."""
    await asyncio.sleep(0.01)
    return address.lower() not in NO_MAIL


class Filter:
    """Its methods are the stages at which it is asked."""

    async def rcpt(self, shown: Shown) -> Answer:
        """At each recipient, which is the last one so far."""
        if await takes_mail(shown.recipients[-1]):
            return Answer()
        return Answer(code="550 5.1.1 This address takes no mail")

    async def eob(self, shown: Shown) -> Answer:
        """At the end of a message."""
        return Answer().add_header("X-Filtered", shown.macro("j") or b"unknown")


if __name__ == "__main__":
    if len(sys.argv) != 2:
        sys.exit("usage: filter.py inet:PORT@HOST | unix:PATH")
    logging.basicConfig(level=logging.INFO)
    try:
        # No method looks at a body, so that none is sent.
        asyncio.run(deiruska.serve(Filter(), sys.argv[1], protocol=Protocol.NOBODY))
    except KeyboardInterrupt:
        pass
