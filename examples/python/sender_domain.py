#!/usr/bin/env python3
"""A filter that refuses mail whose From field names a domain that doesn't exist, as the final script of OpenDKIM's
documentation does. The look-up doesn't block: other connections go on.

    python3 sender_domain.py inet:8891@127.0.0.1
"""
import asyncio
import email.utils
import logging
import socket
import sys
from typing import Optional

import deiruska
from deiruska import Answer, Protocol, Shown, Verdict

# What the resolver says of a name that doesn't exist; all else is a failure of the look-up.
NO_NAME = (socket.EAI_NONAME, getattr(socket, "EAI_NODATA", socket.EAI_NONAME))


def from_domain(shown: Shown) -> Optional[str]:
    """The domain of the From field, if there is one."""
    for name, value in shown.headers:
        if name.lower() == b"from":
            _, at, domain = email.utils.parseaddr(value.decode("latin-1"))[1].rpartition("@")
            return domain if at else None
    return None


async def exists(domain: str) -> bool:
    """Whether a domain has an address. Raises OSError where the look-up fails."""
    try:
        await asyncio.get_running_loop().getaddrinfo(domain, None)
    except socket.gaierror as error:
        if error.errno in NO_NAME:
            return False
        raise
    return True


class SenderDomain:
    """It is asked at the end of the header."""

    async def eoh(self, shown: Shown) -> Answer:
        """All header fields are shown."""
        domain = from_domain(shown)
        try:
            if domain is None or await exists(domain):
                return Answer()
        except OSError:
            logging.exception("%s could not be looked up", domain)
            return Answer(Verdict.TEMPFAIL)
        return Answer(code="554 5.7.1 sender domain does not exist")


if __name__ == "__main__":
    if len(sys.argv) != 2:
        sys.exit("usage: sender_domain.py inet:PORT@HOST | unix:PATH")
    logging.basicConfig(level=logging.INFO)
    try:
        asyncio.run(deiruska.serve(SenderDomain(), sys.argv[1], protocol=Protocol.NOBODY))
    except KeyboardInterrupt:
        pass
