"""Runs a session of examples/python/mail_server.py in this process, with a call of the library that is refused. The
library is that of DEIRUSKA_LIBRARY.
"""
import asyncio
import contextlib
import functools
import logging
import sys
from unittest import mock

from lib import c_library, c_plays, serving

# What a function of the library answers where memory is refused, whichever it is (deiruska.h).
NO_MEMORY = -2


class Refusing:
    """The functions of the library; the call of a number, from 1, answers that memory is refused."""

    def __init__(self, functions, number):
        self.number, self.made = number, 0
        self.functions = {name: functools.partial(self.called, it) for name, it in functions.items()}

    def called(self, function, *given):
        """A call."""
        self.made += 1
        return NO_MEMORY if self.made == self.number else function(*given)


async def dialogue(mail_server, settings, given):
    """What the server answers a client that writes this at once."""
    answers = functools.partial(mail_server.answer_client, settings)
    server = await asyncio.start_server(answers, '127.0.0.1', 0)
    reader, writer = await asyncio.open_connection(*server.sockets[0].getsockname())
    writer.write(given)
    out = b''
    with contextlib.suppress(ConnectionResetError):  # where the client is given up
        out = await asyncio.wait_for(reader.read(), serving.SECONDS)
    writer.close()
    server.close()
    return out


def session(words, given, number):
    """What the server answers a client that writes this at once, with the call of this number refused, and whether the
    session came to that call."""
    sys.path[:0] = [it for it in (c_library.BINDING, c_plays.PYTHON) if it not in sys.path]
    import deiruska._library as library  # pylint: disable=import-outside-toplevel
    import mail_server  # pylint: disable=import-outside-toplevel
    logging.disable(logging.CRITICAL)
    refusing = Refusing(library.functions(), number)
    with mock.patch.object(sys, 'argv', ['mail_server.py', *words]):
        settings = mail_server.read_settings()
    with mock.patch.dict(library.functions(), refusing.functions):
        out = asyncio.run(dialogue(mail_server, settings, given))
    return out, refusing.made >= number
