#!/usr/bin/env python3
"""Filters in Python, as bench/python.sh measures them: asked about each command, they let it go on, and accept at the
end of each message.

    python3 bench/filters.py deiruska|pymilter SOCKET
"""
import sys


def by_deiruska(path):
    """By the binding of libdeiruska."""
    import asyncio

    import deiruska

    async def handler(stage, _):
        return deiruska.Verdict.ACCEPT if stage is deiruska.Stage.EOB else deiruska.Verdict.CONTINUE

    asyncio.run(deiruska.serve(handler, 'unix:' + path))


def by_pymilter(path):
    """By pymilter, on libmilter."""
    import Milter

    class Filter(Milter.Base):
        def connect(self, *_):
            return Milter.CONTINUE

        def eom(self):
            return Milter.ACCEPT

        hello = envfrom = envrcpt = data = header = eoh = body = connect

    Milter.factory = Filter
    Milter.runmilter('measured', path)


if __name__ == '__main__':
    {'deiruska': by_deiruska, 'pymilter': by_pymilter}[sys.argv[1]](sys.argv[2])
