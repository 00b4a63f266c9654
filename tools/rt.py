#!/usr/bin/env python3
"""`rt` of the toolchain, with two of its functions computed once for each crate.

    tools/rt.py WORD ..                 the words of rt

`rt` sums what a crate is made of by going down each way through the libraries below it, several times for each library,
which takes minutes before a check of the highest crates. The sums stay the same, so that either takes over what the
other kept. It changes no file of the toolchain.
"""
import os
import shutil
import sys
import threading

LOADED = "\nrtlib = load()\n"
held = threading.local()


def patched(rtlib):
    """The library of rt, in which a crate's stamp and the crates below it are computed once."""
    plain = rtlib.Crate.stamp

    def stamp(crate):
        known = getattr(held, "stamps", None)
        if known is not None:
            if crate.folder not in known:
                known[crate.folder] = plain(crate)
            return known[crate.folder]
        held.stamps = {}
        try:
            return plain(crate)
        finally:
            held.stamps = None

    def below(crate):
        found = crate.__dict__.get("known_below")
        if found is None:
            found = []
            for library in crate.deps:
                found += [it for it in [*library.below(), library] if it not in found]
            crate.known_below = found
        return list(found)

    rtlib.Crate.stamp, rtlib.Crate.below = stamp, below
    return rtlib


def main():
    path = os.path.realpath(shutil.which("rt") or sys.exit("rt.py: it takes the Rattle toolchain, and there is no rt"))
    with open(path, encoding="utf-8") as file:
        text = file.read()
    if LOADED not in text:
        sys.exit(f"rt.py: {path} does not load its library as it used to")
    sys.argv[0] = path
    text = text.replace(LOADED, "\nrtlib = patched(load())\n", 1)
    exec(compile(text, path, "exec"), {"__name__": "__main__", "__file__": path, "patched": patched})


main()
