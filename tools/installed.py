#!/usr/bin/env python3
"""Puts what a folder has in place, and takes it away again.

    tools/installed.py put FOLDER DESTDIR PREFIX      what FOLDER has below PREFIX comes below DESTDIR/PREFIX
    tools/installed.py remove DESTDIR PREFIX          and is removed again

A list in PREFIX/share/doc/deiruska has what was put, and the folders that were made for it. With a list that is there
already the new one has what both have. Files of others are left, and so are folders that have any.
"""

import errno
import os
import shutil
import sys

LIST = "share/doc/deiruska/installed"


def below(destdir, path):
    """The path of an installed file."""
    return os.path.join(destdir or "/", path.lstrip("/"))


def list_of(destdir, prefix):
    """The path of the list, below PREFIX."""
    return below(destdir, os.path.join(prefix, LIST))


def read(path):
    """The lines of a list."""
    with open(path, encoding="utf-8") as file:
        return file.read().splitlines()


def make_folder(destdir, path):
    """Makes a folder where there is none, and gives those that were made, the outermost first."""
    if path not in ("", "/") and not os.path.isdir(below(destdir, path)):
        yield from make_folder(destdir, os.path.dirname(path))
        os.makedirs(below(destdir, path))
        yield path + "/"


def replace(given, placed):
    """Puts a file or a link in place of what is there, at once: a program that runs keeps its own."""
    shutil.copy(given, placed + ".new", follow_symlinks=False)
    os.replace(placed + ".new", placed)


def put(folder, destdir, prefix):
    """Puts what a folder has below PREFIX in place, and writes the list."""
    listed = list_of(destdir, prefix)
    lines = set(read(listed)) if os.path.exists(listed) else set()
    for at, _, names in os.walk(below(folder, prefix)):
        path = "/" + os.path.relpath(at, folder)
        lines.update(make_folder(destdir, path))
        for name in names:
            replace(os.path.join(at, name), below(destdir, os.path.join(path, name)))
            lines.add(os.path.join(path, name))
    lines.update(make_folder(destdir, os.path.join(prefix, os.path.dirname(LIST))))
    lines.add(os.path.join(prefix, LIST))
    with open(listed, "w", encoding="utf-8") as file:
        file.writelines(line + "\n" for line in sorted(lines))


def remove_empty(path):
    """Removes a folder, where it is there and has nothing."""
    try:
        os.rmdir(path)
    except OSError as error:
        if error.errno not in (errno.ENOENT, errno.ENOTEMPTY):
            raise


def remove(destdir, prefix):
    """Removes what the list has: the list after all other files, then the folders. Answers whether there was a list."""
    listed = list_of(destdir, prefix)
    if not os.path.exists(listed):
        print(f"{listed} is not there: nothing was installed there by `make install`", file=sys.stderr)
        return False
    paths = sorted(set(read(listed)) - {os.path.join(prefix, LIST)}, reverse=True)
    files = [path for path in paths if not path.endswith("/")]
    for path in files + [os.path.join(prefix, LIST)]:
        if os.path.lexists(below(destdir, path)):
            os.remove(below(destdir, path))
    for path in (path for path in paths if path.endswith("/")):
        remove_empty(below(destdir, path))
    return True


def main():
    todo, *folders, destdir, prefix = sys.argv[1:]
    prefix = "/" + prefix.strip("/")
    if todo == "put":
        put(*folders, destdir, prefix)
    elif not remove(destdir, prefix):
        sys.exit(1)


if __name__ == "__main__":
    main()
