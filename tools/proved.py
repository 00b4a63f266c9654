#!/usr/bin/env python3
"""Puts the programs and the library for C that `rt ci` proved in build/, in the place of others.

    tools/proved.py [--library]

`rt ci` leaves each program in its crate's out/, as two compilers built it, and the tests of a crate beside it. Of a
static library it has the proof alone: so with --library this has the compiler build it over the libraries that `rt ci`
left, which proves that crate once more, and nothing below it. The last line is then '1 passed, 0 failed'.
"""
import os
import shutil
import subprocess
import sys

import build
import prove

OTHER = ".by-rattle"


def rlib_of(crate):
    """The library of a crate, as `rt ci` built it."""
    made = os.path.join(crate.folder, "out", "rlib", f"{crate.name}.rlib")
    if not os.path.isdir(made):
        sys.exit(f"{os.path.relpath(made, prove.TOP)} is missing: run `rt ci`, which builds it")
    return made


def command(crate, archive):
    """The compiler's words for a static library, as `rt` has them."""
    kit = build.KIT
    libraries = [(name, f"{kit}/rlibs/{name}.rlib") for name in ["std", *crate.of_kit]]
    libraries += [(it.name, rlib_of(it)) for it in crate.below]
    below = [it for it in prove.all_below([crate]).values() if it is not crate]
    words = [f"{kit}/bin/rattle", "build", "--crate-name", crate.name, "src/lib.rt", "--crate-type", "staticlib"]
    for name, path in libraries:
        words += ["--extern", f"{name}={path}"]
    for folder in [f"{kit}/rlibs", *(os.path.dirname(rlib_of(it)) for it in below)]:
        words += ["-L", f"dependency={folder}"]
    words += ["--antt-project", f"{kit}/rattle/logic/antt-project.json", "--logic-built", f"{kit}/logic_built"]
    words += ["--links", f"{crate.name}=", "--jobs", "1", "--toolchain", f"{kit}/toolchain", "--backend", "llvm"]
    return [*words, "-o", archive]


def place(target, made):
    """Puts a copy of what was made and proved in its place, with the same of the other compiler, if there is one."""
    copy = shutil.copy2(made, target.path + ".new")
    target.place(copy, "proved")
    if os.path.isfile(made + OTHER):
        shutil.copy2(made + OTHER, target.path + OTHER)


def main():
    known, listed = prove.crates_listed(), build.crates_listed(prove.TOP)
    os.makedirs(os.path.join(prove.TOP, "build"), exist_ok=True)
    if sys.argv[1:] == ["--library"]:
        for crate in filter(lambda it: it.is_static, known.values()):
            archive = os.path.join(crate.folder, "out", f"lib{crate.name}.a")
            subprocess.run(command(crate, archive), cwd=crate.folder, check=True)
            place(build.Target(crate.name, listed, prove.TOP), archive)
        print("1 passed, 0 failed")
        return
    for crate in known.values():
        for title in (crate.name, f"{crate.name}+tests"):
            target = build.Target(title, listed, prove.TOP)
            made = os.path.join(crate.folder, "out", os.path.basename(target.path))
            if os.path.isfile(made) and not crate.is_static:
                place(target, made)


if __name__ == "__main__":
    main()
