#!/usr/bin/env python3
"""Proves crates, side by side where neither stands on the other.

    tools/prove.py [--build] [--test] [CRATE ..]
    tools/prove.py --workers

It proves the crates that are named and those below them, and all of crates.txt where none is named: each by `rt lib`,
or by `rt check` where it is a program or a static library; with --test the tests of each crate too, and with --build it
builds the programs and the static libraries that are named, in build/. A crate that did not change since it was proved,
nor any below it, is passed over, so a run that was interrupted is taken up again where it was. Each crate keeps its
work in its out/. This is for work at hand: `rt ci` alone proves all of it from nothing.

Two `rt` wait for one another where they share a library, so each crate is proved in a folder of its own, in which the
libraries below it are links, and its out/ is moved there and back. As many crates are proved at a time as there are
processors, as far as there is memory for them: with --workers it prints that number, and proves nothing. A second
processor for the same crate costs a quarter more in all, so a crate has one, or two where half of them would be idle.
Those with the longest way to the top come first.
"""

import concurrent.futures
import contextlib
import hashlib
import os
import shutil
import signal
import subprocess
import sys
import tempfile
import time

import build

TOP = os.path.dirname(os.path.dirname(os.path.realpath(__file__)))
SOURCES = ("src", "specs", "proofs")
# The most memory that the proof of a crate takes, in bytes.
MEMORY = 5 << 30
# How many crates are proved at a time.
WORKERS = max(
    min(len(os.sched_getaffinity(0)), os.sysconf("SC_PHYS_PAGES") * os.sysconf("SC_PAGE_SIZE") // MEMORY), 1)
# The commands that run.
RUNNING = set()


class Crate:
    """A line of crates.txt: a crate's name, what kind of crate it is, and the crates that it uses, of which this
    repository has some and the kit the others."""

    def __init__(self, line, known):
        (self.name, *kind), uses = (part.split() for part in line.split(":", 1))
        self.line = line
        self.folder = os.path.join(TOP, "crates", self.name)
        self.below = [known[it] for it in uses if it in known]
        self.of_kit = [it for it in uses if it not in known]
        self.is_static = "staticlib" in kind
        self.is_program = os.path.isfile(os.path.join(self.folder, "src", "main.rt"))
        self.size = sum(os.path.getsize(it) for it in self.files())
        self.way_up = self.size
        self.time = 0.0

    def files(self):
        """The sources, definitions and proofs, in a fixed order."""
        for kind in SOURCES:
            for at, folders, names in os.walk(os.path.join(self.folder, kind)):
                folders.sort()
                yield from (os.path.join(at, name) for name in sorted(names))

    def key(self):
        """A checksum of what the proof of the crate stands on: its own files, and those below it by their libraries."""
        made = hashlib.sha256()
        for file in self.files():
            made.update(os.path.relpath(file, self.folder).encode() + b"\0" + read(file) + b"\0")
        for library in self.below:
            made.update(read(os.path.join(library.folder, "out", "rlib", "stamp")))
        return made.hexdigest()

    def is_proved(self, mark):
        return read(os.path.join(self.folder, "out", mark)).decode() == self.key()

    def has_tests(self):
        return any(b"#[test]" in read(it) for it in self.files() if it.endswith(".rt"))


def read(file):
    """The bytes of a file; none where there is none."""
    try:
        with open(file, "rb") as opened:
            return opened.read()
    except FileNotFoundError:
        return b""


def crates_listed():
    """The crates of crates.txt by name, lowest first."""
    known = {}
    with open(os.path.join(TOP, "crates.txt"), encoding="utf-8") as listed:
        for line in listed:
            if not line.startswith("#") and ":" in line:
                crate = Crate(line, known)
                known[crate.name] = crate
    for crate in reversed(list(known.values())):
        for library in crate.below:
            library.way_up = max(library.way_up, library.size + crate.way_up)
    return known


def all_below(crates):
    """These crates and all that stand below them, by name."""
    found, waiting = {}, list(crates)
    while waiting:
        crate = waiting.pop()
        if crate.name not in found:
            found[crate.name] = crate
            waiting += crate.below
    return found


@contextlib.contextmanager
def folder_of_its_own(crate):
    """A copy of the repository with this crate and those below it alone, in which `rt` waits for no other."""
    with tempfile.TemporaryDirectory(prefix="deiruska-") as place:
        libraries = all_below([crate]).values()
        with open(os.path.join(place, "crates.txt"), "w", encoding="utf-8") as listed:
            listed.writelines(it.line for it in libraries)
        for library in libraries:
            kinds = SOURCES if library is crate else (*SOURCES, os.path.join("out", "rlib"))
            for kind in kinds:
                given = os.path.join(library.folder, kind)
                if os.path.isdir(given):
                    shutil.copytree(given, os.path.join(place, "crates", library.name, kind), copy_function=link)
        work, own = os.path.join(place, "crates", crate.name), os.path.join(crate.folder, "out")
        if os.path.isdir(own):
            shutil.move(own, os.path.join(work, "out"))
        try:
            yield work
        finally:
            if os.path.isdir(os.path.join(work, "out")):
                shutil.move(os.path.join(work, "out"), own)


def link(given, made):
    """Links a file, or copies it where the other folder is of another file system."""
    try:
        os.link(given, made)
    except OSError:
        shutil.copy2(given, made)


def run(command, folder):
    """Runs a command in a folder, until it or this run ends; its status, and what it printed."""
    pipes = {"stdout": subprocess.PIPE, "stderr": subprocess.STDOUT, "stdin": subprocess.DEVNULL}
    with subprocess.Popen(command, cwd=folder, start_new_session=True, **pipes) as started:
        RUNNING.add(started)
        said, _ = started.communicate()
        RUNNING.discard(started)
    return started.returncode, said.decode(errors="replace")


def end_commands():
    """Ends what runs, with all that it started."""
    for started in list(RUNNING):
        with contextlib.suppress(ProcessLookupError):
            os.killpg(started.pid, signal.SIGTERM)


def prove(crate, mark, command):
    """Runs rt in a folder of its own, and marks the crate where it passes; what it printed where it does not."""
    key, begun = crate.key(), time.monotonic()
    with folder_of_its_own(crate) as work:
        status, said = run([sys.executable, os.path.join(TOP, "tools", "rt.py"), *command], work)
    crate.time += time.monotonic() - begun
    if status != 0:
        return said
    with open(os.path.join(crate.folder, "out", mark), "w", encoding="utf-8") as made:
        made.write(key)
    return None


def steps(crate, wanted, jobs):
    """What is to be done of a crate: of each step its mark in out/, and the words of rt."""
    if not crate.is_program and not crate.is_static:
        yield "proved", ["lib", "--jobs", str(jobs)]
    elif "--build" in wanted:
        yield "built", ["run", "--", "--version"] if crate.is_program else ["lib", "--jobs", str(jobs)]
    else:
        yield "proved", ["check", "--jobs", str(jobs)]
    if "--test" in wanted and crate.has_tests():
        yield "tested", ["test"]


def prove_changed(crate, wanted, jobs):
    """Takes the steps whose outcome is no more that of the crate as it stands; what rt printed where one fails."""
    for mark, command in steps(crate, wanted, jobs):
        said = None if crate.is_proved(mark) else prove(crate, mark, command)
        if said is not None:
            return said
    return None


def minutes(seconds):
    return f"{int(seconds) // 60}:{int(seconds) % 60:02}"


def report(crate, done, count, begun):
    """Prints that a crate is proved, where that took a run of rt, and how far the whole is."""
    if crate.time > 0:
        whole = minutes(time.monotonic() - begun)
        print(f"{crate.name} is proved in {minutes(crate.time)}: {done} of {count} crates, {whole}", flush=True)


def work(pool, crates, wanted):
    """Proves these crates, with a line for each; what rt printed of the first that is not proved, and its name."""
    begun, done, running = time.monotonic(), 0, {}
    waiting = sorted(crates, key=lambda it: -it.way_up)
    while waiting or running:
        ready = [it for it in waiting if not set(it.below) & {*waiting, *running.values()}]
        jobs = 2 if 2 * len([*ready, *running]) <= WORKERS else 1
        for crate in ready[: WORKERS - len(running)]:
            waiting.remove(crate)
            running[pool.submit(prove_changed, crate, wanted, jobs)] = crate
        for ended in concurrent.futures.wait(running, return_when=concurrent.futures.FIRST_COMPLETED).done:
            crate, said = running.pop(ended), ended.result()
            if said is not None:
                return f"{said}{crate.name} is not proved"
            done += 1
            report(crate, done, len(crates), begun)
    return None


def work_until_interrupted(crates, wanted):
    """The same. Where it is interrupted it ends what runs, and the work that was done is kept."""
    with concurrent.futures.ThreadPoolExecutor(WORKERS) as pool:
        try:
            return work(pool, crates, wanted)
        except KeyboardInterrupt:
            end_commands()
            return "interrupted; another run goes on from here"


def place(target, crate):
    """Puts the proved program or static library in the place of what was built without a proof."""
    os.makedirs(os.path.dirname(target.path), exist_ok=True)
    made = os.path.join(crate.folder, "out", f"lib{crate.name}.a" if crate.is_static else crate.name)
    target.place(shutil.copy2(made, f"{target.path}.new"), "proved")


def main():
    wanted = {it for it in sys.argv[1:] if it.startswith("--")}
    names = [it for it in sys.argv[1:] if it not in wanted]
    if sys.argv[1:] == ["--workers"]:
        print(WORKERS)
        return
    known = crates_listed()
    if not wanted <= {"--build", "--test"} or not known.keys() >= set(names):
        sys.exit(__doc__)
    named = [known[it] for it in names or known]
    crates = all_below(named)
    builds = [it for it in named if "--build" in wanted and (it.is_program or it.is_static)]
    targets = [build.Target(it.name, build.crates_listed(TOP), TOP) for it in builds]
    signal.signal(signal.SIGTERM, signal.default_int_handler)
    failed = work_until_interrupted(crates.values(), wanted)
    if failed:
        sys.exit(failed)
    for target, crate in zip(targets, builds):
        place(target, crate)


if __name__ == "__main__":
    main()
