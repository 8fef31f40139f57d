#!/usr/bin/env python3
"""Proves and builds crates and all that they stand on, as many side by side as processors are to be used.

tools/libraries.py [--at-once N] [CRATE ..]

N is how many crates are proved at once: one for each processor, as far as memory goes, if it isn't given, as each takes one
processor and up to 5 GB. All libraries are built if no CRATE is named; of a program only the proofs are checked. `rt` locks the
folders of all crates below the one that it works in, so its runs in one checkout wait for each other. So it runs here without its locks,
each crate after those below it. A second run in the checkout waits for the first; `rt` itself may not work there meanwhile.
What each crate's run said is in target/libraries/CRATE.log.
"""
import argparse
import fcntl
import os
import pathlib
import re
import runpy
import shutil
import subprocess
import sys
import threading
import time

ROOT = pathlib.Path(__file__).resolve().parent.parent
LOGS = ROOT / "target" / "libraries"
# What the proof of a crate may take of memory, in bytes.
ROOM = 5 << 30


def run_rt(words):
    """Runs `rt` with these words in the folder of a crate: without locks, if it is a program of Python."""
    program = os.path.realpath(shutil.which("rt"))
    with open(program, "rb") as file:
        if b"python" not in file.readline():
            os.execv(program, [program, *words])
    fcntl.flock = lambda *_: None
    sys.argv = [program, *words]
    runpy.run_path(program, run_name="__main__")


def crates():
    """The crates of crates.txt, each with those of them that it stands on."""
    lines = [line.partition("#")[0].partition(":") for line in (ROOT / "crates.txt").read_text(encoding="utf-8").splitlines()]
    found = {name.split()[0]: below.split() for name, _, below in lines if name.strip()}
    return {name: [each for each in below if each in found] for name, below in found.items()}


def with_below(below, names):
    wanted, left = set(), list(names)
    while left:
        name = left.pop()
        if name not in wanted:
            wanted.add(name)
            left += below[name]
    return wanted


def at_once():
    """How many crates can be proved at once: as many as there are processors and rooms in the free memory, and one at least."""
    free = re.search(r"^MemAvailable: +([0-9]+) kB", pathlib.Path("/proc/meminfo").read_text(encoding="utf-8"), re.MULTILINE)
    return max(1, min(len(os.sched_getaffinity(0)), int(free[1]) * 1024 // ROOM))


class Builds:
    """The crates that are wanted, and how far each is."""

    def __init__(self, below, wanted, at_once):
        self.below, self.at_once, self.count = below, at_once, len(wanted)
        self.left, self.running, self.built, self.failed = set(wanted), set(), set(), set()
        self.changed = threading.Condition()

    def waiting_for(self, name):
        """How many crates wait for this one, itself counted: those with most begin first."""
        return sum(name in with_below(self.below, [each]) for each in self.left)

    def build(self, name):
        began = time.time()
        verb = "check" if (ROOT / "crates" / name / "src" / "main.rt").exists() else "lib"
        with open(LOGS / f"{name}.log", "wb") as log:
            words = [sys.executable, __file__, "--rt", verb, "--jobs", "1"]
            done = subprocess.run(words, cwd=ROOT / "crates" / name, stdin=subprocess.DEVNULL, stdout=log, stderr=log)
        with self.changed:
            self.running.remove(name)
            (self.failed if done.returncode else self.built).add(name)
            done_now = len(self.built) + len(self.failed)
            print(f"{name}: {'FAILED' if done.returncode else 'proved'}, {done_now} of {self.count}, {time.time() - began:.0f} s", flush=True)
            self.changed.notify()

    def run(self):
        with self.changed:
            while True:
                ready = [name for name in self.left if self.built.issuperset(self.below[name])]
                for name in sorted(ready, key=self.waiting_for, reverse=True)[:self.at_once - len(self.running)]:
                    self.left.remove(name)
                    self.running.add(name)
                    threading.Thread(target=self.build, args=(name,)).start()
                if not self.running:
                    return
                self.changed.wait()


def main():
    if sys.argv[1:2] == ["--rt"]:
        return run_rt(sys.argv[2:])
    reader = argparse.ArgumentParser(description=__doc__, formatter_class=argparse.RawDescriptionHelpFormatter)
    reader.add_argument("--at-once", type=int, default=at_once())
    reader.add_argument("crates", nargs="*", metavar="CRATE")
    words, below = reader.parse_args(), crates()
    unknown = [name for name in words.crates if name not in below]
    if unknown:
        reader.error(f"crates.txt has no {unknown[0]}")
    libraries = [name for name in below if (ROOT / "crates" / name / "src" / "lib.rt").exists()]
    LOGS.mkdir(parents=True, exist_ok=True)
    # It is held until this process ends.
    lock = open(LOGS / "lock", "w", encoding="utf-8")
    fcntl.flock(lock, fcntl.LOCK_EX)
    builds = Builds(below, with_below(below, words.crates or libraries), max(1, words.at_once))
    builds.run()
    return 1 if builds.failed or builds.left else 0


sys.exit(main())
