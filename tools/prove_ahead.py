#!/usr/bin/env python3
"""Proves crates for the gate, ahead of it: `rt ci CRATE` for each crate once those below it are kept, several side by side.

    tools/prove_ahead.py [--at-once N] [CRATE ..]
    tools/prove_ahead.py --libraries

What `rt ci` keeps of a crate counts for each checkout on this machine, and for the gate, while the texts of the crate and of all below
it stay the same. A merge can't begin with this: there `rt ci` refuses the name of a crate. Without a CRATE all are proved, and
with some these and all below them. N jobs are given out, as many as there are processors if N isn't given. The crate with the longest
way to the end comes first, and is given two of them, as many as `rt ci` gives a crate that it proves alone; the others are given one,
and wait while little memory is free. A crate that changes meanwhile is proved as it is when its turn comes. After each one a line says
how far that is, by lines of crates, and how long the rest takes at that rate. What was said of each is in target/ahead/CRATE.log. `rt` keeps 10 GB at the most, and a run drops at its end what it hasn't used, longest unused first: where all
crates together take more, the gate proves again what went so. A kit whose `rt ci` takes no names keeps nothing, and this says so.

The second line proves nothing: it puts the newest library that is kept of each crate into this checkout, where tools/wrong_bodies.py and
tools/check_over.py look for it.
"""
import argparse
import json
import os
import pathlib
import re
import shutil
import subprocess
import sys
import time

ROOT = pathlib.Path(__file__).resolve().parent.parent
LOGS = ROOT / "target" / "ahead"
PARTS = ("src", "specs", "proofs")
# The jobs that `rt ci` gives a single crate, and how often is looked whether one has ended, in seconds.
ALONE = 2
PAUSE = 2
# What has to be free of memory, in bytes, before a proof begins beside others.
ROOM = 5 << 30
# How many lines are printed of what is said of a crate that isn't proved.
LAST = 40


def crates():
    """The crates of crates.txt, lowest first, each with those of them that it stands on."""
    lines = [line.partition("#")[0].partition(":") for line in (ROOT / "crates.txt").read_text(encoding="utf-8").splitlines()]
    found = {name.split()[0]: below.split() for name, _, below in lines if name.strip()}
    return {name: [each for each in below if each in found] for name, below in found.items()}


def with_below(below, names):
    """These crates and all that they stand on, lowest first."""
    wanted = set(names)
    for name in reversed(list(below)):
        if name in wanted:
            wanted.update(below[name])
    return [name for name in below if name in wanted]


def size(name):
    """The lines of a crate, for what its proof takes."""
    folder = ROOT / "crates" / name
    files = [file for part in PARTS for file in (folder / part).glob("**/*") if file.suffix in (".rt", ".antt")]
    return sum(file.read_bytes().count(b"\n") for file in files)


def ways(below):
    """The lines from each crate to the end of the longest way above it."""
    found = {}
    for name in reversed(list(below)):
        found[name] = size(name) + max((found[each] for each in found if name in below[each]), default=0)
    return found


def takes_names():
    """Whether `rt ci` of this kit takes the name of a crate: one that doesn't answers with how rt is called, whatever the name."""
    said = subprocess.run(["rt", "ci", "no_crate"], cwd=ROOT, stdin=subprocess.DEVNULL, capture_output=True, text=True, check=False)
    return not (said.stdout + said.stderr).startswith("usage:")


def start(name, jobs):
    """Begins the proof of a crate. `rt ci` gives a single crate two jobs if RT_JOBS isn't set."""
    environment = {word: text for word, text in os.environ.items() if word != "RT_JOBS"}
    if jobs == 1:
        environment["RT_JOBS"] = "1"
    with open(LOGS / f"{name}.log", "w", encoding="utf-8") as log:
        return subprocess.Popen(["rt", "ci", name], cwd=ROOT, env=environment, stdin=subprocess.DEVNULL, stdout=log, stderr=log)


class Ahead:
    """The crates that are still to be proved, and those that are being proved, each with its process and its jobs."""

    def __init__(self, below, wanted, most):
        self.below, self.most, self.ways = below, most, ways(below)
        self.left, self.running, self.kept, self.failed = list(wanted), {}, set(), set()
        self.wanted, self.began = list(wanted), time.monotonic()

    def settle(self):
        """Notes which proofs have ended, and leaves out the crates above those that failed."""
        for name, (process, _) in list(self.running.items()):
            if process.poll() is not None:
                del self.running[name]
                (self.failed if process.returncode else self.kept).add(name)
                self.tell(name, not process.returncode)
        for name in self.left:
            if self.failed.intersection(self.below[name]):
                self.failed.add(name)
        self.left = [name for name in self.left if name not in self.failed]

    def tell(self, name, is_kept):
        """Says what came of a crate, with the end of what was said of it if it isn't proved."""
        if not is_kept:
            print(*(LOGS / f"{name}.log").read_text(encoding="utf-8", errors="replace").splitlines()[-LAST:], sep="\n")
        print(f"prove_ahead.py: {name} {f'kept, {self.progress()}' if is_kept else 'NOT PROVED'}", flush=True)

    def progress(self):
        """How far this is."""
        done, whole = (sum(map(size, names)) for names in (self.kept, self.wanted))
        minutes = (time.monotonic() - self.began) / 60 * (whole - done) / max(done, 1)
        return f"crate {len(self.kept)} of {len(self.wanted)}, {100 * done // max(whole, 1)} percent, {minutes:.0f} minutes left"

    def jobs_for(self, name):
        """The jobs for a crate: two if none has a longer way, which may be one more than are free; 0 if it has to wait."""
        free = self.most - sum(jobs for _, jobs in self.running.values())
        if self.running and free_memory() < ROOM:
            return 0
        is_longest = all(self.ways[each] <= self.ways[name] for each in [*self.left, *self.running])
        return (ALONE if is_longest else 1) if free > 0 else 0

    def go_on(self):
        """Begins what can be begun."""
        for name in sorted(self.left, key=lambda name: -self.ways[name]):
            jobs = self.jobs_for(name) if self.kept.issuperset(self.below[name]) else 0
            if jobs:
                self.left.remove(name)
                self.running[name] = start(name, jobs), jobs

    def run(self):
        LOGS.mkdir(parents=True, exist_ok=True)
        while self.left or self.running:
            self.settle()
            self.go_on()
            time.sleep(PAUSE)
        return 1 if self.failed else 0


def free_memory():
    return int(re.search(r"^MemAvailable: +([0-9]+) kB", pathlib.Path("/proc/meminfo").read_text(encoding="utf-8"), re.MULTILINE)[1]) * 1024


def newest():
    """Where the store has what it kept last of each crate."""
    page = subprocess.run(["rt", "doc"], check=True, capture_output=True, text=True).stdout.strip()
    store = pathlib.Path(page).resolve().parent.parent / "rattle-kept"
    entries = sorted((file.parent for file in store.glob("proof-*/made.json")), key=lambda entry: entry.stat().st_mtime)
    return {entry.name.removeprefix("proof-").rpartition("-")[0]: entry for entry in entries}


def put_library(entry, folder):
    """Puts what an entry of the store has of a crate's library into a folder, in the place of what is there, if it has one."""
    made = json.loads((entry / "made.json").read_text(encoding="utf-8"))
    paths = [(number, path.removeprefix("rlib/")) for number, (path, _) in enumerate(made["files"]) if path.startswith("rlib/")]
    anew = folder.with_name(f"{folder.name}-{os.getpid()}")
    for number, path in paths:
        file = anew / path
        file.parent.mkdir(parents=True, exist_ok=True)
        shutil.copyfile(entry / str(number), file)
    shutil.rmtree(folder, ignore_errors=True)
    if paths:
        anew.rename(folder)


def put_libraries():
    """Puts the newest library that is kept of each crate into this checkout, and names the crates of which none is."""
    found = newest()
    for name in crates():
        if name in found:
            put_library(found[name], ROOT / "crates" / name / "out" / "rlib")
        else:
            print(f"prove_ahead.py: nothing is kept of {name}")
    return 0


def main():
    reader = argparse.ArgumentParser(description=__doc__, formatter_class=argparse.RawDescriptionHelpFormatter)
    reader.add_argument("--at-once", type=int, default=os.cpu_count(), metavar="N")
    reader.add_argument("--libraries", action="store_true")
    reader.add_argument("crates", nargs="*", metavar="CRATE")
    words = reader.parse_args()
    if words.libraries:
        return put_libraries()
    below = crates()
    unknown = [name for name in words.crates if name not in below]
    if unknown:
        sys.exit(f"prove_ahead.py: crates.txt has no {unknown[0]}")
    if not takes_names():
        sys.exit("prove_ahead.py: `rt ci` of this kit takes no names of crates, and keeps nothing for the gate")
    return Ahead(below, with_below(below, words.crates or below), words.at_once).run()


if __name__ == "__main__":
    sys.exit(main())
