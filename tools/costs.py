#!/usr/bin/env python3
"""Says what the functions of crates took to prove, by what a check of one job kept.

    tools/costs.py [--least SECONDS] CRATE ..

A check keeps a file for each module, in out/incremental, as it ends with it, so the time between two files is that of the second, by
the clock. tools/libraries.py has checked a crate so if nothing of it was kept before. Printed are the parts of a function's proof by
what they took together (`Lts` is the borrow checker's, `Proof` the search for its goals), and the functions that took SECONDS or more,
each with its three dearest parts. While other work keeps the processors busy all of it is more, so figures of one check are compared
with each other.
"""
import argparse
import collections
import pathlib
import re

ROOT = pathlib.Path(__file__).resolve().parent.parent
# The parts of a function's proof, as the modules end by them.
PART = re.compile(r"Lts|Proof|Tie|Layout|Answers|Goals|Reads|Kinds|Named|View|Given|Code|Mir|Met|Invariants|Symbol|Statement|TheLink")


def kept(crate):
    """The modules of a crate that were kept, in the order of their files, each with the seconds behind the one before."""
    files = [file for file in (ROOT / "crates" / crate / "out" / "incremental").glob("*/*.oantt") if file.is_file()]
    ended = sorted((file.stat().st_mtime, file.name) for file in files)
    for (before, _), (at, name) in zip(ended, ended[1:]):
        yield name.removeprefix(f"Rattle-{crate}-").removesuffix(".oantt").split("."), at - before


def taken(crates):
    """What the parts of each function took, by its crate and path."""
    functions = collections.defaultdict(collections.Counter)
    for crate in crates:
        for (library, *path), seconds in kept(crate):
            part = PART.match(path[-1]) if library == "proofs" and path else None
            if part:
                owner = [step for step in path[:-1] if step not in ("Lts", "Code")]
                functions[crate, "::".join(owner)][part[0]] += seconds
    return functions


def shares(parts, count):
    return ", ".join(f"{part} {seconds:.1f}" for part, seconds in parts.most_common(count))


def main():
    reader = argparse.ArgumentParser(description=__doc__, formatter_class=argparse.RawDescriptionHelpFormatter)
    reader.add_argument("--least", type=float, default=10)
    reader.add_argument("crates", nargs="+", metavar="CRATE")
    words = reader.parse_args()
    functions = taken(words.crates)
    whole = sum(functions.values(), collections.Counter())
    print(f"{len(functions)} functions, {whole.total():.0f} s: {shares(whole, 8)}")
    for (crate, path), parts in sorted(functions.items(), key=lambda each: -each[1].total()):
        if parts.total() >= words.least:
            print(f"{parts.total():6.1f} s {crate}::{path}: {shares(parts, 3)}")


if __name__ == "__main__":
    main()
