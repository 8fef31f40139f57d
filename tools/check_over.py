#!/usr/bin/env python3
"""Checks a crate of this checkout over the libraries that an `rt ci` leaves in another copy of the repository.

    tools/check_over.py COPY CRATE [WORD ..]

`rt check` would prove all that the crate stands on once more, as it doesn't take the libraries of a gate. So one copy runs `rt ci`, and
whoever works in others checks over what it has proved by then: a library that isn't there yet is waited for. A crate below that this
checkout has changed against COPY, or that stands on one, is proved and built here, in out/over. Each further WORD goes to the check, as
`--only FUNCTION`, `--allow-holes` or `--start FUNCTION`. What is proved so counts for nothing in the gate, which proves it again.
Each file that isn't in the layout of `rt fmt` is named at the end, as the gate refuses its crate.
"""
import functools
import hashlib
import pathlib
import subprocess
import sys
import time

ROOT = pathlib.Path(__file__).resolve().parent.parent
PARTS = ("src", "specs", "proofs")
# How long a library has to lie there untouched before it counts as built, and how often is looked for one, in seconds.
SETTLED = 5
PAUSE = 5


def crates(top):
    """The crates of a copy's crates.txt, each with what it stands on."""
    lines = [line.partition("#")[0].partition(":") for line in (top / "crates.txt").read_text(encoding="utf-8").splitlines()]
    return {name.split()[0]: below.split() for name, _, below in lines if name.strip()}


@functools.cache
def texts_of(folder):
    """A sum of the texts of a crate."""
    texts = hashlib.sha256()
    for file in sorted(file for part in PARTS for file in (folder / part).glob("**/*") if file.is_file()):
        texts.update(f"{file.relative_to(folder)}\n".encode() + file.read_bytes())
    return texts.hexdigest()


def is_settled(rlib):
    try:
        return time.time() - (rlib / "format").stat().st_ctime >= SETTLED
    except OSError:
        return False


class Libraries:
    """Where the libraries below the crates of this checkout are."""

    def __init__(self, copy):
        self.copy, self.needs, self.there = copy, crates(ROOT), crates(copy)
        page = subprocess.run(["rt", "doc"], check=True, capture_output=True, text=True).stdout.strip()
        self.kit = pathlib.Path(page).parent

    @functools.cache
    def below(self, name):
        own = [each for each in self.needs[name] if each in self.needs]
        return list(dict.fromkeys(low for each in own for low in [*self.below(each), each]))

    @functools.cache
    def is_changed(self, name):
        """Whether the crate, or one that it stands on, is another one than in the copy."""
        if sorted(self.needs[name]) != sorted(self.there.get(name, [])):
            return True
        folders = [top / "crates" / name for top in (ROOT, self.copy)]
        return texts_of(folders[0]) != texts_of(folders[1]) or any(map(self.is_changed, self.below(name)))

    @functools.cache
    def rlib(self, name):
        """The library of a crate, once it is there."""
        if name not in self.needs:
            return self.kit / "rlibs" / f"{name}.rlib"
        if self.is_changed(name):
            return self.build(name)
        rlib = self.copy / "crates" / name / "out" / "rlib" / f"{name}.rlib"
        if not is_settled(rlib):
            print(f"check_over.py: waiting for {name}", flush=True)
        while not is_settled(rlib):
            time.sleep(PAUSE)
        return rlib

    def words(self, name):
        root = "main" if (ROOT / "crates" / name / "src" / "main.rt").exists() else "lib"
        words = ["--crate-name", name, f"src/{root}.rt", "-L", f"dependency={self.kit}/rlibs"]
        for each in dict.fromkeys(["std", *self.needs[name]]):
            words += ["--extern", f"{each}={self.rlib(each)}"]
        for low in self.below(name):
            words += ["-L", f"dependency={self.rlib(low).parent}"]
        words += ["--antt-project", self.kit / "rattle" / "logic" / "antt-project.json", "--logic-built", self.kit / "logic_built"]
        return [*words, "--jobs", "1", "--incremental", "out/incremental"]

    def run(self, verb, name, words):
        folder = ROOT / "crates" / name
        (folder / "out").mkdir(exist_ok=True)
        return subprocess.run([self.kit / "bin" / "rattle", verb, *self.words(name), *words], cwd=folder, stdin=subprocess.DEVNULL).returncode

    def tell_layout(self, name):
        """Names each file that isn't in the layout, and returns the status of that."""
        folder = ROOT / "crates" / name
        files = sorted(file for part in PARTS for end in ("rt", "antt") for file in (folder / part).glob(f"**/*.{end}"))
        return subprocess.run([self.kit / "bin" / "rattle", "fmt", "--check", *files], stdin=subprocess.DEVNULL).returncode

    def build(self, name):
        """Proves and builds the library of a crate here, over what earlier builds kept."""
        made = ROOT / "crates" / name / "out" / "over"
        subprocess.run(["rm", "-rf", made / f"{name}.rlib"], check=True)
        made.mkdir(parents=True, exist_ok=True)
        print(f"check_over.py: building {name}", flush=True)
        if self.run("build", name, ["-o", f"out/over/{name}.rlib"]):
            sys.exit(f"check_over.py: {name} isn't proved")
        return made / f"{name}.rlib"


def main():
    if len(sys.argv) < 3:
        sys.exit(__doc__)
    libraries = Libraries(pathlib.Path(sys.argv[1]).resolve())
    if sys.argv[2] not in libraries.needs:
        sys.exit(f"check_over.py: crates.txt has no {sys.argv[2]}")
    status = libraries.run("check", sys.argv[2], sys.argv[3:])
    return libraries.tell_layout(sys.argv[2]) or status


if __name__ == "__main__":
    sys.exit(main())
