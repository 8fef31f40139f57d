#!/usr/bin/env python3
"""Builds unproved stand-ins of libraries, so that crates above them can be checked long before these are proved.

    tools/stand_ins.py COPY [--from OTHER] [CRATE ..]

The libraries below the crates that are named, or all, are built into COPY/crates/NAME/out/rlib, where tools/check_over.py looks for
them: each has the items, contracts, specs and lemmas of the crate, but every body is a call that never returns, and the files of
proofs/ for single functions are left out. It takes half of the time that the proofs take. What is checked over stand-ins is a
help while one works and counts for nothing: a lemma is proved, but no function. Of OTHER, in which an `rt ci` is at work, libraries are
taken that are there already, if those that they stand on are, too.
"""
import concurrent.futures
import functools
import pathlib
import re
import shutil
import subprocess
import sys
import threading

sys.path.insert(0, str(pathlib.Path(__file__).resolve().parent))
from check_over import ROOT, crates, is_settled, texts_of

AT_ONCE = 3
NEVER = "stand_in"
MODULE = """unsafe extern "C" {
    pub safe fn never()
        ensures { ⊥ };
}
"""
TOKEN = re.compile(r"""
    //[^\n]* | /\*.*?\*/ | b?r(?P<hashes>\#*)".*?"(?P=hashes) | b?"(?:\\.|[^"\\])*" | b?'(?:\\.[^']*|[^'\\])' | '[A-Za-z_]\w* |
    [A-Za-z_]\w* | \S""", re.VERBOSE | re.DOTALL)
OPENING, CLOSING = "([{", ")]}"
# What stands at functions that call each other, as these don't any more; types keep it.
CYCLE = re.compile(r"^[ \t]*#\[cycle\(([^)]*)\)\]\n(?=(?:[ \t]*(?:#\[|//).*\n)*[ \t]*(?:pub(?:\(\w+\))? )?(?:unsafe )?fn )", re.MULTILINE)
CLAUSES = ("ensures", "requires", "measure", "ghost")


def closing(tokens, at):
    """The place behind the bracket that closes the one at `at`."""
    depth = 0
    while True:
        text = tokens[at].group()
        depth += (text in OPENING) - (text in CLOSING)
        at += 1
        if depth == 0:
            return at


def body_of(tokens, at):
    """The places of the braces of the body of the function whose `fn` stands at `at`, which are one if a trait declares it without
    a body, or None if it keeps its body: what has a clause with a star is proved by its body's form."""
    in_clause, starred = False, False
    while True:
        text = tokens[at].group()
        if text == ";":
            return at, at
        starred = starred or text in CLAUSES and tokens[at + 1].group() == "*"
        if text in CLAUSES:
            in_clause = True
        if text in OPENING:
            end = closing(tokens, at)
            if text == "{" and not in_clause:
                return None if starred else (at, end)
            in_clause = in_clause and text != "{"
            at = end
        else:
            at += 1


def without_bodies(text, stays=lambda place: False):
    """A file of a crate with each function's body a call that never returns, and the names of the functions that keep theirs: what
    has to, and each function of which `stays` says so by the place behind its name."""
    tokens = list(TOKEN.finditer(text))
    made, kept, at, names = [], 0, 0, set()
    while at < len(tokens):
        word = tokens[at].group()
        if word != "fn" or not re.match(r"[A-Za-z_]\w*$", tokens[at + 1].group()):
            at += 1
            continue
        before = [token.group() for token in tokens[max(at - 3, 0):at]]
        found = body_of(tokens, at)
        if found is None or "const" in before or stays(tokens[at + 1].end()):
            names.add(tokens[at + 1].group())
            at = found[1] if found else at + 1
            continue
        opening, end = found
        if opening == end:
            at = end
            continue
        made += [text[kept:tokens[opening].end()], f"\n    crate::{NEVER}::never();\n    unreachable!()\n", "}"]
        kept, at = tokens[end - 1].end(), end
    return "".join(made) + text[kept:], names


def without_proofs(folder, names):
    """Removes a copied crate's files of proofs for single functions, but for those of these names; lemmas stay."""
    for file in list((folder / "proofs").glob("**/*.antt")):
        if len(file.relative_to(folder / "proofs").parts) > 1 and file.parent.name not in names:
            file.unlink()


def put_never(folder, root):
    """Adds the call that never returns to a copied crate, whose root file is named."""
    (folder / "src" / f"{NEVER}.rt").write_text(MODULE, encoding="utf-8")
    file = folder / "src" / root
    text = file.read_text(encoding="utf-8")
    place = re.search(r"^(?!//!|#!\[|\s*$)", text, re.MULTILINE).start()
    file.write_text(f"{text[:place]}mod {NEVER};\n{text[place:]}", encoding="utf-8")


class StandIns:
    def __init__(self, copy, other):
        self.copy, self.other, self.needs = copy, other, crates(ROOT)
        page = subprocess.run(["rt", "doc"], check=True, capture_output=True, text=True).stdout.strip()
        self.kit = pathlib.Path(page).parent
        self.built = {name: threading.Event() for name in self.needs}
        self.anew = set()
        self.failed = []

    def below(self, name):
        own = [each for each in self.needs[name] if each in self.needs]
        return list(dict.fromkeys(low for each in own for low in [*self.below(each), each]))

    def rlib(self, name):
        if name not in self.needs:
            return self.kit / "rlibs" / f"{name}.rlib"
        return self.copy / "crates" / name / "out" / "rlib" / f"{name}.rlib"

    def write(self, name):
        """Writes the crate's text into COPY as it is, and its stand-in into a folder of its own there."""
        whole, short = self.copy / "crates" / name, self.copy / "stand_ins" / name
        for folder in (whole, short):
            for part in ("src", "specs", "proofs"):
                shutil.rmtree(folder / part, ignore_errors=True)
                if (ROOT / "crates" / name / part).is_dir():
                    shutil.copytree(ROOT / "crates" / name / part, folder / part)
        whole_ones = set()
        for file in (short / "src").glob("**/*.rt"):
            text, names = without_bodies(file.read_text(encoding="utf-8"))
            file.write_text(CYCLE.sub("", text), encoding="utf-8")
            whole_ones |= names
        put_never(short, "lib.rt")
        without_proofs(short, whole_ones)

    @functools.cache
    def is_there(self, name):
        """Whether the other copy had the proved library of this crate when it was first asked, and those of all below, of which
        none has a stand-in already."""
        if self.rlib(name).exists() and not self.rlib(name).is_symlink():
            return False
        if self.other is None or texts_of(self.other / "crates" / name) != texts_of(ROOT / "crates" / name):
            return False
        own = [each for each in self.needs[name] if each in self.needs]
        return is_settled(self.other / "crates" / name / "out" / "rlib" / f"{name}.rlib") and all(map(self.is_there, own))

    def take(self, name):
        """Takes the proved library of the other copy."""
        self.write(name)
        shutil.rmtree(self.rlib(name).parent, ignore_errors=True)
        self.rlib(name).parent.mkdir(parents=True)
        self.rlib(name).symlink_to(self.other / "crates" / name / "out" / "rlib" / f"{name}.rlib")

    def stands(self, name):
        """Whether an earlier run built the stand-in of these texts over those that stand."""
        sums = self.copy / "stand_ins" / name / "sum"
        below = self.anew.isdisjoint(self.needs[name])
        return below and self.rlib(name).exists() and sums.exists() and sums.read_text() == texts_of(ROOT / "crates" / name)

    def build(self, name):
        for each in self.needs[name]:
            if each in self.needs:
                self.built[each].wait()
        if self.failed:
            print(f"stand_ins.py: {name} isn't made", flush=True)
        elif self.is_there(name):
            if not self.rlib(name).is_symlink():
                self.anew.add(name)
                self.take(name)
        elif not self.stands(name):
            self.anew.add(name)
            self.make(name)
        self.built[name].set()

    def make(self, name):
        self.write(name)
        words = ["--crate-name", name, "src/lib.rt", "-L", f"dependency={self.kit}/rlibs"]
        for each in dict.fromkeys(["std", *self.needs[name]]):
            words += ["--extern", f"{each}={self.rlib(each)}"]
        for low in self.below(name):
            words += ["-L", f"dependency={self.rlib(low).parent}"]
        words += ["--antt-project", self.kit / "rattle" / "logic" / "antt-project.json", "--logic-built", self.kit / "logic_built"]
        self.rlib(name).parent.mkdir(parents=True, exist_ok=True)
        words += ["--jobs", "1", "--statements", "-o", self.rlib(name)]
        folder = self.copy / "stand_ins" / name
        with open(folder / "log", "w", encoding="utf-8") as log:
            done = subprocess.run([self.kit / "bin" / "rattle", "build", *words], cwd=folder, stdin=subprocess.DEVNULL, stdout=log, stderr=log)
        print(f"stand_ins.py: {name}" + (f" FAILED, see {folder}/log" if done.returncode else ""), flush=True)
        if done.returncode:
            self.failed.append(name)
        else:
            (folder / "sum").write_text(texts_of(ROOT / "crates" / name))

    def run(self, names):
        self.copy.mkdir(parents=True, exist_ok=True)
        shutil.copyfile(ROOT / "crates.txt", self.copy / "crates.txt")
        for name in self.needs:
            self.is_there(name)
        wanted = {low for name in names for low in [*self.below(name), name]} if names else set(self.needs)
        order = [name for name in self.needs if name in wanted and (ROOT / "crates" / name / "src" / "lib.rt").exists()]
        with concurrent.futures.ThreadPoolExecutor(AT_ONCE) as pool:
            list(pool.map(self.build, order))
        return 1 if self.failed else 0


def main():
    if len(sys.argv) < 2:
        sys.exit(__doc__)
    copy, names, other = pathlib.Path(sys.argv[1]).resolve(), sys.argv[2:], None
    if names[:1] == ["--from"]:
        other, names = pathlib.Path(names[1]).resolve(), names[2:]
    return StandIns(copy, other).run(names)


if __name__ == "__main__":
    sys.exit(main())
