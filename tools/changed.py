#!/usr/bin/env python3
"""Says which crates a change has to prove again, if all of OLD was proved, and why.

    tools/changed.py NEW OLD

NEW and OLD are commits of the repository in the current folder, or folders that have crates/ and crates.txt. A crate has to be proved
again if HANDLES, its line of crates.txt or one of its own texts changed (comments don't count), or if its texts have a name that is
tainted in a crate below it. Tainted is the name of each item that crates above can see and that is new, gone or another. Such items are

  - of src/: functions that are pub or belong to a trait, by heads and clauses (a body counts only if it is that of a const function, or of
    one whose clause has a star), types, traits, constants and macros, impls by the names of their heads, and imports by what a name means;
  - of specs/: each definition;
  - of proofs/, but not of its folders, which belong to single functions: each public lemma by its statement, and all that unfolds.

So is the name of each item of a crate below that mentions a tainted name. A name of src/ counts wherever it stands as a word, one of
specs/ and proofs/ only where its module is named, too. So this errs towards more proofs; tests/changed.py holds it against the prover.
"""
import collections
import dataclasses
import functools
import hashlib
import pathlib
import re
import subprocess
import sys
import tempfile

sys.path.insert(0, str(pathlib.Path(__file__).resolve().parent))
from rust_items import items_of_rust, plain_rust
from antt_items import items_of_antt, plain_antt

PARTS = ("src", "specs", "proofs")
WORD = re.compile(r"[^\s()\[\]{};,.:\"`«»@|&<>=*+/\\-]+|[◌∷]+")
# What stands between names and is none itself.
PLAIN = {"_", "use", "pub", "mod", "by", "crate", "self", "super", "as", "where", "let", "in", "for"}
# How many names are printed as a reason.
SHOWN = 6


def words(text):
    return set(WORD.findall(text)) - PLAIN


@dataclasses.dataclass(frozen=True)
class Item:
    """What crates above can see: the file that has it, its names, and its text with what the names in it mean."""

    file: str
    names: frozenset
    text: str


def items_of_file(file, text):
    """The items of a file, each a tuple of names and a text; those of a folder of proofs are nobody else's."""
    steps = file.split("/")
    if file.endswith(".rt"):
        return items_of_rust(text)
    if steps[0] == "specs" or len(steps) == 2:
        return items_of_antt(text, steps[0] == "specs")
    return []


def with_meanings(file, found):
    """The items of a file but for its imports, each with the imports of the names that it mentions."""
    imports = collections.defaultdict(set)
    for names, text in found:
        if text.startswith("import "):
            for part in [part for part in names[0].split("◌") if part] or [names[0]]:
                imports[part].add(text)
    for names, text in found:
        if not text.startswith("import "):
            means = set().union(*[imports[word] for word in words(text) if word in imports], set())
            yield Item(file, frozenset(names) - PLAIN, "\n".join([text, *sorted(means)]))


@functools.cache
def read(file, text):
    """A file without comments, and its items; two states have most files in common, and each text is read once."""
    plain = plain_rust(text) if file.endswith(".rt") else plain_antt(text)
    return plain, tuple(with_meanings(file, items_of_file(file, text)))


class Texts:
    """The texts of a crate without comments: their sum, their words, and the items that others can see, each with how often it is there."""

    def __init__(self, folder):
        self.items, whole, total = collections.Counter(), [], hashlib.sha256()
        for file in sorted(file for part in PARTS for file in (folder / part).glob("**/*") if file.suffix in (".rt", ".antt")):
            name = file.relative_to(folder).as_posix()
            plain, items = read(name, file.read_text(encoding="utf-8"))
            total.update(f"{name}\0{plain}\0".encode())
            whole.append(plain)
            self.items.update(items)
        self.total, self.whole = total.hexdigest(), "\n".join(whole)
        self.words = words(self.whole)


class State:
    """The crates of a folder: the line of each in crates.txt, and what they are allowed."""

    def __init__(self, top):
        lines = [line.partition("#")[0].partition(":") for line in (top / "crates.txt").read_text(encoding="utf-8").splitlines()]
        self.top, self.needs = top, {name.split()[0]: below.split() for name, _, below in lines if name.strip()}
        self.handles = (top / "HANDLES").read_text(encoding="utf-8") if (top / "HANDLES").exists() else ""

    @functools.cache
    def texts(self, name):
        return Texts(self.top / "crates" / name)

    @functools.cache
    def below(self, name):
        """The crates of the repository that a crate stands on, lowest first."""
        own = [each for each in self.needs[name] if each in self.needs]
        return list(dict.fromkeys(low for each in own for low in [*self.below(each), each]))


class Taint:
    """Names, each with where it is from: "" for one of src/, which its word alone finds, else the module that has to be named; and the
    modules of which an item without a name changed, as a rule of search, which whoever names the module may use."""

    def __init__(self):
        self.origins, self.modules = collections.defaultdict(set), set()

    def add(self, crate, item):
        for name in item.names:
            self.origins[name].add(origin(crate, item.file))
        if not item.names and origin(crate, item.file):
            self.modules.add(origin(crate, item.file))

    def add_all(self, other):
        self.modules |= other.modules
        for name, origins in other.origins.items():
            self.origins[name] |= origins

    def has(self, crate, item):
        return all(origin(crate, item.file) in self.origins.get(name, ()) for name in item.names)

    def names_in(self, seen, text):
        """Those of the words of a text that are tainted, and the tainted modules that it names."""
        named = {name for name in self.origins.keys() & seen if any(origin in text for origin in self.origins[name])}
        return named | {module for module in self.modules if module in text}


def origin(crate, file):
    part, module = file.split("/")[0], file.split("/")[-1].removesuffix(".antt")
    return "" if part == "src" else f"Rattle.{crate}.{part}.{module}"


def spread(taint, crate, items):
    """Taints the items of a crate that mention what is tainted, until nothing is added."""
    left = [(item, words(item.text) - item.names) for item in items if item.names] if taint.origins or taint.modules else []
    grows = True
    while grows:
        hit = [item for item, seen in left if not taint.has(crate, item) and taint.names_in(seen, item.text)]
        for item in hit:
            taint.add(crate, item)
        grows = bool(hit)


@dataclasses.dataclass
class Change:
    """What a change means for a crate: why its own texts count as changed, "" if they don't; the tainted names of crates below that it
    has; and its own items that are others for those above."""

    own: str
    seen: list
    items: list

    def why(self):
        names = f"names of crates below: {' '.join(self.seen[:SHOWN])}" if self.seen else ""
        return "; ".join(filter(None, [self.own, names]))

    def must_be_proved(self):
        return bool(self.own or self.seen)


def own_change(new, old, name):
    """Why a crate's own texts count as changed, and its items that are others."""
    if name not in old.needs:
        return "it is new", set(new.texts(name).items)
    now, then = new.texts(name), old.texts(name)
    why = "its own texts" if now.total != then.total else ""
    if new.handles != old.handles or new.needs[name] != old.needs[name]:
        why = why or "its line of crates.txt, or HANDLES"
    return why, set((now.items - then.items) + (then.items - now.items))


def changes(new, old):
    """The change of each crate of NEW, lowest first."""
    gone = Taint()
    for name in old.needs:
        if name not in new.needs:
            for item in old.texts(name).items:
                gone.add(name, item)
    taints, found = {}, {}
    for name in new.needs:
        above = Taint()
        for other in [gone, *[taints[low] for low in new.below(name)]]:
            above.add_all(other)
        why, items = own_change(new, old, name)
        found[name] = Change(why, sorted(above.names_in(new.texts(name).words, new.texts(name).whole)), sorted({n for item in items for n in item.names}))
        for item in items:
            above.add(name, item)
        spread(above, name, new.texts(name).items)
        taints[name] = above
    return found


def tree(word, room):
    """The folder of a state, which a commit is unpacked into."""
    if (pathlib.Path(word) / "crates.txt").is_file():
        return pathlib.Path(word)
    top = pathlib.Path(room) / word
    top.mkdir()
    packed = subprocess.run(["git", "archive", word, "crates", "crates.txt", "HANDLES"], check=True, capture_output=True)
    subprocess.run(["tar", "-x", "-C", top], check=True, input=packed.stdout)
    return top


def main():
    if len(sys.argv) != 3:
        sys.exit(__doc__)
    with tempfile.TemporaryDirectory() as room:
        new, old = [State(tree(word, room)) for word in sys.argv[1:]]
        for name, change in changes(new, old).items():
            if change.must_be_proved():
                print(f"{name}: {change.why()}" + (f"; seen of it above: {' '.join(change.items[:SHOWN])}" if change.items else ""))


if __name__ == "__main__":
    main()
