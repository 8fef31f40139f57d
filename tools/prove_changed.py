#!/usr/bin/env python3
"""Proves what a change needs, if all of a state is proved.

    tools/prove_changed.py BASE [--list] [--room FOLDER] [--at-once N] [CRATE ..]

BASE is the folder of that state, or a commit. tools/changed.py says which crates have to be proved again; with CRATEs only these of them
are. Each is checked by the prover whole, and its texts are tested as `rt ci` tests them:

  - over libraries, if the kit's store has those of a proved state, and the crate sees nothing of what changed below it since then;
  - else over sources: of each crate below that has no such library the items, clauses, definitions and lemmas, with every body a call that
    never returns (tools/stand_ins.py). A function of a crate below stands by its contract then, as it does over a library.

So no library is built. What was proved so is noted beside the record of tools/proved.py, by a sum of all that the check reads, and isn't
proved again on this machine while that stays the same. What this leaves to a whole run is listed in docs/development/PROVING.md. A line says for each crate why it is
proved, how, and what it took. --list only says why. FOLDER gets, for each crate, the words with which the prover is called
(words/CRATE.json), for tools/wrong_bodies.py, and the names of the crates whose wrong bodies are to be tried (wrong).
"""
import argparse
import concurrent.futures
import contextlib
import copy
import hashlib
import importlib.machinery
import importlib.util
import io
import json
import os
import pathlib
import re
import resource
import shutil
import subprocess
import sys
import tempfile
import threading
import time

ROOT = pathlib.Path(__file__).resolve().parent.parent
sys.path.insert(0, str(ROOT / "tools"))
import changed
import proved
import stand_ins

KIT = proved.KIT
# What a check takes of the memory, in bytes, over libraries and over sources, and how often is looked for room, in seconds.
ROOM = {"libraries": 4 << 30, "sources": 6 << 30}
PAUSE = 2
# How many lines are printed of what is said of a crate that isn't proved, and which lines aren't.
LAST = 60
LEFT_OUT = re.compile(r"^(statements|logic) |: proved$")
# What of a root file has functions that no name of `parts_of` asks for.
ROOT_IMPL = re.compile(r"(?m)^(?:unsafe )?impl\b|^#\[derive")
PRINTING = threading.Lock()


def kit_program():
    """The kit's `rt` as a module, whose tests of texts and of the prover's answer are used here."""
    loader = importlib.machinery.SourceFileLoader("rt", str(KIT / "bin" / "rt"))
    module = importlib.util.module_from_spec(importlib.util.spec_from_loader("rt", loader))
    loader.exec_module(module)
    return module


def say(text):
    with PRINTING:
        print(text, flush=True)


def crates_at(rt, top):
    """The kit's own view of the crates of a folder, by name, lowest first."""
    here = os.getcwd()
    os.chdir(top)
    try:
        rt.Crate.allowed = rt.handles_of(str(top))
        return {crate.name: crate for crate in rt.crates_of(str(top))}
    finally:
        os.chdir(here)


class Built:
    """The libraries of a proved state that the kit's store has, of those that are needed, put into a folder of their own."""

    def __init__(self, rt, tree, folder, needed):
        self.folder, self.needed = folder, needed
        for part in ("crates", "crates.txt", "HANDLES"):
            (shutil.copytree if (tree / part).is_dir() else shutil.copyfile)(tree / part, folder / part)
        for out in folder.glob("crates/*/out"):
            shutil.rmtree(out)
        self.names = set(self.take(rt, crates_at(rt, folder)))

    def take(self, rt, crates):
        """Takes each library of the store that is of these very texts, over those that were taken."""
        kept, taken = rt.Kept(list(crates.values())), set()
        self.sums = kept.rlibs
        for name, crate in crates.items():
            if name not in self.needed or not taken.issuperset(low.name for low in crate.below()):
                continue
            if kept.give(crate, False, kept.key(crate)):
                kept.is_built(crate)
                taken.add(name)
        return taken

    def rlib(self, name):
        return self.folder / "crates" / name / "out" / "rlib" / f"{name}.rlib"


class Way:
    """How a crate is checked: which of the crates below it are there as libraries, and which are read as sources."""

    def __init__(self, state, name, built, seen):
        self.state, self.name, self.built = state, name, built
        below = state.below(name)
        unfit = {low for low in below if built is None or low not in built.names or low in seen}
        for low in below:
            if unfit.intersection(state.below(low)):
                unfit.add(low)
        self.sources = [low for low in below if low in unfit]
        self.kind = "sources" if self.sources else "libraries"

    def key(self, rt, crate, room):
        """A sum of all that the check of the crate reads."""
        below = [(low, sum_of_texts(room / "sources" / low) if low in self.sources else self.built.sums[low]) for low in self.state.below(self.name)]
        return hashlib.sha256(repr((rt.own_sum(crate), below)).encode()).hexdigest()

    def words(self, room):
        """The words behind `rattle check`, but for what is asked for."""
        needs, own = self.state.needs, self.state.below(self.name)
        root = "main" if (ROOT / "crates" / self.name / "src" / "main.rt").exists() else "lib"
        words = ["--crate-name", self.name, f"src/{root}.rt"]
        seen = [self.name, *self.sources]
        for each in ["std", *sorted({each for one in seen for each in needs[one] if each not in needs})]:
            words += ["--extern", f"{each}={KIT}/rlibs/{each}.rlib"]
        words += ["-L", f"dependency={KIT}/rlibs"]
        for low in own:
            if low in self.sources:
                words += ["--lib", f"{low}:{','.join(['std', *needs[low]])}={room}/sources/{low}/src/lib.rt"]
                continue
            if any(low in needs[one] for one in seen):
                words += ["--extern", f"{low}={self.built.rlib(low)}"]
            words += ["-L", f"dependency={self.built.rlib(low).parent}"]
        words += ["--antt-project", f"{KIT}/rattle/logic/antt-project.json", "--logic-built", f"{KIT}/logic_built"]
        return [*words, "--jobs", "1"]


def sum_of_texts(folder):
    total = hashlib.sha256()
    for file in sorted(file for file in folder.glob("**/*") if file.is_file()):
        total.update(f"{file.relative_to(folder)}\n".encode() + file.read_bytes())
    return total.hexdigest()


class Sources:
    """The texts of crates with bodies that never return, written once each."""

    def __init__(self, room):
        self.writer, self.room = stand_ins.StandIns(room / "whole", None), room
        (room / "sources").mkdir()

    def write(self, names):
        for name in names:
            if not (self.room / "sources" / name).exists():
                self.writer.write(name)
                (self.room / "whole" / "stand_ins" / name).rename(self.room / "sources" / name)


def root_of(name):
    folder = ROOT / "crates" / name / "src"
    return next(file for file in (folder / "lib.rt", folder / "main.rt") if file.exists()).read_text(encoding="utf-8")


def parts_of(name):
    """What of a crate is asked for over sources: its modules, and the functions of its root."""
    return re.findall(r"(?m)^(?:pub(?:\(\w+\))? )?(?:mod|(?:const |unsafe )*fn) (\w+)", root_of(name))


class Proofs:
    """The proofs of the crates of a change."""

    def __init__(self, rt, room, words):
        self.rt, self.room, self.at_once = rt, room, words.at_once
        self.new = changed.State(ROOT)
        self.changes = {name: change for name, change in changed.changes(self.new, changed.State(words.base)).items() if change.must_be_proved()}
        self.named = [name for name in self.changes if not words.crates or name in words.crates]
        self.running, self.guard = 0, threading.Condition()

    def report(self):
        for name in self.named:
            say(f"{name}: {self.changes[name].why()}")
        if not self.named:
            say("no crate has to be proved")

    def prepare(self, base):
        """Finds libraries, and how each crate is checked."""
        # (its first call handles a signal, which only the main thread may)
        self.rt.rtlib.guarded()
        self.crates, self.sources, self.built, self.seen = crates_at(self.rt, ROOT), Sources(self.room), None, {}
        wrong = [name for name in self.new.needs if name in self.named and self.changes[name].own or changed_wrong(base, name)]
        (self.room / "wrong").write_text("".join(f"{name}\n" for name in wrong if list((ROOT / "crates" / name / "wrong").glob("*"))), encoding="utf-8")
        checked = list(dict.fromkeys([*self.named, *wrong]))
        self.find_libraries(base, {low for name in checked for low in self.new.below(name)})
        self.ways = {name: Way(self.new, name, self.built, self.seen_below(name)) for name in checked}
        (self.room / "words").mkdir()
        for name, way in self.ways.items():
            (self.room / "words" / f"{name}.json").write_text(json.dumps(way.words(self.room)), encoding="utf-8")
            self.sources.write(way.sources)

    def find_libraries(self, base, needed):
        """Takes the libraries of the proved state that has most of those that are needed."""
        with tempfile.TemporaryDirectory() as others:
            for number, tree in enumerate([base, *[tree for tree in proved.states(others) if tree != base]]):
                folder = self.room / f"libraries-{number}"
                folder.mkdir()
                built = Built(self.rt, tree, folder, needed)
                if self.built is None or len(built.names) > len(self.built.names):
                    self.built, self.seen = built, changed.changes(self.new, changed.State(folder))
                if self.built.names >= needed:
                    return

    def seen_below(self, name):
        """The crates below whose libraries don't serve, as the crate sees something that changed in them."""
        if not self.seen[name].seen:
            return set()
        return {low for low in self.new.below(name) if self.seen[low].own}

    def run(self):
        with concurrent.futures.ThreadPoolExecutor(max(1, self.at_once)) as lanes:
            order = sorted(self.named, key=lambda name: -len(self.new.texts(name).whole))
            return all(list(lanes.map(self.prove, order)))

    @contextlib.contextmanager
    def in_turn(self, kind):
        """Waits until the memory has room for one more check."""
        with self.guard:
            while self.running and free_memory() < ROOM[kind]:
                self.guard.wait(PAUSE)
            self.running += 1
        try:
            yield
        finally:
            with self.guard:
                self.running -= 1
                self.guard.notify_all()

    def prove(self, name):
        way, began = self.ways[name], time.time()
        key = way.key(self.rt, self.crates[name], self.room)
        if proved.has_verdict(key):
            say(f"{name}: an earlier run on this machine proved the same over the same")
            return True
        with self.in_turn(way.kind):
            with tempfile.TemporaryFile("w+", errors="replace") as said:
                crate = copy.copy(self.crates[name])
                crate.out = said
                fault = self.fault_of_text(crate) or self.fault_of_proof(crate, way)
                said.seek(0)
                text = said.read()
        functions = len(re.findall(rf"(?m)^fn {name}::\S+: proved$", text))
        how = f"over {len(way.sources)} crates as sources" if way.sources else "over libraries"
        say(f"{name}: {'NOT PROVED: ' + fault if fault else 'proved'} {how}, {functions} functions, {time.time() - began:.0f} s")
        if fault:
            say("\n".join([line for line in text.split("\n") if line and not LEFT_OUT.search(line)][-LAST:]))
        elif way.key(self.rt, self.crates[name], self.room) == key:
            proved.note_verdict(key)
        return not fault

    def fault_of_text(self, crate):
        """Why the texts of a crate are refused, as `rt ci` refuses them, or ""."""
        rt, every = self.rt, list(self.crates.values())
        said = io.StringIO()
        try:
            with PRINTING, contextlib.redirect_stdout(said), contextlib.redirect_stderr(said):
                rt.rtlib.stop_on_links(crate.folder)
                rt.rtlib.stop_on_unread(crate.folder, every)
                rt.rtlib.stop_on_text(crate, "verdict")
                rt.stop_on_words(crate)
        except SystemExit:
            return said.getvalue().strip() or "its texts are refused"
        code = rt.rtlib.code_of(crate.folder)
        beyond = [handle for handle, reaches in rt.REACHES.items() if handle not in crate.allowed and re.search(reaches, code)]
        faults = ["it renames std, or takes it whole"] * bool(re.search(rt.RENAMES, code)) + ["it has a test under #[ignore]"] * bool(re.search(rt.IGNORED, code))
        faults += [f"it names what only the handle {handle} reaches" for handle in beyond]
        if not faults and rt.rtlib.fmt(crate.folder, "--check", crate.out):
            faults.append("its files aren't in the layout of `rt fmt`")
        return "; ".join(faults)

    def fault_of_proof(self, crate, way):
        words = ["check", *way.words(self.room), "--links", f"{crate.name}="]
        if way.sources:
            return self.fault_over_sources(crate, words)
        if not crate.prove(words):
            return ""
        crate.out.seek(0)
        return refused(crate.name, crate.out.read())

    def fault_over_sources(self, crate, words):
        """The same over sources: each function of the crate is asked for, and has to be reported as proved."""
        if ROOT_IMPL.search(root_of(crate.name)):
            return "its root has an impl or a derive, which can't be asked for over sources: `.ci/run --whole`"
        asked = parts_of(crate.name)
        while True:
            done = subprocess.run([str(KIT / "bin" / "rattle"), *words, *[word for each in asked for word in ("--only", each)]], cwd=crate.folder,
                                  stdin=subprocess.DEVNULL, stdout=subprocess.PIPE, stderr=subprocess.STDOUT, text=True, errors="replace", check=False)
            lacks = re.findall(r"has no function `(\w+)`", done.stdout)
            if not set(lacks) & set(asked):
                break
            # (a module without functions)
            asked = [each for each in asked if each not in lacks]
        crate.out.write(done.stdout)
        reported = re.findall(rf"(?m)^fn {crate.name}::(\S+): (.*)$", done.stdout)
        is_proved = all(verdict == "proved" for _, verdict in reported) and (reported or not asked)
        return "" if is_proved and not done.returncode else refused(crate.name, done.stdout)


def refused(name, said):
    """That the prover refuses a crate, and the functions that it doesn't prove."""
    return "the prover refuses it" + "".join(f", {function}" for function in re.findall(rf"(?m)^fn {name}::(\S+): (?!proved$)", said))


def changed_wrong(base, name):
    """Whether the wrong bodies of a crate changed."""
    texts = lambda top: {file.name: file.read_bytes() for file in (top / "crates" / name / "wrong").glob("*")}
    return texts(ROOT) != texts(base)


def free_memory():
    return int(re.search(r"^MemAvailable: +([0-9]+) kB", pathlib.Path("/proc/meminfo").read_text(encoding="utf-8"), re.MULTILINE)[1]) * 1024


def main():
    reader = argparse.ArgumentParser(description=__doc__, formatter_class=argparse.RawDescriptionHelpFormatter)
    reader.add_argument("base", metavar="BASE")
    reader.add_argument("--list", action="store_true")
    reader.add_argument("--room", type=pathlib.Path)
    reader.add_argument("--at-once", type=int, default=len(os.sched_getaffinity(0)))
    reader.add_argument("crates", nargs="*", metavar="CRATE")
    words = reader.parse_args()
    with tempfile.TemporaryDirectory(prefix="prove-changed-") as own:
        room = (words.room or pathlib.Path(own)).resolve()
        room.mkdir(exist_ok=True)
        words.base = changed.tree(words.base, own).resolve()
        proofs = Proofs(kit_program(), room, words)
        proofs.report()
        if words.list or not proofs.named and not words.room:
            return 0
        proofs.prepare(words.base)
        is_proved = proofs.run()
        used = resource.getrusage(resource.RUSAGE_CHILDREN)
        say(f"prove_changed.py: {len(proofs.named)} crates, {used.ru_utime + used.ru_stime:.0f} s of the processor, {'all proved' if is_proved else 'NOT PROVED'}")
        return 0 if is_proved else 1


if __name__ == "__main__":
    sys.exit(main())
