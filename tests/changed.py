#!/usr/bin/env python3
"""Holds tools/changed.py against the prover, over a tower of two crates.

    tests/changed.py [KIND ..]

Of the lower crate one item of each kind (or of the kinds that are named) is changed, the library is built anew, and the prover checks
the upper crate over it with what it kept of it over the old one. Each module of the upper crate that the prover checks again is a sign
that the upper crate sees the change: then tools/changed.py has to name it. If it names a crate of which the prover checks nothing again,
that costs time alone, and is counted. A change after which the prover refuses the upper crate has to be named, too.
"""
import pathlib
import re
import shutil
import subprocess
import sys
import tempfile

ROOT = pathlib.Path(__file__).resolve().parent.parent
sys.path.insert(0, str(ROOT / "tools"))
import changed

KIT = pathlib.Path(subprocess.run(["rt", "doc"], check=True, capture_output=True, text=True).stdout.strip()).parent
LOW = {
    "src/lib.rt": """//! The lowest crate of a tower.
#![tactic(auto)]

ghost use Rattle.std.specs.Prelude.{ℕ, ◌≡◌, ◌+◌, ◌<◌, ◌^◌};
ghost use Rattle.low.specs.Doubling.{twice, thrice};

mod parts;

pub use parts::Half;

/// How much one more is.
pub const ONE: u64 = 1;

/// A pair of numbers.
#[derive(Clone, Copy)]
pub struct Pair {
    pub first: u64,
    pub second: u64,
}

/// Something can be counted.
pub trait Count {
    ghost counted: { Self → ℕ };

    fn count(&self) -> u64
        ensures { result ≡ counted self.now };
}

impl Count for Pair {
    ghost counted = { λ pair. pair.first };

    fn count(&self) -> u64 {
        self.first
    }
}

fn add(left: u64, right: u64) -> u64
    requires { left + right < 2 ^ 64 }
    ensures { result ≡ left + right }
{
    left + right
}

/// Twice a small number.
pub fn double(number: u64) -> u64
    requires { number < 2 ^ 32 }
    ensures doubled { result ≡ twice number }
{
    add(number, number)
}

/// Three times a small number.
#[tactic(auto, unfolding(crate::specs::Doubling::thrice))]
pub fn triple(number: u64) -> u64
    requires { number < 2 ^ 32 }
    ensures { result ≡ thrice number }
{
    add(number, add(number, number))
}
""",
    "src/parts.rt": """//! Halves.

ghost use Rattle.std.specs.Prelude.{◌≡◌};

/// A half of something.
#[derive(Clone, Copy)]
pub struct Half {
    pub number: u64,
}

impl Half {
    /// The number of it.
    pub fn number(&self) -> u64
        ensures { result ≡ self.now.number }
    {
        self.number
    }
}
""",
    "specs/Lib.antt": "pub mod Doubling\n",
    "specs/Doubling.antt": """-- Doubling.
use Rattle.std.specs.Prelude.{ℕ, ◌+◌}

-- a number and itself
abbrev pub twice : ℕ → ℕ
twice n = n + n

-- a number, and itself twice
unfoldable pub thrice : ℕ → ℕ
thrice n = n + twice n
""",
    "proofs/Lib.antt": "pub mod DoublingLemmas\n",
    "proofs/DoublingLemmas.antt": """use Rattle.std.specs.Prelude.{ℕ, ◌+◌, ◌≡◌}
use Rattle.std.proofs.Common.{refl}
use Rattle.low.specs.Doubling.{twice, thrice}

-- three times a number
pub thrice_is : (n : ℕ) → thrice n ≡ n + twice n
unfolding thrice
thrice_is n = refl
""",
}
UPPER = {
    "src/lib.rt": """//! The crate above it.
#![tactic(auto)]

ghost use Rattle.std.specs.Prelude.{◌≡◌, ◌+◌, ◌<◌, ◌^◌};
ghost use Rattle.low.specs.Doubling.{twice};

use low::{Count, Half, ONE, Pair, double, triple};

/// Twice the number of a half.
pub fn whole(half: &Half) -> u64
    requires { half.now.number < 2 ^ 32 }
    ensures { result ≡ twice half.now.number }
{
    double(half.number())
}

/// The count of a pair.
pub fn counted(pair: &Pair) -> u64
    ensures { result ≡ pair.now.first }
{
    pair.count()
}

/// One.
pub fn one() -> u64
    ensures { result ≡ 1 }
{
    ONE
}

/// Three times a small number.
#[tactic(auto, using(crate::proofs::UpperLemmas::three_times_is))]
pub fn three_times(number: u64) -> u64
    requires { number < 2 ^ 32 }
    ensures { result ≡ number + (number + number) }
{
    triple(number)
}
""",
    "proofs/Lib.antt": "pub mod UpperLemmas\n",
    "proofs/UpperLemmas.antt": """use Rattle.std.specs.Prelude.{ℕ, ◌+◌, ◌≡◌}
use Rattle.low.specs.Doubling.{thrice}
use Rattle.low.proofs.DoublingLemmas.{thrice_is}

pub three_times_is : (n : ℕ) → thrice n ≡ n + (n + n)
three_times_is n = thrice_is n
""",
}
# What is changed: the kind of item, the file, the text and what comes in its place.
CHANGES = [
    ("a private body", "src/lib.rt", "{\n    left + right\n}", "{\n    let sum = left + right;\n    sum\n}"),
    ("a public body", "src/lib.rt", "    add(number, number)\n", "    number + number\n"),
    ("a comment", "src/lib.rt", "/// How much one more is.", "/// How much one more is than none."),
    ("a comment in specs", "specs/Doubling.antt", "-- a number and itself", "-- a number, twice"),
    ("a bound name", "specs/Doubling.antt", "twice n = n + n", "twice number = number + number"),
    ("a new private function", "src/parts.rt", "/// A half of something.", "fn zero() -> u64\n    ensures { result ≡ 0 }\n{\n    0\n}\n\n/// A half of something."),
    ("a new public function", "src/lib.rt", "fn add(", "/// Nothing.\npub fn none() -> u64\n    ensures { result ≡ 0 }\n{\n    0\n}\n\nfn add("),
    ("a type's field", "src/lib.rt", "    pub second: u64,\n}", "    pub second: u64,\n    pub third: u64,\n}"),
    ("a new type", "src/lib.rt", "/// A pair of numbers.", "/// A single number.\n#[derive(Clone, Copy)]\npub struct Single {\n    pub only: u64,\n}\n\n/// A pair of numbers."),
    ("a derive", "src/parts.rt", "#[derive(Clone, Copy)]", "#[derive(Clone, Copy, PartialEq)]"),
    ("a method of a trait", "src/lib.rt", "        ensures { result ≡ counted self.now };", "        ensures counted { result ≡ counted self.now }\n        ensures same { counted self.now ≡ result };"),
    ("a ghost of an impl", "src/lib.rt", "λ pair. pair.first", "λ pair. (pair.first)"),
    ("a new impl", "src/parts.rt", "impl Half {", "impl crate::Count for Half {\n    ghost counted = { λ half. half.number };\n\n    fn count(&self) -> u64 {\n        self.number\n    }\n}\n\nimpl Half {"),
    ("a constant", "src/lib.rt", "pub const ONE: u64 = 1;", "pub const ONE: u64 = 2 - 1;"),
    ("a clause", "src/lib.rt", "ensures doubled { result ≡ twice number }", "ensures doubled { result ≡ number + number }"),
    ("the name of a clause", "src/lib.rt", "ensures doubled {", "ensures twofold {"),
    ("one more clause", "src/lib.rt", "    ensures doubled { result ≡ twice number }", "    ensures doubled { result ≡ twice number }\n    ensures whole { twice number ≡ result }"),
    ("a requires that is milder", "src/lib.rt", "pub fn double(number: u64) -> u64\n    requires { number < 2 ^ 32 }", "pub fn double(number: u64) -> u64\n    requires { number < 2 ^ 33 }"),
    ("a definition", "specs/Doubling.antt", "thrice n = n + twice n", "thrice n = n + (n + n)"),
    ("an abbreviation", "specs/Doubling.antt", "twice n = n + n", "twice n = n + (n + 0)"),
    ("a new definition", "specs/Doubling.antt", "-- a number, and itself twice", "-- nothing more\nabbrev pub once : ℕ → ℕ\nonce n = n\n\n-- a number, and itself twice"),
    ("a lemma's statement", "proofs/DoublingLemmas.antt", "pub thrice_is : (n : ℕ) → thrice n ≡ n + twice n", "pub thrice_is : (n : ℕ) → thrice n ≡ n + (n + n)"),
    ("a lemma's proof", "proofs/DoublingLemmas.antt", "thrice_is n = refl", "thrice_is number = refl"),
    ("an import", "src/lib.rt", "ghost use Rattle.std.specs.Prelude.{ℕ, ◌≡◌, ◌+◌, ◌<◌, ◌^◌};", "ghost use Rattle.std.specs.Prelude.{ℕ, ◌≡◌, ◌+◌, ◌<◌, ◌^◌, ◌*◌};"),
    ("a re-export", "src/lib.rt", "pub use parts::Half;", "pub use parts::Half;\npub use parts::Half as Part;"),
]


def write(folder, files):
    for name, text in files.items():
        (folder / name).parent.mkdir(parents=True, exist_ok=True)
        (folder / name).write_text(text, encoding="utf-8")


def make_tower(top, low):
    write(top / "crates" / "low", low)
    write(top / "crates" / "upper", UPPER)
    write(top, {"crates.txt": "low:\nupper: low\n", "HANDLES": "Handles allowed: none.\n"})
    return top


def prover(verb, top, name, words):
    words = ["--crate-name", name, "src/lib.rt", "--extern", f"std={KIT}/rlibs/std.rlib", "-L", f"dependency={KIT}/rlibs", "--antt-project",
             f"{KIT}/rattle/logic/antt-project.json", "--logic-built", f"{KIT}/logic_built", "--jobs", "1", *words]
    done = subprocess.run([KIT / "bin" / "rattle", verb, *words], cwd=top / "crates" / name, stdin=subprocess.DEVNULL, stdout=subprocess.PIPE,
                          stderr=subprocess.STDOUT, text=True, errors="replace", check=False)
    return done.returncode, done.stdout


def build_low(top):
    return prover("build", top, "low", ["--statements", "-o", top / "low.rlib"])


def checked_of(top, kept):
    """How many modules of the upper crate the prover checks over the library, with what it kept; None if it refuses the crate."""
    status, said = prover("check", top, "upper", ["--extern", f"low={top / 'low.rlib'}", "--incremental", kept])
    found = re.search(r"^(?:crate )?upper: modules loaded=\d+ checked=(\d+)", said, re.MULTILINE)
    return (None if status else int(found[1])), said


def try_change(room, kept, kind, file, text, other):
    """Whether the prover and tools/changed.py agree that the upper crate sees a change, and a line on it."""
    if LOW[file].count(text) != 1:
        return False, f"{kind}: its text isn't there once"
    shutil.rmtree(room / "new", ignore_errors=True)
    top = make_tower(room / "new", {**LOW, file: LOW[file].replace(text, other)})
    shutil.copytree(kept, room / "new" / "kept")
    is_named = changed.changes(changed.State(top), changed.State(room / "old"))["upper"].must_be_proved()
    status, said = build_low(top)
    if status:
        return False, f"{kind}: the lower crate isn't proved\n{said[-1500:]}"
    checked, said = checked_of(top, room / "new" / "kept")
    is_seen = checked is None or checked > 0
    what = "refuses it" if checked is None else f"checks {checked} modules again"
    verdict = "agree" if is_named == is_seen else "an alarm that costs time alone" if is_named else "NOT NAMED"
    return is_named or not is_seen, f"{kind}: the prover {what}, and it is {'' if is_named else 'not '}named: {verdict}"


def main():
    with tempfile.TemporaryDirectory(prefix="changed-") as room:
        room = pathlib.Path(room)
        old = make_tower(room / "old", LOW)
        status, said = build_low(old)
        checked, first = checked_of(old, room / "kept") if not status else (None, said)
        if checked is None:
            sys.exit(f"changed.py: the tower isn't proved\n{first[-3000:]}")
        print(f"changed.py: {checked} modules of the upper crate are checked at first", flush=True)
        results = []
        for change in CHANGES:
            if sys.argv[1:] and change[0] not in sys.argv[1:]:
                continue
            is_well, line = try_change(room, room / "kept", *change)
            results.append(is_well)
            print(f"changed.py: {line}", flush=True)
    print(f"{sum(results)} passed, {len(results) - sum(results)} failed")
    return 0 if all(results) else 1


if __name__ == "__main__":
    sys.exit(main())
