#!/usr/bin/python3
"""Runs the merge gate in a checkout that is made up, whose parts only say that they were called, and fail if they are to.

    tests/gate.py

prints one line a run, and ends with status 1 at the first that isn't as it should be.
"""
import os
import pathlib
import shutil
import subprocess
import sys
import tempfile

ROOT = pathlib.Path(__file__).resolve().parent.parent
BUILT = "crates/bson_store_cli/out/bson_store_cli"
# The parts of the gate, each with what else it does. Each notes its name and its words, and fails if FAILS is among them.
PARTS = {
    "quick": "", "dev": "", "tests/needs.sh": "", "tests/all.py": "", "tests/refused_memory.py": "", "tests/changed.py": "",
    "tools/wrong_bodies.py": "", "tools/libraries.py": "",
    "tools/prove_changed.py": 'mkdir "$3" && printf %s "$WRONG" >"$3/wrong"',
    "tools/proved.py": '[ "$1" = --add ] || printf %s "$BASE"',
    "rt": f"mkdir -p crates/bson_store_cli/out && touch {BUILT} {BUILT}.by-rattle",
}
STUB = """#!/bin/sh
echo "${{0##*/}}" "$@" >>"$CALLED"
case "${{0##*/}} $*" in *"$FAILS"*) exit 1 ;; *"$KILLS"*) kill -9 "$PPID" ;; esac
{does}
exit 0
"""
COMMANDS = ["quick", "dev test", "quick --cases"]


def write(path, text):
    path.parent.mkdir(parents=True, exist_ok=True)
    path.write_text(text)
    path.chmod(0o755)


def checkout(folder):
    there = folder / "checkout"
    write(there / ".ci/run", (ROOT / ".ci/run").read_text())
    write(there / ".ci/minutes", '#!/bin/sh\n[ "$2" != --sum ] || exit 0\nshift 2\nexec "$@"\n')
    for path, does in PARTS.items():
        write(folder / "bin/rt" if path == "rt" else there / path, STUB.format(does=does))
    return there


def holds(step, found, wanted):
    if found != wanted:
        print(f"{step}: {found!r} in place of {wanted!r}")
        sys.exit(1)
    print(f"{step}: {found!r}"[:150])


def run(folder, there, *words, base="", wrong="", fails="no part", kills="no part"):
    """The status, the last line, the parts that failed and the calls of a gate."""
    called = folder / "called"
    called.write_text("")
    shutil.rmtree(there / "crates", ignore_errors=True)
    environment = {**os.environ, "PATH": f"{folder / 'bin'}:{os.environ['PATH']}", "CALLED": str(called), "FAILS": fails, "KILLS": kills, "BASE": base, "WRONG": wrong}
    done = subprocess.run([there / ".ci/run", *words], stdin=subprocess.DEVNULL, capture_output=True, text=True, env=environment)
    lines = done.stdout.splitlines()
    calls = [line.replace(str(there), "").replace("tests/", "") for line in called.read_text().splitlines()]
    return done.returncode, lines[-1:], sorted({line for line in lines if line.startswith("FAILED ")}), calls


def has_called(calls, *wanted):
    return [call for call in wanted if not any(each == call or each.startswith(f"{call} ") for each in calls)]


def try_changed(folder, there):
    """A gate over a state that is proved: the proofs of what changed, and the wrong bodies of the crates that it names."""
    status, last, failed, calls = run(folder, there, base="/state", wrong="low\nhigh\n")
    holds("a change", (status, last, failed), (0, ["gate: 5 passed, 0 failed"], []))
    holds("its parts", has_called(calls, *COMMANDS, "prove_changed.py /state", "proved.py --add"), [])
    holds("its wrong bodies", [call.split()[-2:] for call in calls if call.startswith("wrong_bodies.py")], [["low", "high"]])
    holds("nothing else is proved", [call for call in calls if call.startswith(("rt", "refused_memory"))], [])
    status, last, failed, calls = run(folder, there, base="/state")
    holds("a change of no crate", (status, last, [call for call in calls if call.startswith("wrong")]), (0, ["gate: 4 passed, 0 failed"], []))
    for fails, name in [("prove_changed", "proofs of what changed"), ("wrong_bodies", "wrong bodies"), ("dev test", "./dev test"), ("quick --cases", "./quick --cases")]:
        status, last, failed, calls = run(folder, there, base="/state", wrong="low\n", fails=fails)
        holds(f"{fails} fails", (status, failed, has_called(calls, "proved.py --add")), (1, [f"FAILED {name}"], ["proved.py --add"]))
    status, last, failed, calls = run(folder, there, base="/state", kills="dev test")
    holds("a part is killed", (status, failed, has_called(calls, "proved.py --add")), (1, ["FAILED ./dev test"], ["proved.py --add"]))


def try_whole(folder, there):
    """A gate that proves everything, as nothing counts as proved."""
    for step, words, base in [("nothing is proved", [], ""), ("a whole run", ["--whole"], "/state")]:
        status, last, failed, calls = run(folder, there, *words, base=base)
        holds(step, (status, last, failed), (0, ["gate: 9 passed, 0 failed"], []))
        holds("its parts", has_called(calls, *COMMANDS, "rt ci", "wrong_bodies.py --beside", f"all.py {BUILT}", f"all.py {BUILT}.by-rattle program.py",
                                      "refused_memory.py --proved", "changed.py", "proved.py --add"), [])
    for fails, name in [("rt ci", "rt ci"), ("wrong_bodies", "wrong bodies"), (f"all.py {BUILT}.by", "tests of the second compiler's program"),
                        ("refused_memory", "refused memory"), ("quick --cases", "./quick --cases"), ("changed.py", "tests/changed.py")]:
        status, last, failed, calls = run(folder, there, fails=fails)
        holds(f"{fails} fails", (status, f"FAILED {name}" in failed, has_called(calls, "proved.py --add")), (1, True, ["proved.py --add"]))
    status, last, failed, calls = run(folder, there, fails="proved.py --base")
    holds("the kit is another", (status, last, calls), (1, ["gate: 0 passed, 1 failed"], [calls[0]]))


def main():
    with tempfile.TemporaryDirectory() as folder:
        folder = pathlib.Path(folder)
        there = checkout(folder)
        try_changed(folder, there)
        try_whole(folder, there)


if __name__ == "__main__":
    main()
