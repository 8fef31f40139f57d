#!/usr/bin/env python3
"""What is proved already, so that a gate proves only what changed since.

    tools/proved.py --base ROOM
    tools/proved.py --add

The first line prints the folder of a state of which all is proved, the one from which least has to be proved again, or nothing, if there
is none to begin with; on standard error it says why. Such states are those that a gate or ./prove went through whole on this machine, in
a record beside the kit's own store, and the commit that landed last, if it is named by the file `landed` in the folder shared/ beside the
repository and the commit at hand stands on it; that one is unpacked in ROOM. None counts whose judge is another: of the files of .ci/, of
tools/*.py or of HANDLES one changed, or the kit did.

The second line adds the state of this checkout to the record. Only .ci/run and ./prove call it, once they went through.
"""
import hashlib
import json
import os
import pathlib
import shutil
import subprocess
import sys
import tempfile

ROOT = pathlib.Path(__file__).resolve().parent.parent
sys.path.insert(0, str(ROOT / "tools"))
import changed

KIT = pathlib.Path(subprocess.run(["rt", "doc"], check=True, capture_output=True, text=True).stdout.strip()).resolve().parent
RECORD = KIT.parent / "fallowtime-proved"
LANDED = ROOT.parent / "shared" / "landed"
KIT_FILE = ".ci/kit"
# What a state has of the repository, and how many states are kept.
PARTS = ("crates", "crates.txt", "HANDLES", "tools", ".ci")
MOST = 6


def kit_name():
    return subprocess.run(["rt", "version"], check=True, capture_output=True, text=True).stdout.strip()


def files_of(top):
    """The files of a state, each with its sum; what was made of a crate isn't one."""
    found = {}
    for part in PARTS:
        for file in [top / part] if (top / part).is_file() else sorted((top / part).glob("**/*")):
            inside = file.relative_to(top).as_posix()
            if file.is_file() and not inside.split("/")[2:3] == ["out"] and "__pycache__" not in inside:
                found[inside] = hashlib.sha256(file.read_bytes()).hexdigest()
    return found


def judge_of(files):
    """The files of a state that decide what is proved, with their sums."""
    return {file: total for file, total in files.items() if file == "HANDLES" or file.startswith(".ci/") or file.startswith("tools/") and file.endswith(".py")}


def is_ours(folder):
    """Whether a folder is one that nobody else may write into."""
    found = os.lstat(folder)
    return folder.is_dir() and not folder.is_symlink() and found.st_uid == os.geteuid() and not found.st_mode & 0o022


def recorded():
    """The folders of the record whose files are as they were when it was written, newest first."""
    if not RECORD.is_dir() or not is_ours(RECORD):
        return []
    found = []
    for state in sorted(RECORD.glob("*/state.json"), key=lambda file: -file.stat().st_mtime):
        tree = state.parent / "tree"
        if json.loads(state.read_text(encoding="utf-8")).get("files") == files_of(tree):
            found.append(tree)
    return found


def git(*words):
    return subprocess.run(["git", *words], cwd=ROOT, stdin=subprocess.DEVNULL, capture_output=True, check=False)


def landed(room):
    """The folder of the commit that landed last, unpacked in ROOM, if the commit at hand stands on it."""
    commit = LANDED.read_text(encoding="utf-8").strip() if LANDED.is_file() else ""
    if not commit or git("merge-base", "--is-ancestor", commit, "HEAD").returncode:
        return []
    tree = pathlib.Path(room) / "landed"
    tree.mkdir(parents=True, exist_ok=True)
    packed = git("archive", commit, *[part for part in PARTS if not git("cat-file", "-e", f"{commit}:{part}").returncode])
    subprocess.run(["tar", "-x", "-C", tree], check=True, input=packed.stdout)
    return [tree]


def states(room):
    """All states of which all is proved, those of the record first."""
    return [*recorded(), *landed(room)]


def lines_to_prove(tree):
    """How many lines have the crates that have to be proved again if this state is proved."""
    new, old = changed.State(ROOT), changed.State(tree)
    named = [name for name, change in changed.changes(new, old).items() if change.must_be_proved()]
    return sum(new.texts(name).whole.count("\n") + len(new.texts(name).whole) // 100 for name in named)


def report(text):
    print(f"proved.py: {text}", file=sys.stderr)


def base(room):
    """Prints the folder of the state from which least has to be proved."""
    own, found = judge_of(files_of(ROOT)), []
    if (ROOT / KIT_FILE).read_text(encoding="utf-8").strip() != kit_name():
        sys.exit(f"proved.py: the kit is {kit_name()}, and {KIT_FILE} names another: nothing that was proved counts")
    for tree in states(room):
        other = judge_of(files_of(tree))
        differs = sorted(file for file in own.keys() | other.keys() if own.get(file) != other.get(file))
        if differs:
            report(f"{tree} doesn't count, as the judge changed: {' '.join(differs[:4])}")
        else:
            found.append((lines_to_prove(tree), len(found), tree))
    if not found:
        report("nothing counts as proved: everything is proved")
        return
    lines, _, tree = min(found)
    report(f"{tree} is proved, and since then crates of {lines} lines changed or see a change")
    print(tree)


def verdict(key):
    return RECORD / "verdicts" / key


def has_verdict(key):
    """Whether a check that read all that this sum is of was noted as one that proves its crate."""
    return RECORD.is_dir() and is_ours(RECORD) and verdict(key).is_file()


def note_verdict(key):
    if make_record():
        verdict(key).parent.mkdir(exist_ok=True)
        verdict(key).touch()


def make_record():
    """Makes the folder of the record, and returns whether nobody else may write into it."""
    try:
        RECORD.mkdir(mode=0o700, exist_ok=True)
        return is_ours(RECORD)
    except OSError:
        return False


def add():
    """Adds the state of this checkout to the record, and drops the oldest ones."""
    if not make_record():
        sys.exit(f"proved.py: {RECORD} isn't a folder that only its owner may write into: nothing is recorded")
    files = files_of(ROOT)
    name = hashlib.sha256(json.dumps([kit_name(), files]).encode()).hexdigest()[:32]
    room = pathlib.Path(tempfile.mkdtemp(prefix="new-", dir=RECORD))
    for file in files:
        (room / "tree" / file).parent.mkdir(parents=True, exist_ok=True)
        shutil.copyfile(ROOT / file, room / "tree" / file)
    (room / "state.json").write_text(json.dumps({"kit": kit_name(), "files": files}), encoding="utf-8")
    shutil.rmtree(RECORD / name, ignore_errors=True)
    room.rename(RECORD / name)
    for state in sorted(RECORD.glob("*/state.json"), key=lambda file: -file.stat().st_mtime)[MOST:]:
        shutil.rmtree(state.parent, ignore_errors=True)
    report(f"{RECORD / name}: {len(files)} files are recorded as proved")


if __name__ == "__main__":
    if sys.argv[1:2] == ["--base"] and len(sys.argv) == 3:
        base(sys.argv[2])
    elif sys.argv[1:] == ["--add"]:
        add()
    else:
        sys.exit(__doc__)
