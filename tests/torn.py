#!/usr/bin/python3
"""Runs the program fallowtime beside SQLite, which changes the same file: what is read, and what a back-up has, is a state that was
committed, whatever the moment.

    tests/torn.py PROGRAM [READS]

PROGRAM is fallowtime, under whatever name. READS is how many commands are done beside each writer that doesn't rest, 5 if not given (12 in a long run).
Some readers and writers are held between two calls of the system by strace, so that the worst moment comes for sure. Prints one line a
step, and ends with status 1 at the first that isn't as it should be. Wants sqlite3, Python's bson and strace.
"""
import atexit
import collections
import itertools
import json
import os
import pathlib
import re
import shutil
import sqlite3
import subprocess
import sys
import tempfile
import threading
import time

import amounts

try:
    import bson
except ImportError:
    sys.exit("torn.py: needs sqlite3, Python's bson and strace, of Debian: apt-get install sqlite3 python3-pymongo strace")

FOLDER = pathlib.Path(tempfile.mkdtemp(prefix="torn-"))
atexit.register(shutil.rmtree, FOLDER, ignore_errors=True)
# The name under which the program is started says which one it is.
PROGRAM = str(FOLDER / "fallowtime")
shutil.copy(sys.argv[1], PROGRAM)
READS = int(sys.argv[2]) if len(sys.argv) > 2 else amounts.amount(5, 12)
# The longest that a call may take here.
LONG = 600
JOURNALS = ["delete", "truncate", "persist"]


def holds(step, found, wanted):
    if found != wanted:
        print(f"{step}: {found!r}"[:2000], f"in place of {wanted!r}"[:2000])
        sys.exit(1)
    print(f"{step}: {found!r}"[:150])


def run(*words, given=b""):
    done = subprocess.run([PROGRAM, *words], input=given, capture_output=True, timeout=LONG)
    return done.returncode, done.stdout, done.stderr.decode()


def body(number, value):
    return bson.encode({"_id": number, "value": value, "text": "x" * 900})


def make(path, documents, value=0):
    """A file with documents of one value, as a use of sqlite3 leaves it: with no log beside it."""
    holds("a store", run(str(path), "import", "c", given=b"".join(body(number, value) for number in range(documents)))[0], 0)
    connection = sqlite3.connect(path)
    connection.execute("PRAGMA journal_mode=wal")
    connection.execute("SELECT count(*) FROM documents").fetchall()
    connection.close()
    holds("beside it", [other.name for other in path.parent.glob(f"{path.name}-*")], [])
    return str(path)


# ---- One that is held: in a transaction 1 moves from the first document to another one far behind it.
FIRST, OTHER = 0, 150
QUERY = json.dumps({"_id": {"$in": [FIRST, OTHER]}})
BEFORE, AFTER = (1, [5, 5]), (1, [4, 6])
MOVES = [(4, FIRST), (6, OTHER)]


def values(file):
    """The values of both documents as a command finds them, or how it was refused."""
    status, printed, told = run(file, "find", "c", QUERY)
    return told or [json.loads(line)["value"] for line in printed.splitlines()]


def traced(words, *options):
    return ["strace", "-o", str(FOLDER / "trace"), *options, PROGRAM, *words]


def calls(words):
    """What a command asks of the system: each opening and reading, with the path and the bytes that were read of it so far."""
    subprocess.run(traced(words, "-e", "trace=openat,read,pread64"), stdout=subprocess.DEVNULL, check=True, timeout=LONG)
    if words[1] == "backup":
        os.remove(words[2])
    opened, found = {}, []
    for line in (FOLDER / "trace").read_text().splitlines():
        if match := re.match(r'openat\(\w+, "([^"]*)".* = (\d+)$', line):
            opened[match[2]] = [match[1], 0]
            found.append(("openat", match[1], 0))
        elif match := re.match(r"(read|pread64)\((\d+), .* = (\d+)$", line):
            about = opened.setdefault(match[2], ["", 0])
            about[1] += int(match[3])
            found.append((match[1], *about))
    return found


def held(words, call, place, seconds):
    """The command, held for some seconds at one of its calls."""
    when = "enter" if call == "openat" else "exit"
    return subprocess.Popen(traced(words, "-e", f"trace={call}", "-e", f"inject={call}:delay_{when}={int(seconds * 1e6)}:when={place}"),
                            stdout=subprocess.PIPE, stderr=subprocess.PIPE)


def found_by(words, process):
    """What a command that was held has found: a find its documents, a back-up what is in the copy."""
    printed, told = process.communicate(timeout=LONG)
    if process.returncode:
        return told.decode()
    if words[1] == "backup":
        found = values(words[2])
        os.remove(words[2])
        return found
    return [json.loads(line)["value"] for line in printed.splitlines()]


def in_the_middle(words, size):
    """A reading of a command, by its call and its place among these, at which a third of the file was read: by parts, or as a whole."""
    for call in "pread64", "read":
        readings = [about for about in calls(words) if about[0] == call]
        for place, (_, path, read) in enumerate(readings):
            if path == words[0] and read > size / 3:
                return call, 1 + place
    raise LookupError(f"{words}: a third of the file isn't read")


def behind_the_file(words):
    """The place among the openings of a command that comes behind the file's second one, in which all of it was read."""
    openings = [path for call, path, _ in calls(words) if call == "openat"]
    return 1 + [place for place, path in enumerate(openings) if path == words[0]][1] + 1


def move(file):
    connection = sqlite3.connect(file, isolation_level=None)
    connection.execute("BEGIN")
    for value, number in MOVES:
        connection.execute("UPDATE documents SET body = ? WHERE place = ?", (body(number, value), number + 1))
    connection.execute("COMMIT")
    connection.close()


def in_one_state(step, found):
    if found in ("refused: Busy\n", "refused: Journal\n"):
        found = "refused"
    holds(step, found if found in ("refused", [5, 5], [4, 6]) else ["torn", found], found)


if subprocess.run(["strace", "-o", os.devnull, "true"], stderr=subprocess.DEVNULL).returncode:
    sys.exit("torn.py: strace can't hold a program here")
for name, words in ("find", ["find", "c", QUERY]), ("backup", ["backup", str(FOLDER / "copy.db")]):
    # SQLite makes a log, takes it into the file and deletes it, while the reader is in the middle of the file.
    file = make(FOLDER / f"wal-{name}.db", 300, 5)
    words = [file, *words]
    call, place = in_the_middle(words, os.path.getsize(file))
    reader = held(words, call, place, 1.5)
    time.sleep(0.7)
    move(file)
    in_one_state(f"{name} beside a log that comes and goes", found_by(words, reader))
    holds("what is there then", values(file), [4, 6])
for mode in JOURNALS:
    # The writes of a transaction are slow; the reader begins behind the first one, and ends when the journal is gone.
    file = make(FOLDER / f"{mode}.db", 300, 5)
    connection = sqlite3.connect(file)
    connection.execute(f"PRAGMA journal_mode={mode}")
    connection.close()
    words = [file, "find", "c", QUERY]
    place = behind_the_file(words)
    moves = "".join(f"UPDATE documents SET body = x'{body(number, value).hex()}' WHERE place = {number + 1};" for value, number in MOVES)
    writer = subprocess.Popen(["strace", "-f", "-o", os.devnull, "-e", "trace=pwrite64", "-e", "inject=pwrite64:delay_exit=300000",
                               "sqlite3", file, f"PRAGMA journal_mode={mode}; BEGIN; {moves} COMMIT;"], stdout=subprocess.DEVNULL)
    until = time.time() + 60
    while body(FIRST, 4) not in pathlib.Path(file).read_bytes() and time.time() < until:
        time.sleep(0.01)
    in_one_state(f"beside a journal, {mode}", found_by(words, held(words, "openat", place, 3)))
    writer.wait()
    holds("what is there then", values(file), [4, 6])

# ---- A journal that stays: whoever reads waits for as long as the words say, and no longer.
file = make(FOLDER / "left.db", 3, 5)
pathlib.Path(file + "-journal").write_bytes(b"\xd9\xd5\x05\xf9\x20\xa1\x63\xd7" + bytes(504))
for seconds in 0, 1, 5:
    most = 4 if seconds == 0 else seconds + LONG
    words = ["--wait", str(seconds)] if seconds != 5 else []
    took = amounts.least_time(lambda: holds("beside a journal", run(file, "count", "c", *words), (1, b"", "refused: Journal\n")), most)
    holds(f"it waited {seconds} seconds", seconds - 0.2 < took < most, True)


# ---- By chance: all documents are changed in one transaction after the other.
DOCUMENTS = 3000
AT = body(0, 7).index(b"\x10value\0") + len(b"\x10value\0")
LENGTH = len(body(0, 0))


def change(file, mode, ended, committed):
    """Transactions until it is to end. In the mode wal each is by a connection of its own, so the log comes and goes."""
    connection = None
    for value in itertools.count(1):
        if connection is None or mode == "wal":
            if connection:
                connection.close()
            connection = sqlite3.connect(file, timeout=60, isolation_level=None)
            connection.execute("PRAGMA cache_size=-200000")
            connection.execute("PRAGMA synchronous=off")
            connection.execute(f"PRAGMA journal_mode={'wal' if mode == 'stays' else mode}").fetchall()
            connection.create_function("given", 2, lambda old, new: old[:AT] + new.to_bytes(4, "little") + old[AT + 4:])
        connection.execute("BEGIN IMMEDIATE")
        connection.execute("UPDATE documents SET body = given(body, ?)", (value,))
        connection.execute("COMMIT")
        committed[0] = value
        if ended.is_set():
            break
        time.sleep(0.02)
    connection.close()


def read_beside(mode, folder):
    file = make(pathlib.Path(folder) / f"chance-{mode}.db", DOCUMENTS)
    ended, committed, found = threading.Event(), [0], collections.Counter()
    writer = threading.Thread(target=change, args=(file, mode, ended, committed))
    writer.start()
    try:
        for _ in range(READS):
            least = committed[0]
            status, printed, told = run(file, "export", "c")
            most = committed[0] + 1
            seen = {int.from_bytes(printed[at + AT:at + AT + 4], "little") for at in range(0, len(printed), LENGTH)}
            if status:
                found[told.strip()] += 1
            elif len(seen) == 1 and len(printed) == DOCUMENTS * LENGTH and least <= min(seen) <= most:
                found["one state"] += 1
            else:
                found["torn", tuple(seen)[:4], len(printed), least, most] += 1
    finally:
        ended.set()
        writer.join()
    holds(f"{mode} in {folder}: reads that are no state", [told for told in found if told not in ("one state", "refused: Busy", "refused: Journal")], [])
    print(f"{mode} in {folder}: {dict(found)} beside {committed[0]} changes")


places = [FOLDER]
if amounts.memory_folder():
    places.append(pathlib.Path(tempfile.mkdtemp(prefix="torn-", dir=amounts.memory_folder())))
    atexit.register(shutil.rmtree, places[1], ignore_errors=True)
for place, mode in itertools.product(places, ["wal", "stays", *JOURNALS]):
    read_beside(mode, place)
print("all as it should be")
