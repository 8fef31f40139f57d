#!/usr/bin/python3
"""Stops each command of fallowtime that changes one document at each of its writes and syncs, and holds what is found
afterwards against the documents before and after the command.

    tests/stops.py PROGRAM [SEED]

PROGRAM is fallowtime, under whatever name; SEED chooses which of the writes a loss of power takes, 1 if not given. A
command is run once under strace, which tells its calls. From these follow the files as they are if it is killed before
a call or in the middle of a write, and if the power is lost there: each write since the last sync of its file may then
be kept, lost, or kept in some sectors of 512 bytes, and a file that was made may be missing until its folder was
synced. Then it is run again for each call, which is refused: by ENOSPC or EIO, once or from then on. Among the commands
are those that make the file, and those over what a stopped one of these has left; the files come from the program, with
a log of a session that was killed, and from sqlite3, which leaves none.

Of each of these files sqlite3 has to read the documents before or after the command, and find nothing wrong; `check`
and `export` have to find the same; and then a document more is put in, which has to be there with all others, for the
program and for sqlite3. Only a file that isn't made to its end is none for sqlite3 until then. If the command was
accepted, the documents after it are there, whatever was lost then. Prints a line for each command with the number of
different files, and ends with status 1 at the first that isn't as it should be, which it leaves in a folder. Wants
Python's sqlite3 and strace.
"""
import atexit
import collections
import multiprocessing.pool
import os
import pathlib
import random
import re
import shutil
import signal
import sqlite3
import struct
import subprocess
import sys
import tempfile
import threading
import time

import amounts

# In memory, as each of the files is synced often.
SHOP = pathlib.Path(tempfile.mkdtemp(prefix="stops-", dir=amounts.memory_folder()))
atexit.register(shutil.rmtree, SHOP, ignore_errors=True)
# The name under which the program is started says which one it is.
PROGRAM = str(SHOP / "fallowtime")
shutil.copy(sys.argv[1], PROGRAM)
SEED = int(sys.argv[2]) if len(sys.argv) > 2 else amounts.seed(1)
# The longest that a call may take here.
LONG = 600
AT_ONCE = 2
NAMES = ("shop.db", "shop.db-wal")
CALLS = "openat,pwrite64,ftruncate,fsync,fdatasync,unlink,rename"
SECTOR = 512
# How often the power is lost before a call, each time with other writes that are kept.
LOSSES = amounts.amount(1, 3)
# How many stopped makings of a file are changed by a command that is stopped, too.
AGAIN = amounts.amount(4, 12)


def document(number, *fields):
    """The bytes of a document with this `_id`."""
    inside = b"\x10_id\0" + struct.pack("<i", number) + b"".join(fields)
    return struct.pack("<i", len(inside) + 5) + inside + b"\0"


def number(key, value):
    return b"\x10" + key + b"\0" + struct.pack("<i", value)


def text(key, length):
    return b"\x02" + key + b"\0" + struct.pack("<i", length + 1) + b"x" * length + b"\0"


# One document of some pages, and of the others enough for a tree of two levels.
LONG_ONE = 7
STORED = [document(at, number(b"a", at), text(b"t", 9000 if at == LONG_ONE else 300)) for at in range(40)]
# Commands over these. Of those on the long document pages get free, or are taken from the free ones.
CHANGES = [
    ["insert", "c", '{"_id":41,"a":1}'],
    ["insert", "c", '{"_id":42,"t":"' + "y" * 20000 + '"}'],
    ["put", "c", '{"_id":3,"a":[1,2]}'],
    ["put", "c", '{"_id":{"half":1.5}}'],
    ["replace", "c", '{"_id":%d,"a":0}' % LONG_ONE],
    ["set", "c", "5", "a", '"z"'],
    ["unset", "c", "%d" % LONG_ONE, "t"],
    ["remove", "c", "%d" % LONG_ONE],
    ["remove", "c", "20"],
]
# Those that make the file.
FIRST = [["insert", "c", '{"_id":1,"a":1}'], ["put", "c", '{"_id":2}']]
# What is put in at the end.
LAST = document(1000, number(b"last", 1))
LAST_TEXT = '{"_id":1000,"last":1}'


class Wrong(Exception):
    pass


def fail_unless(holds, *what):
    if not holds:
        raise Wrong(*what)


def run(folder, *words, given=b"", before=()):
    done = subprocess.run([*before, PROGRAM, NAMES[0], *words], cwd=folder, input=given, capture_output=True, timeout=LONG)
    return done.returncode, done.stdout, done.stderr.decode()


# ---- Files, as a dictionary from names to bytes.
def read(folder):
    return {name: (folder / name).read_bytes() for name in NAMES if (folder / name).exists()}


def lay(files, folder):
    for name in NAMES:
        if name in files:
            (folder / name).write_bytes(files[name])
        else:
            (folder / name).unlink(missing_ok=True)


def cut(content, length):
    return content[:length].ljust(length, b"\0")


def written(content, at, given):
    """What is behind the end of a file up to a write is read as zeros."""
    return content[:at].ljust(at, b"\0") + given + content[at + len(given):]


# ---- What a command does to its files, call by call: the call's name, and that of the file, or nothing for the folder.
Call = collections.namedtuple("Call", "kind name at given")
SYNCS = ("fsync", "fdatasync")
LINE = re.compile(r"(\w+)\((.*)\) += (-?\d+)")


def text_of(coded):
    return bytes.fromhex(coded.replace("\\x", "")).decode("latin-1")


def call_of(line):
    """The call of a line of strace, if it is one that does anything to the files or their folder."""
    found = LINE.match(line)
    if not found or int(found[3]) < 0:
        return None
    kind, words, _ = found.groups()
    if kind == "openat":
        name = text_of(re.search(r'"(.*?)"', words)[1]).rsplit("/", 1)[-1]
        return Call(kind, name, 0, b"") if "O_CREAT" in words and name in NAMES else None
    path = text_of(re.search(r"<(.*?)>", words)[1]) if "<" in words else ""
    name = path.rsplit("/", 1)[-1]
    if kind in ("unlink", "rename"):
        raise Wrong("a file is taken away", line[:200])
    if kind in SYNCS:
        return Call(kind, name if name in NAMES else "", 0, b"")
    if name not in NAMES:
        return None
    if kind == "ftruncate":
        return Call(kind, name, int(words.rsplit(",", 1)[1]), b"")
    given = bytes.fromhex(re.search(r'"(.*?)"', words)[1].replace("\\x", ""))
    length, at = map(int, words.rsplit(",", 2)[1:])
    fail_unless(length == len(given) == int(found[3]), "a write in part", line[:200])
    return Call(kind, name, at, given)


def record(start, words):
    """Runs a command over files: its calls, what it printed, and the files that it leaves."""
    with tempfile.TemporaryDirectory(dir=SHOP) as folder:
        folder = pathlib.Path(folder)
        lay(start, folder)
        log = folder / "calls"
        done = run(folder, *words, before=["strace", "-xx", "-y", "-s", "4000000", "-e", f"trace={CALLS}", "-o", str(log)])
        calls = [call for call in map(call_of, log.read_text().splitlines()) if call]
        files = read(folder)
    again = dict(start)
    for call in calls:
        do(again, call)
    fail_unless(again == files, "the calls don't make the files", words)
    return calls, done, files


def do(files, call):
    if call.kind == "openat":
        files.setdefault(call.name, b"")
    elif call.kind == "pwrite64":
        files[call.name] = written(files[call.name], call.at, call.given)
    elif call.kind == "ftruncate":
        files[call.name] = cut(files[call.name], call.at)


def without_power(files, pending, chance):
    """The files after a loss of power, with calls since the last syncs, in their order."""
    left = dict(files)
    # Sometimes all is lost, sometimes all is kept.
    kept = chance.choice([0, 0.3, 0.7, 1])
    for call in pending:
        if call.name not in left and call.kind != "openat":
            # The file itself is lost.
            continue
        if call.kind == "pwrite64" and len(call.given) > 1 and chance.random() < 0.5:
            for part in range(0, len(call.given) + SECTOR, SECTOR):
                # A sector is one of the disk.
                begin, end = (max(0, it - call.at % SECTOR) for it in (part, part + SECTOR))
                if chance.random() < kept and call.given[begin:end]:
                    do(left, call._replace(at=call.at + begin, given=call.given[begin:end]))
        elif chance.random() < kept:
            do(left, call)
    return left


def stops(start, calls, chance, before, after):
    """The files after each stop, with what stopped it, and the states that they may have."""
    files, synced, pending = dict(start), dict(start), []
    for at, call in enumerate([*calls, None]):
        allowed = [before, after] if call else [after]
        yield f"killed before call {at}", dict(files), allowed
        for loss in range(LOSSES if pending else 0):
            yield f"without power before call {at}, {loss}", without_power(synced, pending, chance), allowed
        if call is None:
            return
        if call.kind == "pwrite64" and len(call.given) > 1:
            half = dict(files)
            do(half, call._replace(given=call.given[:chance.randrange(1, len(call.given))]))
            yield f"killed in call {at}", half, allowed
        if call.kind not in SYNCS:
            do(files, call)
            pending.append(call)
            continue
        # The folder's sync keeps that files were made, and so does that of a file which was.
        done = [it for it in pending if it.name == call.name or call.name == "" and it.kind == "openat"]
        pending = [it for it in pending if it not in done]
        for it in done:
            do(synced, it)


# ---- What is in files.
# What sqlite3 says of a file that isn't made to its end, and has no documents yet.
UNMADE = "sqlite3: file is not a database"


def by_sqlite(files):
    """What sqlite3 reads: the bodies in the order of their places."""
    with tempfile.TemporaryDirectory(dir=SHOP) as folder:
        folder = pathlib.Path(folder)
        lay(files, folder)
        connection = sqlite3.connect(folder / NAMES[0])
        try:
            checked = connection.execute("PRAGMA integrity_check").fetchall()
            if not connection.execute("SELECT 1 FROM sqlite_schema").fetchall():
                return []
            rows = [body for (body,) in connection.execute("SELECT body FROM documents ORDER BY place")]
        except sqlite3.DatabaseError as error:
            return f"sqlite3: {error}"
        finally:
            connection.close()
    return rows if checked == [("ok",)] else f"sqlite3: {checked}"


def by_program(folder, *words):
    """What the program prints, or how it is refused."""
    status, printed, told = run(folder, *words)
    return printed if (status, told) == (0, "") else f"{words[0]}: {status} {told}"


def hold(files, allowed):
    """Holds files against the states that are allowed, and returns which one they have; a document more is put in."""
    with tempfile.TemporaryDirectory(dir=SHOP) as folder:
        folder = pathlib.Path(folder)
        lay(files, folder)
        rows = by_sqlite(files)
        if rows == UNMADE and [] in allowed:
            rows = []
        fail_unless(rows in allowed, "sqlite3 reads another state", str(rows)[:300])
        if NAMES[0] in files:
            found = by_program(folder, "check"), by_program(folder, "export", "c")
            fail_unless(found == (b"%d\n" % len(rows), b"".join(rows)), "the program reads another state", str(found)[:300])
            fail_unless(read(folder) == files, "reading has changed the files")
        status, printed, told = run(folder, "insert", "c", LAST_TEXT)
        fail_unless((status, told) == (0, ""), "a document more is refused", status, told)
        found = by_program(folder, "export", "c")
        fail_unless(found == b"".join([*rows, LAST]), "the program reads another state after a document more", str(found)[:300])
        after = by_sqlite(read(folder))
        fail_unless(after == [*rows, LAST], "sqlite3 reads another state after a document more", str(after)[:300])
    return rows


# ---- Each command, stopped and refused.
LOCK = threading.Lock()


class Stopped:
    """The files that were held, each once, and what was found."""

    def __init__(self, pool):
        self.pool, self.seen, self.found = pool, set(), collections.Counter()

    def hold_all(self, words, given, before):
        """Holds files, with what stopped the command, against the states that are allowed. How many were new."""
        new = []
        for what, files, allowed in given:
            key = hash((tuple(sorted(files.items())), str(allowed)))
            if key not in self.seen:
                self.seen.add(key)
                new.append((what, files, allowed))
        self.pool.map(lambda it: self.hold_one(words, *it, before), new)
        return len(new)

    def hold_one(self, words, what, files, allowed, before):
        try:
            rows = hold(files, allowed)
        except Wrong as wrong:
            keep(files)
            raise Wrong(f"{' '.join(words)[:60]}, {what}", *wrong.args) from None
        with LOCK:
            self.found["before" if rows == before else "after"] += 1


def keep(files):
    """Leaves files that aren't as they should be, for whoever looks into it."""
    folder = pathlib.Path(tempfile.mkdtemp(prefix="stops-"))
    lay(files, folder)
    print(f"the files are in {folder}")


def refusals(start, words, calls):
    """Runs a command with each of its calls refused: what was refused, what it printed, and its files."""
    for kind, error in ("pwrite64", "ENOSPC"), ("ftruncate", "EIO"), ("fsync", "EIO"), ("fdatasync", "EIO"):
        for at in range(1, 1 + sum(call.kind == kind for call in calls)):
            for last in ("", "+"):
                yield start, words, f"{kind}:error={error}:when={at}{last}"


def refuse(start, words, inject):
    with tempfile.TemporaryDirectory(dir=SHOP) as folder:
        folder = pathlib.Path(folder)
        lay(start, folder)
        done = run(folder, *words, before=["strace", "-o", "/dev/null", "-e", f"trace={CALLS}", "-e", f"inject={inject}"])
        return inject, done, read(folder)


def try_command(stopped, start, words, chance, refusing):
    """A command over files, stopped and, if that is asked for, refused. The files of its stops, too."""
    before = by_sqlite(start)
    calls, done, files = record(start, words)
    fail_unless(done[0] == 0 and done[2] == "", "the command is refused", words, done)
    after = by_sqlite(files)
    fail_unless(isinstance(after, list) and after != before, "the command changes nothing", words, str(after)[:300])
    left = list(stops(start, calls, chance, before, after))
    count = stopped.hold_all(words, left, before)
    refused = stopped.pool.starmap(refuse, refusals(start, words, calls) if refusing else ())
    count += stopped.hold_all(words, [(what, it, [before, after] if done[0] else [after]) for what, done, it in refused], before)
    print(f"{' '.join(words)[:50]}: {len(calls)} calls, {count} files")
    return [it for _, it, _ in left]


# The files over which commands are refused, too.
FULL = "as the program leaves it"


def starts():
    """Files with the documents: as the program leaves them, as a session does that was killed, and as sqlite3 does."""
    with tempfile.TemporaryDirectory(dir=SHOP) as folder:
        folder = pathlib.Path(folder)
        done = run(folder, "import", "c", given=b"".join(STORED))
        fail_unless(done[0] == 0, "import", done)
        done = run(folder, "remove", "c", "0")
        fail_unless(done[0] == 0, "remove", done)
        yield FULL, read(folder)
        session = subprocess.Popen([PROGRAM, NAMES[0]], cwd=folder, stdin=subprocess.PIPE, stdout=subprocess.PIPE)
        for at in (50, 51):
            session.stdin.write(b'["insert","c",{"_id":%d}]\n' % at)
            session.stdin.flush()
            session.stdout.readline()
        session.send_signal(signal.SIGKILL)
        session.wait()
        yield "with a log", read(folder)
        connection = sqlite3.connect(folder / NAMES[0])
        connection.execute("PRAGMA wal_checkpoint(TRUNCATE)").fetchall()
        connection.close()
        yield "as sqlite3 leaves it", read(folder)


def main():
    chance = random.Random(SEED)
    began = time.monotonic()
    with multiprocessing.pool.ThreadPool(AT_ONCE) as pool:
        stopped = Stopped(pool)
        for words in FIRST:
            left = try_command(stopped, {}, words, chance, True)
            # What a making that was stopped has left is changed, and that is stopped.
            for start in chance.sample(left, AGAIN):
                try_again(stopped, start, words, chance)
        for name, start in starts():
            print(f"a file {name}:")
            for words in CHANGES:
                try_command(stopped, start, words, chance, name == FULL)
    total = sum(stopped.found.values())
    fail_unless(all(stopped.found[kind] for kind in ("before", "after")), "one state is never found", stopped.found)
    print(f"{total} files, {stopped.found['before']} as before and {stopped.found['after']} as after, in {time.monotonic() - began:.0f} s")


def try_again(stopped, start, words, chance):
    """A command over what a stopped making of the file has left."""
    rows = by_sqlite(start)
    before = [] if rows == UNMADE else rows
    words = ["insert", "c", '{"_id":60}']
    calls, done, files = record(start, words)
    fail_unless(done[0] == 0 and done[2] == "", "the command is refused", words, done)
    after = by_sqlite(files)
    stopped.hold_all(words, [(f"again, {what}", it, allowed) for what, it, allowed in stops(start, calls, chance, before, after)], before)


try:
    main()
except Wrong as wrong:
    print(*wrong.args, sep="\n  ")
    sys.exit(1)
