#!/usr/bin/python3
"""Runs the program fallowtime over files that other processes have, that may only be read, or that can't be had; with outputs and inputs
that fail, with little memory, and many times at once beside a session that writes.

    tests/fallowtime_files.py PROGRAM [INSERTS]

PROGRAM is fallowtime, under whatever name. INSERTS is how many a session does beside 20 readers, 300 if not given (1000 in a long run). Prints one line a
step, and ends with status 1 at the first that isn't as it should be. Wants sqlite3.
"""
import atexit
import fcntl
import itertools
import json
import os
import pathlib
import pty
import resource
import shutil
import signal
import sqlite3
import subprocess
import sys
import tempfile
import threading
import time

try:
    import bson
except ImportError:
    sys.exit("fallowtime_files.py: needs sqlite3 and Python's bson, of Debian: apt-get install sqlite3 python3-pymongo")

import amounts  # noqa: E402

FOLDER = pathlib.Path(tempfile.mkdtemp(prefix="fallowtime-files-"))
atexit.register(shutil.rmtree, FOLDER, ignore_errors=True)
BIN, SHOP = FOLDER / "bin", FOLDER / "shop"
BIN.mkdir()
SHOP.mkdir()
# The name under which the program is started says which one it is. Another user must reach it.
PROGRAM = str(BIN / "fallowtime")
shutil.copy(sys.argv[1], PROGRAM)
FOLDER.chmod(0o755)
os.chdir(SHOP)
INSERTS = int(sys.argv[2]) if len(sys.argv) > 2 else amounts.amount(300, 1000)
READS = [["get", "c", "0"], ["find", "c"], ["count", "c"], ["export", "c"], ["collections"], ["check"], ["backup", "copy.db"]]
CHANGES = [["insert", "c", '{"_id":-1}'], ["put", "c", '{"_id":-1}'], ["replace", "c", '{"_id":0}'], ["set", "c", "0", "k", "1"],
           ["unset", "c", "0", "k"], ["remove", "c", "0"], ["import", "c"]]
MAKERS = ["insert", "put", "import"]
# The longest that a call may take here.
LONG = 600
steps = 0


def holds(step, found, wanted):
    global steps
    steps += 1
    if found != wanted:
        print(f"{step}: {found!r}"[:2000], f"in place of {wanted!r}"[:2000])
        sys.exit(1)
    print(f"{step}: {found!r}"[:150])


def run(*words, given=b"", **more):
    done = subprocess.run([PROGRAM, *words], input=given, capture_output=True, timeout=LONG, **more)
    return done.returncode, done.stdout, done.stderr.decode()


def ended(*words, **streams):
    """The status, and what is on standard error, with a standard output or input of its own."""
    done = subprocess.run([PROGRAM, *words], stderr=subprocess.PIPE, timeout=LONG, **{"stdin": subprocess.DEVNULL, **streams})
    return done.returncode, done.stderr.decode()


def refusal(told):
    return 1, b"", f"refused: {told}\n"


def refused_at_once(step, do, told):
    """A command is refused, and doesn't wait the five seconds for it that it waits if no word says otherwise."""
    took = amounts.least_time(lambda: holds(step, do(), refusal(told)), 4)
    holds("at once", took < 4, True)


def limit_memory(most):
    resource.setrlimit(resource.RLIMIT_AS, (most, most))


def files():
    """Each file, byte for byte, with its mode and the time of its last change."""
    found = {}
    for path in SHOP.iterdir():
        about = path.lstat()
        found[path.name] = (path.read_bytes() if path.is_file() else b"", about.st_mode, about.st_mtime_ns)
    return found


def changed(before):
    now = files()
    return sorted(name for name in {*now, *before} if now.get(name) != before.get(name))


def stay(step, before):
    holds(f"{step}: files that changed", changed(before), [])


def document(number):
    return {"_id": number, "name": f"n{number}", "text": "x" * (number * 37 % 400)}


def stream(numbers):
    return b"".join(bson.encode(document(number)) for number in numbers)


class Session:
    """A session over a file, which no other process may change meanwhile."""

    def __init__(self, file):
        self.process = subprocess.Popen([PROGRAM, file], stdin=subprocess.PIPE, stdout=subprocess.PIPE)
        self("collections")

    def __call__(self, *request):
        self.process.stdin.write(json.dumps(request).encode() + b"\n")
        self.process.stdin.flush()
        return json.loads(self.process.stdout.readline())

    def close(self):
        self.process.stdin.close()
        return self.process.wait()


def answers(file):
    """What each command that only reads prints of a file."""
    found = [run(file, *words) for words in READS[:-1]]
    copy = FOLDER / "copy.db"
    found.append(run(file, "backup", str(copy)))
    found.append(run(str(copy), "export", "c"))
    copy.unlink(missing_ok=True)
    return found


def line_of(one):
    return json.dumps(one, separators=(",", ":")).encode() + b"\n"


def answers_of(numbers):
    lines = [line_of(document(number)) for number in numbers]
    texts = [lines[0], b"".join(lines), b"%d\n" % len(lines)]
    return [(0, out, "") for out in [*texts, stream(numbers), b"c\n", texts[-1], b"", stream(numbers)]]


def by_sqlite(file, *statements):
    """What SQLite itself returns of the last one."""
    connection = sqlite3.connect(file)
    for statement in statements:
        rows = connection.execute(statement).fetchall()
    connection.commit()
    connection.close()
    return rows


# ---- A FILE that isn't there is made by three commands alone.
for words in READS + CHANGES:
    makes = words[0] in MAKERS
    holds(f"{words[0]} in no folder", run("none/none.db", *words), refusal("NoFolder" if makes else "NoFile"))
    holds("what is there", os.listdir(), [])
    if makes:
        holds(f"{words[0]} makes it", run("none.db", *words), (0, {"insert": b"-1\n", "put": b"", "import": b"0\n"}[words[0]], ""))
        holds("a store", run("none.db", "collections"), (0, b"" if words[0] == "import" else b"c\n", ""))
        for path in SHOP.iterdir():
            path.unlink()
    else:
        holds(f"{words[0]} of none", run("none.db", *words), refusal("NoFile"))
        holds("what is there", os.listdir(), [])

# ---- Files that are no store, or no files.
holds("a store", run("shop.db", "import", "c", given=stream(range(300))), (0, b"300\n", ""))
pathlib.Path("text").write_text("no database\n" * 1000)
pathlib.Path("damaged.db").write_bytes(pathlib.Path("shop.db").read_bytes()[:100] + b"\xff" * 12188)
pathlib.Path("cut.db").write_bytes(pathlib.Path("shop.db").read_bytes()[:5000])
pathlib.Path("linked.db").write_bytes(pathlib.Path("shop.db").read_bytes())
os.link("linked.db", "second.db")
os.symlink("nowhere", "dangling.db")
os.symlink("shop.db", "link.db")
os.mkfifo("pipe")
shutil.copy("shop.db", "hot.db")
pathlib.Path("hot.db-journal").write_bytes(b"\xd9\xd5\x05\xf9\x20\xa1\x63\xd7" + bytes(504))
by_sqlite("other.db", "CREATE TABLE documents (a, b)", "INSERT INTO documents VALUES (1, 2)")
shutil.copy("shop.db", "bad.db")
by_sqlite("bad.db", "UPDATE documents SET body = x'0500000000' WHERE place = 7")
MINUS = "12000000015F696400000000000000008000"
for file in "before.db", "collide.db":
    holds("a store", run(file, "insert", "c", '{"_id":5}'), (0, b"5\n", ""))
    by_sqlite(file, "DELETE FROM documents", f"INSERT INTO documents VALUES (1, 'c', x'{MINUS}', x'{MINUS}')")
by_sqlite("collide.db", f"INSERT INTO documents VALUES (2, 'c', x'{MINUS.replace('8000', '0000')}', x'{MINUS}')")
shutil.copy("shop.db", "last.db")
by_sqlite("last.db", "UPDATE documents SET place = 9223372036854775807 WHERE place = 7")
before = files()
PAIR = bytes.fromhex(MINUS * 2)
UNMET = {("bad.db", "get"): (0, line_of(document(0)), ""), ("bad.db", "count"): (0, b"300\n", ""), ("bad.db", "collections"): (0, b"c\n", ""),
         ("bad.db", "export"): (0, stream(range(6)) + bytes.fromhex("0500000000") + stream(range(7, 300)), ""),
         ("collide.db", "get"): (1, b"", "refused: NotFound _id 0\n"), ("collide.db", "count"): (0, b"2\n", ""), ("collide.db", "export"): (0, PAIR, ""),
         ("collide.db", "collections"): (0, b"c\n", "")}
LIGHT = {"bad.db": {"insert": (0, b"-1\n", ""), "unset": (0, b"true\n", ""), "import": refusal("BadRow 7"), "else": (0, b"", "")},
         "collide.db": {"insert": (0, b"-1\n", ""), "put": (0, b"", ""), "import": refusal("IdsCollide 1 2"), "else": refusal("NotFound _id 0")}}
for file, told in [("text", "NoDatabase"), ("damaged.db", "NoDatabase"), ("cut.db", "NoDatabase"), (".", "NotPlain"), ("linked.db", "NotPlain"),
                   ("pipe", "NotPlain"), ("/dev/null", "NotPlain"), ("shop.db/x.db", "NoFolder"), ("other.db", "NotAStore"), ("bad.db", "BadRow 7"),
                   ("collide.db", "IdsCollide 1 2")]:
    for words in READS:
        # What reads meets such a row only if it prints the document.
        met = UNMET.get((file, words[0]), refusal(told))
        holds(f"{words[0]} over {file}", run(file, *words), met)
    stay("what is refused", before)
    for words in CHANGES:
        if file not in LIGHT:
            holds(f"{words[0]} over {file}", run(file, *words), refusal(told))
    # A change that is refused as it opens a file may leave a log beside it, with nothing to play back.
    holds("what is refused", [name for name in changed(before) if name != f"{file}-wal" or os.path.getsize(name) > 41], [])
    for name in changed(before):
        os.remove(name)
# What changes one document by its `_id` meets only the row of that.
for file in LIGHT:
    shutil.copy(file, "met.db")
    for words in CHANGES:
        holds(f"{words[0]} over {file}", run("met.db", *words), LIGHT[file].get(words[0], LIGHT[file]["else"]))
    for name in "met.db", "met.db-wal":
        os.remove(name)
# A query that a row doesn't answer doesn't test it, and one that it answers does.
holds("a bad row that isn't selected", run("bad.db", "find", "c", '{"_id":{"$lt":3}}'), (0, b"".join(line_of(document(i)) for i in range(3)), ""))
holds("a bad row that is", run("bad.db", "find", "c", '{"_id":{"$exists":false}}'), refusal("BadRow 7"))
# Of a sort with a limit only the rows of what is handed out are tested, at its end: the bad one has no `_id`, so it is the first.
holds("a bad row that is among the first", run("bad.db", "find", "c", "{}", "--sort", "_id", "--limit", "1"), refusal("BadRow 7"))
holds("a bad row that is held for a while", run("bad.db", "find", "c", "{}", "--sort", "_id:-1", "--limit", "2"),
      (0, line_of(document(299)) + line_of(document(298)), ""))
for file, told, missed in ("dangling.db", "NotPlain", "NoFile"), ("file:shop.db", "NoName", "NoName"), (":memory:", "NoName", "NoName"):
    for words in READS + CHANGES:
        makes = words[0] in MAKERS
        holds(f"{words[0]} over {file}", run(file, *words), refusal(told if makes else missed if words in READS else "NoFile"))
holds("a journal, for a command that changes", run("hot.db", "remove", "c", "0"), refusal("Journal"))
holds("and for one that reads, once it has waited", run("hot.db", "count", "c", "--wait", "0"), refusal("Journal"))
stay("a journal", before)
holds("keys from before, read", run("before.db", "get", "c", "0.0"), (0, b'{"_id":-0.0}\n', ""))
stay("what was read", before)
holds("insert behind the last place", run("last.db", "insert", "c", '{"_id":-1}'), refusal("Places"))
holds("and changed", run("before.db", "set", "c", "-0.0", "k", "1"), (0, b"", ""))
holds("have keys of now", run("before.db", "find", "c"), (0, b'{"_id":-0.0,"k":1}\n', ""))
holds("by a link", run("link.db", "set", "c", "0", "name", '"n0"'), (0, b"", ""))
holds("it is the file's", [run(file, "export", "c") == (0, stream(range(300)), "") for file in ("link.db", "shop.db")], [True, True])
pathlib.Path("empty.db").touch()
holds("a file of no bytes", [run("empty.db", *words) for words in READS[1:6]], [(0, b"", ""), (0, b"0\n", ""), (0, b"", ""), (0, b"", ""), (0, b"0\n", "")])
holds("stays one", os.path.getsize("empty.db"), 0)
by_sqlite("rule.db", "CREATE TABLE documents (place INTEGER PRIMARY KEY, coll TEXT NOT NULL, idkey BLOB NOT NULL, body BLOB NOT NULL, CHECK (coll < 'd'))")
holds("a rule of somebody else", run("rule.db", "insert", "c", '{"_id":1}'), (0, b"1\n", ""))
holds("a row that breaks it", run("rule.db", "insert", "d", '{"_id":1}'), refusal("Database"))

# ---- Sound files with a table of somebody else's that isn't understood: what FILES says of them, and what helps.
for made, helps in [
    ("CREATE VIRTUAL TABLE t USING fts5(a)", "DROP TABLE t"),
    ("CREATE TABLE t (a); INSERT INTO t VALUES (1); ALTER TABLE t ADD COLUMN z DEFAULT 5", "UPDATE t SET z = z"),
    ("PRAGMA auto_vacuum = 1; CREATE TABLE t (a)", "PRAGMA auto_vacuum = 0; VACUUM"),
    ("PRAGMA auto_vacuum = 2; CREATE TABLE t (a)", "PRAGMA auto_vacuum = 0; VACUUM"),
    ("CREATE TABLE t (a INTEGER, b, PRIMARY KEY (a DESC)) WITHOUT ROWID; INSERT INTO t VALUES (1, 1), (2, 2)",
     "CREATE TABLE u (a INTEGER PRIMARY KEY, b); INSERT INTO u SELECT * FROM t; DROP TABLE t"),
    ("CREATE TABLE t (a TEXT PRIMARY KEY COLLATE NOCASE, b) WITHOUT ROWID; INSERT INTO t VALUES ('a', 1), ('B', 2)",
     "CREATE TABLE u (a TEXT PRIMARY KEY COLLATE NOCASE, b); INSERT INTO u SELECT * FROM t; DROP TABLE t"),
    ("CREATE TABLE t (a, b, c); INSERT INTO t VALUES (1, 'x', 1), (2, 'x', 2); CREATE INDEX i ON t(b, a DESC) WHERE c > 0", "DROP INDEX i"),
    ("CREATE TABLE t (a); INSERT INTO t VALUES (1), (2); CREATE INDEX i ON t(abs(a) DESC)", "DROP INDEX i"),
]:
    subprocess.run(["sqlite3", "sound.db", made], check=True)
    before = pathlib.Path("sound.db").read_bytes()
    holds(made, [run("sound.db", *words) for words in (["insert", "c", '{"_id":1}'], ["count", "c"])], [refusal("NoDatabase")] * 2)
    holds("it is as it was", (pathlib.Path("sound.db").read_bytes() == before, by_sqlite("sound.db", "PRAGMA integrity_check")), (True, [("ok",)]))
    subprocess.run(["sqlite3", "sound.db", helps], check=True, stdout=subprocess.DEVNULL)
    holds(helps, run("sound.db", "insert", "c", '{"_id":1}'), (0, b"1\n", ""))
    for path in SHOP.glob("sound.db*"):
        path.unlink()

# ---- A log or a journal that is no plain file with one name is refused before it is opened: a pipe has no end, and no beginning either.
def with_second_name(path):
    pathlib.Path("named").write_bytes(pathlib.Path("log").read_bytes())
    os.link("named", path)


shutil.copy("shop.db", "beside.db")
shop = Session("beside.db")
shop("insert", "c", document(300))
shop.process.kill()
shop.process.wait()
shutil.move("beside.db-wal", "log")
KINDS = {"a pipe": os.mkfifo, "a link to a device": lambda path: os.symlink("/dev/zero", path), "a link to a log": lambda path: os.symlink("log", path),
         "a link to nothing": lambda path: os.symlink("nowhere", path), "a folder": os.mkdir, "a log with a second name": with_second_name}
for beside, (kind, put) in itertools.product(["beside.db-wal", "beside.db-journal"], KINDS.items()):
    put(beside)
    before = files()
    for words in READS + CHANGES:
        refused_at_once(f"{words[0]} where {beside} is {kind}", lambda: run("beside.db", *words, preexec_fn=lambda: limit_memory(1 << 30)), "NotPlain")
    stay(kind, before)
    os.rmdir(beside) if kind == "a folder" else os.remove(beside)
    pathlib.Path("named").unlink(missing_ok=True)
holds("with no log", run("beside.db", "count", "c"), (0, b"300\n", ""))
shutil.move("log", "beside.db-wal")
holds("with its log", run("beside.db", "count", "c"), (0, b"301\n", ""))

# ---- A back-up has the mode of the file, and is there when it is whole.
for mode in 0o600, 0o640, 0o644, 0o444:
    os.chmod("beside.db", mode)
    old = os.umask(0o022 if mode < 0o644 else 0o077)
    holds(f"a back-up of a file of mode {mode:o}", run("beside.db", "backup", "mode.db"), (0, b"", ""))
    os.umask(old)
    holds("has its mode", f"{os.stat('mode.db').st_mode & 0o7777:o}", f"{mode:o}")
    os.remove("mode.db")
os.chmod("beside.db", 0o644)
large = b"".join(bson.encode({"_id": number, "text": "x" * 4000000}) for number in range(10))
holds("a large store", run("large.db", "import", "c", given=large), (0, b"10\n", ""))
before = set(os.listdir())
for turn in range(8):
    copying = subprocess.Popen([PROGRAM, "large.db", "backup", "large copy.db"])
    while "large copy.db-copying" not in os.listdir() and copying.poll() is None:
        time.sleep(0.0005)
    time.sleep(turn * 0.002)
    copying.kill()
    made = set(os.listdir()) - before
    holds(f"killed, {copying.wait()}: a part under the name of the copy", "large copy.db" in made and run("large copy.db", "export", "c") != (0, large, ""), False)
    if turn < 7:
        pathlib.Path("large copy.db").unlink(missing_ok=True)
pathlib.Path("large copy.db").unlink(missing_ok=True)
pathlib.Path("large copy.db-copying").write_bytes(b"left over")
holds("the next back-up", run("large.db", "backup", "large copy.db"), (0, b"", ""))
holds("is whole", run("large copy.db", "export", "c") == (0, large, ""), True)
holds("and alone", set(os.listdir()) - before, {"large copy.db"})
# One that was killed when it had both names.
os.link("large copy.db", "large copy.db-copying")
holds("with a second name", run("large copy.db", "count", "c"), refusal("NotPlain"))
holds("the next back-up", run("large.db", "backup", "large copy.db"), refusal("Exists"))
holds("has taken that away", run("large copy.db", "count", "c"), (0, b"10\n", ""))
# While a process is at it, another one keeps away from its part.
os.remove("large copy.db")
with open("large copy.db-copying", "wb") as part:
    fcntl.flock(part, fcntl.LOCK_EX)
    holds("a second back-up", run("large.db", "backup", "large copy.db"), refusal("Busy"))
os.remove("large copy.db-copying")
backups = [subprocess.Popen([PROGRAM, "large.db", "backup", "large copy.db"], stderr=subprocess.PIPE) for _ in range(4)]
told = [backup.communicate()[1] for backup in backups]
holds("four at once", sorted(told)[0], b"")
holds("the others", {one for one in told if one} <= {b"refused: Busy\n", b"refused: Exists\n"}, True)
holds("one that is whole", run("large copy.db", "export", "c") == (0, large, ""), True)
holds("and alone", set(os.listdir()) - before, {"large copy.db"})
os.mkdir("b.db-copying")
holds("where its part would be is a folder", run("shop.db", "backup", "b.db"), refusal("Exists"))
os.rmdir("b.db-copying")

# ---- Back-ups: a name that is there, or that SQLite has another use for.
for path, told in [("text", "Exists"), ("shop.db", "Exists"), ("dangling.db", "Exists"), (".", "Exists"), ("none/b.db", "NoFolder"), ("text/b.db", "NoFolder"),
                   ("b.db-wal", "NoName"), ("b.db-journal", "NoName"), ("b.db-shm", "NoName"), (":memory:", "NoName"), ("file:b.db", "NoName")]:
    before = files()
    holds(f"backup {path}", run("shop.db", "backup", path), refusal(told))
    stay(f"backup {path}", before)
for beside in "b.db-wal", "b.db-journal":
    os.symlink("nowhere", beside)
    holds(f"where {beside} is", run("shop.db", "backup", "b.db"), refusal("Exists"))
    os.remove(beside)
for path in SHOP.iterdir():
    if path.name != "shop.db":
        path.unlink()


# ---- A second line at a terminal, and only there.
def told_at_terminal(*words):
    ours, theirs = pty.openpty()
    done = subprocess.run([PROGRAM, *words], stdin=subprocess.DEVNULL, stdout=subprocess.DEVNULL, stderr=theirs)
    os.close(theirs)
    told = b""
    try:
        while piece := os.read(ours, 4096):
            told += piece
    except OSError:
        pass
    os.close(ours)
    return done.returncode, told.decode().replace("\r\n", "\n")


ADVICE = "fallowtime: an ID is 42 for the number"
holds("at a terminal", told_at_terminal("none.db", "count", "c"), (1, "refused: NoFile\nthe file: it isn't there\n"))
status, told = told_at_terminal("shop.db", "get", "c", "-5")
holds("at a terminal", (status, told.split("\n")[0], told.split("\n")[1][:len(ADVICE)]), (1, "refused: NotFound _id -5", ADVICE))

# ---- Beside a process that has the file: it is read as it is, and no change gets in.
shop = Session("shop.db")
holds("a change that a session does", [shop("insert", "c", document(number)) for number in range(300, 340)],
      [{"_id": {"$numberInt": str(number)}} for number in range(300, 340)])
before = files()
holds("reads beside a session", answers("shop.db") == answers_of(range(340)), True)
stay("reads beside a session", before)
for words in CHANGES:
    refused_at_once(f"{words[0]} beside a session", lambda: run("shop.db", *words, "--wait", "0"), "Busy")
for seconds, words in ("1", ["--wait", "1"]), ("5", []):
    began = time.time()
    holds(f"remove, waiting {seconds} seconds", run("shop.db", "remove", "c", "0", *words), refusal("Busy"))
    holds("it did wait", float(seconds) - 0.2 < time.time() - began < float(seconds) + LONG, True)
stay("changes that are refused", before)
waiting = subprocess.Popen([PROGRAM, "shop.db", "insert", "c", json.dumps(document(340)), "--wait", "60"], stdout=subprocess.PIPE, stderr=subprocess.PIPE)
time.sleep(0.5)
holds("one that waits", waiting.poll(), None)
holds("the session ends", shop.close(), 0)
holds("one that waited", (*waiting.communicate(), waiting.returncode), (b"340\n", b"", 0))
inserts = [[PROGRAM, "shop.db", "insert", "c", json.dumps(document(number)), "--wait", "60"] for number in range(341, 361)]
changes = [subprocess.Popen(words, stdout=subprocess.DEVNULL) for words in inserts]
holds("20 changes at once", [change.wait() for change in changes], [0] * 20)
holds("each is in", run("shop.db", "count", "c"), (0, b"361\n", ""))
shop = Session("shop.db")
shop("remove", "c", 350)
shop.process.kill()
shop.process.wait()
before = files()
holds("a log that was left", sorted(before), ["shop.db", "shop.db-wal"])
holds("is read", run("shop.db", "count", "c"), (0, b"360\n", ""))
stay("a log that was left", before)
holds("and played back by a change", run("shop.db", "put", "c", json.dumps(document(350))), (0, b"", ""))
holds("by SQLite itself", by_sqlite("shop.db", "SELECT count(*) FROM documents"), [(361,)])

# A back-up that is put back, as FILES says, where SQLite was killed in a transaction of a file with a rollback journal.
holds("a back-up", run("shop.db", "backup", "restored.db"), (0, b"", ""))
by_sqlite("restored.db", "PRAGMA journal_mode=delete")
killed = """import os, sqlite3, sys
connection = sqlite3.connect("restored.db", isolation_level=None)
connection.execute("PRAGMA cache_size=5")
connection.execute("BEGIN")
connection.execute("DELETE FROM documents WHERE place % 2 = 0")
os.kill(os.getpid(), 9)"""
subprocess.run(["/usr/bin/python3", "-c", killed])
holds("a journal that was left", os.path.getsize("restored.db-journal") > 0, True)
for words in READS[:-1] + CHANGES:
    holds(f"{words[0]} beside it", run("restored.db", *words, "--wait", "0"), refusal("Journal"))
holds("a back-up of what was there before", run("shop.db", "backup", "before.db"), (0, b"", ""))
subprocess.run("rm -f restored.db-wal restored.db-journal restored.db-shm && cp before.db restored.db", shell=True, check=True)
holds("put back", run("restored.db", "export", "c") == run("shop.db", "export", "c"), True)
holds("and for SQLite", by_sqlite("restored.db", "PRAGMA integrity_check", "SELECT count(*) FROM documents"), [(361,)])
holds("what cp has behind a command that changes", (run("shop.db", "import", "c"), shutil.copy("shop.db", "copied.db"), run("copied.db", "count", "c"))[2], (0, b"361\n", ""))
for name in "restored.db", "before.db", "copied.db":
    for path in SHOP.glob(f"{name}*"):
        path.unlink()

# SQLite itself in the middle of a change.
connection = sqlite3.connect("shop.db", isolation_level=None)
connection.execute("BEGIN EXCLUSIVE")
connection.execute("DELETE FROM documents")
holds("beside a change of SQLite's", run("shop.db", "count", "c"), (0, b"361\n", ""))
holds("a change beside it", run("shop.db", "remove", "c", "0", "--wait", "0"), refusal("Busy"))
connection.execute("ROLLBACK")
connection.close()

# A reader that can't go on has nothing locked.
blocked = subprocess.Popen([PROGRAM, "shop.db", "export", "c"], stdout=subprocess.PIPE)
first = blocked.stdout.read(1)
holds("a change beside a reader", run("shop.db", "set", "c", "0", "k", "1", "--wait", "0"), (0, b"", ""))
holds("the reader has what was there", first + blocked.communicate()[0][:19] == bson.encode(document(0))[:20], True)
holds("a change back", run("shop.db", "unset", "c", "0", "k"), (0, b"true\n", ""))

# ---- Files that may only be read, for a user who isn't root.
if os.getuid() == 0:
    NOBODY = {"user": 65534, "group": 65534, "extra_groups": []}
    os.chmod("shop.db", 0o444)
    SHOP.chmod(0o555)
    before = files()
    wanted = [(0, out, "") for out in (b'{"_id":0,"name":"n0","text":""}\n', b"361\n", b"c\n")]
    holds("a file of mode 444 in a folder of mode 555", [run("shop.db", *words, **NOBODY) for words in (READS[0], READS[2], READS[4])], wanted)
    holds("its back-up elsewhere", (os.chmod(FOLDER, 0o777), run("shop.db", "backup", str(FOLDER / "copy.db"), **NOBODY))[1], (0, b"", ""))
    holds("has the same", run(str(FOLDER / "copy.db"), "export", "c", **NOBODY) == run("shop.db", "export", "c"), True)
    os.chmod(FOLDER, 0o755)
    for words in CHANGES + READS[-1:]:
        holds(f"{words[0]} is denied", run("shop.db", *words, **NOBODY), refusal("Denied"))
        holds(f"{words[0]} over no file", run("none.db", *words, **NOBODY), refusal("Denied" if words[0] in MAKERS else "NoFile"))
    stay("what may only be read", before)
    SHOP.chmod(0o777)
    os.chmod("shop.db", 0o000)
    for words in READS[:-1] + CHANGES:
        holds(f"{words[0]} of a file that may not be read", run("shop.db", *words, **NOBODY), refusal("Denied"))
    os.chmod("shop.db", 0o644)
    SHOP.chmod(0o755)
    holds("what root has", run("shop.db", "count", "c"), (0, b"361\n", ""))
else:
    print("files that may only be read weren't tried: that takes root")

exported = run("shop.db", "export", "c")

# ---- Outputs that take nothing, or that are closed, and inputs that can't be read.
WRITER, READER = (1, "refused: Writer\n"), (1, "refused: Reader\n")
for words in [*READS[:-1], ["find", "c", "--bson"], ["get", "c", "0", "--canonical"], ["unset", "c", "0", "k"], ["insert", "c", "{}"], ["import", "c"]]:
    with open("/dev/full", "wb") as full:
        holds(f"/dev/full: {words[0]}", ended("shop.db", *words, stdout=full), WRITER)
    holds(f"no output: {words[0]}", ended("shop.db", *words, preexec_fn=lambda: os.close(1)), WRITER)
    ours, theirs = os.pipe()
    os.close(ours)
    holds(f"nobody reads: {words[0]}", ended("shop.db", *words, stdout=theirs), (141, ""))
    os.close(theirs)
holds("three inserts that were done", run("shop.db", "count", "c"), (0, b"364\n", ""))
for line in run("shop.db", "find", "c", '{"_id":{"$type":"objectId"}}')[1].splitlines():
    holds("remove of one", run("shop.db", "remove", "c", json.dumps(json.loads(line)["_id"])), (0, b"", ""))
with open("/dev/full", "wb") as full:
    holds("/dev/full: nothing to print", ended("shop.db", "set", "c", "0", "name", '"n0"', stdout=full), (0, ""))
    holds("/dev/full: another refusal", ended("shop.db", "remove", "c", "1000", stdout=full), (1, "refused: NotFound _id 1000\n"))
    done = subprocess.run([PROGRAM, "shop.db", "get", "c", "-5"], stdout=subprocess.PIPE, stderr=full)
    holds("/dev/full as standard error", (done.returncode, done.stdout), (1, b""))
# What is printed at once, as it is long, doesn't get into a file that has the number of a closed stream.
LONG_ID = "y" * 100000
for closed in [0], [1], [2], [0, 1, 2]:
    streams = {name: None if number in closed else subprocess.DEVNULL for number, name in enumerate(["stdin", "stdout", "stderr"])}
    words = [PROGRAM, "shop.db", "insert", "wide", json.dumps({"_id": LONG_ID})]
    done = subprocess.run(words, preexec_fn=lambda: [os.close(number) for number in closed], **streams)
    holds(f"a long _id with {closed} closed", done.returncode, int(1 in closed))
    holds("the file is whole", by_sqlite("shop.db", "PRAGMA integrity_check"), [("ok",)])
    holds("it is in", run("shop.db", "remove", "wide", LONG_ID), (0, b"", ""))
folder = os.open("/", os.O_RDONLY)
for options in [], ["--json"]:
    holds(f"an input that fails {options}", ended("shop.db", "import", "c", *options, stdin=folder), READER)
    holds(f"no input {options}", ended("shop.db", "import", "c", *options, stdin=None, preexec_fn=lambda: os.close(0)), READER)
os.close(folder)
holds("what is there", run("shop.db", "export", "c") == exported, True)


# ---- A disk that is full.
def limit_files(most):
    signal.signal(signal.SIGXFSZ, signal.SIG_IGN)
    resource.setrlimit(resource.RLIMIT_FSIZE, (most, most))


large = b"".join(bson.encode({"_id": 10000 + i, "text": "x" * 1000}) for i in range(3000))
holds("a file that may not grow", run("shop.db", "import", "c", given=large, preexec_fn=lambda: limit_files(1 << 18)), refusal("Database"))
holds("nothing of it is in", run("shop.db", "export", "c") == exported, True)
holds("it goes in", run("shop.db", "import", "c", given=large), (0, b"3000\n", ""))
holds("a new file that may not grow", run("new.db", "insert", "c", "{}", preexec_fn=lambda: limit_files(1 << 16)), refusal("Disk"))
holds("it has nothing", run("new.db", "count", "c"), (0, b"0\n", ""))
holds("and can be used", run("new.db", "insert", "c", '{"_id":1}'), (0, b"1\n", ""))
holds("a back-up that may not grow", run("shop.db", "backup", "b.db", preexec_fn=lambda: limit_files(1 << 20)), refusal("Disk"))
holds("is not there", os.path.exists("b.db"), False)


# ---- Little memory: each command is done, or refused as out of memory, and never ended by a signal.
QUERY = '{"$nor":[' * 60 + "{}" + "]}" * 60
NESTED = '{"_id":-2,"v":' + "[" * 98 + "]" * 98 + "}"
lines = b"".join(b'{"text":"%s"}\n' % (b"y" * 1000) for _ in range(20000))
for words, given in [(["count", "c"], b""), (["count", "c", QUERY], b""), (["find", "c"], b""), (["export", "c"], b""), (["put", "c", NESTED], b""),
                     (["get", "c", "-2"], b""), (["backup", "b.db"], b""), (["import", "more", "--json"], lines)]:
    file = "more.db" if given else "shop.db"
    wanted = run(file, *words, given=given)
    holds(f"{words[0]} with all memory", (wanted[0], wanted[2]), (0, ""))
    found = set()
    for megabytes in [*range(400, 40, -40), *range(40, 2, -1)]:
        for made in "b.db", "more.db", "more.db-wal":
            pathlib.Path(made).unlink(missing_ok=True)
        done = run(file, *words, given=given, preexec_fn=lambda: limit_memory(megabytes << 20))
        if done[0] == 127:
            break  # with less the system can't load the program
        found.add(done if done[0] else done == wanted)
    holds(f"{words[0]} with {megabytes} to 400 MB", found, {True, refusal("Memory")})

# ---- Many readers beside a session of inserts: each answer is a state between two of them.
holds("a file for the race", run("race.db", "insert", "c", json.dumps(document(0))), (0, b"0\n", ""))
shop = Session("race.db")
acknowledged, asked, reads, wrong, ends = 1, 1, 0, [], threading.Event()


def counter(pieces):
    """What says how many documents an answer has, of which there is one for each of these pieces; None if it is no state. It
    compares bytes, since 20 threads that read documents would keep the session's own from its turn."""
    whole = b"".join(pieces)
    numbers = {end: number for number, end in enumerate(itertools.accumulate(map(len, pieces), initial=0))}
    return lambda out: numbers.get(len(out)) if whole.startswith(out) else None


EVERY = [document(number) for number in range(INSERTS + 1)]
count_bodies = counter(list(map(bson.encode, EVERY)))
count_lines = counter([line_of(each) for each in EVERY])
COUNTS = [(["export", "c"], count_bodies), (["count", "c"], int), (["find", "c"], count_lines), (["count", "c", '{"_id":{"$ne":-1}}'], int)]
# How many times as long as a read took its reader waits before the next one. So some seven of the 20 read at a time, and the
# session, which has to wait for its turn on the processors as often as it answers, isn't kept from it.
REST = 2


def read(number):
    global reads
    while not ends.is_set():
        words, count = COUNTS[(number + reads) % len(COUNTS)]
        least, at = acknowledged, time.time()
        status, out, told = run("race.db", *words)
        most, took = asked, time.time() - at
        if (status, told) != (0, "") or not least <= (count(out) or 0) <= most:
            wrong.append((words, least, most, status, out[:100], told))
        reads += 1
        ends.wait(REST * took)


readers = [threading.Thread(target=read, args=(number,)) for number in range(20)]
for reader in readers:
    reader.start()
for number in range(1, INSERTS + 1):
    asked = number + 1
    if "_id" not in shop("insert", "c", document(number)):
        wrong.append(f"insert of {number}")
    acknowledged = number + 1
ends.set()
for reader in readers:
    reader.join()
holds("reads that are no state between two inserts", wrong[:3], [])
print(f"{reads} reads beside {INSERTS} inserts")
holds("the session ends", shop.close(), 0)
holds("all are in", run("race.db", "export", "c") == (0, stream(range(INSERTS + 1)), ""), True)
print(f"{steps} steps, all as they should be")
