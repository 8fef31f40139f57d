#!/usr/bin/python3
"""Files that another process has, and files that can't be had: back-ups beside a session and after kills, waiting, and what is said
of a file at a terminal.

    tests/files.py PROGRAM [SECONDS]

PROGRAM is bson_store, under whatever name. SECONDS is for how long back-ups race a session that writes, 5 if not given. Prints one
line a step, and ends with status 1 at the first that isn't as it should be. Wants sqlite3.
"""
import atexit
import base64
import json
import os
import pathlib
import pty
import random
import resource
import shutil
import signal
import subprocess
import sys
import tempfile
import threading
import time

FOLDER = pathlib.Path(tempfile.mkdtemp(prefix="files-"))
atexit.register(shutil.rmtree, FOLDER, ignore_errors=True)
BIN = FOLDER / "bin"
SHOP = FOLDER / "shop"
BIN.mkdir()
SHOP.mkdir()
STORE, LINES = str(BIN / "bson_store"), str(BIN / "fallowtime")
# The names under which the program is started say which one it is.
shutil.copy(sys.argv[1], STORE)
os.symlink("bson_store", LINES)
SECONDS = float(sys.argv[2]) if len(sys.argv) > 2 else 5.0
os.chdir(SHOP)
FOLDER.chmod(0o755)
ALL = '{"and":[]}'
REFUSED = (1, b"", "refused: Database\n")
DONE = (0, b"", "")


def run(*words, given=b"", limited=None):
    done = subprocess.run([STORE, *words], input=given, capture_output=True, preexec_fn=limited)
    return done.returncode, done.stdout, done.stderr.decode()


def run_as_nobody(*words):
    return run(*words, limited=lambda: (os.setgroups([]), os.setgid(65534), os.setuid(65534)))


def told_at_terminal(*words, program=STORE):
    """What the program prints on standard error if that is a terminal."""
    ours, theirs = pty.openpty()
    done = subprocess.run([program, *words], stdin=subprocess.DEVNULL, stdout=subprocess.DEVNULL, stderr=theirs)
    os.close(theirs)
    told = b""
    try:
        while piece := os.read(ours, 4096):
            told += piece
    except OSError:
        pass
    os.close(ours)
    return done.returncode, told.decode().replace("\r\n", "\n")


def holds(step, found, wanted):
    if found != wanted:
        print(f"{step}: {found!r} in place of {wanted!r}"[:2000])
        sys.exit(1)
    print(f"{step}: {found!r}"[:150])


def document(number):
    return json.dumps({"_id": number, "name": f"n{number}", "text": "x" * random.randrange(1, 400)})


def bytes_beside(file):
    """The file, its log and its journal, byte for byte, with the times of their last change."""
    return {path.name: (path.read_bytes(), path.stat().st_mtime_ns) for path in SHOP.glob(file + "*")}


class Session:
    """fallowtime over a file, which no other process may change meanwhile."""

    def __init__(self, *words):
        self.process = subprocess.Popen([LINES, *words], stdin=subprocess.PIPE, stdout=subprocess.PIPE)

    def __call__(self, *request):
        self.process.stdin.write(json.dumps(request).encode() + b"\n")
        self.process.stdin.flush()
        return json.loads(self.process.stdout.readline())

    def insert(self, numbers):
        for number in numbers:
            answer = self("insert", "c", json.loads(document(number)))
            if answer != {"_id": {"$numberInt": str(number)}}:
                holds(f"insert of {number}", answer, "accepted")

    def export(self):
        return base64.b64decode(self("export", "c")["bytes"]["$binary"]["base64"])

    def kill(self):
        self.process.kill()
        self.process.wait()

    def close(self):
        self.process.stdin.close()
        return self.process.wait()


def holds_copy(step, copy, exported, number):
    """A back-up is one file, sqlite3 finds it whole, and its export is the one given."""
    holds(f"{step}: one file", sorted(path.name for path in SHOP.glob(copy + "*")), [copy])
    # sqlite3 leaves files beside what it reads.
    shutil.copy(copy, FOLDER / "read.db")
    query = "PRAGMA integrity_check; SELECT count(*) FROM documents"
    found = subprocess.run(["sqlite3", FOLDER / "read.db", query], capture_output=True, text=True)
    holds(f"{step}: sqlite3", found.stdout, f"ok\n{number}\n")
    holds(f"{step}: its export, as the session's", run(copy, "export", "c") == (0, exported, ""), True)


# ---- Beside a session.
shop = Session("shop.db")
number = 0
for goal in [8, 500, 3000]:
    shop.insert(range(number, goal))
    number = goal
    copy = f"copy{goal}.db"
    holds(f"a back-up after {goal} inserts", run("shop.db", "backup", copy), DONE)
    holds_copy(f"after {goal}", copy, shop.export(), goal)
    before = bytes_beside(copy)
    holds("a second one of this name", run("shop.db", "backup", copy), REFUSED)
    holds("the first stays", bytes_beside(copy) == before, True)
before = bytes_beside("shop.db")
holds("one more", run("shop.db", "backup", "more.db"), DONE)
holds("the file and its log stay, byte for byte", bytes_beside("shop.db") == before, True)
holds("a command beside it", run("shop.db", "count", "c", ALL), REFUSED)
holds("a second session beside it", subprocess.run([LINES, "shop.db", "--wait", "0"], stdin=subprocess.DEVNULL, capture_output=True).returncode, 1)

# ---- After a kill.
exported = shop.export()
shop.kill()
before = bytes_beside("shop.db")
holds("a back-up after a kill", run("shop.db", "backup", "killed.db"), DONE)
holds("the file and the log that was left stay", bytes_beside("shop.db") == before, True)
holds_copy("after a kill", "killed.db", exported, 3000)
holds("the file itself", run("shop.db", "export", "c") == (0, exported, ""), True)

# A back-up that is put back where a killed session left its log: that goes first.
shop = Session("shop.db")
for number in range(0, 3000, 2):
    shop("remove", "c", number)
shop.insert(range(5000, 5040))
shop.kill()
subprocess.run("rm -f shop.db-wal shop.db-shm && cp killed.db shop.db", shell=True, check=True)
holds("a back-up that is put back", run("shop.db", "export", "c") == (0, exported, ""), True)

def feed(pipe, lines):
    """Writes lines until whoever reads them is gone."""
    try:
        pipe.write(lines)
    except OSError:
        pass


# Sessions that are killed at any moment, each begun over what the one before left.
least = 3000
for turn in range(12):
    shop = Session("shop.db")
    shop("collections")
    sent = b"".join(json.dumps(["insert", "c", json.loads(document(10000 + 1000 * turn + i))]).encode() + b"\n" for i in range(900))
    threading.Thread(target=feed, args=(shop.process.stdin, sent), daemon=True).start()
    answered = sum(1 for _ in (shop.process.stdout.readline() for _ in range(random.randrange(1, 700))))
    shop.kill()
    status, out, told = run("shop.db", "backup", f"turn{turn}.db")
    holds(f"a back-up after kill {turn}", (status, out, told), DONE)
    found = int(run(f"turn{turn}.db", "count", "c", ALL)[1])
    holds(f"what was answered is in it ({least + answered} to {least + 900})", least + answered <= found <= least + 900, True)
    holds("and just what the file has", run("shop.db", "export", "c") == run(f"turn{turn}.db", "export", "c"), True)
    least = found

# ---- Beside a session that never rests: what was acknowledged before is in it, and no more than one that wasn't yet.
shop = Session("race.db")
shop.insert([0])  # so the file is there
acknowledged = 1
ends = time.time() + SECONDS


def write():
    global acknowledged
    while time.time() < ends:
        shop.insert([acknowledged])
        acknowledged += 1


writer = threading.Thread(target=write)
writer.start()
copies = 0
while writer.is_alive():
    least = acknowledged
    holds(f"back-up {copies} in the race", run("race.db", "backup", f"race{copies}.db"), DONE)
    most = acknowledged + 1
    found = int(run(f"race{copies}.db", "count", "c", ALL)[1] or b"0")
    holds(f"it has from {least} to {most}", least <= found <= most, True)
    os.remove(f"race{copies}.db")
    copies += 1
writer.join()
holds("the race's session ends", shop.close(), 0)
print(f"race: {acknowledged} inserts, {copies} back-ups beside them")

# ---- A back-up that is refused makes nothing.
before = sorted(os.listdir())
holds("of no file", run("none.db", "backup", "b.db"), REFUSED)
holds("of a folder", run(".", "backup", "b.db"), REFUSED)
pathlib.Path("text").write_text("no database\n" * 1000)
holds("of a text", run("text", "backup", "b.db"), REFUSED)
os.remove("text")
holds("into no folder", run("shop.db", "backup", "none/b.db"), REFUSED)
holds("over itself", run("shop.db", "backup", "shop.db"), REFUSED)
holds("nothing is made", sorted(os.listdir()), before)
for name in ["b.db-wal", "b.db-journal", "b.db"]:
    os.symlink("nowhere", name)
    holds(f"where {name} is", run("shop.db", "backup", "b.db"), REFUSED)
    holds(f"{name} stays", (os.path.islink(name), sorted(set(os.listdir()) - {name})), (True, before))
    os.remove(name)


def limit_files():
    signal.signal(signal.SIGXFSZ, signal.SIG_IGN)
    resource.setrlimit(resource.RLIMIT_FSIZE, (40 << 10, 40 << 10))


holds("on a disk that is full", run("shop.db", "backup", "b.db", limited=limit_files), REFUSED)
limit_memory = lambda: resource.setrlimit(resource.RLIMIT_AS, (24 << 20, 24 << 20))
pathlib.Path("large").write_bytes(pathlib.Path("shop.db").read_bytes() + bytes(64 << 20))
holds("out of memory", run("large", "backup", "b.db", limited=limit_memory), (1, b"", "refused: Memory\n"))
os.remove("large")
shutil.copy("killed.db", "bad.db")
subprocess.run(["sqlite3", "bad.db", "UPDATE documents SET body = x'0500000000' WHERE place = 7"], check=True)
holds("of a store with a bad row", run("bad.db", "backup", "b.db"), (1, b"", "refused: BadRow 7\n"))
os.remove("bad.db")
os.link("killed.db", "second.db")
holds("of a file with a second link", run("killed.db", "backup", "b.db"), REFUSED)
os.remove("second.db")
holds("still nothing is made", sorted(os.listdir()), before)
names = ["b.db-wal", "b.db-journal", "b.db-shm", "shop.db-journal", ":memory:", "file:b.db"]
holds("names of another use", [run("shop.db", "backup", name) for name in names], [REFUSED] * 6)
holds("and again nothing is made", sorted(os.listdir()), before)
holds("words that miss it", [run(*words)[::2] for words in (["shop.db", "backup"], ["shop.db", "backup", "b.db", "c"])], [(2, "words: usage\n")] * 2)

# ---- Waiting.
shop = Session("shop.db")
shop("collections")
began = time.time()
holds("a second of waiting", run("--wait", "1", "shop.db", "count", "c", ALL), REFUSED)
holds("it did wait", 0.9 < time.time() - began < 600, True)
holds("no waiting", run("--wait", "0", "shop.db", "count", "c", ALL), REFUSED)
holds("a back-up waits for nobody", run("--wait", "60", "shop.db", "backup", "w.db"), DONE)
waiting = subprocess.Popen([STORE, "--wait", "60", "shop.db", "insert", "c", document(-1)], stdout=subprocess.PIPE, stderr=subprocess.PIPE)
second = Session("shop.db", "--wait", "60")
time.sleep(0.5)
holds("they wait", (waiting.poll(), second.process.poll()), (None, None))
holds("the session ends", shop.close(), 0)
holds("a session that waited", list(second("count", "c")), ["count"])
holds("it ends", second.close(), 0)
holds("a command that waited", waiting.communicate(), (b"", b""))
holds("it is done", run("shop.db", "get", "c", "-1")[0], 0)
changes = [subprocess.Popen([STORE, "--wait", "60", "shop.db", "insert", "c", document(-10 - i)]) for i in range(10)]
holds("ten changes at once", [change.wait() for change in changes], [0] * 10)

# A word in front that begins with a hyphen is no file, whatever stands behind it.
before = sorted(os.listdir())
for words in ["--wait", "x", "shop.db", "count", "c", ALL], ["--wait", "get", "c", "1"], ["--wait", "1", "--wait", "count", "c", ALL], ["-", "collections"], \
        ["-x.db", "insert", "c", '{"_id":1}'], ["--wait", "backup", "waited.db"], ["--wait", "1", "-x.db", "backup", "waited.db"]:
    holds(f"no file: {words}", run(*words), (2, b"", "words: usage\n"))
holds("nothing is made", sorted(os.listdir()), before)
holds("a file of this name", run("./--wait", "insert", "c", '{"_id":1}'), DONE)
holds("waiting for it", run("--wait", "1", "./--wait", "count", "c", ALL), (0, b"1\n", ""))
holds("its back-up", run("./--wait", "backup", "waited.db"), DONE)
holds("a session over it", Session("./--wait")("count", "c"), {"count": 1})

# ---- At a terminal a second line says why, and only there.
shop = Session("shop.db")
shop("collections")
pathlib.Path("text").write_text("no database\n" * 1000)
pathlib.Path("hot.db-journal").write_bytes(b"\xd9")
os.link("copy8.db", "linked.db")
os.symlink("nowhere", "dangling.db")
for words, why in [
    (["shop.db", "count", "c", ALL], "another process has it; --wait SECONDS in front of the words waits for it"),
    (["text", "collections"], "it is no SQLite database or a damaged one, or another table of it isn't understood here"),
    (["none/a.db", "collections"], "its folder isn't there"),
    (["copy8.db/a.db", "collections"], "its folder isn't there"),
    (["hot.db", "collections"], "a rollback journal is beside it: open it with sqlite3 first, which plays that back"),
    (["copy8.db", "collections"], "it, or the log or journal beside it, is no plain file: a folder, a pipe, a link, or one with a second name"),
    (["dangling.db", "collections"], "it, or the log or journal beside it, is no plain file: a folder, a pipe, a link, or one with a second name"),
    ([".", "collections"], "it, or the log or journal beside it, is no plain file: a folder, a pipe, a link, or one with a second name"),
    ([":memory:", "collections"], "SQLite has another use for this name"),
    (["copy8.db", "backup", "b.db-journal"], "it, or the log or journal beside it, is no plain file: a folder, a pipe, a link, or one with a second name"),
    (["copy500.db", "backup", "b.db-journal"], "SQLite has another use for this name"),
    (["none.db", "backup", "b.db"], "it isn't there"),
    (["shop.db", "backup", "text"], "there is a file of this name, or a log or journal of one, which is left as it is"),
]:
    holds(f"told of {words}", told_at_terminal(*words), (1, f"refused: Database\nthe file: {why}\n"))
    holds("off a terminal", run(*words), REFUSED)
holds("told by a session", told_at_terminal("shop.db", "--wait", "0", program=LINES)[1].count("\n"), 2)
holds("another refusal at a terminal", told_at_terminal("copy500.db", "get", "c", "-7"), (1, "refused: NotFound\n"))
if os.getuid() == 0:
    SHOP.chmod(0o555)
    os.chmod("copy500.db", 0o444)
    holds("a file that may be read alone", run_as_nobody("copy500.db", "count", "c", ALL), REFUSED)
    os.chmod(FOLDER, 0o777)
    holds("its back-up", run_as_nobody("copy500.db", "backup", str(FOLDER / "copy.db")), DONE)
    holds("a back-up into a folder that can't be written", run_as_nobody("copy500.db", "backup", "b.db"), REFUSED)

# ---- Little memory: a filter of many levels has its stack, or is refused.
NOT = '{"not":' * 124 + ALL + "}" * 124
few = b"".join(b'{"_id":%d}\n' % number for number in range(3))
holds("a small file", run("few.db", "load", "c", given=few), (0, b"3\n", ""))
holds("a filter of many levels", run("few.db", "count", "c", NOT), (0, b"3\n", ""))
wanted = {(0, b"3\n", ""), (1, b"", "refused: Memory\n")}
found = set()
for kilobytes in range(16000, 3000, -200):
    limit = kilobytes << 10
    ended = run("few.db", "count", "c", NOT, limited=lambda: resource.setrlimit(resource.RLIMIT_AS, (limit, limit)))
    # With less the system can't load the program.
    if ended[0] == 127:
        break
    found.add(ended)
holds("with little memory", found, wanted)
print("all as it should be")
