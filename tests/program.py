#!/usr/bin/python3
"""Runs the program over a database file, and holds what it leaves and writes against other tools: sqlite3 of Debian reads the
file, and `bson` of Python (python3-pymongo) reads what `export` and `find` write and writes what `import` takes.

    tests/program.py PROGRAM

prints one line a step, and ends with status 1 at the first that isn't as it should be.
"""
import json
import pathlib
import resource
import shutil
import signal
import subprocess
import sys
import tempfile

try:
    import bson
except ImportError:
    sys.exit("program.py: needs sqlite3 and Python's bson, of Debian: apt-get install sqlite3 python3-bson")

ROOT = pathlib.Path(__file__).resolve().parent.parent
PROGRAM = sys.argv[1]
FILE = pathlib.Path(tempfile.mkdtemp()) / "test.db"


def run(*words, given=b""):
    done = subprocess.run([PROGRAM, str(FILE), *words], input=given, capture_output=True)
    return done.returncode, done.stdout, done.stderr.decode()


def run_limited(program, limited, words, given):
    """The same of a program whose process first calls `limited`."""
    done = subprocess.run([program, str(FILE), *words], input=given, capture_output=True, preexec_fn=limited)
    return done.returncode, done.stdout, done.stderr.decode()


def run_full(*words, given=b""):
    """The status and the error of the same with an output that takes nothing."""
    with open("/dev/full", "wb") as output:
        done = subprocess.run([PROGRAM, str(FILE), *words], input=given, stdout=output, stderr=subprocess.PIPE)
    return done.returncode, done.stderr.decode()


def run_within(limit, most, *words, given=b""):
    """The same of a process that may have so much of something. Where that is the size of a file, a write past it fails, as it does
    for the script bson_store, which ignores the signal."""
    def limited():
        signal.signal(signal.SIGXFSZ, signal.SIG_IGN)
        resource.setrlimit(limit, (most, most))

    return run_limited(PROGRAM, limited, words, given)


def run_script(most, *words, given=b""):
    """The same by the script, in a copy of the checkout that has this program, where files may have so many bytes and the signal ends a
    process that doesn't ignore it."""
    def limited():
        signal.signal(signal.SIGXFSZ, signal.SIG_DFL)
        resource.setrlimit(resource.RLIMIT_FSIZE, (most, most))

    with tempfile.TemporaryDirectory() as folder:
        built = pathlib.Path(folder) / "target" / "quick"
        built.mkdir(parents=True)
        shutil.copy(PROGRAM, built / "bson_store")
        script = shutil.copy(ROOT / "bson_store", folder)
        shutil.copytree(ROOT / "tools", pathlib.Path(folder) / "tools")
        return run_limited(script, limited, words, given)


def holds(step, found, wanted):
    if found != wanted:
        print(f"{step}: {found!r} in place of {wanted!r}")
        sys.exit(1)
    print(f"{step}: {found!r}"[:150])


def rows():
    query = "SELECT place, coll, hex(idkey), hex(body) FROM documents ORDER BY place"
    done = subprocess.run(["sqlite3", str(FILE), query], capture_output=True, text=True, check=True)
    return done.stdout.split()


def ids(stream):
    return [document["_id"] for document in bson.decode_all(stream)]


ONE = "0E000000105F6964000100000000"

# The worked run.
holds("insert", run("insert", "c", '{"_id":1}'), (0, b"", ""))
holds("insert again", run("insert", "c", '{"_id":1}'), (1, b"", "refused: DuplicateId\n"))
holds("get", run("get", "c", "1"), (0, b'{"_id":{"$numberInt":"1"}}\n', ""))
holds("count", run("count", "c", '{"and":[]}'), (0, b"1\n", ""))
holds("import of an empty document", run("import", "c", given=bytes([5, 0, 0, 0, 0])), (1, b"", "refused: NoId document 0\n"))
holds("rows by sqlite3", rows(), [f"1|c|{ONE}|{ONE}"])

# Words that miss the table, and texts that can't be read.
for line in [[], ["insert", "c"], ["get", "c", "1", "--pretty"], ["collections", "c"], ["nothing"], ["backup"], ["backup", "a", "b"]]:
    holds(f"words {line}", run(*line), (2, b"", "words: usage\n"))
holds("JSON", run("insert", "c", "{"), (2, b"", "words: JSON\n"))
holds("a numeral that no double comes near", run("insert", "c", '{"_id":1e400}'), (2, b"", "words: JSON\n"))
holds("id", run("get", "c", "-"), (2, b"", "words: id\n"))
holds("filter", run("find", "c", "{}"), (2, b"", "words: filter\n"))
holds("line", run("load", "c", given=b'{"_id":7}\n\n-\n'), (2, b"", "words: line 3\n"))
holds("rows stay", rows(), [f"1|c|{ONE}|{ONE}"])

# Python's bson writes what import takes, and reads what export and find write.
documents = [{"_id": i, "name": f"n{i}", "list": [i, {"x": True}], "big": 2 ** 40 + i} for i in range(2, 12)]
stream = b"".join(bson.encode(document) for document in documents)
holds("import", run("import", "d", given=stream), (0, b"10\n", ""))
status, out, told = run("export", "d")
holds("export read by Python", (status, bson.decode_all(out), told), (0, documents, ""))
holds("export gives the bytes back", out == stream, True)
status, out, told = run("find", "d", '{"or":[{"eq":[["name"],"n3"]},{"eq":[["list","0"],5]}]}')
holds("find read by Python", (status, ids(out), told), (0, [3, 5], ""))
holds("collections", run("collections"), (0, b"c\nd\n", ""))

# A dump has one canonical object a line, and comes back by load.
status, out, told = run("dump", "d")
lines = out.decode().splitlines()
holds("dump", (status, len(lines), told), (0, 10, ""))
holds("a line of it", json.loads(lines[0])["_id"], {"$numberInt": "2"})
holds("load", run("load", "e", given=out), (0, b"10\n", ""))
status, again, told = run("dump", "e")
holds("dump of what was loaded", again == out, True)

# Changes, with words that begin with a hyphen.
holds("insert of -2", run("insert", "-c", '{"_id":-2}'), (0, b"", ""))
holds("set", run("set", "-c", "-2", "-k", "-3"), (0, b"", ""))
holds("get of -2", run("get", "-c", "-2", "--relaxed"), (0, b'{"-k":-3,"_id":-2}\n', ""))
holds("unset", run("unset", "-c", "-2", "-k"), (0, b"true\n", ""))
holds("unset again", run("unset", "-c", "-2", "-k"), (0, b"false\n", ""))
holds("remove", run("remove", "-c", "-2"), (0, b"", ""))
holds("replace", run("replace", "c", '{"_id":1}'), (0, b"", ""))

# An output that takes nothing. A command that prints little meets that only as what was gathered goes out.
before = rows()
for words in [["get", "c", "1"], ["count", "c", '{"and":[]}'], ["export", "d"], ["dump", "d"], ["collections"]]:
    holds(f"no output: {words[0]}", run_full(*words), (1, "refused: Writer\n"))
holds("no output: another refusal", run_full("get", "c", "7"), (1, "refused: NotFound\n"))
holds("no output: nothing to print", run_full("insert", "f", '{"_id":1}'), (0, ""))
holds("no output: an import that is done", run_full("import", "f", given=bson.encode({"_id": 2})), (1, "refused: Writer\n"))
holds("rows and two more", len(rows()), len(before) + 2)
for place in "1", "2":
    holds(f"remove {place}", run("remove", "f", place), (0, b"", ""))

# A file that may not grow as far as an import would have it, and an input for which there is no memory.
before = rows()
large = b"".join(bson.encode({"_id": i, "text": "x" * 1000}) for i in range(1000))
refused = run_within(resource.RLIMIT_FSIZE, 40 << 10, "import", "f", given=large)
holds("a file that may not grow", refused, (1, b"", "refused: Database\n"))
holds("by the script", run_script(40 << 10, "import", "f", given=large), (1, b"", "refused: Database\n"))
holds("rows stay", rows(), before)
huge = b"".join(bson.encode({"_id": i, "text": "x" * 1000000}) for i in range(200))
refused = run_within(resource.RLIMIT_AS, 128 << 20, "import", "f", given=huge)
holds("memory that ends", refused, (1, b"", "refused: Memory\n"))
holds("rows still stay", rows() == before, True)

# Files from before the two zeros of a double meant the same: a key of then is replaced, and two ids that are one now are refused.
FILE = FILE.parent / "before.db"
ZERO, MINUS = "12000000015F6964000000000000000000" + "00", "12000000015F6964000000000000000080" + "00"
TABLE = """CREATE TABLE documents (place INTEGER PRIMARY KEY, coll TEXT NOT NULL, idkey BLOB NOT NULL, body BLOB NOT NULL,
    UNIQUE (coll, idkey)) STRICT"""


def put(place, key):
    statement = f"INSERT INTO documents VALUES ({place}, 'c', x'{key}', x'{key}')"
    subprocess.run(["sqlite3", str(FILE), statement], check=True)


subprocess.run(["sqlite3", str(FILE), TABLE], check=True)
put(1, MINUS)
holds("a key from before", run("collections"), (0, b"c\n", ""))
holds("it has the key of now", rows(), [f"1|c|{ZERO}|{MINUS}"])
holds("both zeros find it", run("get", "c", '{"$numberDouble":"0.0"}'), (0, b'{"_id":{"$numberDouble":"0.0"}}\n', ""))
put(2, MINUS)
holds("two ids that are one now", run("collections"), (1, b"", "refused: IdsCollide 1 2\n"))
holds("both rows stay", rows(), [f"1|c|{ZERO}|{MINUS}", f"2|c|{MINUS}|{MINUS}"])

# Tables that no store made, by what the documentation says of each.
FILE = FILE.parent / "made.db"
COLUMNS = "place INTEGER PRIMARY KEY, coll TEXT NOT NULL, idkey BLOB NOT NULL, body BLOB NOT NULL"
NOT_A_STORE, DATABASE = "refused: NotAStore\n", "refused: Database\n"
for step, statements, told in [
    ("a trigger", f"{TABLE}; CREATE TRIGGER t AFTER INSERT ON documents BEGIN SELECT 1; END", NOT_A_STORE),
    ("a partial index", f"{TABLE}; CREATE INDEX i ON documents (coll) WHERE place > 1", NOT_A_STORE),
    ("an index over an expression", f"{TABLE}; CREATE INDEX i ON documents (length(body))", NOT_A_STORE),
    ("a generated column", f"CREATE TABLE documents ({COLUMNS}, more TEXT AS (coll))", NOT_A_STORE),
    ("no rowid", f"CREATE TABLE documents ({COLUMNS}) WITHOUT ROWID", NOT_A_STORE),
    ("UTF-16", f"PRAGMA encoding = 'UTF-16'; {TABLE}", DATABASE),
    ("a virtual table", "CREATE VIRTUAL TABLE documents USING fts5(place, coll, idkey, body)", DATABASE),
]:
    subprocess.run(["sqlite3", str(FILE), statements], check=True)
    holds(step, run("collections"), (1, b"", told))
    FILE.unlink()
subprocess.run(["sqlite3", str(FILE), f"CREATE TABLE documents ({COLUMNS}, CHECK (length(coll) < 3))"], check=True)
holds("a rule", run("insert", "c", '{"_id":1}'), (0, b"", ""))
holds("a row that breaks it", run("insert", "ccc", '{"_id":1}'), (1, b"", DATABASE))
holds("the first row stays", rows(), [f"1|c|{ONE}|{ONE}"])

# A back-up is another file of the same; it is never written over.
holds("a back-up", run("backup", str(FILE) + "2"), (0, b"", ""))
holds("again", run("backup", str(FILE) + "2"), (1, b"", DATABASE))
FILE = FILE.parent / "made.db2"
holds("its row", rows(), [f"1|c|{ONE}|{ONE}"])

# A file that can't be opened.
FILE = FILE.parent / "none" / "test.db"
holds("no such folder", run("collections"), (1, b"", "refused: Database\n"))
print("all as it should be")
