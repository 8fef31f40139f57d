#!/usr/bin/python3
"""Holds what fallowtime answers from the pages that it needs, and what it changes in them, against what it answers from the whole file and
changes in it, over files of many sorts.

    tests/pages.py PROGRAM [FILES [FIRST]]

PROGRAM is fallowtime, under whatever name. FILES is how many are made, 14 if not given (50 in a long run), of each kind at least one; FIRST is the number
of the first, 0 if not given: a file and its questions follow from its number. Each question is asked twice. Beside a log of more than 32 MiB the program reads the
whole file and opens it as a database, so a copy of the files has zeros behind its log, which no reader takes for a part of it. Both
answers have to be the same, byte for byte; only of a file with a damaged byte may pages answer where the whole file is refused. Nothing
may be written. Then the file and a copy are changed, document by document: the file by commands, which need few pages, and the copy by
sessions of one line each, which open it. Each change has to be answered alike, and both have to have the same rows, places and bytes
after each; at the end sqlite3 finds nothing wrong with the file, and neither does `check`. Ends with status 1 at the first that isn't as it
should be. Wants sqlite3, Python's bson and strace.
"""
import atexit
import collections
import json
import os
import pathlib
import random
import re
import shutil
import signal
import sqlite3
import subprocess
import sys
import tempfile

import amounts

FOLDER = pathlib.Path(tempfile.mkdtemp(prefix="pages-"))
atexit.register(shutil.rmtree, FOLDER, ignore_errors=True)
# The name under which the program is started says which one it is.
PROGRAM = str(FOLDER / "fallowtime")
shutil.copy(sys.argv[1], PROGRAM)
FILES = int(sys.argv[2]) if len(sys.argv) > 2 else amounts.amount(14, 50)
FIRST = int(sys.argv[3]) if len(sys.argv) > 3 else amounts.seed(0)
os.chdir(FOLDER)
# The longest that a call may take here.
LONG = 600
# Behind so many bytes of a log the whole file is read.
LONG_LOG = (1 << 25) + 1
TABLE = ("CREATE TABLE documents (place INTEGER PRIMARY KEY, coll TEXT NOT NULL, idkey BLOB NOT NULL, body BLOB NOT NULL, "
         "UNIQUE (coll, idkey)) STRICT")
SIZES = [512, 1024, 2048, 4096, 4096, 8192, 16384, 32768, 65536]
COLLECTIONS = ["a", "b", "orders", "zz", "é", "A" * 120]
KINDS = ["plain", "deleted", "vacuum", "log", "killed", "older", "other", "trigger", "leaves", "damage", "damage", "journal"]
# The kinds of files whose pages alone don't tell, whatever else they have.
SLOW = {"other", "trigger", "leaves", "journal"}
IDS = ["0", "1", "7", "59", "399", "100000", '"id3"', '{"a":5}', "0.0", "-0.0", "7.5", '{"a":-0.0}',
       '{"$numberLong":"7"}', '{"$oid":"%024x"}' % (3 * 7919)]
CHANGES = ["insert", "insert", "put", "put", "replace", "set", "unset", "remove"]
FILTERS = [[], ['{"s":"a"}'], ['{"n":{"$gte":3,"$lt":9}}'], ['{"_id":7}'], ['{"t":{"$exists":false}}'], ['{"n":{"$type":"int"}}']]


def run(*words, given=None):
    done = subprocess.run([PROGRAM, *words], input=given, capture_output=True, timeout=LONG)
    return done.returncode, done.stdout, done.stderr


def documents(rng, count, large):
    lines = []
    for i in range(count):
        room = rng.choice([0, 3, 40, 300, 1000] + ([5000, 30000, 120000] if large else []))
        own = rng.choice([f"id{i}", {"$oid": "%024x" % (i * 7919)}, {"a": i}, i + 0.5]) if rng.random() < 0.3 else i
        lines.append(json.dumps({"_id": own, "s": rng.choice("abc"), "n": i, "t": "x" * rng.randrange(room + 1)}))
    return "\n".join(lines).encode()


def by_sqlite(file, *statements):
    connection = sqlite3.connect(file)
    for statement in statements:
        connection.execute(statement).fetchall()
    connection.commit()
    connection.close()


def parts(file):
    return [file + end for end in ("", "-wal", "-shm", "-journal") if os.path.exists(file + end)]


def leave_log(file, statement):
    """A change that is in the log alone, as a process leaves it that dies."""
    connection = sqlite3.connect(file)
    connection.execute("PRAGMA journal_mode=wal").fetchall()
    connection.execute("PRAGMA wal_autocheckpoint=0").fetchall()
    connection.execute(statement)
    connection.commit()
    for end in "", "-wal":
        shutil.copy(file + end, "left" + end)
    connection.close()
    for part in parts(file):
        os.remove(part)
    for end in "", "-wal":
        os.replace("left" + end, file + end)


def kill_session(rng, file, names):
    session = subprocess.Popen([PROGRAM, file], stdin=subprocess.PIPE, stdout=subprocess.PIPE)
    for i in range(rng.randrange(1, 60)):
        session.stdin.write(json.dumps(["put", rng.choice(names), {"_id": rng.randrange(80), "n": i}]).encode() + b"\n")
        session.stdin.flush()
        session.stdout.readline()
    session.send_signal(signal.SIGKILL)
    session.wait()


def leave_older_key(file, name):
    """A document whose `_id` is a negative zero, under the key that a store gave it before the two zeros meant the same."""
    run(file, "put", name, '{"_id":-0.0}')
    by_sqlite(file, "UPDATE documents SET idkey = X'12000000015F696400000000000000008000' "
                    "WHERE idkey = X'12000000015F696400000000000000000000'")


def make(number):
    """A file, what kind it is of, the size of its pages and its collections."""
    rng = random.Random(number)
    file, kind, size = f"f{number}.db", KINDS[number % len(KINDS)], rng.choice(SIZES)
    more = [f"PRAGMA page_size={size}"]
    # A session doesn't open the two that aren't plain.
    plain = rng.random() if kind != "killed" else 1
    if plain < 0.08:
        more.append("PRAGMA auto_vacuum=1")
    elif plain < 0.16:
        more.append("PRAGMA encoding='UTF-16'")
    by_sqlite(file, *more, TABLE)
    names = rng.sample(COLLECTIONS, rng.randrange(1, 4))
    for name in names:
        run(file, "import", name, "--json", given=documents(rng, rng.choice([0, 1, 5, 60, 300]), rng.random() < 0.4))
    some = f"DELETE FROM documents WHERE place % {rng.randrange(2, 5)} = 0"
    if kind in ("deleted", "vacuum"):
        by_sqlite(file, some)
    if kind == "vacuum":
        by_sqlite(file, "VACUUM")
    if kind == "log":
        leave_log(file, some)
    if kind == "killed":
        kill_session(rng, file, names)
    if kind == "older":
        leave_older_key(file, names[0])
    if kind == "other":
        by_sqlite(file, "CREATE TABLE more (a, b)", "INSERT INTO more VALUES (1, 2)")
    if kind == "trigger":
        by_sqlite(file, "CREATE TRIGGER t AFTER INSERT ON documents BEGIN SELECT 1; END")
    if kind == "leaves":
        by_sqlite(file, *[f"CREATE TABLE more{i} (a, b{'x' * 200})" for i in range(60)])
    if kind == "damage" and os.path.getsize(file) > 3 * size:
        with open(file, "r+b") as opened:
            opened.seek(rng.randrange(size * 2, os.path.getsize(file)))
            opened.write(bytes([rng.randrange(256)]))
    if kind == "journal":
        pathlib.Path(file + "-journal").write_bytes(b"\xd9\xd5\x05\xf9\x20\xa1\x63\xd7" + bytes(504))
    return rng, file, kind, size, names


def questions(rng, names):
    names = [*names, "none"]
    asked = [["get", rng.choice(names), own, *rng.choice([[], ["--bson"], ["--canonical"]])] for own in rng.sample(IDS, 5)]
    asked += [[word, rng.choice(names), *rng.choice(FILTERS)] for word in ("find", "count") for _ in range(3)]
    return [*asked, ["export", rng.choice(names)], ["export", rng.choice(["none", ""])], ["collections"], ["find", ""]]


def changes(rng, names):
    """Commands that change one document, each as words and as a line, all but the odd one in a collection that is there."""
    for _ in range(12):
        word, name, own = rng.choice(CHANGES), rng.choice([*names, *names, "none"]), rng.choice(IDS)
        text = json.dumps("x" * rng.choice([0, 1, 50, 2000, 70000]))
        document = rng.choice([f'{{"_id":{own},"t":{text}}}', f'{{"t":{text},"_id":{own},"n":5}}'])
        key = rng.choice(["s", "n", "t", "new", "_id"])
        rest = {"set": [own, key, text], "unset": [own, key], "remove": [own]}.get(word, [document])
        given = [part if part != key or word not in ("set", "unset") else json.dumps(key) for part in rest]
        yield [word, name, *rest], "[" + ",".join([json.dumps(word), json.dumps(name), *given]) + "]"


def rows_of(file):
    """The rows of a file but for their keys, which an opening may renew; the file stays as it is."""
    for part in parts(file):
        shutil.copy(part, "look" + part[len(file):])
    connection = sqlite3.connect("look")
    found = connection.execute("SELECT place, coll, body FROM documents ORDER BY place").fetchall()
    connection.close()
    for part in parts("look"):
        os.remove(part)
    return found


def refusal_in(done):
    """Why a command or a session of one line is refused, or nothing, and whether the file was opened."""
    if done[0]:
        return done[2].split(b" ")[1].strip().decode() if done[2].startswith(b"refused: ") else done[2]
    return json.loads(done[1]).get("error", "") if done[1].startswith(b'{"error"') else ""


def hold_changes(told, rng, file, kind, names, found):
    copy = f"copy-{file}"
    for part in parts(file):
        shutil.copy(part, "copy-" + part)
    for words, line in changes(rng, names):
        by_words, by_line = run(file, *words), run(copy, given=line.encode() + b"\n")
        if by_line[0] and kind == "damage":
            found["damaged files that sessions refuse"] += 1
            break
        if refusal_in(by_words) != refusal_in(by_line):
            fail(told, f"{words}: {by_words!r}"[:700], f"in place of {by_line!r}"[:700])
        if rows_of(file) != rows_of(copy):
            fail(told, f"{words}: other rows than by a session"[:700])
        found["refused changes" if refusal_in(by_words) else "changes"] += 1
    else:
        if run(file, "check") != run(copy, "check"):
            fail(told, "check differs after the changes")
        connection = sqlite3.connect(file)
        if kind != "damage" and connection.execute("PRAGMA integrity_check").fetchall() != [("ok",)]:
            fail(told, "sqlite3 finds faults after the changes")
        connection.close()
    for part in parts(copy):
        os.remove(part)


def read_whole(file, words):
    """Whether the program reads the whole file for a command."""
    subprocess.run(["strace", "-o", "trace", "-e", "trace=openat,read", PROGRAM, file, *words], capture_output=True, timeout=LONG)
    opened, most = {}, 0
    for line in pathlib.Path("trace").read_text(encoding="utf-8").splitlines():
        if match := re.match(r'openat\(\w+, "([^"]*)".* = (\d+)$', line):
            opened[match[2]] = [match[1], 0]
        elif (match := re.match(r"read\((\d+), .* = (\d+)$", line)) and match[1] in opened:
            opened[match[1]][1] += int(match[2])
            if opened[match[1]][0].endswith(file):
                most = max(most, opened[match[1]][1])
    return most >= os.path.getsize(file)


def fail(*told):
    print(*told)
    sys.exit(1)


def hold(number, found):
    rng, file, kind, size, names = make(number)
    copy = f"whole-{file}"
    for part in parts(file):
        shutil.copy(part, "whole-" + part)
    with open(copy + "-wal", "ab") as log:
        log.truncate(LONG_LOG)
    before = {part: pathlib.Path(part).read_bytes() for part in parts(file)}
    asked = questions(rng, names)
    for words in asked[:3] if kind == "journal" else asked:
        words = words + (["--wait", "0"] if kind == "journal" else [])
        by_pages, by_whole = run(file, *words), run(copy, *words)
        found["questions"] += 1
        if by_pages != by_whole:
            if kind != "damage" or by_whole[0] != 1:
                fail(f"file {number}, {kind}, pages of {size}: {words}: {by_pages!r}"[:700], f"in place of {by_whole!r}"[:700])
            found["answered from damaged files"] += 1
    if before != {part: pathlib.Path(part).read_bytes() for part in parts(file)}:
        fail(f"file {number}, {kind}, pages of {size}: the files changed")
    whole = kind == "journal" or read_whole(file, ["count", names[0]])
    if whole < (kind in SLOW):
        fail(f"file {number}, {kind}, pages of {size}: pages answer")
    found["answered by pages" if not whole else "read whole"] += 1
    if kind != "journal":
        hold_changes(f"file {number}, {kind}, pages of {size}:", rng, file, kind, names, found)
    for part in parts(file) + parts(copy):
        os.remove(part)


told = collections.Counter()
for one in range(FIRST, FIRST + FILES):
    hold(one, told)
if FILES >= 50 and told["answered by pages"] < FILES // 4:
    fail("pages answer too seldom", dict(told))
print(dict(told))
print("all as it should be")
