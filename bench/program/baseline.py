"""The program's commands on one table, by Python's bson and sqlite3: baseline.py FILE import|export|find|get|dump|load [WORD WORD].

As baseline.c; documents are decoded to be tested, filtered and printed.
"""

import sqlite3
import sys

import bson
from bson import json_util
from bson.json_util import CANONICAL_JSON_OPTIONS

TABLE = (
    "CREATE TABLE IF NOT EXISTS documents (place INTEGER PRIMARY KEY, coll TEXT NOT NULL,"
    " idkey BLOB NOT NULL, body BLOB NOT NULL, UNIQUE (coll, idkey)) STRICT"
)


def rows(documents):
    for document in documents:
        yield bson.encode({"_id": document["_id"]}), bson.encode(document)


def put(database, documents):
    last = database.execute("SELECT place FROM documents ORDER BY place DESC LIMIT 1").fetchone()
    place = last[0] if last else 0
    new = ((place + 1 + i, key, body) for i, (key, body) in enumerate(rows(documents)))
    done = database.executemany("INSERT INTO documents VALUES (?, 'c', ?, ?)", new)
    database.commit()
    print(done.rowcount)


def bodies(database):
    for (body,) in database.execute("SELECT body FROM documents WHERE +coll = 'c' ORDER BY place"):
        yield body


def at(value, path):
    for key in path.split("."):
        if isinstance(value, list):
            value = value[int(key)] if int(key) < len(value) else None
        elif isinstance(value, dict):
            value = value.get(key)
        else:
            return None
    return value


def main():
    database = sqlite3.connect(sys.argv[1])
    database.execute(TABLE)
    command, words = sys.argv[2], sys.argv[3:]
    out = sys.stdout.buffer
    if command == "import":
        put(database, bson.decode_all(sys.stdin.buffer.read()))
    elif command == "load":
        put(database, (json_util.loads(line) for line in sys.stdin))
    elif command == "export":
        for body in bodies(database):
            out.write(body)
    elif command == "find":
        for body in bodies(database):
            if at(bson.decode(body), words[0]) == words[1]:
                out.write(body)
    elif command == "dump":
        for body in bodies(database):
            print(json_util.dumps(bson.decode(body), json_options=CANONICAL_JSON_OPTIONS))
    elif command == "get":
        key = bson.encode({"_id": int(words[0])})
        (body,) = database.execute("SELECT body FROM documents WHERE coll = 'c' AND idkey = ?", (key,)).fetchone()
        print(json_util.dumps(bson.decode(body), json_options=CANONICAL_JSON_OPTIONS))
    else:
        return 2
    return 0


sys.exit(main())
