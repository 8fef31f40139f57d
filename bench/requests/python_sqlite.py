#!/usr/bin/python3
"""The requests of lines.py in one process of Python over sqlite3 and bson: each change, or each list of requests, is a transaction of
its own in a file with a log, on the disk before the next one. The answers are those of `fallowtime FILE`.

    python_sqlite.py FILE < LINES > ANSWERS"""
import json
import sqlite3
import sys

import bson
from bson import json_util

OPTIONS = json_util.JSONOptions(json_mode=json_util.JSONMode.CANONICAL, tz_aware=False, tzinfo=None)
base = sqlite3.connect(sys.argv[1], isolation_level=None)
base.execute("PRAGMA journal_mode = WAL")
base.execute("PRAGMA synchronous = FULL")
base.execute("CREATE TABLE documents (place INTEGER PRIMARY KEY, coll TEXT NOT NULL, idkey BLOB NOT NULL, body BLOB NOT NULL, UNIQUE (coll, idkey))")


def key_of(value):
    """The key of an `_id`."""
    return bson.encode({"_id": value})


def body_of(name, value):
    """The body of the document with an `_id`, if there is one."""
    return base.execute("SELECT body FROM documents WHERE coll = ? AND idkey = ?", (name, key_of(value))).fetchone()


def change(name, value, body):
    """Puts a body in the place of another; whether there is one."""
    return base.execute("UPDATE documents SET body = ? WHERE coll = ? AND idkey = ?", (body, name, key_of(value))).rowcount == 1


def insert(name, document):
    """Puts a document in; whether its `_id` is free."""
    try:
        base.execute("INSERT INTO documents (coll, idkey, body) VALUES (?, ?, ?)", (name, key_of(document["_id"]), bson.encode(document)))
    except sqlite3.IntegrityError:
        return False
    return True


def answer(command, name, first, *more):
    """What a request is answered."""
    if command == "insert":
        return {"_id": first["_id"]} if insert(name, first) else {"error": "DuplicateId"}
    if command == "put":
        return {} if change(name, first["_id"], bson.encode(first)) or insert(name, first) else {"error": "DuplicateId"}
    if command == "replace":
        return {} if change(name, first["_id"], bson.encode(first)) else {"error": "NotFound"}
    if command == "remove":
        gone = base.execute("DELETE FROM documents WHERE coll = ? AND idkey = ?", (name, key_of(first))).rowcount
        return {} if gone else {"error": "NotFound"}
    found = body_of(name, first)
    if not found:
        return {"error": "NotFound"}
    if command == "get":
        return {"document": bson.decode(found[0])}
    document = bson.decode(found[0])
    document[more[0]] = more[1]
    change(name, first, bson.encode(document))
    return {}


def answer_list(requests):
    """What the requests of a list are answered, in one transaction."""
    base.execute("BEGIN")
    answers = [answer(*request) for request in requests]
    base.execute("COMMIT")
    return {"all": answers}


for line in sys.stdin.buffer:
    request = json_util.loads(line, json_options=OPTIONS)
    told = answer_list(request[1]) if request[0] == "all" else answer(*request)
    print(json_util.dumps(told, json_options=OPTIONS, separators=(",", ":")), flush=True)
