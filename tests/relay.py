#!/usr/bin/python3
"""Runs the relay of the package for Python (`python -m fallowtime.serve`) over a program: three drivers, bytes that are none of
theirs, connections that hang, kills, sockets, limits and rates.

    tests/relay.py PROGRAM [STEP ..]

PROGRAM is fallowtime, under whatever name. If it doesn't answer messages yet (`fallowtime FILE --messages`), one line says so, and
tests/drivers/stand_in.py is in its place, which shows nothing of the program. A STEP is the name of a function below; behind `hostile`
may stand the number of messages, as hostile=100000, and behind `rates` that the clock counts, as rates=clock. Prints a line a step, and
ends with status 1 at the first that isn't as it should be. Wants python3-pymongo, python3-mongoengine, and for the drivers gcc,
pkg-config, libmongoc-dev, node and node-mongodb.
"""
import atexit
import contextlib
import os
import pathlib
import random
import re
import shutil
import signal
import socket
import stat
import struct
import subprocess
import sys
import threading
import time

import bson

import amounts
import relaying
from relaying import HEADER, LONG, LONGEST, MORE_TO_COME, OP_MSG, ROOT, Line, Relay, compiled, fail, hello, holds, is_gone, message, wait_for

# Who starts this in the background may have these signals ignored, and what is started here would inherit that.
signal.signal(signal.SIGINT, signal.default_int_handler)
signal.signal(signal.SIGHUP, signal.SIG_DFL)
SEED = amounts.seed(20261128)
# How many times as long as over a server that answers with a constant a find may take: of the processor, and by the clock.
MOST_WORK, LONGER = 6, 2.5
FIND = {"find": "items", "$db": "shop"}
# What the three drivers have to print, each in its own way of writing values.
EXPECTED = {
    "ping": "1", "insert_one": "1", "insert_many": "298", "duplicate": "error 11000", "unordered": "[1,[0,2]]",
    "batches": "[300,904]", "default_batches": "[300,904]", "closed_cursor": "3", "find_one": "{_id:5,a:5}", "find_none": "null",
    "sorted": "[297,290]", "count": "43", "estimated": "300", "distinct": "[0,1,2,3,4,5,6,7]", "replace_one": "1",
    "upsert": "5000", "update_one": "1", "update_many": "43", "delete_one": "1", "delete_many": "43", "unanswered": "7",
    "unknown_command": "error 59", "unknown_operator": "error 2", "collections": "true", "long_documents": "20000000",
    "drop": "true"}
EXPECTED_OF_C = {
    "closed_cursor": "[1,3]", "find_one": "[1,5]", "find_none": "[0,0]", "sorted": "[2,587]", "long_insert": "20",
    "long_documents": "[20,190]", "drop": "1"}


def store(folder, name="shop"):
    """A file of its own for a step."""
    return folder / f"{name}.db"


def count(relay, name):
    """How many documents a collection has, as the relay's program finds it."""
    line = relay.line()
    answer = line.ask({"count": name, "query": {}, "$db": "shop"})
    line.close()
    return answer["n"]


def count_again(program, file, name):
    """The same, by a relay that is started for it."""
    relay = Relay(program, file)
    found = count(relay, name)
    holds("a relay that only counts", relay.end(), 0)
    return found


# Three drivers.

def plain(told):
    """What a driver printed, as its values are written here."""
    told = re.sub(r"['\" ]", "", told).replace("(", "[").replace(")", "]").replace("None", "null").replace("True", "true")
    return re.sub(r"^error", "error ", told)


def hold_driver(name, words, expected):
    done = subprocess.run(words, capture_output=True, text=True, timeout=10 * LONG,
                          env={**os.environ, "NODE_PATH": "/usr/share/nodejs:/usr/lib/nodejs"})
    lines = dict(line.split(" ", 1) for line in done.stdout.splitlines() if " " in line)
    if done.returncode or set(lines) != set(expected):
        fail(f"{name}: status {done.returncode}, {set(lines) ^ set(expected)}: {done.stdout[-500:]} {done.stderr[-1500:]}")
    for step, wanted in expected.items():
        found = plain(lines[step])
        if found != wanted and not (step == "drop" and found == "null"):
            fail(f"{name}: {step} {found} in place of {wanted}")
    print(f"{name}: {len(expected)} steps")


def drivers(program, folder):
    """pymongo, libmongoc and Node's driver, over a port and over a socket."""
    c_has = {**EXPECTED, **EXPECTED_OF_C}
    for step in "distinct", "upsert", "unanswered", "collections":
        del c_has[step]
    here = ROOT / "tests/drivers"
    for relay in Relay(program, store(folder)), Relay(program, store(folder, "other"), path=str(folder / "other.sock")):
        where = "a socket" if relay.path else "a port"
        hold_driver(f"pymongo over {where}", ["/usr/bin/python3", here / "driver.py", relay.address], EXPECTED)
        hold_driver(f"libmongoc over {where}", [compiled(folder), relay.address], c_has)
        hold_driver(f"Node's driver over {where}", ["node", here / "driver.js", relay.address], EXPECTED)
        holds("the end", relay.end(), 0)
        holds("what the relay said", relay.errors(), "")


# Changes.

def writes(program, folder):
    """Lists of changes, in the command and beside it: how many documents they were of, which aren't made and why, and that of what
    can't be read nothing is done."""
    relay = Relay(program, store(folder))
    line = relay.line()

    def change(name, key, statements, **more):
        """The answer to a command with a list of statements in it, without `ok`, which is 1."""
        answer = line.ask({name: "items", key: statements, "$db": "shop", **more})
        holds(f"ok of {answer!r}", answer.pop("ok"), 1.0)
        return {**answer, "writeErrors": [(one["index"], one["code"]) for one in answer["writeErrors"]]} if "writeErrors" in answer else answer

    def is_refused(code, command, **lists):
        before = line.ask({**FIND, "filter": {}})["cursor"]["firstBatch"]
        answer = line.ask({**command, "$db": "shop"}, **lists)
        holds(f"the refusal of {command!r}", (answer["ok"], answer["code"]), (0.0, code))
        holds(f"the documents behind {command!r}", line.ask({**FIND, "filter": {}})["cursor"]["firstBatch"], before)

    many = [{"_id": number, "a": number % 3} for number in range(9)]
    holds("put in", change("insert", "documents", many), {"n": 9})
    same = {"q": {"a": 1}, "u": {"$set": {"a": 1}}, "multi": True}
    holds("what stays as it is", change("update", "updates", [same]), {"n": 3, "nModified": 0})
    holds("one of several", change("update", "updates", [{"q": {"a": 1}, "u": {"$set": {"b": 1}}}]), {"n": 1, "nModified": 1})
    holds("several", change("update", "updates", [{"q": {"a": 1}, "u": {"$set": {"b": 1}}, "multi": True}]), {"n": 3, "nModified": 2})
    holds("a replacement", change("update", "updates", [{"q": {"_id": 0}, "u": {"c": bson.Int64(1)}}]), {"n": 1, "nModified": 1})
    found = line.ask({**FIND, "filter": {"_id": 0}})["cursor"]["firstBatch"][0]
    holds("its kinds", (found, type(found["c"])), ({"_id": 0, "c": 1}, bson.Int64))
    upserts = [{"q": {"_id": 3}, "u": {"$inc": {"a": 5}}, "upsert": True}, {"q": {"_id": 20}, "u": {"$set": {"a": 1}}, "upsert": True},
               {"q": {"a": 77}, "u": {"_id": 21}, "upsert": True}]
    holds("upserts", change("update", "updates", upserts), {"n": 3, "nModified": 1, "upserted": [{"index": 1, "_id": 20}, {"index": 2, "_id": 21}]})
    wrong = [{"q": {"_id": 4}, "u": {"$set": {"s": "x"}}}, {"q": {"_id": 4}, "u": {"$inc": {"s": 1}}}, {"q": {"_id": 5}, "u": {"$set": {"s": 1}}},
             {"q": {"_id": 5}, "u": {"_id": 6}}]
    holds("ordered ones", change("update", "updates", wrong), {"n": 1, "nModified": 1, "writeErrors": [(1, 14)]})
    holds("unordered ones", change("update", "updates", wrong, ordered=False), {"n": 2, "nModified": 1, "writeErrors": [(1, 14), (3, 66)]})
    holds("one removed", change("delete", "deletes", [{"q": {"a": 2}, "limit": 1}]), {"n": 1})
    holds("several removed", change("delete", "deletes", [{"q": {"a": 2}, "limit": 0}, {"q": {"_id": {"$gte": 20}}, "limit": 0}]), {"n": 4})
    answer = line.ask({"update": "items", "$db": "shop"}, updates=[{"q": {"_id": number}, "u": {"$set": {"z": 1}}} for number in (3, 4, 99)])
    holds("beside the command", answer, {"n": 2, "nModified": 2, "ok": 1.0})
    good = {"q": {"_id": 3}, "u": {"$set": {"z": 2}}}
    for code, statement in ((2, {"q": {}, "u": {"$nosuch": {"a": 1}}}), (2, {"q": {"a": {"$nosuch": 1}}, "u": {"a": 1}}), (2, {"q": {}, "u": {"a": 1}, "multi": True}),
                            (2, {"q": {}}), (2, {"u": {"$set": {"a": 1}}}), (2, {"q": {}, "u": [{"$set": {"a": 1}}]}), (40415, {**good, "nosuch": 1}),
                            (238, {**good, "collation": {"locale": "de"}}), (238, {**good, "arrayFilters": [{"a": 1}]})):
        is_refused(code, {"update": "items", "updates": [good, statement]})
    for code, statement in (2, {"q": {}}), (2, {"limit": 0}), (2, {"q": {}, "limit": 2}), (2, {"q": {}, "limit": True}), (40415, {"q": {}, "limit": 0, "u": 1}):
        is_refused(code, {"delete": "items", "deletes": [{"q": {"_id": 3}, "limit": 1}, statement]})
    is_refused(20, {"update": "items", "updates": [good], "txnNumber": bson.Int64(1)})
    is_refused(40415, {"update": "items"}, deletes=[good])
    holds("what is left", count(relay, "items"), 6)
    holds("the end", relay.end(), 0)
    print("writes: lists of changes, what is refused of them, and that nothing is done then")


# Batches.

def batches(program, folder):
    """What is found comes batch by batch, each document once, over any connection; what is let go doesn't come back."""
    relay = Relay(program, store(folder))
    line, other = relay.line(), relay.line()
    line.ask({"insert": "items", "$db": "shop"}, documents=[{"_id": number} for number in range(250)])

    def batch(answer, key="firstBatch"):
        cursor = answer["cursor"]
        holds("the collection", cursor["ns"], "shop.items")
        return [one["_id"] for one in cursor[key]], cursor["id"]

    def more(id, on=line, **options):
        return on.ask({"getMore": bson.Int64(id), "collection": "items", "$db": "shop", **options})

    first, id = batch(line.ask({**FIND, "batchSize": 100}))
    line.ask({"delete": "items", "deletes": [{"q": {"_id": 240}, "limit": 1}], "$db": "shop"})
    second, same = batch(more(id, other, batchSize=100), "nextBatch")
    third, last = batch(more(id), "nextBatch")
    holds("batches", (first + second + third, len(second), same, last), (list(range(250)), 100, id, 0))
    holds("what has no more", more(id)["code"], 43)
    for options, length, is_more in (({}, 101, True), ({"batchSize": 0}, 0, True), ({"batchSize": 249}, 249, False), ({"limit": 5, "batchSize": 3}, 3, True),
                                     ({"batchSize": 9, "singleBatch": True}, 9, False)):
        found, id = batch(line.ask({**FIND, **options}))
        holds(f"a first batch with {options}", (len(found), id != 0), (length, is_more))
    found, id = batch(line.ask({"aggregate": "items", "pipeline": [{"$sort": {"_id": -1}}, {"$match": {"_id": {"$lt": 50}}}], "cursor": {"batchSize": 20}, "$db": "shop"}))
    holds("a pipeline", (found + batch(more(id), "nextBatch")[0]), list(range(49, -1, -1)))
    ids = [batch(line.ask({**FIND, "batchSize": 1}))[1] for _ in range(2)]
    killed = line.ask({"killCursors": "items", "cursors": [bson.Int64(ids[0]), bson.Int64(7)], "$db": "shop"})
    holds("killed", (killed["cursorsKilled"], killed["cursorsNotFound"], more(ids[0])["code"], more(ids[1])["ok"]), ([ids[0]], [7], 43, 1.0))
    holds("of another collection", line.ask({"getMore": bson.Int64(batch(line.ask({**FIND, "batchSize": 1}))[1]), "collection": "others", "$db": "shop"})["code"], 43)
    ids = [batch(line.ask({**FIND, "limit": 2, "batchSize": 1}))[1] for _ in range(1100)]
    holds("too many", (more(ids[0])["code"], batch(more(ids[-1]), "nextBatch")), (43, ([1], 0)))
    for number in range(20):
        line.ask({"insert": "long", "documents": [{"_id": number, "text": "x" * 1_000_000}], "$db": "shop"})
    cursor = line.ask({"find": "long", "$db": "shop"})["cursor"]
    holds("a batch that is full", (len(cursor["firstBatch"]), cursor["id"] != 0), (17, True))
    holds("the end", relay.end(), 0)
    print("batches: each document once, what is let go is told, and no more waits than may")


def collections(program, folder):
    """Collections and indexes that are made, databases, pipelines, and documents that are found or put in."""
    relay = Relay(program, store(folder))
    line = relay.line()

    def ask(command):
        answer = line.ask({**command, "$db": "shop"})
        return answer["code"] if "code" in answer else answer

    def index(**options):
        return ask({"createIndexes": "items", "indexes": [{"key": {"a": 1}, "name": "a", **options}]})

    def modify(**options):
        answer = ask({"findAndModify": "items", **options})
        return (answer["lastErrorObject"], answer["value"]) if isinstance(answer, dict) else answer

    holds("a new one", ask({"create": "items"}), {"ok": 1.0})
    holds("an upsert", modify(query={"_id": 1}, update={"$inc": {"a": 1}}, upsert=True), ({"n": 1, "updatedExisting": False, "upserted": 1}, None))
    holds("one that is there", ask({"create": "items"}), 48)
    holds("options", (ask({"create": "others", "capped": True}), ask({"create": "others", "nosuch": 1}), ask({"create": "others"})), (238, 40415, {"ok": 1.0}))
    holds("indexes", (index()["ok"], index(unique=True), index(unique=False)["ok"], index(key={"a": "text"}), index(nosuch=1)), (1.0, 238, 1.0, 238, 40415))
    holds("databases", ask({"listDatabases": 1, "nameOnly": True}), {"databases": [{"name": "shop"}], "ok": 1.0})
    holds("one that is found", modify(query={"_id": 1}, update={"$inc": {"a": 1}}, upsert=True, new=True), ({"n": 1, "updatedExisting": True}, {"_id": 1, "a": 2}))
    holds("one that is put in and shown", modify(query={"_id": 2}, update={"a": 9, "b": 3}, upsert=True, new=True, fields={"b": 1, "_id": 0}),
          ({"n": 1, "updatedExisting": False, "upserted": 2}, {"b": 3}))
    holds("refused upserts", (modify(query={"_id": 5}, remove=True, upsert=True), modify(query={"_id": 6, "a": "x"}, update={"$inc": {"a": 1}}, upsert=True)), (2, 14))

    def pipeline(*stages):
        answer = ask({"aggregate": "items", "pipeline": stages, "cursor": {}})
        return answer["cursor"]["firstBatch"] if isinstance(answer, dict) else answer

    holds("refused pipelines", (pipeline({"$limit": 0}), pipeline({"$sort": {}}), pipeline({"$unwind": "a"}), pipeline({"$lookup": {}}), pipeline({"$out": "x"}, {"$match": {}})),
          (2, 2, 2, 238, 238))
    holds("a pipeline that finds", pipeline({"$match": {"_id": {"$gt": 0}}}, {"$sort": {"_id": -1}}, {"$skip": 1}, {"$limit": 1}, {"$project": {"a": 1, "_id": 0}}), [{"a": 2}])
    holds("stages in any order", (pipeline({"$skip": 1}, {"$match": {}}), pipeline({"$limit": 1}, {"$skip": 1}), pipeline({"$match": {}}, {"$match": {"a": 2}})),
          ([{"_id": 2, "a": 9, "b": 3}], [], [{"_id": 1, "a": 2}]))
    holds("a group", pipeline({"$group": {"_id": None, "sum": {"$sum": "$a"}, "mean": {"$avg": "$a"}, "all": {"$push": "$b"}}}), [{"_id": None, "sum": 11, "mean": 5.5, "all": [3]}])
    holds("an array taken apart", pipeline({"$group": {"_id": 1, "all": {"$push": "$a"}}}, {"$unwind": "$all"}, {"$count": "n"}), [{"n": 2}])
    holds("no sum", (ask({"insert": "items", "documents": [{"_id": 3, "a": bson.Int64(2**63 - 1)}]})["n"], pipeline({"$group": {"_id": 1, "sum": {"$sum": "$a"}}}), ask({"delete": "items", "deletes": [{"q": {"_id": 3}, "limit": 1}]})["n"]),
          (1, 2, 1))
    holds("the end", relay.end(), 0)
    print("collections: made, their indexes, pipelines that find, and documents found or put in")


def transfers(program, folder):
    """Collections that are dropped, renamed and filled by `$out`, their indexes, and one that is asked for by its name."""
    relay = Relay(program, store(folder))
    line = relay.line()

    def ask(command, database="shop"):
        answer = line.ask({**command, "$db": database})
        return answer["code"] if "code" in answer else answer

    def rename(old, new, **options):
        return ask({"renameCollection": old, "to": new, **options}, "admin")

    def first(command):
        answer = ask(command)
        return answer if isinstance(answer, int) else answer["cursor"]["firstBatch"]

    def found(name):
        return first({"find": name, "filter": {}})

    def out(target, *stages):
        return ask({"aggregate": "old", "pipeline": [*stages, {"$out": target}], "cursor": {}})

    documents = [{"_id": number, "a": number % 2} for number in range(3)]
    holds("put in", ask({"insert": "items", "documents": documents}), {"n": 3, "ok": 1.0})
    holds("one by its name", first({"listCollections": 1, "filter": {"name": "items"}}), [{"name": "items", "type": "collection", "options": {}}])
    holds("one that isn't there", first({"listCollections": 1, "filter": {"name": "nosuch"}, "nameOnly": True}), [])
    holds("all", [len(first({"listCollections": 1, "filter": filter})) for filter in ({}, None)], [1, 1])
    holds("other filters", [first({"listCollections": 1, "filter": filter}) for filter in ({"name": {"$regex": "i"}}, {"type": "view"}, {"name": "items", "type": "view"})], [238] * 3)
    index = {"v": 2, "key": {"_id": 1}, "name": "_id_"}
    holds("indexes", (first({"listIndexes": "items", "cursor": {}}), first({"listIndexes": "nosuch"})), ([index], 26))
    holds("dropped indexes", [ask({"dropIndexes": name, "index": index}) for name, index in
                              (("items", "*"), ("items", "a_1"), ("items", "_id_"), ("items", {"a": 1}), ("nosuch", "*"), ("nosuch", "a_1"))],
          [{"nIndexesWas": 1, "ok": 1.0}, 27, 72, 2, 26, 26])
    holds("refused names", (rename("shop.nosuch", "shop.old"), rename("shop.items", "shop.items"), rename("shop.items", "other.old"), rename("items", "shop.old"),
                            rename("shop.items", "shop.old", dropTarget=True), ask({"renameCollection": "shop.items", "to": "shop.old"}), found("items")),
          (26, 48, 73, 73, 238, 73, documents))
    holds("another name", (rename("shop.items", "shop.old", dropTarget=False), found("items"), found("old")), ({"ok": 1.0}, [], documents))
    holds("what a pipeline finds", (out("new", {"$match": {"a": 0}}, {"$sort": {"_id": -1}})["cursor"]["firstBatch"], found("new")), ([], [{"_id": 2, "a": 0}, {"_id": 0, "a": 0}]))
    holds("nothing found", (out("none", {"$match": {"a": 5}})["ok"], found("none")), (1.0, []))
    holds("where some are", (out("new"), out("old"), found("new")), (48, 48, [{"_id": 2, "a": 0}, {"_id": 0, "a": 0}]))
    holds("other pipelines", (out({"db": "shop", "coll": "x"}), ask({"aggregate": "old", "pipeline": [{"$out": "x"}, {"$match": {}}], "cursor": {}}),
                              out("x", {"$project": {"a": 1, "_id": 0}}), found("x")), (238, 238, 2, []))
    holds("dropped", (ask({"drop": "old"}), ask({"drop": "old"}), found("old"), ask({"drop": ""})), ({"nIndexesWas": 1, "ns": "shop.old", "ok": 1.0}, 26, [], 73))
    holds("the end", relay.end(), 0)
    print("transfers: collections dropped, renamed and filled by a pipeline, their names and their indexes")


# Bytes that are none of a driver's.

def bases():
    """Messages as drivers send them."""
    items = [{"_id": number, "text": "x" * number} for number in range(3)]
    return [
        hello(1), message(1, {"ping": 1, "$db": "admin"}), message(1, {"hello": 1, "$db": "admin"}),
        message(1, {**FIND, "filter": {"_id": 1}}), message(1, {"count": "items", "query": {}, "$db": "shop"}),
        message(1, {"insert": "fresh", "$db": "shop"}, documents=items),
        message(1, {"insert": "fresh", "documents": items, "$db": "shop"}),
        message(1, {"insert": "fresh", "$db": "shop"}, flags=MORE_TO_COME, documents=items),
        message(1, {"update": "fresh", "$db": "shop"}, updates=[{"q": {"_id": 1}, "u": {"$set": {"a": 1}}, "upsert": True}]),
        message(1, {"delete": "fresh", "deletes": [{"q": {"text": "x"}, "limit": 1}], "$db": "shop"}),
        message(1, {"findAndModify": "fresh", "query": {"_id": 1}, "update": {"$inc": {"a": 1}}, "new": True, "$db": "shop"}),
        message(1, {"aggregate": "fresh", "pipeline": [{"$match": {}}, {"$group": {"_id": 1, "n": {"$sum": 1}}}], "cursor": {}, "$db": "shop"}),
        message(1, {"ping": 1, "$db": "admin"}, flags=MORE_TO_COME), message(1, {"nosuch": 1, "$db": "shop"})]


def mutated(base, chance):
    """A message with damage: of some bytes, of its length, or of its end."""
    held = bytearray(base)
    kind = chance.randrange(6)
    if kind == 0:
        held[chance.randrange(len(held))] = chance.randrange(256)
    elif kind == 1:
        for _ in range(chance.randrange(1, 8)):
            held[chance.randrange(12, len(held))] = chance.randrange(256)
    elif kind == 2:
        # It is shorter, and says so.
        del held[chance.randrange(16, len(held) + 1):]
        held[:4] = struct.pack("<i", len(held))
    elif kind == 3:
        at = chance.randrange(16, len(held))
        held[at:at] = chance.randbytes(chance.randrange(1, 20))
        held[:4] = struct.pack("<i", len(held))
    elif kind == 4:
        held[:4] = struct.pack("<i", chance.choice([-1, 0, 15, 16, 17, 21, LONGEST, LONGEST + 1, 2**31 - 1, len(held) + 1]))
    else:
        held[16:20] = struct.pack("<I", chance.choice([1, 2, 3, 4, 1 << 15, 1 << 16, 1 << 17, chance.randrange(2**32)]))
    return bytes(held)


def send_mutated(line, held):
    """Sends a damaged message and a sound one behind it, and returns whether the connection goes on. Either the first is answered, and
    the second; or the first is one that asks for no answer; or it can't be one, and the connection is closed."""
    length = struct.unpack_from("<i", held)[0]
    if not 16 <= length <= LONGEST:
        line.send(held)
        if not line.is_closed():
            fail(f"a message of {length} bytes leaves the connection open")
        return False
    if length > len(held):
        line.send(held)
        return False
    whole = held[:length]
    number, operation = HEADER.unpack_from(whole)[1], HEADER.unpack_from(whole)[3]
    line.send(whole + message(77, {"ping": 1, "$db": "admin"}))
    if not (operation == OP_MSG and length >= 20 and whole[16] & MORE_TO_COME):
        holds(f"the answer to {whole.hex()}", line.answer()[0], number)
    holds(f"the answer behind {whole.hex()}", line.answer(), (77, {"ok": 1.0}))
    return True


def hostile(program, folder, messages="4000"):
    """Damaged messages, each answered or its connection closed; half a message changes nothing."""
    chance = random.Random(SEED)
    relay = Relay(program, store(folder))
    own, made = relay.program, bases()
    line = relay.line()
    for _ in range(int(messages)):
        if not send_mutated(line, mutated(chance.choice(made), chance)):
            line.close()
            line = relay.line()
    whole = message(5, {"insert": "half", "documents": [{"_id": 1, "text": "x" * 5000}], "$db": "shop"})
    for length in [*range(1, 60), *range(60, len(whole), 97), len(whole) - 1]:
        line = relay.line()
        line.send(whole[:length])
        line.close()
    holds("what half messages put in", count(relay, "half"), 0)
    holds("the program goes on", relay.program, own)
    holds("the end", relay.end(), 0)
    print(f"hostile: {messages} damaged messages, and half ones")


def hang(relay, how):
    """A connection that hangs in one of several ways."""
    line = relay.line()
    if how == 1:
        line.send(b"\x30\0")
    elif how == 2:
        line.send(message(1, {"insert": "half", "documents": [{"_id": 1, "text": "x" * 3_000_000}], "$db": "shop"})[:2_900_000])
    elif how == 3:
        line.send(HEADER.pack(LONGEST, 1, 0, OP_MSG) + bytes(100_000))
    elif how == 4:
        # It asks for much, and takes nothing of the answer.
        line.send(message(1, {**FIND, "filter": {}, "batchSize": 100}))
    return line


def hanging(program, folder):
    """50 connections, of which 10 hang: the others are answered as before."""
    relay = Relay(program, store(folder))
    line = relay.line()
    for number in range(12):
        line.ask({"insert": "items", "documents": [{"_id": number, "text": "x" * 1_000_000}], "$db": "shop"})
    hung = [hang(relay, how) for how in range(5) for _ in range(2)]
    others, slowest, taken = [relay.line() for _ in range(40)], 0.0, 0
    for turn in range(20):
        for other in others:
            begin = time.monotonic()
            holds("an answer", other.ask({"ping": 1, "$db": "admin"}), {"ok": 1.0})
            slowest, taken = max(slowest, time.monotonic() - begin), taken + 1
    if slowest > LONG / 12:
        fail(f"beside connections that hang an answer takes {slowest:.1f} s")
    holds("half messages", line.ask({"count": "half", "query": {}, "$db": "shop"})["n"], 0)
    for one in hung + others:
        one.close()
    holds("the end", relay.end(), 0)
    print(f"hanging: {taken} answers beside 10 connections that hang, the slowest in {slowest * 1000:.0f} ms")


def names(program, folder):
    """The name of a database: that of the file up to its first dot, as the relay says it and the program knows it."""
    for file, name in ("shop.db", "shop"), ("two.parts.db", "two"), ("bare", "bare"), (".hidden", "test"):
        relay = Relay(program, folder / file)
        holds(f"the address of {file}", relay.address.rpartition("/")[2], name)
        line = relay.line()
        holds(f"a count in {file}", line.ask({"count": "items", "query": {}, "$db": name})["n"], 0)
        holds(f"a count in another database than {file}", line.ask({"count": "items", "query": {}, "$db": "other"})["code"], 73)
        line.close()
        holds("the end", relay.end(), 0)
    print("names: of the database that a file is")


def limits(program, folder):
    """So many connections and no more, and none that asks for nothing too long."""
    relay = Relay(program, store(folder), "--connections", 3, "--idle", 10)
    lines = [relay.line() for _ in range(3)]
    for line in lines:
        line.ask({"ping": 1, "$db": "admin"})
    more = relay.line()
    holds("a fourth of three connections is closed", more.is_closed(), True)
    lines[0].close()
    begin = time.monotonic()
    while time.monotonic() < begin + 16:
        lines[1].ask({"ping": 1, "$db": "admin"})
        time.sleep(0.1)
    holds("an idle connection is closed", lines[2].is_closed(), True)
    again = relay.line()
    holds("a connection in its place", again.ask({"ping": 1, "$db": "admin"}), {"ok": 1.0})
    holds("the end", relay.end(), 0)
    holds("what it said", relay.errors(), "fallowtime.serve: there are 3 connections: more are closed\n")
    print("limits: of connections and of seconds without a question")


def is_still_answered(line, what):
    """Whether a small question is answered."""
    holds(what, line.ask({"ping": 1, "$db": "admin"}), {"ok": 1.0})


def room(program, folder):
    """Over what may be kept for all, long messages wait, and who stands still meanwhile is closed."""
    relay = Relay(program, store(folder), changed="relay.MOST_KEPT = 3_000_000; relay.STILL_IN_NEED = 1.0")
    long = message(1, {"insert": "long", "documents": [{"_id": 1, "text": "x" * 2_000_000}], "$db": "shop"})
    small, hung = relay.line(), [relay.line() for _ in range(3)]
    for line in hung:
        sender = threading.Thread(target=line.send, args=(long[:-1],), daemon=True)
        sender.start()
    whole = relay.line()
    threading.Thread(target=whole.send, args=(long,), daemon=True).start()
    is_still_answered(small, "a small message while long ones wait")
    holds("a long message that waited", (whole.answer()[1]["n"], whole.ask({"count": "half", "query": {}, "$db": "shop"})["n"]), (1, 0))
    holds("those that stood still", [line.is_closed() for line in hung][:1], [True])
    for number in range(6):
        whole.ask({"insert": "items", "documents": [{"_id": number, "text": "x" * 500_000}], "$db": "shop"})
    for line in [relay.line() for _ in range(4)]:
        hung.append(line)
        line.send(message(1, {**FIND, "filter": {}, "batchSize": 100}))
    is_still_answered(small, "a message behind answers that nobody takes")
    holds("the end", relay.end(), 0)
    holds("what it said", relay.errors(), "")
    print("room: long messages wait for it, and who stands still is closed")


FAULTY = """#!/usr/bin/python3
import os, struct, sys
held = os.read(0, 51)
def answer(number):
    os.write(1, struct.pack("<iiii", 26, 0, number, 2013) + bytes(5) + b"\\x05\\0\\0\\0\\0")
answer(1)
held = os.read(0, 1 << 16)
if "{kind}" == "number":
    answer(struct.unpack_from("<i", held, 4)[0] + 1)
elif "{kind}" == "length":
    os.write(1, bytes(16))
elif "{kind}" == "twice":
    answer(struct.unpack_from("<i", held, 4)[0])
    answer(struct.unpack_from("<i", held, 4)[0])
elif "{kind}" == "status":
    sys.exit(3)
os.read(0, 1)
"""


def faults(program, folder):
    """Programs that answer otherwise than they may: nobody gets an answer that isn't theirs, and the relay ends."""
    for kind, status, said in (("number", 1, "an answer to 8, where 7 waits"), ("length", 1, "a message of 0 bytes"),
                               ("twice", 1, "an answer to 7, for which nobody waits"), ("status", 3, "")):
        faulty = folder / kind
        faulty.write_text(FAULTY.replace("{kind}", kind).replace("\\\\", "\\"))
        faulty.chmod(0o755)
        relay = Relay(faulty, store(folder))
        line, other = relay.line(), relay.line()
        line.send(message(7, {"ping": 1, "$db": "admin"}))
        if kind == "twice":
            holds("the answer", line.answer()[0], 7)
        holds(f"both connections of {kind}", (line.is_closed(), other.is_closed()), (True, True))
        holds(f"the status of {kind}", (relay.end(None), said in relay.errors()), (status, True))
    print("faults: of the program's answers end the relay")


# Kills and ends.

class Writers:
    """Connections that put documents in, each its own, until their connection ends."""

    def __init__(self, relay, count):
        self.done = [0] * count
        self.threads = [threading.Thread(target=self.write, args=(relay.line(), at)) for at in range(count)]
        for thread in self.threads:
            thread.start()

    def write(self, line, at):
        try:
            while True:
                document = {"_id": at * 1_000_000 + self.done[at]}
                if line.ask({"insert": "kept", "documents": [document], "$db": "shop"})["n"] == 1:
                    self.done[at] += 1
        except (EOFError, OSError):
            line.close()

    def end(self):
        """How many documents each was told of that they are in."""
        for thread in self.threads:
            thread.join(LONG)
        return self.done


def hold_kept(program, file, told):
    """What was answered is in the file, and at most one more for each connection."""
    found = count_again(program, file, "kept")
    if not sum(told) <= found <= sum(told) + len(told):
        fail(f"{sum(told)} inserts were answered, and {found} documents are there")


def kills(program, folder):
    """The relay ends by signals, or is killed, or the program is: what was answered is in the file."""
    for number, wanted in (signal.SIGTERM, 0), (signal.SIGINT, 0), (signal.SIGHUP, 0), (signal.SIGKILL, -signal.SIGKILL):
        file = store(folder)
        relay = Relay(program, file, path=str(folder / "kills.sock"))
        own, writers = relay.program, Writers(relay, 4)
        time.sleep(0.5)
        holds(f"the status behind {number.name}", relay.end(number), wanted)
        wait_for("the program's end", lambda: is_gone(own))
        told = writers.end()
        holds(f"a socket behind {number.name}", (folder / "kills.sock").exists(), number == signal.SIGKILL)
        hold_kept(program, file, told)
        print(f"kills: {number.name}, {sum(told)} answered inserts are there")
        file.unlink()
    file = store(folder)
    relay = Relay(program, file)
    writers = Writers(relay, 4)
    time.sleep(0.5)
    os.kill(relay.program, signal.SIGKILL)
    holds("the status behind the program's", relay.end(None), 128 + signal.SIGKILL)
    told = writers.end()
    hold_kept(program, file, told)
    print(f"kills: the program's, {sum(told)} answered inserts are there")


def lost_clients(program, folder):
    """Clients that go away before they are answered: their whole messages are done, and nobody else notices."""
    relay = Relay(program, store(folder))
    for number in range(50):
        line = relay.line()
        line.send(message(1, {"insert": "items", "documents": [{"_id": number}], "$db": "shop"}))
        if number % 2:
            line.socket.setsockopt(socket.SOL_SOCKET, socket.SO_LINGER, struct.pack("ii", 1, 0))
        line.close()
    line = relay.line()
    wait_for("the whole messages", lambda: line.ask({"count": "items", "query": {}, "$db": "shop"})["n"] >= 25)
    holds("the end", relay.end(), 0)
    print("lost_clients: 50 that went away before they were answered")


def stops(program, folder):
    """A signal while the program is at something: that is answered first. A second signal ends it at once."""
    for number, signals in (1, 1), (2, 2):
        relay = Relay(program, store(folder))
        line, other, own = relay.line(), relay.line(), relay.program
        is_still_answered(other, "another connection")
        atexit.register(relaying.end_for_sure, own)
        os.kill(own, signal.SIGSTOP)
        line.send(message(9, {"insert": "items", "documents": [{"_id": number}], "$db": "shop"}))
        wait_for("a message in the pipe", lambda: relaying.unread_of(own))
        relay.tell(signal.SIGTERM)
        holds("a connection that waits for nothing", other.is_closed(), True)
        if signals == 2:
            relay.tell(signal.SIGINT)
            wait_for("a signal to the program", lambda: relaying.has_got(own, signal.SIGTERM))
        with contextlib.suppress(ProcessLookupError):
            os.kill(own, signal.SIGCONT)
        if signals == 1:
            holds("the answer to what was under way", (line.answer()[1]["n"], line.is_closed()), (1, True))
        holds(f"the status behind {signals} signals", relay.end(None), 0 if signals == 1 else 128 + signal.SIGTERM)
    print("stops: what is under way is answered, and a second signal ends all")


# Where it listens.

def sockets(program, folder):
    """A socket in the file system: its mode, one that was left there, one that is taken, another file in its place."""
    path = folder / "shop.sock"
    relay = Relay(program, store(folder), path=str(path))
    holds("the mode", oct(stat.S_IMODE(path.stat().st_mode)), "0o600")
    holds("the address", relay.address, f"mongodb://{str(path).replace('/', '%2F')}/shop")
    second = Relay(program, store(folder, "second"), path=str(path), is_awaited=False)
    holds("a socket that is taken", (second.end(None), "Address already in use" in second.errors()), (1, True))
    busy = Relay(program, store(folder), is_awaited=False)
    holds("a file that is taken", (busy.process.stdout.readline(), busy.end(None) != 0, "Busy" in busy.errors()), (b"", True, True))
    holds("the end", relay.end(signal.SIGKILL), -signal.SIGKILL)
    holds("what a kill leaves", path.exists(), True)
    relay = Relay(program, store(folder), path=str(path))
    holds("an answer over a socket that was left there", relay.line().ask({"ping": 1, "$db": "admin"}), {"ok": 1.0})
    holds("the end", (relay.end(), path.exists()), (0, False))
    path.write_text("text")
    other = Relay(program, store(folder), path=str(path), is_awaited=False)
    holds("another file", (other.end(None), path.read_text()), (1, "text"))
    print("sockets: mode 600, replaced if it was left there, never if it is taken or another file")


def addresses(program, folder):
    """127.0.0.1 without a word, another address by --bind alone and with a warning."""
    for words, host, is_warned in ([], "127.0.0.1", False), (["--bind", "localhost"], "127.0.0.1", False), (["--bind", "0.0.0.0"], "0.0.0.0", True):
        relay = Relay(program, store(folder), "--port", 0, *words)
        listening = pathlib.Path("/proc/net/tcp").read_text() + pathlib.Path("/proc/net/tcp6").read_text()
        own = [line.split()[1] for line in listening.splitlines() if line.split()[1].endswith(f":{relay.port:04X}") and line.split()[3] == "0A"]
        if host == "127.0.0.1" and "::1" not in relay.address:
            holds("where it listens", own, [f"0100007F:{relay.port:04X}"])
        holds(f"a warning with {words}", "warning: other machines can connect" in relay.errors(), is_warned)
        holds("the end", relay.end(), 0)
    for words in [], ["--bind", "0.0.0.0", "--socket", "x.sock"], ["--port", "1", "--socket", "x.sock"], ["--port", "70000"], ["--port", "0", "--idle", "0"], ["--socket", "x"]:
        done = subprocess.run([sys.executable, "-B", "-m", "fallowtime.serve", store(folder), *words], capture_output=True, timeout=LONG,
                              env={**os.environ, "PYTHONPATH": str(ROOT / "python"), "FALLOWTIME": str(program)})
        holds(f"the status of {words}", (done.returncode, done.stdout), (2, b""))
    print("addresses: 127.0.0.1, and others by --bind with a warning")


def systemd(program, folder):
    """A socket that was handed over, what systemd is told, and the units."""
    path, told = folder / "handed.sock", socket.socket(socket.AF_UNIX, socket.SOCK_DGRAM)
    told.bind(str(folder / "notify"))
    told.settimeout(LONG)
    with socket.socket(socket.AF_UNIX) as listener:
        listener.bind(str(path))
        listener.listen()
        environment = {**os.environ, "FALLOWTIME": str(program), "PYTHONPATH": str(ROOT / "python"), "NOTIFY_SOCKET": str(folder / "notify")}
        handed = listener.fileno()
        start = ('import os, sys; os.dup2(int(sys.argv[1]), 3); os.set_inheritable(3, True); '
                 'os.environ.update(LISTEN_FDS="1", LISTEN_PID=str(os.getpid()), LISTEN_FDNAMES="x"); '
                 'os.execv(sys.executable, [sys.executable, "-B", "-m", "fallowtime.serve", sys.argv[2]])')
        process = subprocess.Popen([sys.executable, "-c", start, str(handed), store(folder)], stdout=subprocess.PIPE, env=environment, pass_fds=[handed])
    holds("the address", process.stdout.readline().decode(), f"mongodb://{str(path).replace('/', '%2F')}/shop\n")
    holds("what systemd is told", told.recv(100), b"READY=1")
    relay = Relay.__new__(Relay)
    relay.path = str(path)
    holds("an answer", Line(relay).ask({"ping": 1, "$db": "admin"}), {"ok": 1.0})
    process.send_signal(signal.SIGTERM)
    holds("the end", (process.wait(LONG), told.recv(100), path.exists()), (0, b"STOPPING=1", True))
    process.stdout.close()
    units = sorted((ROOT / "python/systemd").iterdir())
    if shutil.which("systemd-analyze"):
        for unit in units:
            shutil.copy(unit, folder / unit.name.replace("@", "@shop"))
        done = subprocess.run(["systemd-analyze", "verify", *(folder / unit.name.replace("@", "@shop") for unit in units)],
                              capture_output=True, text=True, timeout=LONG)
        found = [line for line in (done.stdout + done.stderr).splitlines() if "fallowtime" in line]
        holds("what systemd-analyze says of the units", (done.returncode, found), (0, []))
    print("systemd: a socket that is handed over, READY and STOPPING, and the units")


# Rates.

CLIENT = """
import sys, time, pymongo
client = pymongo.MongoClient(sys.argv[1])
items, count = client.get_default_database()["items"], int(sys.argv[2])
items.find_one({"_id": 1})
for line in sys.stdin:
    begin = time.perf_counter()
    for number in range(count):
        items.find_one({"_id": number % 100})
    print(time.perf_counter() - begin, flush=True)
"""


class Clients:
    """Processes that find by _id, by pymongo."""

    def __init__(self, address, clients, finds):
        self.finds = clients * finds
        self.processes = [subprocess.Popen([sys.executable, "-c", CLIENT, address, str(finds)], stdin=subprocess.PIPE,
                                           stdout=subprocess.PIPE, text=True, bufsize=1) for _ in range(clients)]
        for process in self.processes:
            atexit.register(process.kill)

    def turn(self):
        for process in self.processes:
            process.stdin.write("go\n")
        for process in self.processes:
            process.stdout.readline()

    def rate(self):
        """Finds a second, of all together."""
        begin = time.perf_counter()
        self.turn()
        return self.finds / (time.perf_counter() - begin)

    def seconds(self, *others):
        """The processor time of the clients and of other processes, in seconds."""
        return sum(map(relaying.seconds_of, [*(process.pid for process in self.processes), *others]))

    def end(self):
        for process in self.processes:
            process.stdin.close()
            process.wait(LONG)
            process.stdout.close()


def models(program, folder):
    """mongoengine, as it is, over the relay: the documents of a class are kept, found, changed and removed. In a process of its own, as
    it keeps its connections."""
    relay = Relay(program, store(folder))
    done = subprocess.run([sys.executable, "-B", ROOT / "tests/drivers/models.py", relay.address], capture_output=True, text=True, timeout=LONG)
    if done.returncode:
        fail(f"models: {done.stdout[-500:]} {done.stderr[-1500:]}")
    holds("the end", relay.end(), 0)
    print(f"models: {done.stdout.strip()}")


def rates(program, folder, by=""):
    """A find by _id takes at most six times the processor that it takes over a server that answers with a constant, that of the client
    and of what answers it or passes it on: between 1.4 and 2.3 were measured, by what else the machine does. `rates=clock` also holds
    what passes by the clock, twice as long and a quarter more, and 8 clients get more than one: that only means something on a machine
    that does nothing else, before and meanwhile."""
    relay = Relay(program, store(folder))
    constant = subprocess.Popen([sys.executable, "-B", ROOT / "tests/drivers/constant.py"], stdout=subprocess.PIPE, text=True)
    atexit.register(constant.kill)
    line = relay.line()
    items = [{"_id": number, "name": f"n{number}", "tags": ["a", "b"], "at": number * 1.5} for number in range(100)]
    line.ask({"insert": "items", "documents": items, "$db": "shop"})
    every = {"constant": Clients(constant.stdout.readline().strip(), 1, 300), "one": Clients(relay.address, 1, 300),
             "eight": Clients(relay.address, 8, 50)}
    for clients in every.values():
        # The first finds open connections, and aren't counted.
        clients.turn()
    servers = {"constant": relaying.children_of(constant.pid), "one": [relay.process.pid], "eight": []}
    rate, seconds = dict.fromkeys(every, 0.0), dict.fromkeys(every, 0.0)
    for turn in range(6):
        for name, clients in every.items():
            begin = clients.seconds(*servers[name])
            rate[name] = max(rate[name], clients.rate())
            seconds[name] += clients.seconds(*servers[name]) - begin
    for clients in every.values():
        clients.end()
    constant.kill()
    constant.wait()
    constant.stdout.close()
    holds("the end", relay.end(), 0)
    told = ", ".join(f"{name} {number:.0f}" for name, number in rate.items())
    times = rate["constant"] / rate["one"], seconds["one"] / seconds["constant"]
    told = f"{told} finds a second, {times[0]:.2f} times as long by the clock, {times[1]:.2f} times by the processor"
    if times[1] > MOST_WORK or by == "clock" and (times[0] > LONGER or rate["eight"] <= rate["one"]):
        fail(f"rates: {told}")
    print(f"rates: {told}")


STEPS = [drivers, writes, batches, collections, transfers, models, hostile, hanging, names, limits, room, faults, kills, lost_clients, stops, sockets, addresses, systemd, rates]


def main():
    program, folder = relaying.program_of(sys.argv)
    atexit.register(shutil.rmtree, folder, ignore_errors=True)
    asked = [word.partition("=") for word in sys.argv[2:]] or [(step.__name__, "", "") for step in STEPS]
    named = {step.__name__: step for step in STEPS}
    for name, _, value in asked:
        if name not in named:
            fail(f"there is no step {name}")
        own = folder / name
        own.mkdir()
        named[name](program, own, *([value] if value else []))


if __name__ == "__main__":
    main()
