#!/usr/bin/env python3
"""Runs the program fallowtime: updates and replacements with the option `upsert`, made at random, beside an evaluation that is written
from MongoDB's manual (version 8: Upsert Option, $setOnInsert, db.collection.replaceOne), over values as Python has them; what an update
makes of a document is that of tests/updates.py.

    tests/upserts.py PROGRAM [COUNT [SEED]]

PROGRAM is fallowtime, under whatever name. COUNT is how many requests are made, 2000 if not given. Each is asked over lines, and a few
by words as well. It ends with status 1 at the first answer that isn't as it should be.
"""
import json
import os
import random
import re
import subprocess
import sys
import tempfile

import amounts
import updates
from updates import NOTHING, REASONS, Refused, steps_of, text_of, tree_of, value_of

PROGRAM = os.path.abspath(sys.argv[1])
COUNT = int(sys.argv[2]) if len(sys.argv) > 2 else 2000
random.seed(int(sys.argv[3]) if len(sys.argv) > 3 else amounts.seed(20261128))
PATHS = ["a", "b", "c", "a.b", "a.c", "b.a", "b.a.c", "_id", "_id"]
OPERATORS = ["$set", "$setOnInsert", "$inc", "$push", "$unset", "$min", "$rename", "$addToSet"]
MADE = re.compile(r"[0-9a-f]{24}")
# How a line says why a path isn't set.
SAID = {REASONS["Conflict"]: "meets another path", REASONS["Id"]: "is of the _id, which is never changed", REASONS["Path"]: "is no path of keys",
        REASONS["Operand"]: "takes no such value"}


class Unread(Exception):
    """What `at` says of a request that can't be read."""


# ---- the evaluation


def fixed(query):
    """The document of the values that a query asks its paths to have, or what `at` says."""
    try:
        return updates.fixed(as_tree(query))
    except Refused as refusal:
        path, reason = re.fullmatch(r"\$eq, (.*): (.*)", str(refusal)).groups()
        raise Unread(f"query $eq {path} {SAID[reason]}") from None


def as_tree(value):
    return tree_of(json.dumps(value))


def put_in(query, update, replaces):
    """The document that is put in if none answers."""
    document = fixed(query)
    if replaces:
        new = value_of(as_tree(update))
        if "_id" in document and "_id" in new and text_of(document["_id"]) != text_of(new["_id"]):
            raise Refused("Id")
        return new if "_id" in new or "_id" not in document else {"_id": document["_id"], **new}
    for step in steps_of(as_tree(update), True):
        document = step(document)
    return document


def changed(document, update, replaces):
    if not replaces:
        for step in steps_of(as_tree(update), False):
            document = step(document)
        return document
    new = value_of(as_tree(update))
    if "_id" not in new:
        return {"_id": document["_id"], **new}
    if text_of(new["_id"]) != text_of(document["_id"]):
        raise Refused("Id")
    return new


# ---- the program


class Lines:
    """A file that the program has open."""

    def __init__(self, file):
        self.process = subprocess.Popen([PROGRAM, file], stdin=subprocess.PIPE, stdout=subprocess.PIPE, text=True)

    def ask(self, *request):
        self.process.stdin.write(json.dumps(request) + "\n")
        self.process.stdin.flush()
        return tree_of(self.process.stdout.readline())

    def documents(self, *request):
        answer = self.ask("find", "c", *request)
        assert "documents" in answer, (request, answer)
        return [value_of(tree) for tree in answer["documents"]]

    def end(self):
        self.process.stdin.close()
        assert self.process.wait() == 0


def shown(documents):
    return [text_of(document) for document in documents]


# ---- at random


def random_value(depth=1):
    if depth and random.random() < 0.2:
        return {key: random_value(0) for key in random.sample("abc", random.randint(0, 2))}
    return random.choice([None, True, 0, 1, 2, -1, 1.5, 2147483647, "", "x", "y", [], [1, "x"], [{"a": 1}]])


def random_condition():
    value = random_value()
    return random.choice([value, value, value, {"$eq": value}, {"$gt": 0}, {"$eq": value, "$exists": True}, {"$in": [1, "x"]}, {"$ne": 1}])


def random_query(depth=2):
    query = {path: random.randint(0, 6) if path == "_id" and random.random() < 0.8 else random_condition()
             for path in random.sample(PATHS, random.choice([0, 1, 1, 2]))}
    if depth and random.random() < 0.3:
        query["$and"] = [random_query(depth - 1) for _ in range(random.choice([1, 1, 2]))]
    if random.random() < 0.1:
        query["$or"] = [random_query(0), random_query(0)]
    return query


def random_update():
    update = {}
    for name in random.sample(OPERATORS, random.choice([1, 1, 2, 3])):
        paths = random.sample([path for path in PATHS if path != "_id"], random.choice([1, 1, 2]))
        operand = {"$inc": lambda: random.choice([1, 2, -0.5]), "$rename": lambda: random.choice("abc")}.get(name, random_value)
        update[name] = {path: operand() for path in paths}
    return update


def random_replacement():
    own = {"_id": random.randint(0, 6)} if random.random() < 0.3 else {}
    rest = {key: random_value() for key in random.sample("abc", random.randint(0, 3))}
    return {**own, **rest} if random.random() < 0.5 else {**rest, **own}


# ---- one request


def expected(held, found, query, update, replaces, several):
    """The answer, and what the collection has then; an `_id` that is made is NOTHINGNOTHING, as one that is asked for may be null."""
    if not found:
        new = put_in(query, update, replaces)
        own = new.get("_id", NOTHING)
        if own is not NOTHING and text_of(own) in [text_of(each["_id"]) for each in held]:
            raise Refused("DuplicateId")
        return {"matched": 0, "changed": 0, "upserted": own}, held + [new]
    fixed(query)
    for_each = found if several else found[:1]
    result, changes = list(held), 0
    for at, document in enumerate(for_each):
        place = [text_of(each["_id"]) for each in held].index(text_of(document["_id"]))
        try:
            result[place] = changed(document, update, replaces)
        except Refused as refusal:
            raise Refused(f"{refusal} {at}") from None
        changes += text_of(result[place]) != text_of(document)
    return {"matched": len(for_each), "changed": changes}, result


def one_request(lines):
    held = lines.documents()
    replaces = random.random() < 0.35
    query, update = random_query(), random_replacement() if replaces else random_update()
    several = not replaces and random.random() < 0.3
    options = {"upsert": True, **({"many": True} if several else {})}
    if random.random() < 0.5:
        options = dict(reversed(options.items()))
    request = ["replace-one" if replaces else "update", "c", query, update, options]
    found = lines.documents(query)
    try:
        steps_of(as_tree(update), True) if not replaces else None
    except Refused:
        assert "error" in lines.ask(*request), request
        return
    try:
        wanted, after = expected(held, found, query, update, replaces, several)
    except Unread as unread:
        wanted, after = {"error": "Usage", "at": str(unread)}, held
    except Refused as refusal:
        kind, _, at = str(refusal).partition(" ")
        wanted, after = {"error": kind, **({"document": int(at)} if at else {})}, held
    answer = value_of(lines.ask(*request))
    made = isinstance(answer, dict) and answer.get("upserted")
    if wanted.get("upserted") is NOTHING:
        assert isinstance(made, updates.Wrapped) and made.key == "$oid" and MADE.fullmatch(made.body), (request, answer)
        wanted["upserted"], after = made, after[:-1] + [{"_id": made, **after[-1]}]
    now = lines.documents()
    if text_of(answer) != text_of(wanted) or shown(now) != shown(after):
        sys.exit(f"upserts.py: {json.dumps(request)} over {shown(held)}\n  answered {text_of(answer)}, and not {text_of(wanted)};\n"
                 f"  left {shown(now)},\n  and not {shown(after)}")


def by_words(folder):
    """What is printed of words, and the status."""
    file = os.path.join(folder, "words.db")
    for words, status, printed in [
            (["insert", "c", '{"_id":1,"a":1}'], 0, "1\n"),
            (["update", "c", '{"_id":7,"b.c":2}', '{"$inc":{"n":1},"$setOnInsert":{"new":true}}', "--upsert"], 0, '{"matched":0,"changed":0,"upserted":7}\n'),
            (["update", "c", '{"_id":7,"b.c":2}', '{"$inc":{"n":1},"$setOnInsert":{"new":false}}', "--upsert"], 0, '{"matched":1,"changed":1}\n'),
            (["get", "c", "7"], 0, '{"_id":7,"b":{"c":2},"n":2,"new":true}\n'),
            (["update", "c", "{}", '{"$set":{"all":1}}', "--upsert", "--many"], 0, '{"matched":2,"changed":2}\n'),
            (["update", "c", '{"_id":1,"a":5}', '{"$set":{"b":1}}', "--upsert"], 1, ""),
            (["replace-one", "c", '{"_id":"x"}', '{"z":1}', "--upsert"], 0, '{"matched":0,"changed":0,"upserted":"x"}\n'),
            (["replace-one", "c", '{"_id":"y"}', '{"_id":"z"}', "--upsert"], 1, ""),
            (["update", "c", '{"a":"q"}', '{"$inc":{"a":1}}', "--upsert"], 1, ""),
            (["update", "c", '{"a":1,"$and":[{"a":2}]}', '{"$inc":{"n":1}}', "--upsert"], 2, ""),
            (["delete", "c", "{}", "--upsert"], 2, ""),
            (["count", "c"], 0, "3\n")]:
        done = subprocess.run([PROGRAM, file, *words], capture_output=True, text=True)
        if (done.returncode, done.stdout) != (status, printed):
            sys.exit(f"upserts.py: {words} ended with {done.returncode}, {done.stdout!r} and {done.stderr!r}")


def main():
    with tempfile.TemporaryDirectory() as folder:
        by_words(folder)
        lines = Lines(os.path.join(folder, "store.db"))
        for number in range(COUNT):
            if number % 25 == 0:
                lines.ask("delete", "c", {}, {"many": True})
            one_request(lines)
        for request, at in [(["update", "c", {}, {"$set": {"a": 1}}, {"upsert": 1}], "options"), (["update", "c", {}, {"$set": {"a": 1}}, {"upsert": True, "x": True}], "options"),
                            (["replace-one", "c", {}, {}, {"upsert": True, "many": True}], "options"), (["delete", "c", {}, {"upsert": True}], "options"),
                            (["replace-one", "c", {}, {}, {}], "arguments")]:
            answer = lines.ask(*request)
            if answer != {"error": "Usage", "at": at}:
                sys.exit(f"upserts.py: {json.dumps(request)} is answered by {answer}")
        lines.end()


main()
