#!/usr/bin/python3
"""Gives random lists of requests to `fallowtime FILE`, once with indexes and once without them, and compares the answers
and the rows of both files, byte for byte.

tests/indexes.py PROGRAM [LISTS [SEED]]

PROGRAM is the program under the name fallowtime. LISTS is how many lists there are, 350 if it isn't given (2500 in a long run), and
SEED the number of the first one. A list mixes changes of two collections with questions about paths that have an index or have
none, and with indexes that are made and dropped between them. Of a list whose answers differ, the shortest one that is
found is printed. Behind the lists questions are asked after each sort of change, and it is measured that those which an
index serves read few documents. At last random ranges are held against an evaluation by tests/questions.py. Ends with
status 1 if something isn't as it should be.
"""
import atexit
import base64
import json
import os
import pathlib
import random
import resource
import shutil
import sqlite3
import subprocess
import sys
import tempfile

import bson

import amounts
import questions

FOLDER = pathlib.Path(tempfile.mkdtemp(dir=amounts.memory_folder()))
atexit.register(shutil.rmtree, FOLDER, ignore_errors=True)
PROGRAM = str(FOLDER / "fallowtime")
os.symlink(pathlib.Path(sys.argv[1]).resolve(), PROGRAM)
LISTS = int(sys.argv[2]) if len(sys.argv) > 2 else amounts.amount(350, 2500)
SEED = int(sys.argv[3]) if len(sys.argv) > 3 else amounts.seed(1)
# How many lists one process answers, each over collections of its own.
BATCH = 50
# How often a time is measured.
RUNS = 3
OF_INDEXES = ("index", "drop_index")

IDS = [0, 1, 2, 3, 1.5, 2.0, "A", "B", None, {"x": 1}, {"$oid": "650000000000000000000002"}]
PATHS = ["a", "a", "a.b", "a.b", "a.0", "a.0.b", "a.1", "a.b.c", "b", "c", "_id", "_id.x", "", "a.", ".", "a.00", "none"]
KEYS = ["a", "a", "a", "a", "b", "c", "", "a.b", "0"]
NUMBERS = [0, 1, 2, 0.0, -0.0, 1.0, 1.5, 1e300, {"$numberLong": "1"}, {"$numberLong": "-7"}, {"$numberInt": "2"},
           {"$numberDouble": "NaN"}, {"$numberDouble": "-0.0"}, {"$numberDecimal": "1"}, {"$numberDecimal": "1.0"}]
ONES = [1, 1.0, {"$numberLong": "1"}, {"$numberDecimal": "1"}]
LEAVES = NUMBERS + [
    None, None, True, False, "", "a", "b", "1", "x" * 300, "x" * 299 + "y", {"$undefined": True}, {"$minKey": 1},
    {"$oid": "650000000000000000000002"}, {"$date": {"$numberLong": "1"}}, {"$date": {"$numberLong": "-1"}}, {"$timestamp": {"t": 1, "i": 0}},
    {"$regularExpression": {"pattern": "a", "options": "i"}}, {"$binary": {"base64": "YQ==", "subType": "00"}},
    {"$binary": {"base64": "YQ==", "subType": "80"}}, {"$symbol": "a"}, {"$code": "a"}]
KINDS = ["double", "string", "object", "array", "null", "int", "long", "number", "undefined"]
RANGES = ["$gt", "$gte", "$lt", "$lte"]
# Values that lie close to each other: beside whole numbers, at the ends of those of 64 bits, and texts with one beginning.
CLOSE = [
    [0, 0.5, -0.5, 1, 1.5, 0.999, -1, {"$numberDecimal": "0.5"}, {"$numberDecimal": "-0.1"}, {"$numberDouble": "NaN"}, {"$numberDecimal": "NaN"}],
    [{"$numberLong": "9223372036854775807"}, {"$numberLong": "-9223372036854775808"}, 9223372036854775807.0, -9.3e18, 1e300,
     {"$numberDouble": "Infinity"}, {"$numberDouble": "-Infinity"}, {"$numberDecimal": "9223372036854775808"}, 0],
    ["", "a", "aaaaaaa", "aaaaaaaa", "aaaaaaab", "aaaaaab", {"$symbol": "aaaaaaaa"}, "\u00e4\u00e4\u00e4\u00e4", "\u00ff"],
    [{"$date": {"$numberLong": str(n)}} for n in (-1, 0, 1, 9223372036854775807, -9223372036854775808)],
]


class Lists:
    """Requests, by chance."""

    def __init__(self, number):
        self.chance = random.Random(number)
        self.one_of, self.happens = self.chance.choice, lambda share: self.chance.random() < share
        self.names = [f"c{number}", f"d{number}"]
        # The paths and the values of this list are few, so that what is asked meets what is there.
        self.paths = self.chance.sample(PATHS, 3)
        self.met = {path: [None] for path in PATHS}
        self.leaves = self.chance.sample(LEAVES, 3) + [None] + (ONES if self.happens(0.3) else self.one_of(CLOSE) if self.happens(0.5) else [])

    def value(self, depth=0):
        if depth > 2 or self.happens(0.6):
            return self.one_of(self.leaves if self.happens(0.9) else LEAVES)
        if self.happens(0.4):
            return [self.value(depth + 1) for _ in range(self.chance.randrange(3))]
        keys = self.chance.sample(["b", "c", "0", ""], self.chance.randrange(1, 3))
        return {key: self.value(depth + 1) for key in keys}

    def document(self, own):
        keys = {self.one_of(KEYS) for _ in range(self.chance.randrange(4))}
        fields = [("_id", own), *((key, self.value()) for key in sorted(keys))]
        self.chance.shuffle(fields)
        self.meet(dict(fields), "")
        return dict(fields)

    def meet(self, value, path):
        """Notes what is at the paths of a document."""
        if path[1:] in self.met and path:
            self.met[path[1:]].append(value)
        for key, inner in value.items() if isinstance(value, dict) else enumerate(value) if isinstance(value, list) else ():
            self.meet(inner, f"{path}.{key}")

    def path(self):
        return self.one_of(self.paths if self.happens(0.85) else PATHS)

    def asked(self, path):
        """What is asked of a path."""
        def value():
            return self.one_of(self.met[path]) if self.happens(0.7) else self.value()

        return self.chance.choices([
            value, lambda: {"$eq": value()}, lambda: {"$in": [value() for _ in range(self.chance.randrange(4))]},
            lambda: {"$ne": value()}, lambda: {"$nin": [value()]}, lambda: {"$exists": self.happens(0.5)},
            lambda: {"$type": self.one_of(KINDS)}, lambda: {"$not": {"$eq": value()}},
            lambda: {"$eq": value(), "$exists": True}, lambda: {self.one_of(RANGES): value()},
            lambda: {self.one_of(RANGES[:2]): value(), self.one_of(RANGES[2:]): value()}, lambda: {"$all": [value() for _ in range(self.chance.randrange(3))]},
            lambda: {"$size": self.chance.randrange(3)}, lambda: {"$mod": [2, self.chance.randrange(2)]},
            lambda: {"$elemMatch": self.one_of([{self.one_of(RANGES): value()}, {"$eq": value()}, {"b": value()}])},
        ], [10, 2, 4, 1, 1, 1, 1, 1, 1, 6, 5, 2, 1, 1, 2])[0]()

    def query(self, depth=0):
        if depth > 2 or self.happens(0.65):
            paths = [self.path() for _ in range(self.chance.choices([1, 2, 0], [10, 4, 1])[0])]
            return {path: self.asked(path) for path in paths}
        joining = self.chance.choices(["$and", "$or", "$nor"], [4, 4, 1])[0]
        return {joining: [self.query(depth + 1) for _ in range(self.chance.choices([0, 1, 2, 3], [1, 10, 10, 10])[0])]}

    def stream(self):
        """Documents in BSON."""
        documents = [{"_id": own, "a": self.one_of([1, 1.0, "a", None, [1], {"b": 1}])} for own in self.chance.sample(range(4), 2)]
        return {"$binary": {"base64": base64.b64encode(b"".join(map(bson.encode, documents))).decode(), "subType": "00"}}

    def request(self):
        name, own = self.one_of(self.names), self.one_of(IDS)
        if self.happens(0.01):
            name = ""
        command = self.chance.choices(
            ["insert", "put", "replace", "set", "unset", "remove", "import", "find", "count", "index", "drop_index", "update", "replace-one", "delete"],
            [14, 4, 4, 6, 2, 6, 3, 24, 10, 9, 2, 6, 2, 3])[0]
        if command in ("insert", "put", "replace"):
            return [command, name, self.document(own)]
        if command == "set":
            return [command, name, own, self.one_of(KEYS), self.value()]
        if command == "unset":
            return [command, name, own, self.one_of(KEYS)]
        if command == "remove":
            return [command, name, own]
        if command == "update":
            key = self.one_of([key for key in KEYS if key])
            update = {"$set": {key: self.value()}} if self.happens(0.7) else {"$inc": {key: 1}}
            return [command, name, self.query(), update, *([{"many": True}] if self.happens(0.5) else [])]
        if command == "replace-one":
            document = self.document(own)
            if self.happens(0.8):
                del document["_id"]
            return [command, name, self.query(), document]
        if command == "delete":
            return [command, name, self.query(), *([{"many": True}] if self.happens(0.3) else [])]
        if command == "import":
            documents = [self.document(one) for one in self.chance.sample(IDS, self.chance.randrange(3))]
            return [command, name, self.stream() if self.happens(0.3) else documents]
        if command in OF_INDEXES:
            return [command, name, self.path()]
        if command == "find" and self.happens(0.5):
            return [command, name, self.query(), self.part()]
        return [command, name, self.query()]

    def part(self):
        """An order, and the first ones in it."""
        paths = [self.path() for _ in range(self.chance.choices([1, 2], [3, 1])[0])]
        return {"sort": {path: self.one_of([1, -1]) for path in paths}, "skip": self.chance.randrange(3), "limit": self.chance.randrange(1, 4)}

    def requests(self):
        listed = [self.request() for _ in range(self.chance.randrange(10, 60))]
        return listed + [["export", name] for name in self.names] + [["find", name] for name in self.names]


def fail(message):
    print(message)
    sys.exit(1)


def answers(requests, file):
    """The answers to requests over a new file."""
    for path in FOLDER.glob(f"{file}*"):
        path.unlink()
    text = "".join(json.dumps(request) + "\n" for request in requests)
    done = subprocess.run([PROGRAM, str(FOLDER / file)], input=text.encode(), stdout=subprocess.PIPE, stderr=subprocess.PIPE)
    lines = done.stdout.decode().splitlines()
    if (done.returncode, done.stderr, len(lines)) != (0, b"", len(requests)):
        fail(f"status {done.returncode}, {done.stderr!r}, {len(lines)} answers to {len(requests)} requests")
    return lines


def rows(file):
    with sqlite3.connect(FOLDER / file) as base:
        return base.execute("SELECT place, coll, idkey, body FROM documents ORDER BY place").fetchall()


def without_indexes(requests):
    return [request for request in requests if request[0] not in OF_INDEXES]


def difference(requests):
    """What differs with indexes and without, or None."""
    found = answers(requests, "with.db")
    for request, answer in zip(requests, found):
        if request[0] in OF_INDEXES and answer != ("{}" if request[1] else '{"error":"BadName"}'):
            return f"{json.dumps(request)}: {answer}"
    plain = without_indexes(requests)
    found = [answer for request, answer in zip(requests, found) if request[0] not in OF_INDEXES]
    for request, answer, wanted in zip(plain, found, answers(plain, "without.db")):
        if answer != wanted:
            return f"{json.dumps(request)}: {answer} in place of {wanted}"
    return None if rows("with.db") == rows("without.db") else "the rows of the files"


def shortest(requests):
    """The requests of a list that are left if each one is left out that isn't needed for a difference."""
    at = 0
    while at < len(requests):
        fewer = requests[:at] + requests[at + 1:]
        if difference(fewer):
            requests = fewer
        else:
            at += 1
    return requests


def report(lists):
    """Ends with the list that is at fault."""
    for number, requests in lists:
        found = difference(requests)
        if found:
            requests = shortest(requests)
            print(f"list {number}:", *map(json.dumps, requests), sep="\n")
            fail(f"with indexes and without them: {difference(requests)}")
    fail(f"the lists {lists[0][0]} to {lists[-1][0]} differ together, and none alone")


def compare():
    asked = made = met = 0
    for first in range(SEED, SEED + LISTS, BATCH):
        lists = [(number, Lists(number).requests()) for number in range(first, min(first + BATCH, SEED + LISTS))]
        requests = [request for _, listed in lists for request in listed]
        if difference(requests):
            report(lists)
        asked += sum(request[0] in ("find", "count") for request in requests)
        made += sum(request[0] == "index" for request in requests)
    print(f"{LISTS} lists, {asked} questions, {made} indexes: the answers and the rows are the same")


def seconds(requests, file):
    """The answers, and the processor's time: the least of several runs, as what else is done on the machine only adds to it."""
    least = None
    for _ in range(RUNS):
        began = resource.getrusage(resource.RUSAGE_CHILDREN).ru_utime
        found = answers(requests, file)
        took = resource.getrusage(resource.RUSAGE_CHILDREN).ru_utime - began
        least = took if least is None else min(least, took)
    return found, least


# Queries about a number that an index on a.b serves, and how many documents behind the changes below answer those about 100.
SERVED = [
    (lambda n: {"a.b": n}, 4),
    (lambda n: {"a.b": {"$eq": float(n)}}, 4),
    (lambda n: {"a.b": {"$in": [n, n + 1, "none"]}}, 5),
    (lambda n: {"a.b": {"$all": [n, n + 1]}}, 2),
    (lambda n: {"$or": [{"a.b": n}, {"a.b": {"$numberLong": str(n + 1)}, "text": {"$exists": True}}]}, 5),
    (lambda n: {"$and": [{"text": {"$ne": 1}}, {"_id": {"$gte": 0}, "a.b": n}]}, 1),
    (lambda n: {"a.b": {"$eq": n, "$type": "array"}}, 1),
    (lambda n: {"$or": [{"a.b": n}, {"a.b": {"$type": ["array", "decimal"]}}, {"a": {"$type": "array"}}]}, 23),
    (lambda n: {"a.b": {"$gte": n, "$lt": n + 3}}, 6),
    (lambda n: {"$and": [{"a.b": {"$gt": n - 0.5}}, {"a.b": {"$lte": n + 1.5}}]}, 5),
    (lambda n: {"text": {"$exists": True}, "a.b": {"$gt": {"$numberDecimal": str(n)}, "$lt": n + 2}}, 1),
]
# Queries that it doesn't serve.
NOT_SERVED = [
    (lambda n: {"a.b": {"$in": [n, None]}}, 5),
    (lambda n: {"$or": [{"a.b": {"$gte": n, "$lt": n + 3}}, {"text": "y"}]}, 7),
    (lambda n: {"$or": [{"a.b": n}, {"text": "y"}]}, 5),
]


def asked(query, numbers):
    return [["count", "c", query(n)] for n in numbers]


def changes_beside_indexes():
    """Requests that leave an index on a.b, over 2000 documents with a number there, 20 of which have it in an array too,
    after each sort of change, and after another index of the collection is dropped."""
    documents = [{"_id": n, "a": {"b": n}, "text": "x" * 200} for n in range(2000)]
    return [["import", "c", documents[:-9]], ["index", "c", "a.b"], ["index", "c", "text"], ["import", "c", documents[-9:-1]],
            ["insert", "c", documents[-1]], ["remove", "c", 0], ["set", "c", 1, "a", {"b": 0}], ["unset", "c", 2, "text"],
            ["replace", "c", documents[3]], ["put", "c", documents[4]], ["put", "c", {**documents[0], "_id": 2000}],
            ["import", "c", [{"_id": f"array {n}", "a": {"b": [n, n + 1]}} for n in range(0, 2000, 100)]],
            ["put", "c", {"_id": "documents", "a": [{"b": 100}, {"b": 101}]}],
            ["put", "c", {"_id": "decimal", "a": {"b": {"$numberDecimal": "1E+2"}}}],
            ["put", "c", {"_id": "last", "text": "y"}], ["drop_index", "c", "text"]]


def times_of(changes, requests, is_quick):
    """What requests are answered behind changes, and the processor's time of that with the indexes and without, without the time of the
    changes. The answers are the same; and if they have to be quick, the first takes a quarter at the most. As other processes take of
    the same processor, that is measured again if it doesn't."""
    plain = without_indexes(changes)
    for _ in range(amounts.TRIES):
        start = seconds(changes, "base.db")[1]
        found, by_index = seconds(changes + requests, "with.db")
        scanned, by_all = seconds(plain + requests, "without.db")
        if found[len(changes):] != scanned[len(plain):]:
            fail(f"the answers to {requests[0]} and those behind it differ")
        if not is_quick or by_index - start <= (by_all - start) / 4:
            return found[len(changes):], by_index - start, by_all - start
    fail(f"{requests[0]} and those behind it read many documents: {by_index - start:.3f} s, without the index {by_all - start:.3f} s")


def measure():
    """Questions are answered as without an index. Of those that it serves each sort takes a small part of the time."""
    changes, numbers, times = changes_beside_indexes(), range(0, 2000, amounts.amount(20, 4)), []
    for query, wanted in SERVED + NOT_SERVED:
        is_quick = len(times) < len(SERVED)
        found, *took = times_of(changes, asked(query, numbers), is_quick)
        count = json.loads(found[numbers.index(100)])["count"]
        if count != wanted:
            fail(f"the count by {query(100)} is {count}, and not {wanted}")
        times.append(took)
    quick, slow = map(sum, zip(*times[:len(SERVED)]))
    print(f"{len(SERVED) * len(numbers)} questions: {quick:.2f} s of the processor, without the index {slow:.2f} s")


def measure_sorted():
    """Of an order along the indexed path the first of a range are found without a way through all of it."""
    for way in (1, -1):
        questions = [["find", "c", {"a.b": {"$gte": n, "$lt": n + 1000}}, {"sort": {"a.b": way}, "limit": 10}]
                     for n in range(0, 1000, amounts.amount(20, 4))]
        _, by_index, by_all = times_of(changes_beside_indexes(), questions, True)
        print(f"{len(questions)} finds of ten in the order {way}: {by_index:.2f} s of the processor, without the index {by_all:.2f} s")


compare()
measure()
measure_sorted()
questions.by_indexes(PROGRAM, amounts.amount(400, 2000), SEED)
