#!/usr/bin/python3
"""Runs the program fallowtime: random documents found by random queries of every operator, in an order, of that a part, and some of their
fields, beside the evaluations of tests/questions.py and tests/pipelines.py; and beside mongomock, of documents and queries for which that
finds what MongoDB's manual says.

    tests/finds.py PROGRAM [COUNT [SEED]]

PROGRAM is fallowtime, under whatever name. COUNT is how many collections there are of each of the two sorts, 50 if not given. Each is there
twice, without an index and with some. It ends with status 1 at the first collection with answers that aren't as they should be.
"""
import datetime
import json
import os
import random
import subprocess
import sys
import tempfile

import mongomock
from bson import ObjectId, json_util

import amounts
import pipelines
import questions

DOCUMENTS, QUERIES, SHOWN = 40, 50, 3
STAGES = {"sort": "$sort", "skip": "$skip", "limit": "$limit", "fields": "$project"}


class Finds:
    """What both sorts of collections have."""

    def happens(self, share):
        return self.random.random() < share

    def options(self):
        """The options of a find, each by chance. No path of the fields begins with another one."""
        options = {}
        if self.happens(0.5):
            options["sort"] = {path: self.some(1, -1) for path in self.random.sample(self.ORDERS, self.some(1, 1, 2, 3))}
        if self.happens(0.3):
            options["skip"] = self.some(0, 1, 3)
        if self.happens(0.3):
            options["limit"] = self.some(*self.LIMITS)
        if self.happens(0.4):
            mark = self.some(1, 0)
            paths = self.random.sample(self.RETURNED if mark else self.LEFT_OUT, self.some(1, 2, 3))
            options["fields"] = {path: mark for path in paths if not any(path.startswith(other + ".") for other in paths)}
            options["fields"].update({"_id": 0} if self.happens(0.2) else {})
        return options


# ---- values of all kinds

class OfAllKinds(Finds, pipelines.Made):
    """Documents of values of all kinds, and queries by paths and values of which most are in the documents."""
    INDEXED, ORDERS, LIMITS = questions.INDEXED, [*pipelines.PATHS, "1", "a.1", "b.0.a"], [0, 1, 2, 9]
    RETURNED = LEFT_OUT = ["a", "a.b", "a.a.b", "a.0", "b", "b.a", "b.1", "0", "0.a", "1", "c", "_id"]

    def path(self):
        if not self.met or self.happens(0.2):
            return super().path()
        path = self.some(*self.met)[0]
        self.here = [value for other, value in self.met if other == path]
        return path

    def operand(self):
        return json.dumps(self.some(*self.here)) if self.here and self.happens(0.7) else super().operand()

    def operators(self, depth=0):
        """Half of those of arrays and texts are of operators for these, as few random ones are."""
        value = self.some(*self.here) if self.here else None
        if not isinstance(value, (list, str)) or self.happens(0.5):
            return super().operators(depth)
        name = self.some("$elemMatch", "$elemMatch", "$all", "$size") if isinstance(value, list) else "$regex"
        return '{"%s":%s}' % (name, self.body(name, depth))

    def body(self, operator, depth):
        if operator != "$elemMatch":
            return super().body(operator, depth)
        outside = self.met, self.here
        self.here = [item for value in self.here if isinstance(value, list) for item in value]
        self.met = [pair for item in self.here for pair in led_to(item)]
        made = super().body(operator, depth)
        self.met, self.here = outside
        return made

    def collection(self):
        """The texts of documents; finds, of each the text of a query and options; and what mongomock finds, as values, or nothing."""
        texts, finds = [self.kept(number) for number in range(DOCUMENTS)], []
        self.met = [pair for text in texts for pair in led_to(json.loads(text))]
        for _ in range(QUERIES):
            self.here = [value for path, value in self.met if path in self.INDEXED]
            finds.append((self.some(self.query, self.query, self.query, self.ranges)(), self.options()))
        return texts, finds, None


def led_to(value, path=""):
    """Paths in a value, as JSON has it, each with a value to which it leads."""
    if path:
        yield path, value
    if isinstance(value, list):
        for place, item in enumerate(value):
            yield from led_to(item, f"{path}.{place}".lstrip("."))
            yield from led_to(item, path)
    elif isinstance(value, dict) and not set(value) & questions.WRAPPERS:
        for key, item in value.items():
            yield from led_to(item, f"{path}.{key}".lstrip("."))


# ---- beside mongomock

class Agreed(Finds):
    """Documents and queries for which mongomock finds what the manual says. What it takes for something else isn't made, nor is what has a
    row in QUERIES (Beside MongoDB): decimals, regular expressions as values."""
    INDEXED = ["n", "t", "m", "l", "d.n", "d.l", "r.n", "l.0", "r.0.n"]
    # 0 and 1 are false and true for it, an Int64 of few bits is an Int32, NaN isn't NaN, and time stamps and others have no order. A
    # document is also one with its keys in another order, and an array in an array isn't found by $eq, but gone into by $elemMatch.
    NUMBERS, TEXTS = [-7, 2, 3, 4, 2.0, 2.5, -1e300, 5000000000], ["", "x", "xy", "x.y", "Jürgen", "X"]
    OTHERS = [True, False, datetime.datetime(2026, 1, 2), datetime.datetime(1960, 1, 2), ObjectId("650000000000000000000002")]
    KINDS = ["double", "string", "object", "array", "objectId", "bool", "date", "int", "long", "number"]
    # Paths that lead to one value, or to none where the last key is absent; and those that lead to several, through an array of documents,
    # of which there is one at least. The others may end before, at a scalar or in an array that has no such place: of these it takes
    # neither null nor $not for met, whatever is asked.
    SINGLE, MANY = ["_id", "n", "t", "m", "l", "d", "d.n", "d.t", "d.l", "r", "o"], ["r.n", "r.t", "r.l"]
    ENDING = ["l.0", "l.1", "d.l.0", "r.0.n", "r.1", "r.1.t", "m.n"]
    ARRAYS = ["l", "d.l", "r.l", "o"]
    # It sorts an array by its first item, in both directions: `o` has one at most.
    ORDERS = ["_id", "n", "t", "m", "d", "d.n", "d.t", "o", "l.0", "r.0.n", "m.n"]
    # With the path m.n it also leaves a scalar m out; and it fails where a scalar is in an array on the way. A limit of 0 is none.
    LEFT_OUT, LIMITS = ["_id", "n", "t", "m", "l", "d", "d.n", "d.l", "r", "r.n", "r.l", "o", "x"], [1, 2, 9]
    RETURNED = [*LEFT_OUT, "m.n"]

    def __init__(self, seed):
        self.random = random.Random(seed)
        self.some = lambda *choices: self.random.choice(choices)

    def scalar(self, null=True):
        return self.some(*self.NUMBERS, *self.TEXTS, *self.OTHERS, *([None] if null else []))

    def scalars(self, least, most, null=True):
        return [self.scalar(null) for _ in range(self.random.randint(least, most))]

    def present(self, members):
        return {key: value for key, value in members.items() if self.happens(0.75)}

    def inner(self):
        """A document, also one without a key; in a query `{}` would be what is absent, too."""
        made = self.present({"n": self.some(*self.NUMBERS), "t": self.some(*self.TEXTS, None), "l": self.scalars(0, 3)})
        self.met += [value for value in [made, *made.values()] if value not in ({}, None)]
        return made

    def document(self, number):
        return {"_id": number, **self.present({
            "n": self.some(*self.NUMBERS, None), "t": self.some(*self.TEXTS, None), "m": self.some(self.inner(), self.scalar()),
            "l": self.scalars(0, 4), "d": self.inner(), "r": [self.inner() for _ in range(self.some(1, 1, 2, 3))],
            "o": self.scalars(0, 1)})}

    def operand(self, null):
        return self.some(*self.met) if self.happens(0.3) else self.scalar(null)

    def between(self, most=2):
        """Null isn't what is absent for it here."""
        return {name: self.operand(False) for name in self.random.sample(questions.RANGES, self.some(1, most))}

    def all(self):
        """An empty one it takes for met, and null isn't what is absent."""
        return {"$all": self.scalars(1, 2, False)}

    def of_items(self, path):
        """A scalar has the size 1 for it, and is a document for the query of $elemMatch. Of the arrays of several documents $all fails if
        one is absent, and beside other operators it has to be met by one document alone."""
        if path == "r":
            return [lambda: {"$size": self.some(1, 2)}, *[lambda: {"$elemMatch": self.query(["n", "t", "l"], 1)}] * 3]
        made = [lambda: {"$size": self.some(0, 1, 2)}, *[lambda: {"$elemMatch": self.operators("n")}] * 3] if path in self.ARRAYS else []
        return made + ([self.all] if path in self.SINGLE else [])

    def operators(self, path, more=()):
        """It has no $mod, and no null, number or array under $type. Under $in it looks for the items of an array, and not for the array.
        Of several documents one has to meet all operators for it, or all of them if one is $ne or $nin."""
        null, alone = path not in self.ENDING, path in self.MANY
        between = [lambda: self.between(1 if alone else 2)] * 3
        asks = self.some(
            lambda: {"$eq": self.operand(null)}, lambda: {"$in": self.scalars(1, 5, null)}, lambda: {"$type": self.some(*self.KINDS)},
            lambda: {"$regex": self.some("^x", "^", "^x\\.", "^Jü", "^xy", "y", "[xy]\\.", "x+y?", "ü.*n$")}, lambda: {"$exists": self.some(True, 1)}, *between, *more)
        refuses = self.some(lambda: {"$ne": self.operand(null)}, lambda: {"$nin": self.scalars(1, 5, null)})
        if not alone and self.happens(0.15):
            return {**asks(), **refuses()}
        return asks() if self.happens(0.7) else refuses()

    def asked(self, path):
        """What is asked of a path. $elemMatch under $all takes a scalar for an array of it. Of several documents one without the key meets
        $exists with false, and beside other operators it isn't met where a path ends before. In $not there is no $options."""
        def own():
            return self.operators(path, self.of_items(path))

        choices = [own, own, own, own, lambda: self.operand(path not in self.ENDING)]
        choices += [lambda: {"$regex": "^x", **self.some({}, {"$options": ""})}]
        choices += [self.all] if path != "r.l" else []
        choices += [lambda: {"$all": [{"$elemMatch": self.between()}, {"$elemMatch": self.between()}]}] if path in ("l", "d.l", "o") else []
        choices += [lambda: {"$exists": self.some(False, 0)}] if path not in self.MANY else []
        choices += [lambda: {"$not": own()}] if path not in self.ENDING else []
        return self.some(*choices)()

    def query(self, paths, depth=0):
        if depth < 2 and self.happens(0.25):
            return {self.some("$and", "$or", "$nor"): [self.query(paths, depth + 1) for _ in range(self.some(1, 2, 3))]}
        return {path: self.asked(path) for path in self.random.sample(paths, self.some(0, 1, 1, 1, 1, 2, 2))}

    def collection(self):
        """As that of the others. Ids begin behind 0 and 1."""
        self.met = []
        documents = [self.document(number) for number in range(2, DOCUMENTS + 2)]
        finds = [(self.query(self.SINGLE + self.MANY + self.ENDING), self.options()) for _ in range(QUERIES)]
        texts = [text_of(document) for document in documents]
        return texts, [(text_of(query), options) for query, options in finds], found_by_mongomock(documents, finds)


def text_of(value, mode=json_util.RELAXED_JSON_OPTIONS):
    return json_util.dumps(value, json_options=mode)


def found_by_mongomock(documents, finds):
    """What each find finds, as a value. It changes the fields that it is given."""
    collection, made = mongomock.MongoClient().db.c, []
    collection.insert_many(documents)
    for query, options in finds:
        fields, keys, limits = options.get("fields"), options.get("sort"), {name: options.get(name, 0) for name in ("skip", "limit")}
        found = collection.find(query, fields and dict(fields), sort=keys and list(keys.items()), **limits)
        documents = [pipelines.with_id_first(document) for document in found]
        made.append(pipelines.value_of(text_of(documents, json_util.CANONICAL_JSON_OPTIONS)))
    return made


# ---- the program

def evaluated(query, options, documents):
    """The documents that a find returns, as a value, or the name of a refusal."""
    try:
        asked = questions.query_of(questions.tree_of(query))
    except questions.Refused:
        return "Usage"
    documents = [document for document in documents if asked(document)]
    for option, stage in STAGES.items():
        if option in options:
            documents = pipelines.made_by({stage: options[option]}, documents)
    return ("array", [("object", document) for document in documents])


def answers_to(file, lines):
    given = "".join(line + "\n" for line in lines).encode()
    ended = subprocess.run(["fallowtime", file], executable=PROGRAM, input=given, capture_output=True)
    if (ended.returncode, ended.stderr) != (0, b""):
        sys.exit(f"finds.py: {ended}")
    return ended.stdout.decode().splitlines()


def compare(file, indexed, texts, finds, others):
    """Asks a collection, and one with indexes, which are made when half of the documents are in; and returns how many finds find some."""
    half = len(texts) // 2
    lines = [f'["import","{name}",[{",".join(texts[:half])}]]' for name in "ci"]
    lines += [f'["index","i","{path}"]' for path in indexed]
    lines += [f'["import","{name}",[{",".join(texts[half:])}]]' for name in "ci"]
    begun = len(lines)
    lines += [f'["find","{name}",{query},{json.dumps(options)}]' for query, options in finds for name in "ci"]
    answers = answers_to(file, lines)[begun:]
    documents, differing, some = [pipelines.value_of(text)[1] for text in texts], [], 0
    for place, (query, options) in enumerate(finds):
        answer, by_index = answers[2 * place:2 * place + 2]
        got, wanted = pipelines.told(answer), evaluated(query, options, documents)
        beside = others[place] if others else wanted
        if answer != by_index or got != wanted or got != beside:
            differing.append(f"{query} {options} of {texts}: {answer}; with indexes {by_index}; wanted {wanted}; of mongomock {beside}")
        some += wanted not in ("Usage", ("array", []))
    if differing:
        sys.exit("\n".join([f"finds.py: {len(differing)} of {len(finds)} differ", *differing[:SHOWN]]))
    return some


def main(count=amounts.amount(25, 50), seed=amounts.seed(67)):
    for sort, told in (OfAllKinds, "with values of all kinds"), (Agreed, "beside mongomock, too"):
        made = sort(seed)
        with tempfile.TemporaryDirectory() as folder:
            some = sum(compare(f"{folder}/{place}.db", made.INDEXED, *made.collection()) for place in range(count))
        print(f"{count * QUERIES} finds in {count * DOCUMENTS} documents, {some} of which find some, {told}")


if __name__ == "__main__":
    PROGRAM = os.path.abspath(sys.argv[1])
    main(*map(int, sys.argv[2:]))
