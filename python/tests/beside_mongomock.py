"""Random lists of calls over a collection of this package and over one of mongomock, which answer the same. What is
called, and with what, is of where mongomock answers as MongoDB's manual says.

    beside_mongomock.py FILE LISTS FIRST

makes so many lists, of which FIRST is the number of the first one, over a store in a new FILE. It is a process of its
own, as errors have other classes once pymongo was imported. Ends with status 1 behind an answer that differs."""
import copy
import random
import sys

import mongomock
import pymongo
from common import is_same

import fallowtime

# How many calls a list has.
CALLS = 40
IDS = [1, 2, 3, 4, 5, "a", "b", "c"]
NUMBERS, TEXTS = [-1, 0, 1, 2, 3, 2.5, 7], ["", "a", "b", "ab", "x", "é"]
# What is at a path. Values of other sorts are left out there, as mongomock compares across sorts in its own way.
VALUES = {"a": NUMBERS, "b": TEXTS, "c": [1, 2, 3, "a", "b"], "d.a": NUMBERS, "d.b": TEXTS}
PLAIN = ["a", "b", "d.a", "d.b"]
RANGES = ["$gt", "$gte", "$lt", "$lte"]
MEMBERS = ["inserted_id", "inserted_ids", "matched_count", "modified_count", "upserted_id", "deleted_count"]
COUNTS = ["nInserted", "nUpserted", "nMatched", "nModified", "nRemoved", "upserted"]
BULK_ERRORS = (fallowtime.BulkWriteError, pymongo.errors.BulkWriteError)


class Calls:
    """Calls, by chance: each is the name of a method, its arguments and its options."""

    def __init__(self, number):
        self.chance = random.Random(number)
        self.one_of, self.happens = self.chance.choice, lambda share: self.chance.random() < share

    def array(self):
        return [self.one_of(VALUES["c"]) for _ in range(self.chance.randrange(4))]

    def inner(self):
        return {key: self.one_of(VALUES[f"d.{key}"]) for key in self.chance.sample("ab", self.chance.randrange(1, 3))}

    def document(self):
        """Of one key at least, as mongomock takes no replacement without one."""
        made = {"a": self.one_of(NUMBERS), "b": self.one_of(TEXTS), "c": self.array(), "d": self.inner()}
        return {key: made[key] for key in self.chance.sample("abcd", self.chance.randrange(1, 5))}

    def new(self):
        return {"_id": self.one_of(IDS), **self.document()}

    def asked(self, path):
        """What is asked of a path."""
        values = VALUES[path]
        choices = [
            lambda: self.one_of(values), lambda: {"$eq": self.one_of(values)}, lambda: {"$ne": self.one_of(values)},
            lambda: {"$in": self.chance.sample(values, 2)}, lambda: {"$nin": self.chance.sample(values, 2)},
            lambda: {"$exists": self.happens(0.5)}]
        if path == "c":
            choices += [self.array, lambda: {"$size": self.chance.randrange(3)},
                        lambda: {"$all": self.chance.sample(values, 2)},
                        lambda: {"$elemMatch": {"$in": self.chance.sample(values, 2)}}]
        else:
            choices += [lambda: {self.one_of(RANGES): self.one_of(values)},
                        lambda: {"$gte": self.one_of(values), "$lt": self.one_of(values)},
                        lambda: {"$not": {self.one_of(RANGES): self.one_of(values)}}]
        return self.one_of(choices)()

    def query(self, depth=0):
        if self.happens(0.3):
            return {"_id": self.one_of(IDS)}
        if depth and self.happens(0.2):
            return {"_id": {"$in": self.chance.sample(IDS, 3)}}
        if depth < 2 and self.happens(0.2):
            return {self.one_of(["$and", "$or", "$nor"]): [self.query(depth + 1) for _ in range(2)]}
        return {path: self.asked(path) for path in self.chance.sample(list(VALUES), self.chance.randrange(3))}

    def update(self):
        """An update by operators, of some paths of which none is the beginning of another one."""
        update = {}
        for path in self.chance.sample(list(VALUES), self.chance.randrange(1, 4)):
            operator, value = self.operation(path)
            update.setdefault(operator, {})[path] = value
        return update

    def operation(self, path):
        if path == "c":
            return self.one_of([("$set", self.array()), ("$push", self.one_of(VALUES[path])), ("$unset", ""),
                                ("$addToSet", self.one_of(VALUES[path])), ("$pull", self.one_of(VALUES[path])),
                                ("$push", {"$each": self.array()}), ("$setOnInsert", self.array())])
        value = self.one_of(VALUES[path])
        operators = ["$set", "$set", "$unset", "$setOnInsert", "$min", "$max"]
        return self.one_of(operators + ["$inc", "$inc"] * (path in ("a", "d.a"))), value

    def change(self):
        """A query, an update of what it selects, and whether that is put in otherwise, with the `_id` that the query
        has then."""
        if self.happens(0.2):
            return [{"_id": self.one_of(IDS)}, self.update()], {"upsert": True}
        return [self.query(), self.update()], {}

    def sort(self):
        paths = self.chance.sample(PLAIN, self.chance.randrange(2))
        return [*((path, self.one_of([1, -1])) for path in paths), ("_id", 1)]

    def sorted(self):
        return {"sort": self.sort()} if self.happens(0.3) else {}

    def request(self):
        return self.one_of([
            lambda: ("InsertOne", self.new()), lambda: ("UpdateOne", self.query(), self.update()),
            lambda: ("UpdateMany", self.query(), self.update()), lambda: ("ReplaceOne", self.query(), self.document()),
            lambda: ("DeleteOne", self.query()), lambda: ("DeleteMany", {"_id": self.one_of(IDS)}),
        ])()

    def call(self):
        return self.chance.choices([
            lambda: ("insert_one", [self.new()], {}),
            lambda: ("insert_many", [[self.new() for _ in range(3)]], {"ordered": False}),
            lambda: ("find", [self.query()], {}),
            lambda: ("find", [self.query()], {"sort": self.sort(), "skip": self.chance.randrange(3),
                                              "limit": self.chance.randrange(3)}),
            lambda: ("find", [self.query(), {path: 0 for path in self.chance.sample(["a", "b", "c", "d.a"], 2)}], {}),
            lambda: ("find", [self.query(), self.chance.sample(["a", "b", "c", "d.a"], 2)], {}),
            lambda: ("find_one", [self.query()], self.sorted()),
            lambda: ("count_documents", [self.query()], {}),
            lambda: ("distinct", [self.one_of(list(VALUES)), self.query()], {}),
            lambda: ("update_one", *self.change()),
            lambda: ("update_many", *self.change()),
            lambda: ("replace_one", [self.query(), self.document()], {}),
            lambda: ("replace_one", [{"_id": self.one_of(IDS)}, self.document()], {"upsert": True}),
            lambda: ("delete_one", [self.query()], {}),
            lambda: ("delete_many", [{**self.query(), "_id": self.one_of(IDS)}], {}),
            lambda: ("find_one_and_update", *self.change()),
            lambda: ("find_one_and_replace", [self.query(), self.document()], {"return_document": self.happens(0.5)}),
            lambda: ("find_one_and_delete", [self.query()], self.sorted()),
            lambda: ("bulk_write", [[self.request() for _ in range(4)]], {"ordered": self.happens(0.5)}),
        ], [8, 6, 4, 3, 1, 1, 3, 3, 2, 6, 4, 2, 1, 2, 1, 3, 2, 1, 3])[0]()


def requests_of(module, requests):
    return [getattr(module, kind)(*copy.deepcopy(words)) for kind, *words in requests]


def answer_of(collection, module, name, arguments, options):
    """What a call returns, or what it raises, in words of both packages."""
    given = [requests_of(module, *arguments)] if name == "bulk_write" else copy.deepcopy(arguments)
    try:
        answer = getattr(collection, name)(*given, **options)
        answer = documents_of(answer, arguments) if name == "find" else answer
        answer = sorted(answer, key=repr) if name == "distinct" else answer
    except BULK_ERRORS as error:
        return error_of_bulk(error.details)
    except NotImplementedError:
        raise
    except Exception as error:
        return "duplicate" if getattr(error, "code", None) == 11000 else "error"
    if name == "bulk_write":
        return {name: answer.bulk_api_result.get(name) or 0 for name in COUNTS}
    return {member: getattr(answer, member) for member in MEMBERS if hasattr(answer, member)} or answer


def documents_of(cursor, arguments):
    """The documents of a cursor; those of which parts are wanted with their keys in order, as mongomock has them in
    another one."""
    return [dict(sorted(document.items())) if len(arguments) > 1 else document for document in cursor]


def error_of_bulk(details):
    """Which requests were refused, and what the others did."""
    faults = [(fault["index"], fault["code"] == 11000) for fault in details["writeErrors"]]
    return {"faults": faults, **{name: details.get(name) or 0 for name in COUNTS}}


def hold(ours, theirs, number):
    """Makes the calls of a list on both sides, and compares the answers and what is there behind each one."""
    calls, made = Calls(number), []
    for _ in range(CALLS):
        name, arguments, options = call = calls.call()
        try:
            found = answer_of(ours, fallowtime, name, arguments, options)
        except NotImplementedError:
            continue
        made.append(call)
        wanted = answer_of(theirs, pymongo, name, arguments, options)
        if not is_same(found, wanted):
            sys.exit(f"list {number}: {found!r} in place of {wanted!r}, behind {made!r}")
        left, right = list(ours.find()), list(theirs.find())
        if not is_same(left, right):
            sys.exit(f"list {number}: {left!r} is there in place of {right!r}, behind {made!r}")


def main(file, lists, first):
    with fallowtime.open(file) as store:
        for number in range(int(first), int(first) + int(lists)):
            hold(store[f"c{number}"], mongomock.MongoClient().db.c, number)


if __name__ == "__main__":
    main(*sys.argv[1:])
