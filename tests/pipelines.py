#!/usr/bin/env python3
"""Runs the program fallowtime: pipelines made at random, beside an evaluation that is written from MongoDB's manual (version 8: Aggregation
Stages, $group, $unwind, Field Paths), over values of all kinds; and beside mongomock, of documents for which that answers as the manual says.

    tests/pipelines.py PROGRAM [COUNT [SEED]]

PROGRAM is fallowtime, under whatever name. COUNT is how many pipelines are asked of each collection, 60 if not given. Every collection is
there twice, without an index and with some. It ends with status 1 at the first answers that aren't as they should be.
"""
import functools
import json
import math
import os
import random
import subprocess
import sys
import tempfile
from fractions import Fraction

import amounts
import questions
from questions import order

COLLECTIONS, DOCUMENTS, SHOWN = 12, 20, 10
PATHS = ["a", "b", "a.b", "a.0", "0", "b.a", "a.a.b", "c", "_id"]
INDEXED = ["a", "b", "a.b"]
# Values of which many documents have the same, so that groups have several.
FEW = ["0", "1", '{"$numberLong":"1"}', "1.0", "2.5", "-3", '"x"', '"y"', "null", "true", "[]", '[1,"x"]', '[{"b":2},{"b":1.5}]', '{"b":1}']
CONSTANTS = ["1", "2.5", "null", "false", '"x"', '{"$numberLong":"9223372036854775807"}', '{"$numberDouble":"-Infinity"}', "2147483647"]
ACCUMULATORS = ["$sum", "$avg", "$min", "$max", "$first", "$last", "$push", "$addToSet"]
NULL, UNDEFINED, ZERO = ("null", ()), ("undefined", ()), ("int", Fraction(0))


class Stopped(Exception):
    """A sum or an average isn't calculated."""


# ---- values, as tests/questions.py has them; a document is the list of its members

def value_of(text):
    return questions.value_of(questions.tree_of(text))


def under(document, key):
    """The value under a key, or None."""
    return next((value for own, value in document if own == key), None)


def led_to(value, path):
    """What a field path leads to, or None: through documents, and into each document of an array."""
    if not path:
        return value
    if value[0] == "array":
        found = [led_to(item, path) for item in value[1] if item[0] == "object"]
        return ("array", [each for each in found if each is not None])
    if value[0] != "object" or under(value[1], path[0]) is None:
        return None
    return led_to(under(value[1], path[0]), path[1:])


def taken(operand, document):
    """What an operand of a group takes of a document, or None."""
    if isinstance(operand, str) and operand.startswith("$"):
        return led_to(("object", document), operand[1:].split("."))
    return value_of(json.dumps(operand))


# ---- groups

def float_of(number):
    return math.nan if number[1] is None else float(number[1])


def double(number):
    return ("double", None if math.isnan(number) else number if math.isinf(number) else Fraction(number))


def added(one, other):
    kinds = {one[0], other[0]}
    if "decimal" in kinds:
        raise Stopped("Decimal")
    if "double" in kinds:
        return double(float_of(one) + float_of(other))
    whole = one[1] + other[1]
    if kinds == {"int"} and -2**31 <= whole < 2**31:
        return ("int", whole)
    if not -2**63 <= whole < 2**63:
        raise Stopped("Overflow")
    return ("long", whole)


def best(values, turn):
    """The least or the greatest of the values, null and undefined aside; of equal ones the first."""
    found = NULL
    for value in values:
        if value not in (NULL, UNDEFINED) and (found == NULL or turn * order(value, found) < 0):
            found = value
    return found


def different(values):
    return [value for place, value in enumerate(values) if all(order(value, earlier) for earlier in values[:place])]


def accumulated(name, values):
    """What becomes of the values of the documents of a group, of which some are None."""
    there = [value for value in values if value is not None]
    numbers = [value for value in there if value[0] in questions.NUMBERS]
    if name in ("$sum", "$avg"):
        total = functools.reduce(added, numbers, ZERO)
        return total if name == "$sum" else double(float_of(total) / len(numbers)) if numbers else NULL
    if name in ("$min", "$max"):
        return best(there, 1 if name == "$min" else -1)
    if name in ("$first", "$last"):
        return values[0 if name == "$first" else -1] or NULL
    return ("array", there if name == "$push" else different(there))


def field_of(said, documents):
    (name, operand), = said.items()
    if name == "$count":
        name, operand = "$sum", 1
    return accumulated(name, [taken(operand, document) for document in documents])


def grouped(said, documents):
    groups = []
    for document in documents:
        key = taken(said["_id"], document) or NULL
        group = next((group for group in groups if order(group[0], key) == 0), None)
        if group:
            group[1].append(document)
        else:
            groups.append((key, [document]))
    groups.sort(key=functools.cmp_to_key(lambda one, other: order(one[0], other[0])))
    return [[("_id", key), *((name, field_of(field, own)) for name, field in said.items() if name != "_id")] for key, own in groups]


# ---- arrays taken apart

def with_at(document, path, value):
    """The document with another value at a path at which there is one, or with none there."""
    made = []
    for key, own in document:
        if key != path[0]:
            made.append((key, own))
        elif len(path) > 1:
            made.append((key, ("object", with_at(own[1], path[1:], value))))
        elif value is not None:
            made.append((key, value))
    return made


def at(document, path):
    """What a path leads to through documents alone, or None."""
    found = under(document, path[0])
    if len(path) == 1 or found is None:
        return found
    return at(found[1], path[1:]) if found[0] == "object" else None


def unwound(said, document):
    said = said if isinstance(said, dict) else {"path": said}
    path, keeps = said["path"][1:].split("."), said.get("preserveNullAndEmptyArrays", False)
    found = at(document, path)
    if found in (None, NULL, UNDEFINED):
        return [document] if keeps else []
    if found[0] != "array":
        return [document]
    if not found[1]:
        return [with_at(document, path, None)] if keeps else []
    return [with_at(document, path, item) for item in found[1]]


# ---- the other stages

def sort_values(value, path, named=False):
    """What a path leads to where documents are sorted; `named` is an item that was named by its place."""
    if not path:
        return (value[1] or [UNDEFINED]) if value[0] == "array" and not named else [value]
    if value[0] == "object":
        found = under(value[1], path[0])
        return [NULL] if found is None else sort_values(found, path[1:])
    if value[0] != "array":
        return [NULL]
    if path[0].isdigit() and str(int(path[0])) == path[0] and int(path[0]) < len(value[1]):
        return sort_values(value[1][int(path[0])], path[1:], True)
    found = [sort_values(item, path) if item[0] == "object" else [NULL] for item in value[1]]
    return [each for some in found for each in some] or [NULL]


def sorted_by(keys, documents):
    def lies(one, other):
        for path, turn in keys.items():
            of_each = [best_by(sort_values(("object", document), path.split(".")), turn) for document in (one, other)]
            if order(*of_each):
                return turn * order(*of_each)
        return 0
    return sorted(documents, key=functools.cmp_to_key(lies))


def best_by(values, turn):
    return min(values, key=functools.cmp_to_key(lambda one, other: turn * order(one, other)))


def left(paths, document, kept):
    """What is left of a document where paths, as lists of keys, name what is kept, or what isn't."""
    made = []
    for key, value in document:
        rests = [path[1:] for path in paths if path[0] == key]
        if not rests or [] in rests:
            made += [(key, value)] if bool(rests) == kept else []
        else:
            made += [(key, each) for each in inside(rests, value, kept)]
    return made


def inside(rests, value, kept):
    if value[0] == "object":
        return [("object", left(rests, value[1], kept))]
    if value[0] == "array":
        return [("array", [each for item in value[1] for each in inside(rests, item, kept)])]
    return [] if kept else [value]


def projected(said, document):
    kept = [path.split(".") for path, mark in said.items() if mark]
    if kept:
        return left(kept if "_id" in said else [["_id"], *kept], document, True)
    return left([path.split(".") for path in said], document, False)


def made_by(stage, documents):
    """What a stage makes of documents."""
    (name, said), = stage.items()
    if name == "$sort":
        return sorted_by(said, documents)
    if name == "$skip":
        return documents[said:]
    if name == "$limit":
        return documents[:said]
    if name == "$project":
        return [projected(said, document) for document in documents]
    if name == "$count":
        return [[(said, ("int", Fraction(len(documents))))]] if documents else []
    if name == "$unwind":
        return [made for document in documents for made in unwound(said, document)]
    if name == "$group":
        return grouped(said, documents)
    asked = questions.query_of(questions.tree_of(json.dumps(said)))
    return [document for document in documents if asked(document)]


def evaluated(stages, documents):
    """The documents that a pipeline makes, as a value, or the name of a refusal."""
    try:
        for stage in stages:
            if "$match" in stage:
                questions.query_of(questions.tree_of(json.dumps(stage["$match"])))
        for stage in stages:
            documents = made_by(stage, documents)
    except questions.Refused:
        return "Usage"
    except Stopped as stopped:
        return str(stopped)
    return ("array", [("object", document) for document in documents])


# ---- what is made at random

class Made(questions.Lines):
    """Random documents and pipelines."""

    def value(self, depth=0):
        return self.some(*FEW) if self.random.random() < 0.6 else super().value(depth)

    def kept(self, place):
        """A document that a store keeps, as a text."""
        while True:
            text = '{"_id":%d,%s' % (place, self.document()[1:])
            if questions.is_kept(text):
                return text

    def operand_of_group(self):
        return "$" + self.some(*PATHS) if self.random.random() < 0.8 else json.loads(self.some(*CONSTANTS))

    def grouping(self):
        said = {"_id": self.operand_of_group()}
        for name in self.random.sample(["n", "a", "b", "c"], self.random.randrange(4)):
            said[name] = {"$count": {}} if self.random.random() < 0.1 else {self.some(*ACCUMULATORS): self.operand_of_group()}
        return dict(self.random.sample(list(said.items()), len(said)))

    def unwinding(self):
        path = "$" + self.some(*PATHS)
        return self.some(path, {"path": path}, {"path": path, "preserveNullAndEmptyArrays": self.some(True, False)})

    def projection(self):
        mark = self.some(1, 0)
        said = dict.fromkeys(self.random.sample(["a", "b.a", "0", "c"], self.some(1, 2)), mark)
        return {**said, "_id": 0} if mark and self.random.random() < 0.2 else said

    def stage(self):
        return self.some(
            lambda: {"$match": json.loads(self.query())}, lambda: {"$match": {self.some(*INDEXED): {self.some(*questions.RANGES): self.some(0, 1, "x")}}},
            lambda: {"$sort": {path: self.some(1, -1) for path in self.random.sample(PATHS, self.some(1, 2))}}, lambda: {"$skip": self.some(0, 1, 3)},
            lambda: {"$limit": self.some(1, 2, 9)}, lambda: {"$project": self.projection()}, lambda: {"$count": self.some("n", "a")},
            lambda: {"$unwind": self.unwinding()}, lambda: {"$unwind": self.unwinding()}, lambda: {"$group": self.grouping()}, lambda: {"$group": self.grouping()})()

    def stages(self):
        return [self.stage() for _ in range(self.some(0, 1, 1, 2, 2, 3, 4))]


# ---- the program

def run(words, given=b""):
    return subprocess.run(["fallowtime", "p.db", *words], executable=PROGRAM, input=given, capture_output=True)


def answers_to(lines):
    ended = run([], "".join(line + "\n" for line in lines).encode())
    if (ended.returncode, ended.stderr) != (0, b""):
        sys.exit(f"pipelines.py: {ended}")
    return ended.stdout.decode().splitlines()


def told(line):
    """What an answer has: documents as a value, or the name of a refusal."""
    answer = dict(questions.tree_of(line)[1])
    return questions.value_of(answer["documents"]) if "documents" in answer else answer["error"][1]


def end_with(differing, asked):
    if differing:
        sys.exit("\n".join([f"pipelines.py: {len(differing)} of {asked} differ", *differing[:SHOWN]]))


def all_kinds(made, count):
    """Documents of all kinds, without an index and with some."""
    lines, asked = [], []
    for place in range(COLLECTIONS):
        texts = [made.kept(number) for number in range(made.random.randrange(DOCUMENTS))]
        documents = [value_of(text)[1] for text in texts]
        lines += [f'["index","i{place}","{path}"]' for path in INDEXED]
        lines += [f'["insert","{name}{place}",{text}]' for name in "ci" for text in texts]
        for stages in (made.stages() for _ in range(count)):
            asked += [(len(lines), stages, documents), (len(lines) + 1, stages, documents)]
            lines += [json.dumps(["aggregate", f"{name}{place}", stages]) for name in "ci"]
    answers = answers_to(lines)
    differing = [f"{json.dumps(stages)} of {documents}: {told(answers[line])}, and the evaluation: {wanted}" for line, stages, documents in asked
                 if told(answers[line]) != (wanted := evaluated(stages, documents))]
    end_with(differing, len(asked))
    print(f"{len(asked)} pipelines over lines, half of them with indexes")
    by_words(made.random.sample([json.loads(lines[line]) + [evaluated(stages, documents)] for line, stages, documents in asked], 40))


def by_words(asked):
    """The same on a command line, which prints a document a line, or refuses."""
    differing = []
    for _, name, stages, wanted in asked:
        ended = run(["aggregate", name, json.dumps(stages)])
        printed = len(ended.stdout.splitlines())
        if isinstance(wanted, str):
            right = ended.returncode == (2 if wanted == "Usage" else 1) and not printed and (wanted == "Usage" or f"refused: {wanted}\n".encode() == ended.stderr)
        else:
            right = (ended.returncode, printed, ended.stderr) == (0, len(wanted[1]), b"")
        if not right:
            differing.append(f"words: {name} {json.dumps(stages)}: {ended}, and the evaluation: {wanted}")
    end_with(differing, len(asked))
    print(f"{len(asked)} of them by words")


# ---- beside mongomock

class Plain:
    """Documents and pipelines for which mongomock answers as the manual says: at each path are values of one kind, and groups are sorted."""

    def __init__(self, seed):
        self.random = random.Random(seed)
        self.some = lambda *choices: self.random.choice(choices)

    def document(self, place):
        return {"_id": place, "a": self.some(0, 1, 2, 2.5, -7), "b": self.some("x", "y", "xy"), "c": [self.some(1, 2, 3) for _ in range(self.random.randrange(4))],
                "d": {"a": self.some(1, 2), "c": [self.some("p", "q") for _ in range(self.random.randrange(3))]}}

    def grouping(self):
        fields = {"n": {"$sum": 1}, "s": {"$sum": "$a"}, "m": {"$avg": "$a"}, "l": {"$min": "$d.a"}, "g": {"$max": "$a"}, "f": {"$first": "$_id"}, "e": {"$last": "$a"},
                  "p": {"$push": "$_id"}}
        names = self.random.sample(sorted(fields), self.some(1, 2, 4))
        return {"_id": self.some("$b", "$d.a", "$a", None), **{name: fields[name] for name in names}}

    def stages(self):
        stages = [{"$match": {"a": {"$gte": self.some(-9, 1, 2)}}}] if self.some(True, False) else []
        stages += [{"$unwind": self.some("$c", "$d.c", {"path": "$c", "preserveNullAndEmptyArrays": True})}] if self.some(True, False) else []
        stages += [{"$sort": {self.some("a", "b", "d.a"): self.some(1, -1), "_id": 1}}]
        stages += [{"$skip": self.some(1, 3)}] if self.some(True, False) else []
        stages += [{"$limit": self.some(2, 9)}] if self.some(True, False) else []
        return stages + self.some([], [{"$group": self.grouping()}, {"$sort": {"_id": 1}}], [{"$count": "n"}], [{"$project": {"b": 1, "d.c": 1}}])


def with_id_first(document):
    """mongomock puts the `_id` of a group last."""
    return {"_id": document["_id"], **document} if "_id" in document else document


def found_by(collection, stages):
    """What mongomock finds; of no documents it makes a count of 0, where the manual ($count) says that there is no document then."""
    found = [with_id_first(document) for document in collection.aggregate(stages)]
    return [] if found == [{"n": 0}] and stages[-1] == {"$count": "n"} else found


def beside_mongomock(seed, count):
    import mongomock

    made, lines, wanted = Plain(seed), [], []
    documents = [made.document(place) for place in range(DOCUMENTS)]
    collection = mongomock.MongoClient().db.c
    collection.insert_many(documents)
    lines += [json.dumps(["insert", "plain", document]) for document in documents]
    for stages in (made.stages() for _ in range(count)):
        lines.append(json.dumps(["aggregate", "plain", stages]))
        wanted.append((stages, found_by(collection, stages)))
    answers = [told(line) for line in answers_to(lines)[DOCUMENTS:]]
    differing = [f"{json.dumps(stages)}: {answer}, and mongomock: {found}" for answer, (stages, found) in zip(answers, wanted, strict=True)
                 if isinstance(answer, str) or order(answer, value_of(json.dumps(found)))]
    end_with(differing, count)
    print(f"{count} pipelines beside mongomock")


if __name__ == "__main__":
    PROGRAM = os.path.abspath(sys.argv[1])
    number = int(sys.argv[2]) if len(sys.argv) > 2 else 60
    start = int(sys.argv[3]) if len(sys.argv) > 3 else amounts.seed(67)
    with tempfile.TemporaryDirectory() as folder:
        os.chdir(folder)
        all_kinds(Made(start), number)
        beside_mongomock(start, 4 * number)
