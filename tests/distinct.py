#!/usr/bin/env python3
"""Runs the program fallowtime: the different values of documents made at random, beside an evaluation that is written from MongoDB's
manual (version 8: db.collection.distinct, Query an Array, and Comparison/Sort Order), over values as Python has them.

    tests/distinct.py PROGRAM [COUNT [SEED]]

PROGRAM is fallowtime, under whatever name. COUNT is how many collections are made, 400 if not given. Each is asked over lines, and a few
by words as well. It ends with status 1 at the first answer that isn't as it should be.
"""
import functools
import json
import os
import random
import subprocess
import sys
import tempfile

import amounts

PROGRAM = os.path.abspath(sys.argv[1])
COUNT = int(sys.argv[2]) if len(sys.argv) > 2 else 400
random.seed(int(sys.argv[3]) if len(sys.argv) > 3 else amounts.seed(20261128))
PATHS = ["a", "b", "a.b", "a.0", "a.1", "a.b.a", "a.0.b", "a.b.0", "b.a", "a.a", "a.0.0", "c", "_id"]
VALUES = [None, 0, 1, 2, -1, 1.5, 1.0, 2.0, 3, "", "x", "y", "xy", True, False, 7]


def rank(value):
    """The place of a value's kind among the kinds."""
    kinds = [(type(None), 2), (bool, 9), ((int, float), 3), (str, 4), (dict, 5), (list, 6)]
    return next(place for kind, place in kinds if isinstance(value, kind))


def compare(one, other):
    """-1, 0 or 1: how a value lies to another."""
    if rank(one) != rank(other):
        return -1 if rank(one) < rank(other) else 1
    if one is None:
        return 0
    if isinstance(one, str):
        one, other = one.encode(), other.encode()
    if isinstance(one, list):
        return compare_lists(one, other, compare)
    if isinstance(one, dict):
        return compare_lists(list(one.items()), list(other.items()), compare_members)
    return (one > other) - (one < other)


def compare_lists(one, other, by):
    for pair in zip(one, other):
        if by(*pair):
            return by(*pair)
    return (len(one) > len(other)) - (len(one) < len(other))


def compare_members(one, other):
    if rank(one[1]) != rank(other[1]):
        return -1 if rank(one[1]) < rank(other[1]) else 1
    return compare(one[0], other[0]) or compare(one[1], other[1])


def values_at(value, path):
    """The values that a path leads to, in order."""
    if not path:
        return value if isinstance(value, list) else [value]
    key, rest = path[0], path[1:]
    if isinstance(value, dict):
        return values_at(value[key], rest) if key in value else []
    found = []
    for place, item in enumerate(value if isinstance(value, list) else []):
        if isinstance(item, dict) and key in item:
            found += values_at(item[key], rest)
        if str(place) == key:
            found += values_at(item, rest)
    return found


def counted(documents, path):
    """Pairs of a value, the first of equal ones, and the number of documents that have it, in the order of values."""
    pairs = []
    for document in documents:
        here = values_at(document, path.split("."))
        for place, value in enumerate(here):
            if any(compare(value, earlier) == 0 for earlier in here[:place]):
                continue
            known = next((pair for pair in pairs if compare(pair[0], value) == 0), None)
            if known:
                known[1] += 1
            else:
                pairs.append([value, 1])
    return sorted(pairs, key=functools.cmp_to_key(lambda one, other: compare(one[0], other[0])))


def some_value(depth):
    part = random.random()
    if depth > 0 and part < 0.25:
        return {key: some_value(depth - 1) for key in random.sample(["a", "b", "0"], random.randint(0, 2))}
    if depth > 0 and part < 0.55:
        return [some_value(depth - 1) for _ in range(random.randint(0, 3))]
    return random.choice(VALUES)


def some_document(number):
    document = {"_id": number}
    for key in random.sample(["a", "b"], random.randint(0, 2)):
        document[key] = some_value(3)
    return document


def canonical(value):
    """A value as canonical Extended JSON."""
    if isinstance(value, bool) or value is None or isinstance(value, str):
        return value
    if isinstance(value, int):
        return {"$numberInt": str(value)}
    if isinstance(value, float):
        return {"$numberDouble": repr(value)}
    if isinstance(value, list):
        return [canonical(item) for item in value]
    return {key: canonical(inner) for key, inner in value.items()}


def holds(what, got, wanted):
    """That two JSON values are the same, 1 and 1.0 and true told apart."""
    if json.dumps(got) != json.dumps(wanted):
        sys.exit(f"distinct.py: {what}: {json.dumps(got)}, not {json.dumps(wanted)}")


def run(words, given=b""):
    return subprocess.run(["fallowtime", "s.db", *words], executable=PROGRAM, input=given, capture_output=True)


def options_of(counts):
    """The options of a line: counts, if they are wanted; nothing, or in so many words none, if not."""
    return [{"count": True}] if counts else random.choice([[], [{}], [{"count": False}]])


with tempfile.TemporaryDirectory() as folder:
    os.chdir(folder)
    lines, asked = [], []
    for place in range(COUNT):
        documents = [some_document(number) for number in range(random.randint(0, 8))]
        path, counts, some = random.choice(PATHS), random.random() < 0.5, random.random() < 0.3
        query = {"_id": {"$gte": 3}} if some else {}
        lines.append(["import", f"c{place}", documents])
        lines.append(["distinct", f"c{place}", path, query, *options_of(counts)])
        asked.append(([document for document in documents if not some or document["_id"] >= 3], documents, path, counts, query))
    ended = run([], "".join(json.dumps(line) + "\n" for line in lines).encode())
    holds("status", (ended.returncode, ended.stderr.decode()), (0, ""))
    answers = [json.loads(line) for line in ended.stdout.splitlines()]
    for place, (meant, documents, path, counts, query) in enumerate(asked):
        wanted = [{"value": canonical(value), "count": count} if counts else canonical(value) for value, count in counted(meant, path)]
        holds(f"{documents} {path}", answers[2 * place + 1], {"values": wanted})
    print(f"{COUNT} collections, asked over lines")
    some = random.sample(range(COUNT), min(40, COUNT))
    for place in some:
        meant, documents, path, counts, query = asked[place]
        ended = run(["distinct", f"c{place}", path, json.dumps(query), *(["--count"] if counts else [])])
        holds(f"words: {documents} {path}: status", (ended.returncode, ended.stderr.decode()), (0, ""))
        wanted = [{"value": value, "count": count} if counts else value for value, count in counted(meant, path)]
        holds(f"words: {documents} {path}", [json.loads(line) for line in ended.stdout.splitlines()], wanted)
    print(f"{len(some)} of them asked by words")
    for words, refusal in [(["distinct", "c0"], b"words: usage"), (["distinct", "c0", "a", "{}", "--sort", "a"], b"words: usage")]:
        ended = run(words)
        if ended.returncode != 2 or not ended.stderr.startswith(refusal):
            sys.exit(f"distinct.py: {words}: {ended}")
