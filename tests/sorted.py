#!/usr/bin/env python3
"""Runs the program fallowtime: documents made at random, found in an order and of that a part, beside an evaluation that is written from
MongoDB's manual (version 8: cursor.sort, Comparison/Sort Order, and Sort with arrays), over values as Python has them.

    tests/sorted.py PROGRAM [COUNT [SEED]]

PROGRAM is fallowtime, under whatever name. COUNT is how many collections are made, 400 if not given. Each is asked over lines, and a few
by words as well. It ends with status 1 at the first answer that isn't as it should be.
"""
import functools
import json
import os
import random
import subprocess
import sys
import tempfile

import amounts

PROGRAM = os.path.abspath(sys.argv[1])
COUNT = int(sys.argv[2]) if len(sys.argv) > 2 else 400
random.seed(int(sys.argv[3]) if len(sys.argv) > 3 else amounts.seed(20261128))
# Texts that are no paths, or likely to mean something else, by the option of a command line.
ODD = {"sort": ["-a", "+a", "a,-b", "a:desc", "a:-2", "a:1:1", "a, b", " a", "a ", '{"a":-1}', '"a"', "", "a.", ".a", "a,,b", ":-1"],
       "fields": ["-a", "+a", "a, b", '{"a":1}', "a:1", '"a"'], "without": ["-a", "a, b", "a:0"]}
PATHS = ["a", "b", "a.b", "a.0", "a.1", "a.b.a", "a.0.b", "a.b.0", "b.a", "a.a", "a.0.0", "_id"]
VALUES = [None, 0, 1, 2, -1, 1.5, 3, "", "x", "y", "xy", True, False, 7, 10]
UNDEFINED = object()


def rank(value):
    """The place of a value's kind among the kinds."""
    if value is UNDEFINED:
        return 1
    kinds = [(type(None), 2), (bool, 9), ((int, float), 3), (str, 4), (dict, 5), (list, 6)]
    return next(place for kind, place in kinds if isinstance(value, kind))


def compare(one, other):
    """-1, 0 or 1: how a value lies to another."""
    if rank(one) != rank(other):
        return -1 if rank(one) < rank(other) else 1
    if rank(one) < 3:
        return 0
    if isinstance(one, str):
        one, other = one.encode(), other.encode()
    if isinstance(one, list):
        return compare_lists(one, other, compare)
    if isinstance(one, dict):
        return compare_lists(list(one.items()), list(other.items()), compare_members)
    return (one > other) - (one < other)


def compare_lists(one, other, by):
    for pair in zip(one, other):
        if by(*pair):
            return by(*pair)
    return (len(one) > len(other)) - (len(one) < len(other))


def compare_members(one, other):
    if rank(one[1]) != rank(other[1]):
        return -1 if rank(one[1]) < rank(other[1]) else 1
    return compare(one[0], other[0]) or compare(one[1], other[1])


def led_to(value, path, named=False):
    """What a path leads to, as an index on it has keys for a document; `named` is an item that was named by its place."""
    if not path:
        return (value or [UNDEFINED]) if isinstance(value, list) and not named else [value]
    key, rest = path[0], path[1:]
    if isinstance(value, dict):
        return led_to(value[key], rest) if key in value else [None]
    if not isinstance(value, list):
        return [None]
    if key.isdigit() and str(int(key)) == key and int(key) < len(value):
        return led_to(value[int(key)], rest, True)
    found = [led_to(item, path) if isinstance(item, dict) else [None] for item in value]
    return [each for some in found for each in some] or [None]


def sort_value(document, path, descending):
    turn = -1 if descending else 1
    return min(led_to(document, path), key=functools.cmp_to_key(lambda one, other: turn * compare(one, other)))


def arranged(documents, keys, skip, limit):
    """The ids of the part, in its order."""
    def order(one, other):
        for path, descending in keys:
            values = [sort_value(document, path.split("."), descending) for document in (one, other)]
            if compare(*values):
                return -compare(*values) if descending else compare(*values)
        return 0
    found = [document["_id"] for document in sorted(documents, key=functools.cmp_to_key(order))]
    return found[skip:] if limit is None else found[skip:skip + limit]


def some_value(depth):
    part = random.random()
    if depth > 0 and part < 0.25:
        return {key: some_value(depth - 1) for key in random.sample(["a", "b", "0"], random.randint(0, 2))}
    if depth > 0 and part < 0.55:
        return [some_value(depth - 1) for _ in range(random.randint(0, 3))]
    return random.choice(VALUES)


def some_document(number):
    document = {"_id": number}
    for key in random.sample(["a", "b"], random.randint(0, 2)):
        document[key] = some_value(3)
    return document


def some_question():
    """Keys, how many are skipped, and how many there are at most."""
    keys = dict((random.choice(PATHS), random.random() < 0.5) for _ in range(random.randint(0, 3)))
    return list(keys.items()), random.choice([0, 0, 1, 2, 9]), random.choice([None, None, 0, 1, 2, 3, 9, 2**64 - 1])


def options_of(keys, skip, limit):
    """The options as a line has them, in any order."""
    options = {}
    if keys or random.random() < 0.3:
        options["sort"] = {path: -1 if descending else 1 for path, descending in keys}
    if skip or random.random() < 0.3:
        options["skip"] = skip
    if limit is not None:
        options["limit"] = limit
    return dict(random.sample(list(options.items()), len(options)))


def words_of(keys, skip, limit):
    """The options as words, in any order."""
    words = []
    if keys:
        words.append(["--sort", ",".join(path + (":-1" if descending else random.choice(["", ":1"])) for path, descending in keys)])
    if skip:
        words.append(["--skip", str(skip)])
    if limit is not None:
        words.append(["--limit", str(limit)])
    random.shuffle(words)
    return [word for pair in words for word in pair]


def holds(what, got, wanted):
    if got != wanted:
        sys.exit(f"sorted.py: {what}: {got}, not {wanted}")


def run(words, given=b""):
    return subprocess.run(["fallowtime", "s.db", *words], executable=PROGRAM, input=given, capture_output=True)


def main():
    lines, wanted, asked = [], [], []
    for place in range(COUNT):
        documents = [some_document(number) for number in range(random.randint(0, 8))]
        question = some_question()
        lines.append(["import", f"c{place}", documents])
        lines.append(["find", f"c{place}", {}, options_of(*question)])
        wanted.append(arranged(documents, *question))
        asked.append((documents, question))
    ended = run([], "".join(json.dumps(line) + "\n" for line in lines).encode())
    holds("status", (ended.returncode, ended.stderr), (0, b""))
    answers = [json.loads(line) for line in ended.stdout.splitlines()]
    for place, ids in enumerate(wanted):
        found = [int(document["_id"]["$numberInt"]) for document in answers[2 * place + 1]["documents"]]
        holds(f"{asked[place]}", found, ids)
    print(f"{COUNT} collections, asked over lines")
    some = random.sample(range(COUNT), min(40, COUNT))
    for place in some:
        documents, question = asked[place]
        ended = run(["find", f"c{place}", *words_of(*question)])
        holds(f"words: {asked[place]}", [json.loads(line)["_id"] for line in ended.stdout.splitlines()], wanted[place])
        holds(f"words: {asked[place]}", (ended.returncode, ended.stderr), (0, b""))
    print(f"{len(some)} of them asked by words")
    for option, texts in ODD.items():
        for text in texts:
            ended = run(["find", "c0", f"--{option}", text])
            holds(f"--{option} {text!r}", (ended.returncode, ended.stdout, ended.stderr), (2, b"", b"words: options\n"))
    print("texts of paths that are likely to mean something else")


if __name__ == "__main__":
    with tempfile.TemporaryDirectory() as folder:
        os.chdir(folder)
        main()
