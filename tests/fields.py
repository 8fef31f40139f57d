#!/usr/bin/env python3
"""Asks `fallowtime` for some fields of random documents, over lines and by words, and compares each document with what an evaluation of
docs/QUERIES.md (Fields) leaves of it; also which paths are refused.

    tests/fields.py PROGRAM [COUNT] [SEED]
"""
import json
import os
import random
import subprocess
import sys
import tempfile

import amounts

PROGRAM = os.path.abspath(sys.argv[1])
COUNT = int(sys.argv[2]) if len(sys.argv) > 2 else 300
random.seed(int(sys.argv[3]) if len(sys.argv) > 3 else amounts.seed(67))
KEYS = ["a", "b", "0", "_id"]
PATHS = ["a", "b", "c", "0", "_id", "a.b", "a.a", "a.0", "b.a.b", "a.b.a", "_id.a", "0.a", "", "a.", ".a", "a..b", "$a", "a.$b", "a$"]


def named(rests, value, kept, whole):
    """What is left of a field by the rests of the paths that begin with its key: a list of it, or of nothing."""
    if not rests:
        return [] if kept else [value]
    if [] in rests:
        return [value] if kept else []
    return whole(rests, value)


def inside(rests, value, kept):
    """What is left inside of a value: a list of it, or of nothing."""
    if isinstance(value, dict):
        return [left(rests, value, kept)]
    if isinstance(value, list):
        return [[each for item in value for each in inside(rests, item, kept)]]
    return [] if kept else [value]


def left(paths, document, kept):
    found = {}
    for key, value in document.items():
        rests = [path[1:] for path in paths if path[:1] == [key]]
        for each in named(rests, value, kept, lambda rests, value: inside(rests, value, kept)):
            found[key] = each
    return found


def meet(one, other):
    return all(first == second for first, second in zip(one, other))


def can_name(kept, left_out):
    """Whether the paths, each a list of keys, can name fields."""
    for paths in kept, left_out:
        if any(not key or key[0] == "$" for path in paths for key in path):
            return False
        if any(meet(paths[i], paths[j]) for i in range(len(paths)) for j in range(i)):
            return False
    return not kept or not left_out or left_out == [["_id"]] and all(path[0] != "_id" for path in kept)


def wanted_of(document, kept, left_out):
    if kept:
        with_id = left_out or any(path[0] == "_id" for path in kept)
        return left(kept if with_id else [["_id"], *kept], document, True)
    return left(left_out, document, False)


def some_value(depth):
    part = random.random()
    if depth > 0 and part < 0.35:
        return {key: some_value(depth - 1) for key in random.sample(KEYS, random.randint(0, 3))}
    if depth > 0 and part < 0.6:
        return [some_value(depth - 1) for _ in range(random.randint(0, 3))]
    return random.choice([None, True, "x", "", "1"])


def some_document(number):
    document = {"_id": random.choice([f"{number}", {"a": f"{number}", "b": "x"}])}
    for key in random.sample(["a", "b", "0"], random.randint(0, 3)):
        document[key] = some_value(3)
    return document


def some_paths():
    """Texts of paths that are kept, and of paths that are left out."""
    some = random.sample(PATHS if random.random() < 0.3 else PATHS[:12], random.randint(1, 3))
    if random.random() < 0.4:
        return [], some
    return some, random.choice([[], [], ["_id"], ["a"]])


def split(texts):
    return [text.split(".") for text in texts]


def object_of(kept, left_out):
    """The paths as a line has them; none if one is there twice."""
    marks = [(text, random.choice([1, True])) for text in kept] + [(text, random.choice([0, False])) for text in left_out]
    return dict(marks) if len(dict(marks)) == len(marks) else None


def words_of(kept, left_out):
    words = [["--fields", ",".join(kept)]] if kept else []
    return words + ([["--without", ",".join(left_out)]] if left_out else [])


def holds(what, got, wanted):
    if got != wanted:
        sys.exit(f"fields.py: {what}: {got}, not {wanted}")


def run(words, given=b""):
    return subprocess.run(["fallowtime", "f.db", *words], executable=PROGRAM, input=given, capture_output=True)


def as_text(documents):
    """With keys in their order."""
    return [json.dumps(document) for document in documents]


def main():
    asked = []
    for place in range(COUNT):
        documents = [some_document(number) for number in range(random.randint(0, 5))]
        kept, left_out = some_paths()
        fields = object_of(kept, left_out)
        if fields is not None:
            asked.append((f"c{place}", documents, kept, left_out, fields))
    lines = [line for name, documents, _, _, fields in asked for line in (["import", name, documents], ["find", name, {}, {"fields": fields}])]
    ended = run([], "".join(json.dumps(line) + "\n" for line in lines).encode())
    holds("status", (ended.returncode, ended.stderr), (0, b""))
    answers = [json.loads(line) for line in ended.stdout.splitlines()]
    for place, (name, documents, kept, left_out, _) in enumerate(asked):
        what = f"{kept} {left_out} of {documents}"
        answer = answers[2 * place + 1]
        if not can_name(split(kept), split(left_out)):
            holds(what, "documents" in answer, False)
            continue
        wanted = as_text(wanted_of(document, split(kept), split(left_out)) for document in documents)
        holds(what, as_text(answer["documents"]), wanted)
    print(f"{len(asked)} collections, asked over lines")
    some = random.sample(asked, min(60, len(asked)))
    for name, documents, kept, left_out, _ in some:
        what = f"words: {kept} {left_out} of {documents}"
        ended = run(["find", name, *[word for pair in words_of(kept, left_out) for word in pair]])
        if not can_name(split(kept), split(left_out)):
            holds(what, (ended.returncode, ended.stdout, ended.stderr), (2, b"", b"words: fields\n"))
            continue
        holds(what, ended.stdout.decode().splitlines(), [json.dumps(wanted_of(document, split(kept), split(left_out)), separators=(",", ":")) for document in documents])
    print(f"{len(some)} of them asked by words")


if __name__ == "__main__":
    with tempfile.TemporaryDirectory() as folder:
        os.chdir(folder)
        main()
