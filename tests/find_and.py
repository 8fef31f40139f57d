#!/usr/bin/env python3
"""Runs the program fallowtime: documents made at random, of which the first that is found, by options of `find`, is updated, replaced or
removed, beside a model in Python: what is returned, and all that is there afterwards. Which document is the first is what
tests/sorted.py says of an order, and what is left of it what tests/fields.py says of fields.

    tests/find_and.py PROGRAM [COUNT [SEED]]

PROGRAM is fallowtime, under whatever name. COUNT is how many changes are asked for over lines, 3000 if not given; some are asked for by
words as well, and some by many processes at once. It ends with status 1 at the first answer that isn't as it should be.
"""
import json
import os
import random
import subprocess
import sys
import tempfile

import amounts
import fields
import sorted as order

PROGRAM = os.path.abspath(sys.argv[1])
COUNT = int(sys.argv[2]) if len(sys.argv) > 2 else 3000
KINDS = ["find-and-update", "find-and-replace", "find-and-delete"]
STEPS = [{"$inc": {"n": 1}}, {"$set": {"a": "x"}}, {"$unset": {"b": ""}}, {"$set": {"c": [1, {"d": None}], "n": 5}}, {"$max": {"n": 3}}, {"$min": {"n": 3}}, {}]


def holds(what, got, wanted):
    if got != wanted:
        sys.exit(f"find_and.py: {what}: {got!r}"[:3000] + f", not {wanted!r}"[:3000])


def run(words, given=b""):
    return subprocess.run(["fallowtime", "f.db", *words], executable=PROGRAM, input=given, capture_output=True)


def updated(document, update):
    document = dict(document)
    for operator, operands in update.items():
        for key, operand in operands.items():
            if operator == "$unset":
                document.pop(key, None)
            elif operator == "$inc":
                document[key] = document.get(key, 0) + operand
            elif operator == "$set" or key not in document or (max if operator == "$max" else min)(document[key], operand) == operand:
                document[key] = operand
    return document


def replaced(document, other):
    """Another document with the _id of this one: in its own place, or in front."""
    if "_id" in other:
        return {key: document["_id"] if key == "_id" else value for key, value in other.items()}
    return {"_id": document["_id"], **other}


def answers(document, query):
    """Whether it has one of the numbers, or any document does."""
    return not query or document["n"] in query["n"]["$in"]


def some_document(number):
    return {**order.some_document(number), "n": random.randint(0, 4)}


def some_other(document):
    """A document that takes the place of this one; some have another _id."""
    other = {"n": random.randint(0, 4), **({"b": order.some_value(2)} if random.random() < 0.5 else {})}
    if random.random() < 0.4:
        other["_id"] = document["_id"] if document is not None and random.random() < 0.7 else -1
    return dict(random.sample(list(other.items()), len(other)))


def some_change(found):
    """The name of a command, what follows the query, and what becomes of a document, None if it is removed or refused."""
    kind = random.choice(KINDS)
    if kind == "find-and-update":
        update = random.choice(STEPS)
        return kind, [update], lambda document: updated(document, update)
    if kind == "find-and-replace":
        other = some_other(found)
        return kind, [other], lambda document: replaced(document, other)
    return kind, [], lambda document: None


def some_query():
    return random.choice([{}, {"n": {"$in": random.sample(range(6), random.randint(1, 3))}}])


def some_marks():
    """Fields that are kept or left out, as a line has them, and as paths."""
    kept, left_out = random.choice([([], []), ([], []), (["n"], []), (["a", "_id"], []), ([], ["a"]), (["n"], ["_id"])])
    return {**{path: 1 for path in kept}, **{path: 0 for path in left_out}}, kept, left_out


def is_refused(kind, operands, document):
    return kind == "find-and-replace" and operands[0].get("_id", document["_id"]) != document["_id"]


class Model:
    """A collection, in its order."""

    def __init__(self, documents):
        self.documents = documents

    def first(self, query, question):
        ids = order.arranged([each for each in self.documents if answers(each, query)], *question)
        return next((each for each in self.documents if each["_id"] == ids[0]), None) if ids else None

    def change(self, document, becomes):
        """What the document is afterwards."""
        place = self.documents.index(document)
        after = becomes(document)
        self.documents[place:place + 1] = [] if after is None else [after]
        return document if after is None else after


def relaxed(value):
    """A document of canonical Extended JSON, with numbers as they are."""
    if isinstance(value, list):
        return [relaxed(item) for item in value]
    if not isinstance(value, dict):
        return value
    for key, read in ("$numberInt", int), ("$numberLong", int), ("$numberDouble", float):
        if list(value) == [key]:
            return read(value[key])
    return {key: relaxed(item) for key, item in value.items()}


def as_text(value):
    """With keys in their order."""
    return json.dumps(value)


def asked(model):
    """A line, and the answer to it; the model is changed."""
    query, question, after = some_query(), order.some_question(), random.random() < 0.5
    marks, kept, left_out = some_marks()
    found = model.first(query, question)
    kind, operands, becomes = some_change(found)
    options = order.options_of(*question)
    if marks:
        options["fields"] = marks
    if kind != "find-and-delete" and (after or random.random() < 0.2):
        options["after"] = after
    line = [kind, "c", query, *operands, *([options] if options or random.random() < 0.5 else [])]
    if found is None:
        return line, {"document": None}
    if is_refused(kind, operands, found):
        return line, {"error": "Id", "document": 0}
    before = dict(found)
    changed = model.change(found, becomes)
    returned = changed if options.get("after") else before
    return line, {"document": fields.wanted_of(returned, fields.split(kept), fields.split(left_out)) if marks else returned}


def over_lines():
    done = 0
    while done < COUNT:
        model = Model([some_document(number) for number in range(random.randint(0, 7))])
        lines, wanted = [["import", "c", list(model.documents)]], [{"count": len(model.documents)}]
        if random.random() < 0.5:
            lines, wanted = [["index", "c", "n"], *lines], [{}, *wanted]
        for _ in range(40):
            line, answer = asked(model)
            lines += [line, ["find", "c"]]
            wanted += [answer, {"documents": list(model.documents)}]
        if os.path.exists("f.db"):
            os.remove("f.db")
        ended = run([], "".join(json.dumps(line) + "\n" for line in lines).encode())
        holds("status", (ended.returncode, ended.stderr), (0, b""))
        got = [relaxed(json.loads(line)) for line in ended.stdout.splitlines()]
        holds("answers", len(got), len(wanted))
        for place, line in enumerate(lines):
            holds(f"{line} of {got[place - 1] if place else None}", as_text(got[place]), as_text(wanted[place]))
        done += 40
    print(f"{done} changes, asked for over lines")


def by_words():
    os.remove("f.db")
    model = Model([some_document(number) for number in range(40)])
    run([], (json.dumps(["import", "c", model.documents]) + "\n").encode())
    for _ in range(60):
        query, question, after = some_query(), order.some_question(), random.random() < 0.5
        found = model.first(query, question)
        kind, operands, becomes = some_change(found)
        after = after and kind != "find-and-delete"
        words = [kind, "c", json.dumps(query), *map(json.dumps, operands), *order.words_of(*question), *(["--after"] if after else [])]
        ended = run(words)
        if found is not None and is_refused(kind, operands, found):
            holds(words, (ended.returncode, ended.stdout, ended.stderr), (1, b"", b"refused: Id document 0\n"))
            continue
        before = dict(found) if found is not None else None
        changed = model.change(found, becomes) if found is not None else None
        wanted = changed if after else before
        holds(words, (ended.returncode, ended.stderr), (0, b""))
        holds(words, ended.stdout.decode(), "" if wanted is None else json.dumps(wanted, separators=(",", ":"), ensure_ascii=False) + "\n")
        holds(words, [json.loads(line) for line in run(["find", "c"]).stdout.splitlines()], model.documents)
    print("60 changes, asked for by words")


def beside_each_other():
    """Processes that take the jobs of a queue: each job is taken once."""
    os.remove("f.db")
    run([], (json.dumps(["import", "jobs", [{"_id": number, "rank": number % 3, "taken": False} for number in range(60)]]) + "\n").encode())
    words = ["fallowtime", "f.db", "find-and-update", "jobs", '{"taken":false}', '{"$set":{"taken":true}}', "--sort", "rank:-1,_id", "--wait", "60"]
    workers = [subprocess.Popen(words, executable=PROGRAM, stdout=subprocess.PIPE, stderr=subprocess.PIPE) for _ in range(24)]
    taken = []
    for worker in workers:
        out, errors = worker.communicate()
        holds("a worker", (worker.returncode, errors), (0, b""))
        taken.append(json.loads(out)["_id"])
    first = sorted(range(60), key=lambda number: (-(number % 3), number))[:24]
    holds("jobs that were taken", sorted(taken), sorted(first))
    print("24 jobs, taken by as many processes")


def refusals():
    for line, answer in [(["find-and-update", "c", {}, {"$set": {"a": 1}}, {"skips": 1}], "options"), (["find-and-delete", "c", {}, {"after": True}], "options"),
                         (["find", "c", {}, {"after": True}], "options"), (["find-and-update", "c", {}, {"$set": {"a": 1}}, {"after": 1}], "options"),
                         (["find-and-replace", "c", {}, 1], "document"), (["find-and-update", "c", {}, 1], "update is no object"), (["find-and-delete", "c"], "arguments"),
                         (["find-and-delete", "c", 1], "query is no object"), (["find-and-update", "c", {}, {}, {}, {}], "arguments")]:
        holds(line, json.loads(run([], (json.dumps(line) + "\n").encode()).stdout), {"error": "Usage", "at": answer})
    for words, status in [(["find-and-delete", "c", "{}", "--after"], 2), (["find", "c", "--after"], 2), (["find-and-update", "c", "{}"], 2),
                          (["find-and-update", "c", "{}", "{}", "--many"], 2), (["find-and-delete", "c", "{}", "--after", "--after"], 2), (["find-and-delete", "", "{}"], 1)]:
        ended = run(words)
        holds(words, (ended.returncode, ended.stdout), (status, b""))
    print("refusals")


if __name__ == "__main__":
    random.seed(int(sys.argv[3]) if len(sys.argv) > 3 else amounts.seed(68))
    with tempfile.TemporaryDirectory() as folder:
        os.chdir(folder)
        over_lines()
        by_words()
        beside_each_other()
        refusals()
