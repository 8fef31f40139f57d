#!/usr/bin/env python3
"""Holds updates against what MongoDB's manual says of their operators (version 8: Update Operators, Comparison/Sort Order), by an
evaluation that is written from it, over values as Python has them.

    tests/updates.py                       the rows of cases/update: each answer is that of the evaluation
    tests/updates.py CASES [COUNT [SEED]]  random updates and documents too, as lines of the table `update` of CASES, the program
                                           of cases/

It ends with status 1 if an answer differs. What is refused here and not there, and the names of refusals, are those of
crates/store_update and crates/store_question_read.
"""
import datetime
import decimal
import json
import math
import pathlib
import random
import re
import subprocess
import sys
from fractions import Fraction

ROOT = pathlib.Path(__file__).resolve().parent.parent
NOW = "2020-02-03T04:05:06Z"
NOTHING = object()
WRAPPERS = {"$numberInt", "$numberLong", "$numberDouble", "$numberDecimal", "$date", "$regularExpression", "$oid", "$minKey", "$maxKey"}
FIELDS = {"$set", "$setOnInsert", "$unset", "$inc", "$mul", "$min", "$max", "$currentDate", "$push", "$addToSet", "$pull", "$pullAll",
          "$pop", "$rename"}
RANKS = ["$minKey", "null", "number", "text", "object", "array", "$oid", "bool", "$date", "$regularExpression", "$maxKey"]


class Refused(Exception):
    """The text of a refusal."""


class Long(int):
    """An integer of 64 bits."""


class Wrapped:
    """A value that JSON has no form of its own for: its wrapper's key, and what is under it."""

    def __init__(self, key, body):
        self.key, self.body = key, body


# ---- values


def value_of(tree):
    """The value of a tree of JSON in which numbers are texts."""
    if isinstance(tree, Numeral):
        return number_of(tree.text)
    if isinstance(tree, list):
        return [value_of(item) for item in tree]
    if isinstance(tree, dict):
        if not any(key in WRAPPERS for key in tree):
            return {key: value_of(body) for key, body in tree.items()}
        if len(tree) != 1:
            raise ValueError
        return wrapped(*next(iter(tree.items())))
    return tree


def wrapped(key, body):
    if key in ("$numberInt", "$numberLong"):
        return int(body) if key == "$numberInt" else Long(body)
    return float(body) if key == "$numberDouble" else Wrapped(key, body)


def number_of(text):
    if re.fullmatch("-?[0-9]+", text):
        if not -2**63 <= int(text) < 2**63:
            raise ValueError
        return int(text) if -2**31 <= int(text) < 2**31 else Long(text)
    if math.isinf(float(text)):
        raise ValueError
    return float(text)


class Numeral:
    """A number in a text of JSON."""

    def __init__(self, text):
        self.text = text


def tree_of(text):
    return json.loads(text, parse_int=Numeral, parse_float=Numeral)


def text_of(value):
    """The value in relaxed Extended JSON."""
    if isinstance(value, Wrapped):
        return json.dumps({value.key: plain(value.body)}, separators=(",", ":"))
    if isinstance(value, dict):
        return "{" + ",".join(json.dumps(key) + ":" + text_of(body) for key, body in value.items()) + "}"
    if isinstance(value, list):
        return "[" + ",".join(map(text_of, value)) + "]"
    if isinstance(value, float):
        if math.isnan(value) or math.isinf(value):
            name = "NaN" if math.isnan(value) else "Infinity" if value > 0 else "-Infinity"
            return json.dumps({"$numberDouble": name}, separators=(",", ":"))
        return re.sub(r"e([+-]?)0*([0-9]+)", lambda m: "e" + m[1].replace("+", "") + m[2], repr(value))
    return json.dumps(int(value) if isinstance(value, Long) else value, ensure_ascii=False)


def plain(body):
    if isinstance(body, Numeral):
        return int(body.text)
    return {key: plain(inner) for key, inner in body.items()} if isinstance(body, dict) else body


def is_number(value):
    return isinstance(value, (int, float)) and not isinstance(value, bool) or is_decimal(value)


def is_decimal(value):
    return isinstance(value, Wrapped) and value.key == "$numberDecimal"


def rank(value):
    if value is None:
        return RANKS.index("null")
    if is_number(value):
        return RANKS.index("number")
    if isinstance(value, Wrapped):
        return RANKS.index(value.key)
    return RANKS.index({bool: "bool", str: "text", dict: "object", list: "array"}[type(value)])


def place(number):
    """What is no number is before all numbers."""
    if is_decimal(number):
        number = decimal.Decimal(number.body)
        if number.is_nan():
            return (0, 0)
        return (1 + (number.is_infinite() and number > 0) - (number.is_infinite() and number < 0), Fraction(number) if number.is_finite() else 0)
    if isinstance(number, float) and not math.isfinite(number):
        return (0, 0) if math.isnan(number) else (2 if number > 0 else 1, math.inf if number > 0 else -math.inf)
    return (1, Fraction(number))


def compare(one, other):
    if rank(one) != rank(other):
        return -1 if rank(one) < rank(other) else 1
    keys = [key(one), key(other)]
    if isinstance(one, list):
        return compare_lists([(item,) for item in one], [(item,) for item in other])
    if isinstance(one, dict):
        return compare_lists([(value, name) for name, value in one.items()], [(value, name) for name, value in other.items()])
    return (keys[0] > keys[1]) - (keys[0] < keys[1])


def compare_lists(ones, others):
    for one, other in zip(ones, others):
        heads = [(rank(item[0]), *[name.encode() for name in item[1:]]) for item in (one, other)]
        if heads[0] != heads[1]:
            return -1 if heads[0] < heads[1] else 1
        found = compare(one[0], other[0])
        if found:
            return found
    return (len(ones) > len(others)) - (len(ones) < len(others))


def key(value):
    if is_number(value):
        return place(value)
    if isinstance(value, str):
        return value.encode()
    if isinstance(value, Wrapped):
        return json.dumps(plain(value.body), sort_keys=True)
    return 0 if value is None or isinstance(value, (list, dict)) else value


def is_in(items, value):
    return any(compare(item, value) == 0 for item in items)


# ---- operators: each makes of the old value, or NOTHING, the new one


def set_to(value):
    return lambda old: value


def computed(exact, operand):
    def make(old):
        old = 0 if old is NOTHING else old
        for value in (old, operand):
            if not is_number(value):
                raise Refused("NotANumber")
            if is_decimal(value):
                raise Refused("Decimal")
        if isinstance(old, float) or isinstance(operand, float):
            return exact(float(old), float(operand))
        result = exact(int(old), int(operand))
        if not -2**63 <= result < 2**63:
            raise Refused("Overflow")
        return result if not isinstance(old, Long) and not isinstance(operand, Long) and -2**31 <= result < 2**31 else Long(result)
    return make


def times(x, y):
    return x * y if isinstance(x, int) or not (math.isinf(x) and y == 0 or x == 0 and math.isinf(y)) else math.nan


def chosen(value, sign):
    return lambda old: value if old is NOTHING or compare(value, old) == sign else old


def with_array(make, empty):
    """Of an array, of none if there is nothing, which then stays so if `empty` isn't set."""
    def changed(old):
        if old is NOTHING:
            return make([]) if empty else NOTHING
        if not isinstance(old, list):
            raise Refused("NotAnArray")
        return make(old)
    return changed


def pushed(new, position, kept):
    def make(items):
        at = len(items) if position is None else position if position >= 0 else max(len(items) + position, 0)
        items = items[:at] + new + items[at:]
        if kept is None:
            return items
        return items[:kept] if kept >= 0 else items[max(len(items) + kept, 0):]
    return make


def included(new):
    def make(items):
        items = list(items)
        for value in new:
            if not is_in(items, value):
                items.append(value)
        return items
    return make


def excluded(values):
    return lambda items: [item for item in items if not is_in(values, item)]


# ---- along a path


def altered(document, path, make):
    document, name = dict(document), path[0]
    old = document.get(name, NOTHING)
    if len(path) == 1:
        new = make(old)
        if new is NOTHING:
            document.pop(name, None)
        else:
            document[name] = new
        return document
    if old is not NOTHING and not isinstance(old, dict):
        raise Refused("Through")
    inner = altered({} if old is NOTHING else old, path[1:], make)
    if inner or old is not NOTHING:
        document[name] = inner
    return document


def found(value, path):
    for name in path:
        if value is NOTHING:
            return NOTHING
        if not isinstance(value, dict):
            raise Refused("Through")
        value = value.get(name, NOTHING)
    return value


def renamed(document, path, to):
    value = found(document, path)
    return document if value is NOTHING else altered(altered(document, path, set_to(NOTHING)), to, set_to(value))


# ---- reading


REASONS = {"Path": "no path of keys", "Id": "the _id is never changed", "Operand": "no operand of this operator",
           "Conflict": "another operator changes this path, a part of it or what it is in"}


def refuse(reason, name, path):
    raise Refused(f"{name}, {path}: {REASONS[reason]}")


def read_path(done, name, text):
    path = text.split(".")
    if not all(part and part[0] != "$" for part in path):
        refuse("Path", name, text)
    if path[0] == "_id":
        refuse("Id", name, text)
    if any(meet(path, other) for other in done):
        refuse("Conflict", name, text)
    return path


def meet(one, other):
    return all(x == y for x, y in zip(one, other))


def read_operand(name, path, tree):
    try:
        return operand_of(name, path, tree)
    except (ValueError, decimal.InvalidOperation):
        return refuse("Operand", name, path)


def integer(tree):
    value = value_of(tree)
    if isinstance(value, bool) or not isinstance(value, int):
        raise ValueError
    return value


def values(tree):
    if not isinstance(tree, list):
        raise ValueError
    return [value_of(item) for item in tree]


def items_of(tree, allowed):
    """The items of `$each` with the other keys, or the value alone."""
    if not isinstance(tree, dict) or "$each" not in tree:
        return [value_of(tree)], {}
    if not set(tree) <= allowed:
        raise ValueError
    return values(tree["$each"]), {key: integer(tree[key]) for key in ("$position", "$slice") if key in tree}


def operand_of(name, path, tree):
    if name in ("$set", "$setOnInsert"):
        return set_to(value_of(tree))
    if name == "$unset":
        return set_to(NOTHING)
    if name in ("$inc", "$mul"):
        value = value_of(tree)
        if not is_number(value):
            raise ValueError
        return computed((lambda x, y: x + y) if name == "$inc" else times, value)
    if name in ("$min", "$max"):
        return chosen(value_of(tree), -1 if name == "$min" else 1)
    if name == "$currentDate":
        if tree is not True and tree != {"$type": "date"}:
            raise ValueError
        return set_to(Wrapped("$date", NOW))
    return array_operand_of(name, tree)


def array_operand_of(name, tree):
    if name == "$push":
        new, places = items_of(tree, {"$each", "$position", "$slice"})
        return with_array(pushed(new, places.get("$position"), places.get("$slice")), True)
    if name == "$addToSet":
        return with_array(included(items_of(tree, {"$each"})[0]), True)
    if name == "$pull":
        value = value_of(tree)
        if isinstance(value, dict) or isinstance(value, Wrapped) and value.key == "$regularExpression":
            raise ValueError
        return with_array(excluded([value]), False)
    if name == "$pullAll":
        return with_array(excluded(values(tree)), False)
    end = integer(tree)
    if end not in (1, -1):
        raise ValueError
    return with_array((lambda items: items[:-1]) if end == 1 else (lambda items: items[1:]), False)


def steps_of(update, inserts):
    """What is done to the document, one after the other."""
    if not isinstance(update, dict):
        raise Refused("an update is an object")
    steps, done = [], []
    for name, fields in update.items():
        if name not in FIELDS:
            raise Refused(f"no operator {name}")
        if not isinstance(fields, dict):
            raise Refused(f"{name} takes an object of paths")
        for text, tree in fields.items():
            path = read_path(done, name, text)
            if name == "$rename":
                if not isinstance(tree, str):
                    refuse("Operand", name, text)
                to = read_path(done, name, tree)
                if meet(path, to):
                    refuse("Conflict", name, tree)
                steps.append(lambda document, path=path, to=to: renamed(document, path, to))
                done += [path, to]
                continue
            make = read_operand(name, text, tree)
            if name != "$setOnInsert" or inserts:
                steps.append(lambda document, path=path, make=make: altered(document, path, make))
            done.append(path)
    return steps


def equalities(query):
    """The paths of a query with the values that it asks them to have, one after the other."""
    for key, body in query.items():
        if key == "$and":
            for inner in body:
                yield from equalities(inner)
        elif not key.startswith("$"):
            first = next(iter(body), "") if isinstance(body, dict) else ""
            if not first.startswith("$") or first in WRAPPERS:
                yield key, body
            elif "$eq" in body:
                yield key, body["$eq"]


def fixed(query):
    """The document of the values that a query asks its paths to have, with the `_id` in front."""
    own, others = [], []
    for text, tree in equalities(query):
        if text == "_id":
            own.append(tree)
            if len(own) > 1:
                refuse("Conflict", "$eq", text)
        else:
            path = read_path([other for other, _ in others], "$eq", text)
            others.append((path, read_value("$eq", text, tree)))
    document = {"_id": value_of(tree) for tree in own}
    for path, value in others:
        document = altered(document, path, set_to(value))
    return document


def read_value(name, path, tree):
    try:
        return value_of(tree)
    except (ValueError, decimal.InvalidOperation):
        return refuse("Operand", name, path)


def put_in(query, update):
    """What is put in if no document answers the query."""
    document, steps = fixed(query), steps_of(update, True)
    for step in steps:
        document = step(document)
    return document


def answer(line):
    word, rest = line.split(" ", 1)
    update, document = rest.split(" | ")
    try:
        if word == "upsert":
            return text_of(put_in(tree_of(update), tree_of(document)))
        value = value_of(tree_of(document))
        for step in steps_of(tree_of(update), word == "insert"):
            value = step(value)
        return text_of(value)
    except Refused as refusal:
        return "refused: " + str(refusal)


# ---- random lines


def random_value(depth):
    kinds = [None, True, False, random.randint(-3, 3), random.randint(-3, 3), 2147483647, 9223372036854775807, 0.5, -1.25, 1e300, 3.0,
             random.choice(["", "a", "b", "ab"])]
    if depth and random.random() < 0.35:
        if random.random() < 0.5:
            return [random_value(depth - 1) for _ in range(random.randint(0, 4))]
        return {name: random_value(depth - 1) for name in random.sample("abcd", random.randint(0, 3))}
    return random.choice(kinds)


def random_document():
    return {"_id": random.randint(1, 9), **{name: random_value(3) for name in random.sample("abcde", random.randint(0, 5))}}


def random_path():
    return ".".join(random.choice("abcde") for _ in range(random.choice([1, 1, 1, 2, 2, 3])))


def random_operand(name):
    small = random.randint(-2, 3)
    if name in ("$inc", "$mul"):
        return random.choice([small, small, 0.5, 0.1, -3.0, 9223372036854775807, 2147483647, "a"])
    if name == "$pop":
        return random.choice([1, -1, 1, -1, 2])
    if name == "$pullAll":
        return [random_value(1) for _ in range(random.randint(0, 3))]
    if name == "$currentDate":
        return random.choice([True, {"$type": "date"}, {"$type": "timestamp"}])
    if name == "$rename":
        return random_path()
    if name in ("$push", "$addToSet") and random.random() < 0.6:
        more = {"$position": small, "$slice": random.randint(-3, 3)} if name == "$push" else {}
        return {"$each": [random_value(1) for _ in range(random.randint(0, 3))], **{key: more[key] for key in more if random.random() < 0.5}}
    return random_value(2)


def random_query(depth):
    query = {}
    for _ in range(random.choice([0, 1, 1, 2, 3])):
        value = random_value(1)
        body = random.choice([value, value, {"$eq": value}, {"$gt": 1, "$eq": value}, {"$ne": value}, {"$in": [value]}])
        query[random.choice(["_id", random_path(), random_path()])] = body
    if depth and random.random() < 0.3:
        query["$and"] = [random_query(depth - 1) for _ in range(random.choice([1, 1, 2]))]
    if random.random() < 0.1:
        query["$or"] = [random_query(0)]
    return query


def random_line():
    update = {}
    for name in random.sample(sorted(FIELDS), random.choice([1, 1, 2, 3])):
        update[name] = {random_path(): random_operand(name) for _ in range(random.choice([1, 1, 2]))}
    word = random.choice(["update", "update", "insert", "upsert"])
    if word == "upsert":
        return f"upsert {json.dumps(random_query(2), separators=(',', ':'))} | {json.dumps(update, separators=(',', ':'))}"
    return f"{word} {json.dumps(update, separators=(',', ':'))} | {text_of(random_document())}"


def main(program="", count="3000", seed="68"):
    table = ROOT / "cases" / "update"
    lines = (table / "stdin").read_text().splitlines()
    wanted = list(map(answer, lines))
    answers = (table / "stdout").read_text().splitlines()
    if program:
        random.seed(int(seed))
        more = [random_line() for _ in range(int(count))]
        lines, wanted = lines + more, wanted + list(map(answer, more))
        run = subprocess.run([program, "update"], input="".join(line + "\n" for line in lines), capture_output=True, text=True)
        answers = run.stdout.splitlines()
    wrong = [row for row in zip(lines, wanted, answers) if row[1] != row[2]]
    for line, want, got in wrong[:20]:
        print(f"{line}\n  the manual: {want}\n  here:       {got}")
    if wrong or len(answers) != len(lines):
        sys.exit(f"updates.py: {len(wrong)} of {len(lines)} lines differ, {len(answers)} answers")
    print(f"updates.py: {len(lines)} lines")


if __name__ == "__main__":
    main(*sys.argv[1:])
