#!/usr/bin/env python3
"""Holds queries against what MongoDB's manual says of them (version 8: Query Predicates, Query Arrays, Comparison/Sort Order), by an
evaluation that is written from it, over values as Python has them.

    tests/questions.py                     the rows of cases/question: each answer is that of the evaluation
    tests/questions.py CASES [COUNT [SEED]]  random queries and documents too, as lines of the table `question` of CASES, the program
                                           of cases/
    tests/questions.py --indexes FALLOWTIME [COUNT [SEED]]  random ranges of collections with indexes on the paths, in FALLOWTIME, the
                                           program under that name: each finds what the evaluation does

It ends with status 1 if an answer differs. Errors are compared by whether there is one; which one is held against by the table.
"""
import datetime
import decimal
import json
import math
import pathlib
import random
import re
import struct
import subprocess
import sys
import tempfile
from fractions import Fraction

ROOT = pathlib.Path(__file__).resolve().parent.parent
RANKS = ["minKey", "undefined", "null", "number", "text", "object", "array", "binData", "objectId", "bool", "date", "timestamp", "regex",
         "dbPointer", "javascript", "javascriptWithScope", "maxKey"]
NUMBERS = {"int": 16, "long": 18, "double": 1, "decimal": 19}
TEXTS = {"string": 2, "symbol": 14}
KINDS = {**NUMBERS, **TEXTS, "object": 3, "array": 4, "binData": 5, "undefined": 6, "objectId": 7, "bool": 8, "date": 9, "null": 10,
         "regex": 11, "dbPointer": 12, "javascript": 13, "javascriptWithScope": 15, "timestamp": 17, "minKey": -1, "maxKey": 127}
NOTHING = ("nothing", None)
WRAPPERS = {"$oid", "$symbol", "$regularExpression", "$numberInt", "$numberLong", "$numberDouble", "$numberDecimal", "$binary", "$uuid",
            "$code", "$timestamp", "$date", "$minKey", "$maxKey", "$dbPointer", "$undefined"}
LOGICAL = {"$and", "$or", "$nor"}
TESTS = {"$eq", "$ne", "$gt", "$gte", "$lt", "$lte", "$in", "$nin", "$all", "$elemMatch", "$size", "$exists", "$type", "$mod", "$regex",
         "$options", "$not"}


class Refused(Exception):
    """The query is refused."""


# ---- values: pairs of a kind and what it holds; numbers hold a Fraction, an infinity as a float, or None for NaN

def number_of(text):
    value = decimal.Decimal(text)
    if value.is_nan():
        return None
    return math.copysign(math.inf, float(value)) if value.is_infinite() else Fraction(value)


def nearest(text):
    value = float(text)
    return None if math.isnan(value) else value if math.isinf(value) else Fraction(value)


# A decimal has 34 digits.
DECIMALS = decimal.Context(prec=34, Emin=-6143, Emax=6144, clamp=1, traps=[decimal.Inexact, decimal.Overflow, decimal.InvalidOperation])


def exact(text):
    """The number that a numeral is, if it is a decimal."""
    try:
        return Fraction(DECIMALS.create_decimal(text))
    except decimal.DecimalException:
        return None


def is_whole(text):
    return set(text) <= set("-0123456789") and -2**63 <= int(text) < 2**63


def of_numeral(text):
    if set(text) <= set("-0123456789"):
        whole = int(text)
        if not -2**63 <= whole < 2**63:
            raise Refused(text)
        return ("int" if -2**31 <= whole < 2**31 else "long", Fraction(whole))
    if math.isinf(float(text)):
        raise Refused(text)
    return ("double", nearest(text))


def of_wrapper(key, body):
    """The value of an object of Extended JSON with this key; only the wrappers that the rows have."""
    if key in ("$numberInt", "$numberLong"):
        if body[0] != "string":
            raise Refused(key)
        return ("int" if key == "$numberInt" else "long", Fraction(int(body[1])))
    if key == "$numberDouble":
        return ("double", nearest(body[1]))
    if key == "$numberDecimal":
        return ("decimal", number_of(body[1]))
    if key == "$oid":
        if len(body[1]) != 24 or set(body[1]) - set("0123456789abcdefABCDEF"):
            raise Refused(key)
        return ("objectId", bytes.fromhex(body[1]))
    if key == "$symbol":
        return ("symbol", body[1])
    if key == "$date":
        if body[0] == "string":
            return ("date", int(datetime.datetime.fromisoformat(body[1]).timestamp() * 1000))
        return ("date", int(body[1][0][1][1]))
    if key == "$timestamp":
        return ("timestamp", tuple(int(part[1]) for _, part in sorted(body[1], reverse=True)))
    if key == "$regularExpression":
        if body[0] != "object":
            raise Refused(key)
        parts = dict(body[1])
        return ("regex", (parts["pattern"][1], "".join(sorted(parts["options"][1]))))
    return ({"$minKey": "minKey", "$maxKey": "maxKey", "$undefined": "undefined"}[key], ())


def value_of(tree):
    """The value of a tree, whose objects are lists of pairs."""
    kind, held = tree
    if kind == "numeral":
        return of_numeral(held)
    if kind == "array":
        return ("array", [value_of(item) for item in held])
    if kind == "object":
        wrappers = [key for key, _ in held if key in WRAPPERS]
        if wrappers:
            if len(held) != 1:
                raise Refused(wrappers[0])
            return of_wrapper(wrappers[0], held[0][1])
        if any("\0" in key for key, _ in held):
            raise Refused("a key with a 00")
        return ("object", [(key, value_of(part)) for key, part in held])
    return tree


def tree_of(text):
    def seen(value, levels=128):
        if isinstance(value, (list, Pairs)) and not levels:
            raise Refused("too deep")
        if isinstance(value, bool):
            return ("bool", value)
        if isinstance(value, Numeral):
            return ("numeral", str(value))
        if isinstance(value, list):
            return ("array", [seen(item, levels - 1) for item in value])
        if isinstance(value, Pairs):
            if len({key for key, _ in value.pairs}) < len(value.pairs):
                raise Refused("a key comes twice")
            return ("object", [(key, seen(item, levels - 1)) for key, item in value.pairs])
        return ("null", ()) if value is None else ("string", value)

    try:
        return seen(json.loads(text, object_pairs_hook=Pairs, parse_int=Numeral, parse_float=Numeral))
    except ValueError as error:
        raise Refused(text) from error


class Numeral(str):
    """A numeral as it is written."""


class Pairs:
    """The members of an object in their order."""

    def __init__(self, pairs):
        self.pairs = pairs


# ---- the order of values

def rank(value):
    kind = value[0]
    return RANKS.index("number" if kind in NUMBERS else "text" if kind in TEXTS else kind)


def sign(first, second):
    return (first > second) - (first < second)


def inside(first, second):
    kind = first[0]
    if kind in NUMBERS:
        if first[1] is None or second[1] is None:
            return sign(first[1] is not None, second[1] is not None)
        return sign(first[1], second[1])
    if kind == "object":
        for (key, value), (other, counterpart) in zip(first[1], second[1]):
            found = sign(rank(value), rank(counterpart)) or sign(key.encode(), other.encode()) or inside(value, counterpart)
            if found:
                return found
        return sign(len(first[1]), len(second[1]))
    if kind == "array":
        for value, counterpart in zip(first[1], second[1]):
            found = order(value, counterpart)
            if found:
                return found
        return sign(len(first[1]), len(second[1]))
    if kind in TEXTS:
        return sign(first[1].encode(), second[1].encode())
    return sign(first[1], second[1])


def order(first, second):
    return sign(rank(first), rank(second)) or inside(first, second)


def compares(operator, found, wanted):
    """Only what has one rank is compared, but all is above minKey and below maxKey. What is absent is as null. A numeral with a point,
    an exponent or more than 64 bits is that number for all but doubles, for which it is the nearest of them."""
    found = ("null", ()) if found == NOTHING else found
    if wanted[0] == "numeral":
        number = exact(wanted[1])
        if found[0] == "double" or number is None:
            if found[0] != "double" and operator == "$eq":
                return False
            wanted = ("double", nearest(wanted[1]))
        else:
            wanted = ("decimal", number)
    if rank(found) != rank(wanted):
        return operator in {"minKey": ("$gt", "$gte"), "maxKey": ("$lt", "$lte")}.get(wanted[0], ())
    if found[0] in NUMBERS and (found[1] is None or wanted[1] is None):
        return found[1] is None and wanted[1] is None and operator in ("$eq", "$gte", "$lte")
    lies = order(found, wanted)
    return {"$eq": lies == 0, "$gt": lies > 0, "$gte": lies >= 0, "$lt": lies < 0, "$lte": lies <= 0}[operator]


# ---- along a path

def members(value):
    return value[1] if value[0] == "object" else [(str(place), item) for place, item in enumerate(value[1])]


def under(pairs, path, opens):
    """What a path leads to from a document: a list, with NOTHING where it ends before its last key."""
    found = dict(reversed(pairs)).get(path[0], NOTHING)
    if found == NOTHING:
        return [NOTHING]
    if len(path) == 1:
        return [*found[1], found] if opens and found[0] == "array" else [found]
    return on(found, path[1:], opens) if found[0] in ("object", "array") else [NOTHING]


def on(value, path, opens):
    if value[0] == "object":
        return under(value[1], path, opens)
    reached = []
    for place, item in enumerate(value[1]):
        if item[0] == "object":
            reached += under(item[1], path, opens)
        if str(place) == path[0]:
            if len(path) == 1:
                reached.append(item)
            elif item[0] in ("object", "array"):
                reached += on(item, path[1:], opens)
    return reached


# ---- queries: a tree as a function of what a path leads to

def whole(value):
    if value[0] not in NUMBERS or not isinstance(value[1], Fraction) or value[1].denominator != 1 or not -2**63 <= value[1] < 2**63:
        raise Refused(value)
    return int(value[1])


def part(value):
    if value[0] not in NUMBERS or not isinstance(value[1], Fraction) or not -2**63 <= math.trunc(value[1]) < 2**63:
        raise Refused(value)
    return math.trunc(value[1])


def wanted_of(tree):
    if tree[0] != "numeral" or is_whole(tree[1]):
        return value_of(tree)
    if math.isinf(float(tree[1])):
        raise Refused(tree)
    return tree


def plain(tree):
    value = wanted_of(tree)
    if value[0] == "regex":
        raise Refused(value)
    return value


def first_key(tree):
    return tree[1][0][0] if tree[0] == "object" and tree[1] else ""


def has_operators(tree):
    key = first_key(tree)
    return key.startswith("$") and key not in WRAPPERS and key != "$ref"


def kinds_of(tree):
    value = value_of(tree)
    if value == ("string", "number"):
        return set(NUMBERS)
    if value[0] == "string":
        if value[1] not in KINDS:
            raise Refused(value)
        return {value[1]}
    found = {kind for kind, number in KINDS.items() if number == whole(value)}
    if not found:
        raise Refused(value)
    return found


def listed(tree):
    if tree[0] != "array":
        raise Refused(tree)
    return tree[1]


def remainders(tree):
    if len(listed(tree)) != 2:
        raise Refused(tree)
    divisor, rest = (part(value_of(item)) for item in tree[1])
    if divisor == 0:
        raise Refused(tree)

    def leaves(found):
        if found[0] not in NUMBERS or not isinstance(found[1], Fraction) or not -2**63 <= math.trunc(found[1]) < 2**63:
            return False
        kept = math.trunc(found[1])
        return kept - divisor * math.trunc(Fraction(kept, divisor)) == rest

    return leaves


# Options of a pattern, and what they are in Python's `re`, whose patterns of texts are Unicode's anyway.
OPTIONS = {"i": re.IGNORECASE, "m": re.MULTILINE, "s": re.DOTALL, "x": re.VERBOSE, "u": 0}


def searching(tree, beside):
    """The search for a pattern, by the `re` of Python, which has more than the program takes: what looks ahead or behind, and what
    refers back. Its `$` is also in front of a line feed at the end, which the program's isn't. Else the lines have no pattern that
    the two read in two ways."""
    value = value_of(tree)
    if value[0] not in ("string", "regex"):
        raise Refused(tree)
    pattern, own = (value[1], "") if value[0] == "string" else value[1]
    if own and beside or set(own) - set(OPTIONS) or re.search(r"\(\?<?[=!]|\\[1-9]", pattern):
        raise Refused(tree)
    if "m" not in (own or beside):
        pattern = re.sub(r"\\.|\[[^\]]*\]|\$", lambda part: r"\Z" if part[0] == "$" else part[0], pattern, flags=re.DOTALL)
    try:
        made = re.compile(pattern, sum(OPTIONS.get(letter, 0) for letter in set(own or beside)))
    except re.error as error:
        raise Refused(tree) from error
    return lambda text: made.search(text) is not None


def leaf(operator, tree, options):
    """What an operator that isn't made of others asks of one value, and whether an array at a path's end is opened for it."""
    if operator in ("$eq", "$gt", "$gte", "$lt", "$lte"):
        wanted = wanted_of(tree) if operator == "$eq" else plain(tree)
        return True, lambda found: compares(operator, found, wanted)
    if operator == "$size":
        size = whole(value_of(tree))
        if size < 0:
            raise Refused(tree)
        return False, lambda found: found[0] == "array" and len(found[1]) == size
    if operator == "$type":
        trees = tree[1] if tree[0] == "array" else [tree]
        if not trees:
            raise Refused(tree)
        kinds = set().union(*(kinds_of(item) for item in trees))
        return True, lambda found: found[0] in kinds
    if operator == "$mod":
        return True, remainders(tree)
    if operator == "$regex":
        finds = searching(tree, options)
        return True, lambda found: found[0] in ("string", "symbol") and finds(found[1])
    if operator == "$elemMatch":
        return False, element_match(tree)
    raise Refused(operator)


def element_match(tree):
    if tree[0] != "object":
        raise Refused(tree)
    if first_key(tree) in TESTS:
        asked = tests(None, tree)
        return lambda found: found[0] == "array" and any(asked(item) for item in found[1])
    query = query_of(tree)
    return lambda found: found[0] == "array" and any(item[0] in ("object", "array") and query(members(item)) for item in found[1])


def truth(value):
    return value[1] if value[0] == "bool" else whole(value) != 0


def test(path, operator, tree, options=""):
    """What an operator asks of a document's members under a path, or of one value if there is no path. The options are those beside
    a pattern."""
    if operator not in TESTS:
        raise Refused(operator)

    def reached(opens, asked):
        if path is None:
            return asked
        return lambda pairs: any(asked(found) for found in under(pairs, path, opens))

    if operator == "$ne":
        wanted = plain(tree)
        equal = reached(True, lambda found: compares("$eq", found, wanted))
        return lambda given: not equal(given)
    if operator in ("$in", "$nin"):
        if any(has_operators(item) for item in listed(tree)):
            raise Refused(tree)
        values = [plain(item) for item in tree[1]]
        among = reached(True, lambda found: any(compares("$eq", found, value) for value in values))
        return among if operator == "$in" else lambda given: not among(given)
    if operator == "$all":
        parts = [one_of_all(path, item) for item in listed(tree)]
        return lambda given: bool(parts) and all(asked(given) for asked in parts)
    if operator == "$exists":
        wanted = truth(value_of(tree))
        there = reached(True, lambda found: found != NOTHING)
        return lambda given: there(given) == wanted
    if operator == "$not":
        if not has_operators(tree):
            raise Refused(tree)
        asked = tests(path, tree)
        return lambda given: not asked(given)
    if operator == "$options":
        if tree[0] != "string" or set(tree[1]) - set(OPTIONS):
            raise Refused(tree)
        return lambda given: True
    return reached(*leaf(operator, tree, options))


def one_of_all(path, tree):
    if not has_operators(tree):
        plain(tree)
        return test(path, "$eq", tree)
    if len(tree[1]) != 1 or first_key(tree) != "$elemMatch":
        raise Refused(tree)
    return tests(path, tree)


def tests(path, tree):
    if "$options" in dict(tree[1]) and "$regex" not in dict(tree[1]):
        raise Refused(tree)
    kind, options = dict(tree[1]).get("$options", ("string", ""))
    asked = [test(path, operator, body, options if kind == "string" else "") for operator, body in tree[1]]
    return lambda given: all(one(given) for one in asked)


def entry(key, tree):
    if key == "$comment":
        return lambda pairs: True
    if key in LOGICAL:
        queries = [query_of(item) for item in listed(tree)]
        if not queries:
            raise Refused(key)
        answers = {"$and": all, "$or": any, "$nor": lambda found: not any(found)}[key]
        return lambda pairs: answers(query(pairs) for query in queries)
    if key.startswith("$"):
        raise Refused(key)
    path = key.split(".")
    if has_operators(tree):
        return tests(path, tree)
    plain(tree)
    return test(path, "$eq", tree)


def query_of(tree):
    if tree[0] != "object":
        raise Refused(tree)
    entries = [entry(key, body) for key, body in tree[1]]
    return lambda pairs: all(asked(pairs) for asked in entries)


def answer(line):
    """What the evaluation answers to a line of the table."""
    query, document = line.split(" | ")
    try:
        asked, members = query_of(tree_of(query)), value_of(tree_of(document))[1]
    except Refused:
        return "refused"
    return "true" if asked(members) else "false"


# ---- random lines

SCALARS = ["0", "1", "2", "-3", "7", '{"$numberLong":"1"}', '{"$numberLong":"3"}', "1.0", "2.5", "-2.5", '{"$numberDouble":"NaN"}',
           '{"$numberDouble":"-0.0"}', '{"$numberDouble":"Infinity"}', '{"$numberDecimal":"1.0"}', '{"$numberDecimal":"2.5"}',
           '{"$numberDecimal":"NaN"}', "9007199254740993", "9007199254740993.0", "18446744073709551617", "1e-400",
           "0.1000000000000000055511151231257827021181583404541015625", '{"$numberDouble":"9007199254740992"}',
           '{"$numberDecimal":"18446744073709551617"}', '{"$numberDecimal":"0.1"}', "0.1",
           '"x"', '"y"', '"x.y"', '"Jürgen"', '"jÜRGEN"', '"x\\ny"', '"xxy"', '"Xy 7"', '""', '{"$symbol":"x"}', "null", '{"$undefined":true}', "true", "false", '{"$minKey":1}', '{"$maxKey":1}',
           '{"$date":{"$numberLong":"5"}}', '{"$oid":"650000000000000000000002"}', '{"$timestamp":{"t":1,"i":2}}',
           '{"$regularExpression":{"pattern":"x","options":""}}']
KEYS = ["a", "b", "0", "1"]
OPERATORS = sorted(TESTS)
RANGES = ["$gt", "$gte", "$lt", "$lte"]
# Paths that have an index, and how many documents and queries a collection has.
INDEXED = ["a", "b", "a.b", "a.0", "0"]
DOCUMENTS, QUERIES = 40, 100


class Lines:
    """Random queries and documents, as texts."""

    def __init__(self, seed):
        self.random = random.Random(seed)

    def some(self, *choices):
        return self.random.choice(choices)

    def value(self, depth=0):
        sort = self.random.randrange(12 if depth < 4 else 7)
        if sort < 7:
            return self.random.choice(SCALARS)
        if sort < 10:
            return "[%s]" % ",".join(self.value(depth + 1) for _ in range(self.random.randrange(4)))
        return self.document(depth + 1)

    def document(self, depth=0):
        keys = [key for key in KEYS if self.random.randrange(3) == 0] or ["a"]
        self.random.shuffle(keys)
        return "{%s}" % ",".join(f'"{key}":{self.value(depth)}' for key in keys)

    def operand(self):
        return self.random.choice(SCALARS) if self.random.randrange(4) else self.value(2)

    def body(self, operator, depth):
        if operator in ("$in", "$nin", "$all"):
            items = [self.operand() for _ in range(self.random.randrange(4))]
            if operator == "$all" and depth < 2 and self.random.randrange(4) == 0:
                items.append('{"$elemMatch":%s}' % self.body("$elemMatch", depth + 1))
            return "[%s]" % ",".join(items)
        if operator == "$size":
            return self.some("0", "1", "2", "2.0", '{"$numberDecimal":"1"}', "-1", "1.5")
        if operator == "$exists":
            return self.some("true", "false", "1", "0", "0.0")
        if operator == "$type":
            return self.some('"number"', '"array"', '"object"', "2", '["null",4]', '"string"', "-1", "1.0", '"regex"', "[]")
        if operator == "$mod":
            return self.some("[2,1]", "[3,0]", "[2,-1]", "[2.5,1]", "[0,1]", "[2]", '[{"$numberLong":"-3"},{"$numberDecimal":"1.9"}]')
        if operator == "$regex":
            pattern = self.pattern()
            options = self.some("", "", "", "i", "ms", "z")
            expression = '{"$regularExpression":{"pattern":"%s","options":"%s"}}' % (pattern, options)
            return self.some(f'"{pattern}"', f'"{pattern}"', expression, '{"$symbol":"^x"}')
        if operator == "$options":
            return self.some('""', '""', '"i"', '"m"', '"s"', '"x"', '"imsxu"', '"z"', "null")
        if operator == "$not":
            return self.operators(depth + 1)
        if operator == "$elemMatch":
            return self.operators(depth + 1) if self.random.randrange(2) else self.query(depth + 1)
        return self.operand()

    def pattern(self, depth=0):
        """A pattern as JSON has it: of a fixed beginning, of parts, or a fault."""
        if not depth and self.random.randrange(2):
            return self.some("^x", "^", "^x\\\\.", "^y", "^Jü", "^x\\\\y", "^x\\\\", "", "^x\\\\.y", "^x\\\\!", "(", "[x", "*x", "x)", "\\\\1", "(?=x)x", "x (y) #")
        parts = [self.some("x", "y", "Y", "ü", ".", "[xy]", "[^x]", "\\\\.", "\\\\w", "\\\\d", "\\\\b", " ", "#", "rg", "(?:x|y)", "\\\\n", "^", "$",
                           "(%s)" % self.pattern(depth + 1) if depth < 2 else "x") for _ in range(self.some(1, 1, 2, 3))]
        # Neither says the same of a quantifier behind an anchor.
        parts = [part + self.some("", "", "", "*", "+", "?", "{2}", "{1,2}", "*?") if part not in ("^", "$", "\\\\b", "#", " ") else part for part in parts]
        return ("" if self.random.randrange(4) else "|").join(parts).replace(" | ", "|")

    def operators(self, depth=0):
        names = self.random.sample(OPERATORS, self.some(1, 1, 1, 2))
        if "$regex" in names and "$options" not in names and self.random.randrange(3) == 0:
            names.insert(self.random.randrange(2), "$options")
        if depth > 2:
            names = [name for name in names if name not in ("$not", "$elemMatch")] or ["$gte"]
        return "{%s}" % ",".join(f'"{name}":{self.body(name, depth)}' for name in names)

    def path(self):
        return ".".join(self.some("a", "b", "a", "0", "1") for _ in range(self.some(1, 1, 2, 2, 3)))

    def query(self, depth=0):
        entries = {}
        for _ in range(self.some(0, 1, 1, 1, 2)):
            sort = self.random.randrange(10)
            if sort == 0 and depth < 2:
                entries[self.random.choice(sorted(LOGICAL))] = "[%s]" % ",".join(self.query(depth + 1) for _ in range(self.some(1, 2)))
            else:
                path = self.path()
                entries[path] = self.operand() if sort < 5 else self.operators(depth)
        return "{%s}" % ",".join(f'"{key}":{body}' for key, body in entries.items())

    def line(self):
        return f"{self.query()} | {self.document()}"

    def search(self):
        """What a pattern asks of a text, with options more often than elsewhere."""
        options = self.some("", "", "i", "m", "s", "x", "im", "imsxu")
        body = '{"$regex":"%s"%s}' % (self.pattern(), f',"$options":"{options}"' if options or self.random.randrange(2) else "")
        return self.some(body, body, body, '{"$not":%s}' % body, '{"$elemMatch":%s}' % body)

    def text(self):
        return '"%s"' % "".join(self.some("x", "y", "X", "ü", "Ü", ".", "7", " ", "#", "\\n", "rg") for _ in range(self.some(0, 1, 2, 3, 6)))

    def line_of_search(self):
        texts = [self.text() for _ in range(self.some(1, 1, 1, 2))]
        return '{"a":%s} | {"a":%s}' % (self.search(), texts[0] if len(texts) == 1 else f"[{','.join(texts)}]")

    def ranges(self):
        """A query by one or two paths, of what is less or greater than an operand, or between two."""
        def between():
            return "{%s}" % ",".join(f'"{name}":{self.operand()}' for name in self.random.sample(RANGES, self.some(1, 2, 2)))

        entries = {path: between() for path in self.random.sample(INDEXED, self.some(1, 1, 2))}
        if self.random.randrange(4) == 0:
            entries[self.some("a", "b", "a.b")] = self.search()
        body = "{%s}" % ",".join(f'"{path}":{asked}' for path, asked in entries.items())
        return self.some(body, body, '{"$and":[%s,%s]}' % (body, self.query(1)), '{"$or":[%s,%s]}' % (body, self.query(1)))


def compare(lines, answers, name):
    """Says which answers differ, and ends with status 1 if one does."""
    differing = 0
    for line, got in zip(lines, answers, strict=True):
        wanted = answer(line)
        if wanted != (got if got in ("true", "false") else "refused"):
            differing += 1
            if differing <= 10:
                print(f"questions.py: {name}: {line}: {got}, and the evaluation: {wanted}")
    if differing:
        sys.exit(f"questions.py: {name}: {differing} of {len(lines)} differ")
    print(f"questions.py: {name}: {len(lines)} lines")


def is_kept(document):
    try:
        value_of(tree_of(document))
    except Refused:
        return False
    return True


def found(answer):
    """What the answer to a find has: the numbers of the documents, or that it was refused."""
    return "refused" if "error" in answer else [int(document["_id"]["$numberInt"]) for document in answer["documents"]]


def evaluated(query, documents):
    answers = [answer(f"{query} | {document}") for document in documents]
    return "refused" if "refused" in answers else [at for at, given in enumerate(answers) if given == "true"]


def by_indexes(program, count="2000", seed="67"):
    """Ranges are answered by indexes as by the evaluation."""
    made, finds, lines = Lines(int(seed)), [], []
    for name in (f"c{first}" for first in range(0, int(count), QUERIES)):
        documents = [each for each in (made.document() for _ in range(DOCUMENTS)) if is_kept(each)]
        lines += [f'["index","{name}","{path}"]' for path in INDEXED]
        lines += ['["insert","%s",{"_id":%d,%s]' % (name, at, each[1:]) for at, each in enumerate(documents)]
        for query in (made.ranges() for _ in range(QUERIES)):
            finds.append((len(lines), query, documents))
            lines.append(f'["find","{name}",{query},{{"fields":{{"_id":1}}}}]')
    with tempfile.TemporaryDirectory() as folder:
        done = subprocess.run([program, f"{folder}/ranges.db"], input="".join(line + "\n" for line in lines), capture_output=True, text=True, check=True)
    answers = [json.loads(line) for line in done.stdout.splitlines()]
    if len(answers) != len(lines):
        sys.exit(f"questions.py: {len(answers)} answers to {len(lines)} lines: {done.stderr}")
    differing = [f"{query}: {found(answers[at])}, and the evaluation: {wanted}" for at, query, documents in finds
                 if found(answers[at]) != (wanted := evaluated(query, documents))]
    if differing:
        sys.exit("\n".join([f"questions.py: {len(differing)} of {len(finds)} ranges differ", *differing[:10]]))
    print(f"questions.py: {len(finds)} ranges by indexes")


def main(program=None, count="4000", seed="67"):
    table = ROOT / "cases" / "question"
    lines = (table / "stdin").read_text().splitlines()
    compare([line for line in lines if line.count(" | ") == 1], [
        given for line, given in zip(lines, (table / "stdout").read_text().splitlines(), strict=True) if line.count(" | ") == 1], "rows")
    if program:
        made = Lines(int(seed))
        lines = [made.line() for _ in range(int(count))]
        done = subprocess.run([program, "question"], input="".join(line + "\n" for line in lines), capture_output=True, text=True, check=True)
        compare(lines, done.stdout.splitlines(), "random lines")
        lines = [made.line_of_search() for _ in range(int(count))]
        done = subprocess.run([program, "question"], input="".join(line + "\n" for line in lines), capture_output=True, text=True, check=True)
        compare(lines, done.stdout.splitlines(), "random patterns")


if __name__ == "__main__":
    if sys.argv[1:2] == ["--indexes"]:
        by_indexes(*sys.argv[2:])
    else:
        main(*sys.argv[1:])
