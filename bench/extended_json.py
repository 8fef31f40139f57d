#!/usr/bin/python3
"""Times `bson_json` beside libbson over 20,000 orders in one run, both ways and in both forms, and compares what they write:
extended_json.py BSON_JSON EXTENDED_JSON [ROUNDS], where the second program is that of extended_json.c."""

import os
import sys

# A program beside this one is called select, as a module of Python's is that subprocess wants.
FOLDER = sys.path.pop(0)
import json  # noqa: E402
import subprocess  # noqa: E402

sys.path.append(FOLDER)
from orders import order  # noqa: E402

COUNT = 20000


def run(program, words, given):
    """What the program writes, and the processor time that it took."""
    before = os.times()
    done = subprocess.run(words, executable=program, input=given, stdout=subprocess.PIPE, check=True)
    after = os.times()
    return done.stdout, after.children_user - before.children_user + after.children_system - before.children_system


def double(found):
    return float(found["$numberDouble"]) if "$numberDouble" in found else found


def same_trees(out, other):
    """Whether lines are the same trees of JSON, with doubles by their value: their texts differ."""
    return all(json.loads(mine, object_hook=double) == json.loads(theirs, object_hook=double)
               for mine, theirs in zip(out.splitlines(), other.splitlines(), strict=True))


def compare(name, words, their_words, given, is_same, rounds):
    """Prints the least times of a number of rounds, the two programs by turns."""
    mine, theirs = [], []
    for _ in range(rounds):
        mine.append(run(sys.argv[1], ["bson_json", *words], given))
        theirs.append(run(sys.argv[2], ["extended_json", *their_words], given))
    out, other = mine[0][0], theirs[0][0]
    assert is_same(out, other), f"{name}: they write different documents"
    ours, c = min(taken for _, taken in mine), min(taken for _, taken in theirs)
    print(f"{name}: {len(given)} bytes, bson_json {ours:.2f} s, libbson {c:.2f} s, {ours / c:.2f} times")
    return out


def main():
    stream = b"".join(order(number) for number in range(COUNT))
    rounds = int(sys.argv[3]) if len(sys.argv) > 3 else 5

    relaxed = compare("to relaxed lines", [], ["relaxed"], stream, same_trees, rounds)
    canonical = compare("to canonical lines", ["--canonical"], ["canonical"], stream, same_trees, rounds)
    compare("canonical lines back", ["--to-bson"], ["bson"], canonical, lambda out, other: out == other == stream, rounds)
    compare("relaxed lines back", ["--to-bson"], ["bson"], relaxed, lambda out, other: out == other, rounds)


main()
