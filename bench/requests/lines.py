#!/usr/bin/python3
"""Lines of requests for `fallowtime FILE`: so many, mixed: inserts, gets, sets, replacements, puts and removals; or lists of so many
of them each, if a LENGTH is told.

    lines.py NUMBER [LENGTH] > LINES"""
import itertools
import json
import sys


def requests():
    """For each document: it goes in, is read, changed, read, and in part replaced or removed again."""
    for n in itertools.count():
        document = {"_id": n, "name": f"n{n}", "price": n / 4, "list": [n, {"x": True}]}
        yield ["insert", "c", document]
        yield ["get", "c", n]
        yield ["set", "c", n, "price", n / 8]
        yield ["get", "c", n // 2]
        if n % 3 == 0:
            yield ["replace", "c", {"_id": n, "name": "replaced", "price": 0.5}]
        if n % 5 == 0:
            yield ["put", "d", document]
            yield ["get", "d", n]
            yield ["remove", "d", n]


def lists(length):
    """The requests as lists of so many."""
    each = requests()
    while True:
        yield ["all", list(itertools.islice(each, length))]


number, length = int(sys.argv[1]), int(sys.argv[2]) if len(sys.argv) > 2 else 0
for line in itertools.islice(lists(length), number // length) if length else itertools.islice(requests(), number):
    print(json.dumps(line))
