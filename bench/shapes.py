"""Writes one BSON document of an extreme shape to standard output: shapes.py SHAPE COUNT.

keys: COUNT different keys; ascending, descending, shuffled: COUNT different keys of equal length in this order; repeated: one
key COUNT times; levels: documents in one another, COUNT levels, with a text of 16 MB in the innermost one.
"""

import random
import struct
import sys


def document(body):
    return struct.pack("<i", len(body) + 5) + body + b"\0"


def keys(count):
    return document(b"".join(b"\x10key%d\0" % i + struct.pack("<i", i) for i in range(count)))


def in_order(numbers):
    return document(b"".join(b"\x10k%07d\0" % i + struct.pack("<i", i) for i in numbers))


def ascending(count):
    return in_order(range(count))


def descending(count):
    return in_order(reversed(range(count)))


def shuffled(count):
    numbers = list(range(count))
    random.Random(1).shuffle(numbers)
    return in_order(numbers)


def repeated(count):
    return document(b"".join(b"\x10key\0" + struct.pack("<i", i) for i in range(count)))


def levels(count):
    text = b"x" * (16 * 1000 * 1000)
    inner = document(b"\x02t\0" + struct.pack("<i", len(text) + 1) + text + b"\0")
    for _ in range(count - 1):
        inner = document(b"\x03d\0" + inner)
    return inner


SHAPES = [keys, ascending, descending, shuffled, repeated, levels]
sys.stdout.buffer.write({shape.__name__: shape for shape in SHAPES}[sys.argv[1]](int(sys.argv[2])))
