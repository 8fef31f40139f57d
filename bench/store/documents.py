"""Writes documents of small nested documents: `documents.py tree BYTES` or `documents.py keys COUNT`, to standard output."""

import struct
import sys

FAN = 16


def element(tag, key, payload):
    return bytes([tag]) + key.encode() + b"\0" + payload


def int32(key, value):
    return element(0x10, key, struct.pack("<i", value))


def string(key, text):
    data = text.encode() + b"\0"
    return element(0x02, key, struct.pack("<i", len(data)) + data)


def document(elements):
    body = b"".join(elements)
    return struct.pack("<i", len(body) + 5) + body + b"\0"


def leaf(number):
    return document([int32("number", number), string("text", f"a short text, {number:06}")])


def tree(first, count):
    """A document that holds `count` leaves, at most FAN documents in each document."""
    if count == 1:
        return leaf(first)
    share = -(-count // FAN)
    starts = range(first, first + count, share)
    return document(
        element(0x03, f"part{i:02}", tree(start, min(share, first + count - start)))
        for i, start in enumerate(starts)
    )


def main():
    kind, size = sys.argv[1], int(sys.argv[2])
    if kind == "tree":
        each = len(tree(0, 4096)) / 4096
        inner = [element(0x03, "tree", tree(0, int(size / each)))]
    else:
        inner = [int32(f"key{i:06}", i) for i in range(size)]
    sys.stdout.buffer.write(document([int32("_id", 1)] + inner))


main()
