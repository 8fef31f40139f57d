"""Times Python's bson on one document: convert.py FILE ROUNDS. Tells the least processor time of decode and of encode."""

import sys
import time

import bson

data = open(sys.argv[1], "rb").read()
reading = writing = float("inf")
for _ in range(int(sys.argv[2])):
    start = time.process_time()
    tree = bson.decode(data)
    between = time.process_time()
    written = bson.encode(tree)
    end = time.process_time()
    reading = min(reading, between - start)
    writing = min(writing, end - between)
print(len(data), "bytes read,", len(written), "bytes written")
for name, taken in (("decode", reading), ("encode", writing)):
    print("%s: %.0f us, %.0f MB/s" % (name, taken * 1e6, len(data) / taken / 1e6))
