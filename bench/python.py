#!/usr/bin/python3
"""Times the package for Python beside sqlite3 and bson in one process: so many `insert_one`, each on the disk before
the next one, and as many `find_one` by their `_id`.

bench/python.py [NUMBER] [FOLDER]

NUMBER is 10000, and FOLDER one among the temporary files, if they aren't given. The program is found as the package
finds it, so that FALLOWTIME names another one. Prints the seconds by the clock and those of the processor, of Python
and of the program together, and compares what both return.
"""
import contextlib
import os
import pathlib
import sqlite3
import sys
import tempfile
import time

import bson

sys.path.insert(0, str(pathlib.Path(__file__).resolve().parent.parent / "python"))
import fallowtime

TICKS = os.sysconf("SC_CLK_TCK")


def document(number):
    """An order of some 200 bytes."""
    customer = {"name": f"Customer {number % 1000}", "city": "Ulm"}
    lines = [{"article": f"article {number * 7 % 100}", "count": count, "price": number % 1000 / 8} for count in (1, 2)]
    return {"_id": number, "customer": customer, "paid": number % 3 == 0, "lines": lines}


class Theirs:
    """A table of bodies by the bytes of their `_id`s, as the store's, over sqlite3, and bson between."""

    def __init__(self, path):
        self.base = sqlite3.connect(path, isolation_level=None)
        self.base.execute("PRAGMA journal_mode = WAL")
        self.base.execute("PRAGMA synchronous = FULL")
        self.base.execute("CREATE TABLE documents (place INTEGER PRIMARY KEY, coll TEXT NOT NULL, idkey BLOB NOT NULL,"
                          " body BLOB NOT NULL, UNIQUE (coll, idkey))")

    def insert_one(self, one):
        key = bson.encode({"_id": one["_id"]})
        self.base.execute("INSERT INTO documents (coll, idkey, body) VALUES ('c', ?, ?)", (key, bson.encode(one)))

    def find_one(self, own):
        key = bson.encode({"_id": own})
        found = self.base.execute("SELECT body FROM documents WHERE coll = 'c' AND idkey = ?", (key,)).fetchone()
        return bson.decode(found[0])

    def busy(self):
        return time.process_time()


class Ours:
    """The package."""

    def __init__(self, path):
        self.store = fallowtime.open(path)
        collection = self.store["c"]
        self.insert_one, self.find_one = collection.insert_one, collection.find_one

    def busy(self):
        """Of both processes; that of the program to a hundredth."""
        words = pathlib.Path(f"/proc/{self.store._session._process.pid}/stat").read_text().rpartition(")")[2].split()
        return time.process_time() + (int(words[11]) + int(words[12])) / TICKS


def measure(name, side, call, values):
    began, busy = time.perf_counter(), side.busy()
    found = [call(value) for value in values]
    clock, busy = time.perf_counter() - began, side.busy() - busy
    print(f"{name:36} {clock:8.2f} {busy:12.2f} {1e6 * busy / len(values):18.0f}")
    return found


def main():
    number = int(sys.argv[1]) if len(sys.argv) > 1 else 10000
    documents = [document(each) for each in range(number)]
    with contextlib.ExitStack() as stack:
        folder = pathlib.Path(sys.argv[2] if len(sys.argv) > 2 else stack.enter_context(tempfile.TemporaryDirectory()))
        sides = {"fallowtime": Ours(folder / "ours.db"), "sqlite3 and bson": Theirs(folder / "theirs.db")}
        stack.callback(sides["fallowtime"].store.close)
        print(f"{number} documents of {len(bson.encode(documents[0]))} bytes")
        print(f"{'':36} {'clock s':>8} {'processor s':>12} {'processor us each':>18}")
        for name, side in sides.items():
            measure(f"insert_one, {name}", side, side.insert_one, documents)
        found = [measure(f"find_one, {name}", side, side.find_one, range(number)) for name, side in sides.items()]
        if found != [documents, documents]:
            sys.exit("they return other documents")


main()
