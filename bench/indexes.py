#!/usr/bin/python3
"""Times indexes of `fallowtime FILE` beside SQLite's, over orders of some 250 bytes.

bench/indexes.py PROGRAM BASELINE [NUMBER ..]

PROGRAM is the program under the name fallowtime, BASELINE what bench/indexes.c was built as, and NUMBER how many orders
there are: 20000 and 100000, if it isn't given. Prints, as microseconds of the processor for each, the least of three
rounds: a find of one order by an indexed field, of ten by a range of it, a get by its `_id` and both finds without an
index in the same session,
inserts with two indexes and without, making an index beside a count that reads all orders; and the bytes of memory that
an index takes for each order. Behind it the same of BASELINE. Files lie in memory, so a sync costs nothing.
"""
import json
import os
import pathlib
import random
import shutil
import subprocess
import sys
import tempfile

import bson

FINDS, INSERTS, ROUNDS = 10000, 5000, 3
# The numbers of the orders lie below this one, as far from each other as they can.
NUMBERS = 1000003


def document(number, among):
    """An order. Its number is its own, and 20 orders have its customer."""
    customer = {"name": f"Customer {number * 7919 % (among // 20)}", "city": "Ulm"}
    lines = [{"article": f"article {number * 7 % 100}", "count": count, "price": number % 1000 / 8} for count in (1, 2)]
    return {"_id": number, "number": number * 7919 % NUMBERS, "customer": customer, "paid": number % 3 == 0, "lines": lines}


class Session:
    """A process of the program that has a file open."""

    def __init__(self, program, file):
        self.process = subprocess.Popen([program, file], stdin=subprocess.PIPE, stdout=subprocess.PIPE)
        self.ask([["collections"]])

    def busy(self):
        """The nanoseconds of the processor so far."""
        return int(pathlib.Path(f"/proc/{self.process.pid}/schedstat").read_text().split()[0])

    def memory(self):
        """The bytes of memory now."""
        return int(pathlib.Path(f"/proc/{self.process.pid}/statm").read_text().split()[1]) * os.sysconf("SC_PAGE_SIZE")

    def ask(self, requests):
        """The last answer, and the nanoseconds of the processor."""
        lines = [json.dumps(request, separators=(",", ":")).encode() + b"\n" for request in requests]
        began, answer = self.busy(), b""
        for first in range(0, len(lines), 100):
            self.process.stdin.write(b"".join(lines[first:first + 100]))
            self.process.stdin.flush()
            for _ in lines[first:first + 100]:
                answer = self.process.stdout.readline()
                assert answer and b"error" not in answer, answer
        return json.loads(answer), self.busy() - began

    def close(self):
        self.process.stdin.close()
        self.process.wait()


def least(session, requests):
    return min(session.ask(requests)[1] for _ in range(ROUNDS)) / len(requests) / 1000


def say(what, microseconds):
    print(f"{what}: {microseconds:.2f} us")


def finds(session, number):
    """Finds of one order each, and gets of the same orders."""
    chosen = random.Random(1).choices(range(number), k=FINDS)
    asked = [["find", "c", {"number": one * 7919 % NUMBERS}] for one in chosen]
    say("a find without an index", least(session, asked[:20]))
    width = 10 * NUMBERS // number
    ranges = [["find", "c", {"number": {"$gte": low, "$lt": low + width}}] for low in random.Random(2).choices(range(NUMBERS - width), k=FINDS // 10)]
    say("a find of ten by a range without an index", least(session, ranges[:20]))
    counting = [["count", "c", {"number": -1}]]
    scan = least(session, counting)
    made = []
    for _ in range(ROUNDS):
        session.ask([["drop_index", "c", "number"]])
        made.append(session.ask([["index", "c", "number"]])[1] / 1000)
    say("a count that reads all", scan)
    say("making an index of numbers", min(made))
    print(f"that is {min(made) / scan:.2f} of the count")
    say("a find by the index", least(session, asked))
    say("a count by the index", least(session, [["count", *rest] for _, *rest in asked]))
    say("a get by the _id", least(session, [["get", "c", one] for one in chosen]))
    print(f"which finds {len(session.ask(asked[:1])[0]['documents'])}")
    say("a find of ten by a range and the index", least(session, ranges))
    print(f"the first of which finds {len(session.ask(ranges[:1])[0]['documents'])}")
    session.ask([["index", "c", "customer.name"]])
    say("a find of 20 by another index", least(session, [["find", "c", {"customer.name": f"Customer {one % (number // 20)}"}] for one in chosen[:1000]]))


def inserts(program, file, number, indexes):
    """The nanoseconds for inserts behind others."""
    session = Session(program, file)
    for path in indexes:
        session.ask([["index", "c", path]])
    spent = session.ask([["insert", "c", document(one, number)] for one in range(number, number + INSERTS)])[1]
    session.close()
    return spent / INSERTS / 1000


def memory(program, number, folder):
    """The bytes of memory for each document of an index on a field that is its own. The first indexes get memory that
    was in use before, as the file was opened; so the later ones count."""
    stream = b"".join(bson.encode({"_id": one, **{key: one * 7919 % 1000003 for key in "abcdefgh"}}) for one in range(number))
    file = str(folder / "memory.db")
    subprocess.run([program, file, "import", "c"], input=stream, stdout=subprocess.DEVNULL, check=True)
    session, held = Session(program, file), []
    for key in "abcdefgh":
        session.ask([["index", "c", key]])
        held.append(session.memory())
    session.close()
    print(f"bytes of memory that an index takes for each document: {(held[7] - held[3]) / 4 / number:.0f}")


def measure(program, baseline, number, folder):
    stream = folder / "orders.bson"
    stream.write_bytes(b"".join(bson.encode(document(one, number)) for one in range(number)))
    print(f"---- {number} orders, {stream.stat().st_size // number} bytes each")
    file = str(folder / "ours.db")
    with open(stream, "rb") as orders:
        subprocess.run([program, file, "import", "c"], stdin=orders, stdout=subprocess.DEVNULL, check=True)
    session = Session(program, file)
    finds(session, number)
    session.close()
    spent = []
    for indexes in [], ["number", "customer.name"]:
        files = [shutil.copy(file, folder / f"copy{turn}.db") for turn in range(ROUNDS)]
        spent.append(min(inserts(program, str(copy), number, indexes) for copy in files))
    say("an insert", spent[0])
    say("an insert with two indexes", spent[1])
    print(f"that is {spent[1] / spent[0]:.2f} of one without")
    memory(program, number, folder)
    print("---- SQLite and libbson")
    sys.stdout.flush()
    subprocess.run([baseline, str(folder / "theirs.db"), str(stream), str(FINDS), str(INSERTS)], check=True)


def main():
    if len(sys.argv) < 3:
        sys.exit("indexes.py: the words are PROGRAM BASELINE [NUMBER ..]")
    for number in map(int, sys.argv[3:] or ["20000", "100000"]):
        with tempfile.TemporaryDirectory(dir="/dev/shm") as folder:
            measure(os.path.abspath(sys.argv[1]), os.path.abspath(sys.argv[2]), number, pathlib.Path(folder))


main()
