"""Times questions to each document of a stream by Python's bson, which makes its tree first: select.py FILE ROUNDS."""

import sys
import time

import bson


def documents(data):
    at = 0
    while at < len(data):
        length = int.from_bytes(data[at:at + 4], "little")
        yield data[at:at + length]
        at += length


QUESTIONS = [
    ("customer_name", lambda d: d["customer_name"] == "Customer 7"),
    ("order_lines.0.colour_name", lambda d: d["order_lines"][0]["colour_name"] == "blue"),
    ("ship_address.city_name", lambda d: d["ship_address"]["city_name"] == "Graz"),
]


def main():
    with open(sys.argv[1], "rb") as file:
        kept = list(documents(file.read()))
    for name, question in QUESTIONS:
        least = None
        for _ in range(int(sys.argv[2])):
            start = time.process_time()
            selected = sum(1 for data in kept if question(bson.decode(data)))
            taken = time.process_time() - start
            least = taken if least is None else min(least, taken)
        print("%s: %d selected, %.0f us" % (name, selected, least * 1e6))


main()
