"""Writes a stream of documents to standard output, the same bytes at each run.

`documents.py orders COUNT`: orders of about 1 kB, with an array of documents; `documents.py mixed COUNT`: the same, each with a decimal, a
binary, a UUID, a timestamp and a regular expression beside; `documents.py small COUNT`: an `_id`, a text and a number. No value is a double,
as a dump has none.
"""

import struct
import sys


def text(value):
    raw = value.encode()
    return struct.pack("<i", len(raw) + 1) + raw + b"\0"


def element(tag, key, payload):
    return bytes([tag]) + key.encode() + b"\0" + payload


def document(elements):
    body = b"".join(elements)
    return struct.pack("<i", len(body) + 5) + body + b"\0"


def array(tag, payloads):
    return document([element(tag, str(i), payload) for i, payload in enumerate(payloads)])


def line(number, n):
    return document([
        element(0x02, "article_no", text("A-%06d" % (number * 7 % 1000000))),
        element(0x10, "item_count", struct.pack("<i", n % 9 + 1)),
        element(0x12, "unit_price", struct.pack("<q", number * 37 % 100000)),
        element(0x02, "colour_name", text(["grün", "rouge", "blue", "white"][(number + n) % 4])),
        element(0x08, "gift_wrapped", b"\x01" if n % 3 == 0 else b"\x00"),
    ])


def order(number, further=()):
    return document([
        element(0x10, "_id", struct.pack("<i", number)),
        element(0x12, "order_number", struct.pack("<q", number)),
        element(0x09, "ordered_at", struct.pack("<q", 1600000000000 + number * 1000)),
        element(0x03, "ship_address", document([
            element(0x02, "street_name", text("Long Street %d" % (number % 300))),
            element(0x02, "postal_code", text("%05d" % (number % 100000))),
            element(0x02, "city_name", text("Zürich" if number % 2 else "Graz")),
            element(0x12, "latitude_micro", struct.pack("<q", 47000000 + number % 100 * 10000)),
        ])),
        element(0x04, "order_lines", array(0x03, [line(number, n) for n in range(7)])),
        element(0x04, "tag_numbers", array(0x10, [struct.pack("<i", number % 1000 + n) for n in range(6)])),
        element(0x0A, "cancelled", b""),
        element(0x02, "customer_name", text("Customer %d" % (number % 50))),
        *further,
    ])


def binary(subtype, content):
    return struct.pack("<iB", len(content), subtype) + content


def mixed(number):
    return order(number, [
        # a decimal of two places: its digits, and an exponent of -2 above the bias
        element(0x13, "total_price", struct.pack("<QQ", number * 137 % 10000000, (6176 - 2) << 49)),
        element(0x05, "signature_hash", binary(0x00, bytes((number * 31 + n * 17) % 256 for n in range(32)))),
        element(0x05, "shipment_uuid", binary(0x04, struct.pack(">QQ", number * 0x9E3779B97F4A7C15 % 2**64, number))),
        element(0x11, "changed_at", struct.pack("<II", number % 1000, 1600000000 + number)),
        element(0x0B, "label_pattern", b"^A-%06d\0i\0" % (number % 1000000)),
    ])


def small(number):
    return document([
        element(0x10, "_id", struct.pack("<i", number)),
        element(0x02, "customer_name", text("Customer %d" % (number % 50))),
        element(0x12, "order_number", struct.pack("<q", number)),
    ])


def main():
    make = {"orders": order, "mixed": mixed, "small": small}[sys.argv[1]]
    for number in range(int(sys.argv[2])):
        sys.stdout.buffer.write(make(number))


main()
