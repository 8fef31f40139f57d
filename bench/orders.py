"""Writes one BSON document of nested orders to standard output: orders.py [BYTES], by default 16 MB less a little.

Keys of about ten bytes, small texts, numbers, dates and arrays, as a shop would keep them. The same bytes at each run.
"""

import struct
import sys


def text(value):
    raw = value.encode()
    return struct.pack("<i", len(raw) + 1) + raw + b"\0"


def element(tag, key, payload):
    return bytes([tag]) + key.encode() + b"\0" + payload


def document(elements):
    body = b"".join(elements)
    return struct.pack("<i", len(body) + 5) + body + b"\0"


def array(tag, payloads):
    return document([element(tag, str(i), payload) for i, payload in enumerate(payloads)])


def line(number, n):
    return document([
        element(0x02, "article_no", text("A-%06d" % (number * 7 % 1000000))),
        element(0x10, "item_count", struct.pack("<i", n % 9 + 1)),
        element(0x12, "unit_price", struct.pack("<q", number * 37 % 100000)),
        element(0x02, "colour_name", text(["grün", "rouge", "blue", "white"][n % 4])),
        element(0x08, "gift_wrapped", b"\x01" if n % 3 == 0 else b"\x00"),
    ])


def order(number):
    return document([
        element(0x07, "_id", struct.pack(">IQ", 1600000000 + number, number)),
        element(0x12, "order_number", struct.pack("<q", number)),
        element(0x09, "ordered_at", struct.pack("<q", 1600000000000 + number * 1000)),
        element(0x02, "customer_name", text("Customer %d" % (number % 5000))),
        element(0x03, "ship_address", document([
            element(0x02, "street_name", text("Long Street %d" % (number % 300))),
            element(0x02, "postal_code", text("%05d" % (number % 100000))),
            element(0x02, "city_name", text("Zürich" if number % 2 else "Graz")),
            element(0x01, "latitude", struct.pack("<d", 47.0 + number % 100 / 100)),
        ])),
        element(0x04, "order_lines", array(0x03, [line(number, n) for n in range(number % 5 + 1)])),
        element(0x04, "tag_numbers", array(0x10, [struct.pack("<i", number % 1000 + n) for n in range(6)])),
        element(0x0A, "cancelled", b""),
    ])


def main():
    limit = int(sys.argv[1]) if len(sys.argv) > 1 else 16777216
    orders = []
    size = 5 + 8 + 5
    while True:
        entry = element(0x03, str(len(orders)), order(len(orders)))
        if size + len(entry) > limit:
            break
        orders.append(entry)
        size += len(entry)
    sys.stdout.buffer.write(document([element(0x04, "orders", document(orders))]))


if __name__ == "__main__":
    main()
