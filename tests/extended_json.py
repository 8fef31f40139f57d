#!/usr/bin/python3
"""Runs the program `bson_json`: documents of BSON as lines of Extended JSON, and back, held against Python's floats, its `json` and
`bson`, and against rows written from MongoDB's page on Extended JSON v2.

    tests/extended_json.py BSON_JSON [BSON_STORE]

prints one line a step, and ends with status 1 at the first that isn't as it should be. With the program `bson_store`, which may also
be the file of that name beside the first, the pipe from one into the other is tried too. Each program is started under its own name,
whatever its file is called. (A file `json.py` in this folder would stand in the place of Python's `json` for the other tests.)
"""
import json
import math
import os
import pathlib
import random
import struct
import subprocess
import sys
import tempfile

try:
    import bson
    from bson import decimal128, json_util
except ImportError:
    sys.exit("extended_json.py: needs Python's bson, of Debian: apt-get install python3-bson")

sys.path.insert(0, str(pathlib.Path(__file__).resolve().parent))
import amounts  # noqa: E402
from random_documents import Spots, settle, whole, write_document  # noqa: E402

PROGRAM = sys.argv[1]
BESIDE = pathlib.Path(PROGRAM).parent / "bson_store"
STORE = sys.argv[2] if len(sys.argv) > 2 else str(BESIDE) if BESIDE.exists() else None
OPTIONS = json_util.JSONOptions(json_mode=json_util.JSONMode.CANONICAL, tz_aware=False, tzinfo=None)
GENERATOR = random.Random(amounts.seed(20))
UNSOUND = b"\xff\xff\xff\xff"


def run(*words, given=b"", **more):
    done = subprocess.run(["bson_json", *words], executable=PROGRAM, input=given, capture_output=True, **more)
    return done.returncode, done.stdout, done.stderr.decode()


def holds(step, found, wanted):
    if found != wanted:
        print(f"{step}: {found!r}"[:2000], f"in place of {wanted!r}"[:2000])
        sys.exit(1)
    print(f"{step}: {found!r}"[:150])


def same(step, found, wanted):
    """Of long outputs: where they first differ."""
    if found != wanted:
        at = next((i for i, (x, y) in enumerate(zip(found, wanted)) if x != y), min(len(found), len(wanted)))
        print(f"{step}: at {at} {found[at - 60:at + 60]!r} in place of {wanted[at - 60:at + 60]!r}")
        sys.exit(1)
    print(f"{step}: {len(found)} as they should be")


def document(*elements):
    body = b"".join(bytes([tag]) + key.encode() + b"\0" + payload for tag, key, payload in elements)
    return struct.pack("<i", len(body) + 5) + body + b"\0"


def text(value):
    return struct.pack("<i", len(value.encode()) + 1) + value.encode() + b"\0"


def double(value):
    return struct.pack("<d", value)


# Rows of every kind: its tag, its payload, its canonical text, and its relaxed one where that is another. They are written from
# the page "MongoDB Extended JSON (v2)" and bsonspec.org 1.1.
ID = bytes(range(12))
UUID = bytes(range(16))
ROWS = [
    (0x01, double(1.5), '{"$numberDouble":"1.5"}', "1.5"),
    (0x01, double(3.0), '{"$numberDouble":"3.0"}', "3.0"),
    (0x01, double(-0.0), '{"$numberDouble":"-0.0"}', "-0.0"),
    (0x01, double(math.inf), '{"$numberDouble":"Infinity"}', None),
    (0x01, double(-math.inf), '{"$numberDouble":"-Infinity"}', None),
    (0x01, bytes.fromhex("000000000000f87f"), '{"$numberDouble":"NaN"}', None),
    (0x02, text("a \"b\"\n\u0001é😀/"), '"a \\"b\\"\\n\\u0001é😀/"', None),
    (0x03, document((0x08, "z", b"\1"), (0x0A, "a", b"")), '{"z":true,"a":null}', None),
    (0x04, document((0x08, "0", b"\0"), (0x02, "1", text("x"))), '[false,"x"]', None),
    (0x05, struct.pack("<iB", 3, 0) + b"\1\2\3", '{"$binary":{"base64":"AQID","subType":"00"}}', None),
    (0x05, struct.pack("<iB", 16, 4) + UUID, '{"$binary":{"base64":"AAECAwQFBgcICQoLDA0ODw==","subType":"04"}}', None),
    (0x05, struct.pack("<iB", 0, 0x80), '{"$binary":{"base64":"","subType":"80"}}', None),
    (0x06, b"", '{"$undefined":true}', None),
    (0x07, ID, '{"$oid":"000102030405060708090a0b"}', None),
    (0x08, b"\1", "true", None),
    (0x09, struct.pack("<q", 0), '{"$date":{"$numberLong":"0"}}', '{"$date":"1970-01-01T00:00:00Z"}'),
    (0x09, struct.pack("<q", 1356351330501), '{"$date":{"$numberLong":"1356351330501"}}', '{"$date":"2012-12-24T12:15:30.501Z"}'),
    (0x09, struct.pack("<q", -1), '{"$date":{"$numberLong":"-1"}}', None),
    (0x0A, b"", "null", None),
    (0x0B, b"a*b\0ix\0", '{"$regularExpression":{"pattern":"a*b","options":"ix"}}', None),
    (0x0C, text("db.c") + ID, '{"$dbPointer":{"$ref":"db.c","$id":{"$oid":"000102030405060708090a0b"}}}', None),
    (0x0D, text("f()"), '{"$code":"f()"}', None),
    (0x0E, text("s"), '{"$symbol":"s"}', None),
    (0x0F, struct.pack("<i", 4 + 8 + 12) + text("f()") + document((0x10, "x", struct.pack("<i", 1))),
     '{"$code":"f()","$scope":{"x":{"$numberInt":"1"}}}', '{"$code":"f()","$scope":{"x":1}}'),
    (0x10, struct.pack("<i", -2147483648), '{"$numberInt":"-2147483648"}', "-2147483648"),
    (0x11, struct.pack("<II", 2, 1), '{"$timestamp":{"t":1,"i":2}}', None),
    (0x12, struct.pack("<q", 9223372036854775807), '{"$numberLong":"9223372036854775807"}', "9223372036854775807"),
    (0x13, decimal128.Decimal128("1.50").bid, '{"$numberDecimal":"1.50"}', None),
    (0x13, decimal128.Decimal128("-Infinity").bid, '{"$numberDecimal":"-Infinity"}', None),
    (0x7F, b"", '{"$maxKey":1}', None),
    (0xFF, b"", '{"$minKey":1}', None),
]
ROWS = [(tag, payload if tag != 0x0F else struct.pack("<i", len(payload)) + payload[4:], canonical, relaxed)
        for tag, payload, canonical, relaxed in ROWS]
STREAM = b"".join(document((tag, "v", payload)) for tag, payload, _, _ in ROWS)
CANONICAL = "".join(f'{{"v":{canonical}}}\n' for _, _, canonical, _ in ROWS)
RELAXED = "".join(f'{{"v":{relaxed or canonical}}}\n' for _, _, canonical, relaxed in ROWS)

holds("help", run("--help")[0::2], (0, ""))
holds("help says its words", [word in run("--help")[1].decode() for word in ["--canonical", "--to-bson"]], [True, True])
for words in [["--relaxed"], ["x"], ["--canonical", "--to-bson"], [""]]:
    holds(f"words {words}", run(*words, given=STREAM), (2, b"", "words: usage\n"))
holds("nothing", [run(*words) for words in [[], ["--canonical"], ["--to-bson"]]], [(0, b"", "")] * 3)

same("rows, canonical", run("--canonical", given=STREAM), (0, CANONICAL.encode(), ""))
same("rows, relaxed", run(given=STREAM), (0, RELAXED.encode(), ""))
same("canonical rows back", run("--to-bson", given=CANONICAL.encode()), (0, STREAM, ""))
# Relaxed, an int64 that an int32 holds and a whole double are other kinds; here each row comes back as it was.
same("relaxed rows back", run("--to-bson", given=RELAXED.encode()), (0, STREAM, ""))
holds("empty lines are passed over, and the last line feed may be absent",
      run("--to-bson", given=b'\n\n{"a":true}\n\n\n{"b" : [ null ] }'),
      (0, document((8, "a", b"\1")) + document((4, "b", document((10, "0", b"")))), ""))

# What Python's json_util says of the same rows, where it is right: it has no texts for undefined and dbPointer's own kind, writes
# a symbol as a text, a UUID of its own subtype, and other texts of floats.
for tag, payload, canonical, _ in ROWS:
    if tag not in (0x01, 0x06, 0x0C, 0x0E, 0x0F) and payload[4:5] != b"\x04":
        theirs = json_util.dumps(bson.decode(document((tag, "v", payload))), json_options=OPTIONS)
        holds(f"json_util, kind {tag:02x}", json.loads(theirs)["v"], json.loads(canonical))

# ---- doubles


def of_bits(bits):
    return struct.unpack("<d", struct.pack("<Q", bits))[0]


def near(value):
    return [value, math.nextafter(value, math.inf), math.nextafter(value, -math.inf)] if hasattr(math, "nextafter") else [value]


def doubles(count):
    powers = [x for n in range(-323, 309) for x in near(float(f"1e{n}"))]
    halves = [n + 0.5 for n in range(-500, 500)] + [2.0 ** n for n in range(-1074, 1024)] + [2.0 ** 53 + n for n in range(-8, 9)]
    by_exponent = [of_bits(GENERATOR.getrandbits(1) << 63 | e << 52 | GENERATOR.getrandbits(52)) for e in range(2047) for _ in range(12)]
    subnormal = [of_bits(GENERATOR.getrandbits(1) << 63 | GENERATOR.getrandbits(GENERATOR.randrange(1, 53))) for _ in range(5000)]
    prices = [round(GENERATOR.random() * 10 ** GENERATOR.randrange(9), GENERATOR.randrange(6)) for _ in range(20000)]
    found = powers + halves + by_exponent + subnormal + prices + [0.0, -0.0, 5e-324, 1.7976931348623157e308]
    while len(found) < count:
        value = of_bits(GENERATOR.getrandbits(64))
        if math.isfinite(value):
            found.append(value)
    return found


NUMBERS = doubles(100000)
ARRAYS = [NUMBERS[i:i + 100] for i in range(0, len(NUMBERS), 100)]
STREAM_OF_DOUBLES = b"".join(document((4, "v", document(*[(1, str(i), double(x)) for i, x in enumerate(part)]))) for part in ARRAYS)
status, lines, told = run(given=STREAM_OF_DOUBLES)
holds("doubles, relaxed", (status, told), (0, ""))
read = [x for line in lines.decode().splitlines() for x in json.loads(line)["v"]]
holds("Python reads each as a float", all(isinstance(x, float) for x in read), True)
same("and reads them bit for bit", b"".join(map(double, read)), b"".join(map(double, NUMBERS)))
same("they come back bit for bit", run("--to-bson", given=lines), (0, STREAM_OF_DOUBLES, ""))
shortest = sum(len(json.dumps(x)) for x in NUMBERS)
texts = [len(t) for line in lines.decode().splitlines() for t in line[6:-2].split(",")]
holds("no text has more digits than Python's", sum(texts) <= shortest + 3 * len(NUMBERS), True)
status, lines, told = run("--canonical", given=STREAM_OF_DOUBLES)
read = [float(x["$numberDouble"]) for line in lines.decode().splitlines() for x in json.loads(line)["v"]]
same("canonical they are the same", (status, b"".join(map(double, read)), told), (0, b"".join(map(double, NUMBERS)), ""))
same("and come back", run("--to-bson", given=lines), (0, STREAM_OF_DOUBLES, ""))
for form in [repr, lambda x: f"{x:.20e}", lambda x: f"{x:.25E}"]:
    given = "".join("{\"v\":[" + ",".join(map(form, part)) + "]}\n" for part in ARRAYS)
    same("Python's texts of them are read bit for bit", run("--to-bson", given=given.encode()), (0, STREAM_OF_DOUBLES, ""))
NANS = [0x7FF8000000000001, 0xFFF8000000000000, 0x7FF0000000000001, 0xFFFFFFFFFFFFFFFF]
nans = b"".join(document((1, "v", struct.pack("<Q", bits))) for bits in NANS)
status, lines, told = run(given=nans)
holds("what is not a number keeps at most its sign", run("--to-bson", given=lines)[1] in
      {b"".join(document((1, "v", struct.pack("<Q", 0x7FF8 << 48 | sign))) for sign in signs)
       for signs in [[0, 1 << 63, 0, 1 << 63], [0, 0, 0, 0]]}, True)

# ---- documents of all kinds


def made_documents(count):
    for _ in range(count):
        out = bytearray()
        write_document(out, settle(GENERATOR, whole(GENERATOR)), Spots())
        yield bytes(out)


DOCUMENTS = list(made_documents(4000))
MADE = b"".join(DOCUMENTS)
status, lines, told = run("--canonical", given=MADE)
holds("documents of all kinds, canonical", (status, len(lines.splitlines()), told), (0, len(DOCUMENTS), ""))
same("each is back byte for byte", run("--to-bson", given=lines), (0, MADE, ""))
status, relaxed, told = run(given=MADE)
holds("relaxed", (status, len(relaxed.splitlines()), told), (0, len(DOCUMENTS), ""))
status, back, told = run("--to-bson", given=relaxed)
holds("back", (status, told), (0, ""))
same("relaxed once more it is the same text", run(given=back), (0, relaxed, ""))

# ---- documents that aren't written as they mean, or have too many levels to be written straight from their bytes


def levels(count):
    out = document()
    for _ in range(count - 1):
        out = document((3, "a", out))
    return out


def number(value):
    return struct.pack("<i", value)


FIRST = document((0x10, "_id", number(0)))
for step, given, line in [
    ("a key twice", document((0x10, "a", number(1)), (10, "b", b""), (0x10, "a", number(2))), '{"a":2,"b":null}'),
    ("a key twice below", document((3, "x", document((8, "a", b"\0"), (10, "b", b""), (8, "a", b"\1")))), '{"x":{"a":true,"b":null}}'),
    ("an array with other keys", document((4, "a", document((10, "x", b""), (8, "", b"\1"), (8, "x", b"\0")))), '{"a":[null,true,false]}'),
    ("options that don't ascend", document((11, "a", b"b\0xi\0")), '{"a":{"$regularExpression":{"pattern":"b","options":"ix"}}}'),
    ("an old binary", document((5, "a", struct.pack("<iBi", 5, 2, 1) + b"\7")), '{"a":{"$binary":{"base64":"Bw==","subType":"02"}}}'),
    ("keys that don't ascend", document(*[(10, f"k{n:03}", b"") for n in range(300, 0, -1)]),
     "{" + ",".join(f'"k{n:03}":null' for n in range(300, 0, -1)) + "}"),
    ("100 levels", levels(100), '{"a":' * 99 + "{}" + "}" * 99),
    ("101 levels", levels(101), '{"a":' * 100 + "{}" + "}" * 100),
    ("1000 levels", levels(1000), '{"a":' * 999 + "{}" + "}" * 999),
]:
    same(step, run(given=FIRST + given + FIRST), (0, ('{"_id":0}\n' + line + '\n{"_id":0}\n').encode(), ""))
holds("1001 levels", run(given=FIRST + levels(1001)), (1, b'{"_id":0}\n', "refused: Memory\n"))

# ---- faults

GOOD = [document((0x10, "_id", struct.pack("<i", i))) for i in range(3)]
BEFORE = b'{"_id":0}\n{"_id":1}\n'
LINES = b'{"_id":0}\n{"_id":1}\n'


def refused(step, bad, told, words=()):
    holds(step, run(*words, given=GOOD[0] + GOOD[1] + bad), (1, BEFORE, f"refused: {told}\n"))


refused("an end inside a length", b"\5\0", "EndInside document 2")
refused("an end inside a document", GOOD[2][:-1], "EndInside document 2")
refused("a length under 5", b"\4\0\0\0", "BadLength document 2")
refused("a length over 16 MiB", struct.pack("<I", 16777217) + b"x", "BadLength document 2")
refused("no 00 at the end", document()[:-1] + b"\1", "MalformedValue document 2")
refused("a tag that isn't", document((0x20, "a", b"")), "MalformedValue document 2")
refused("a truth of 2", document((0x08, "a", b"\2")), "MalformedValue document 2")
refused("a text that isn't UTF-8", document((0x02, "a", struct.pack("<i", 2) + b"\xff\0")), "Utf8EncodingError document 2")
refused("a key that isn't UTF-8", b"\x08\0\0\0\x0a\xff\0\0", "Utf8EncodingError document 2")
inner = document((0x03, "$x", document((0x04, "b", document((0x03, "0", document((0x02, "$oid", text("x")))))))))
refused("a reserved key below the top", document((0x03, "a", inner)), "ReservedKey document 2 a.$x.b.0.$oid")
refused("behind a key that a terminal obeys", document((0x03, "a\x1b[2J\nrefused: x\r", inner)), r'ReservedKey document 2 "a\u001b[2J\nrefused: x\r.$x.b.0.$oid"')
twice = document((4, "a", document((0x10, "7", number(1)), (3, "x", document((2, "$oid", text("x")))))))
refused("a path that counts the places of an array", twice, "ReservedKey document 2 a.1.$oid")
refused("a reserved key under a key twice, whose last value has none", document((3, "a", inner), (10, "a", b""), (3, "b", inner)), "ReservedKey document 2 b.$x.b.0.$oid")
refused("a fault behind a reserved key", document((3, "a", inner), (8, "b", b"\2")), "MalformedValue document 2")
holds("a reserved key at the top is a key", run(given=document((0x02, "$oid", text("x")))), (0, b'{"$oid":"x"}\n', ""))


def unread(step, line, told):
    holds(step, run("--to-bson", given=LINES + line + b'\n{"_id":2}\n'), (2, GOOD[0] + GOOD[1] + UNSOUND, f"words: line 3 {told}\n"))


unread("no JSON", b'{"a":x}', "byte 6 NotJson")
unread("JSON that ends", b'{"a":1', "byte 7 NotJson")
unread("more behind the JSON", b"{} {}", "byte 4 NotJson")
unread("bad UTF-8", b'{"a":"\xff"}', "byte 7 Utf8EncodingError")
unread("a number that no double comes near", b'{"a":1e999}', "NumberOutOfRange")
unread("a whole number over 64 bits", b'{"a":12345678901234567890}', "NumberOutOfRange")
unread("a key twice", b'{"a":1,"b":2,"a":3}', "RepeatedKey")
unread("a key twice below", b'{"a":{"b":2,"b":3}}', "RepeatedKey")
unread("no object", b"[1]", "NotExtendedJson")
unread("a wrapper with a key more", b'{"a":{"$numberInt":"1","x":1}}', "NotExtendedJson")
unread("an object id of 23 digits", b'{"a":{"$oid":"00010203040506070809a0b"}}', "InvalidObjectId")
unread("a 00 in a key", b'{"a\\u0000":1}', "MalformedValue")
status, _, told = run("--to-bson", given=b'{"a":' + b"[" * 200 + b"]" * 200 + b"}")
holds("too deep for JSON", (status, told.split()[-1]), (2, "NotJson"))

long = b'{"a":"' + b"x" * (64 * 1024 * 1024) + b'"}\n'
holds("a line over 64 MiB", run("--to-bson", given=LINES + long), (2, GOOD[0] + GOOD[1] + UNSOUND, "words: line 3 TooLong\n"))
same("a line of 60 MiB", run("--to-bson", given=b'{"a":"' + b"x" * 60000000 + b'"}\n'), (0, document((2, "a", text("x" * 60000000))), ""))


def by_file(words, given, output=subprocess.PIPE):
    done = subprocess.run(["bson_json", *words], executable=PROGRAM, stdin=given, stdout=output, stderr=subprocess.PIPE)
    return done.returncode, done.stderr.decode()


for words in [[], ["--canonical"], ["--to-bson"]]:
    folder = os.open("/", os.O_RDONLY)
    holds(f"an input that fails {words}", by_file(words, folder), (1, "refused: Reader\n"))
    os.close(folder)
with tempfile.TemporaryFile() as given, open("/dev/full", "wb") as full:
    for words, stream in [([], GOOD[0] * 20000), (["--to-bson"], LINES * 20000), ([], GOOD[0]), (["--to-bson"], LINES)]:
        given.seek(0)
        given.truncate()
        given.write(stream)
        given.flush()
        os.lseek(given.fileno(), 0, os.SEEK_SET)
        holds(f"/dev/full, {len(stream)} bytes {words}", by_file(words, given, output=full), (1, "refused: Writer\n"))
holds("/dev/full, --help", by_file(["--help"], subprocess.DEVNULL, output=open("/dev/full", "wb")), (1, "refused: Writer\n"))

# ---- a pipe holds little: one document at a time


def limited():
    import resource
    resource.setrlimit(resource.RLIMIT_AS, (200 * 1024 * 1024, 200 * 1024 * 1024))


many = MADE * (1 + 60 * 1024 * 1024 // len(MADE))
holds("60 MiB of documents in 200 MiB of memory", run("--canonical", given=many, preexec_fn=limited)[0::2], (0, ""))

# ---- into the store

if STORE:
    with tempfile.TemporaryDirectory() as folder:
        def store(*words, given=b""):
            done = subprocess.run(["bson_store", f"{folder}/shop.db", *words], executable=STORE, input=given, capture_output=True)
            return done.returncode, done.stdout, done.stderr.decode()

        good = "".join(f'{{"_id":{i},"weight":{i}.5}}\n' for i in range(1000))
        holds("import of lines with fractions", store("import", "c", given=run("--to-bson", given=good.encode())[1]), (0, b"1000\n", ""))
        same("and export as lines", run(given=store("export", "c")[1]), (0, good.encode(), ""))
        for bad in [b'{"_id":1', b"\xff", b'{"_id":1,"_id":2}', b'{"a":1e999}']:
            status, stream, told = run("--to-bson", given=b'{"_id":5000}\n{"_id":5001}\n' + bad + b'\n{"_id":5002}\n')
            status, out, told = store("import", "c", given=stream)
            holds(f"import refuses what was cut off at {bad!r}", (status, out, told.split()[:2]), (1, b"", ["refused:", "BadLength"]))
        holds("nothing of it went in", store("count", "c", '{"and":[]}'), (0, b"1000\n", ""))
else:
    print("the pipe into bson_store was not tried: no program was given")
