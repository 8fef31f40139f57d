"""Beside bson, pymongo's package: the bytes of documents of all kinds, and its classes as values."""
import datetime
import decimal
import io
import random
import re
import sys
import unittest
import uuid

from common import ROOT, SEED, WithFolder, is_same

import fallowtime
from fallowtime import (Binary, Code, DatetimeMS, DBPointer, Int64, MaxKey, MinKey, ObjectId, Regex, Symbol, Timestamp,
                        Undefined)

try:
    import bson
    from bson import codec_options, raw_bson
except ImportError:
    bson = None

sys.path.insert(0, str(ROOT / "tests"))

DOCUMENTS = 20000
# How many documents go in by one call.
PIECE = 2000
LETTERS = "ab zé中😀\x01\"\\\x7f\u2028$.\n"
DAY = datetime.datetime(1970, 1, 1)


def text(generator, most=8):
    return "".join(generator.choices(LETTERS, k=generator.randrange(most)))


def key(generator):
    return text(generator, 5).replace("\0", "")


def number(generator):
    return generator.choice([0, 1, -1, generator.getrandbits(31), -generator.getrandbits(31), generator.getrandbits(62),
                             -(1 << 63), (1 << 31)])


def double(generator):
    return generator.choice([0.0, -0.0, 1.5, float("inf"), -float("inf"), float("nan"),
                             generator.random() * 10 ** generator.randint(-300, 300), 1e16, 1e-7, -2.0])


def date(generator):
    return DAY + datetime.timedelta(milliseconds=generator.randrange(-62135596800000, 253402300799999))


def decimal_of(generator):
    return decimal.Decimal((generator.randrange(2),
                            [generator.randrange(10) for _ in range(generator.randrange(1, 34))],
                            generator.randint(-6176, 6111 - 34)))


# For each kind, what makes a value of it at random, as it goes into the store and as bson takes it.
def both(make):
    return lambda generator: (lambda value: (value, value))(make(generator))


def object_id(generator):
    binary = bytes(generator.getrandbits(8) for _ in range(12))
    return ObjectId(binary), bson.ObjectId(binary)


def int64(generator):
    value = number(generator)
    return Int64(value), bson.Int64(value)


def binary(generator):
    # Not 255, which the bson of Debian 12 fails to write.
    subtype = generator.choice([0, 1, 2, 3, 5, 6, 9, 127, 128, 254])
    data = bytes(generator.getrandbits(8) for _ in range(generator.choice([0, 1, 16, 20])))
    return (Binary(data, subtype) if subtype else data), bson.Binary(data, subtype)


def regex(generator):
    pattern, flags = text(generator).replace("\0", ""), 0
    for flag in generator.sample([re.I, re.M, re.S, re.X, re.U], generator.randrange(5)):
        flags |= flag
    return Regex(pattern, flags), bson.Regex(pattern, flags)


def pattern(generator):
    return (re.compile("a+é", generator.choice([0, re.I, re.M | re.S])),) * 2


def code(generator):
    return Code("f()"), bson.Code("f()")


def timestamp(generator):
    pair = generator.getrandbits(32), generator.getrandbits(32)
    return Timestamp(*pair), bson.Timestamp(*pair)


def decimal128(generator):
    value = decimal_of(generator)
    return value, bson.Decimal128(value)


def array(generator, depth):
    parts = [value(generator, depth + 1) for _ in range(generator.randrange(4))]
    return [ours for ours, _ in parts], [theirs for _, theirs in parts]


def document(generator, depth):
    parts = {key(generator): value(generator, depth + 1) for _ in range(generator.randrange(5 if depth else 9))}
    return {name: ours for name, (ours, _) in parts.items()}, {name: theirs for name, (_, theirs) in parts.items()}


def scoped(generator, depth):
    script, (ours, theirs) = text(generator), document(generator, depth + 1)
    return Code(script, ours), bson.Code(script, theirs)


SCALARS = [both(text), both(number), both(double), both(date),
           both(lambda generator: uuid.UUID(int=generator.getrandbits(128))),
           both(lambda generator: generator.choice([None, True, False])), object_id, int64, binary, regex, pattern,
           code, timestamp, decimal128, lambda generator: (MinKey(), bson.MinKey()),
           lambda generator: (MaxKey(), bson.MaxKey())]


def value(generator, depth):
    if depth < 4 and generator.random() < 0.25:
        return generator.choice([array, document, scoped])(generator, depth)
    return generator.choice(SCALARS)(generator)


def whole(generator, own):
    ours, theirs = document(generator, 0)
    return {"_id": own, **ours}, {"_id": own, **theirs}


@unittest.skipIf(bson is None, "there is no bson here")
class BesideBson(WithFolder):
    def setUp(self):
        super().setUp()
        registry = codec_options.TypeRegistry(fallback_encoder=as_decimal128)
        self.options = codec_options.CodecOptions(uuid_representation=bson.binary.UuidRepresentation.STANDARD,
                                                  type_registry=registry)

    def encode(self, one):
        return bson.encode(one, codec_options=self.options)

    def test_the_bytes_of_documents(self):
        """What goes in as values comes out as the bytes that bson makes of them, and as values comes out what went
        in."""
        generator = random.Random(SEED)
        pairs = [whole(generator, own) for own in range(DOCUMENTS)]
        with self.open() as store:
            for place in range(0, DOCUMENTS, PIECE):
                store["many"].insert_many([ours for ours, _ in pairs[place:place + PIECE]])
            for ours, _ in pairs[:PIECE]:
                store["one"].insert_one(ours)
            wanted = b"".join(self.encode(theirs) for _, theirs in pairs)
            for name, count in ("many", DOCUMENTS), ("one", PIECE):
                stream = io.BytesIO()
                self.assertEqual(store[name].export(stream), count)
                self.assert_stream(stream.getvalue(), b"".join(self.encode(theirs) for _, theirs in pairs[:count]))
            for found, (ours, _) in zip(store["many"].find(), pairs):
                self.assert_same(found, came_back(ours))
                self.assertTrue(found == ours or "nan" in repr(ours))
            # bson takes the values that come back for what they are.
            taken = b"".join(self.encode(found) for found in store["many"].find())
            self.assert_stream(taken, wanted)
            # And the values of bson go in as well.
            for place in range(0, DOCUMENTS, PIECE):
                store["theirs"].insert_many([theirs for _, theirs in pairs[place:place + PIECE]])
            stream = io.BytesIO()
            store["theirs"].export(stream)
            self.assert_stream(stream.getvalue(), wanted)
            self.assertEqual(store["again"].import_(io.BytesIO(wanted)), DOCUMENTS)
            stream = io.BytesIO()
            store["again"].export(stream)
            self.assert_stream(stream.getvalue(), wanted)

    def assert_stream(self, found, wanted):
        if found == wanted:
            return
        for place, (one, other) in enumerate(zip(parts_of(found), parts_of(wanted))):
            if one != other:
                self.fail(f"document {place}: {one!r} in place of {other!r}")
        self.fail("more or fewer documents")

    def test_all_kinds_that_are_kept(self):
        """Documents of all 21 kinds, made as bytes: they come as values, and go in again as the same bytes."""
        import random_documents

        generator = random.Random(SEED)
        kept = []
        while len(kept) < 3000:
            made = random_documents.whole(generator)
            out = bytearray()
            random_documents.write_document(out, made, random_documents.Spots())
            kept.append(bytes(out))
        with self.open() as store:
            count = 0
            for each in kept:
                try:
                    count += store["bytes"].import_(io.BytesIO(each))
                except fallowtime.DuplicateKeyError:
                    pass
            found = list(store["bytes"].find())
            self.assertEqual(len(found), count)
            kinds = {kind for each in found for kind in kinds_of(each)}
            wanted = {type(None), bool, int, float, str, bytes, list, dict, ObjectId, Int64, Binary, Regex, Code,
                      Timestamp, MinKey, MaxKey, DBPointer, Symbol, Undefined, decimal.Decimal, datetime.datetime,
                      DatetimeMS}
            self.assertEqual(kinds - {uuid.UUID}, wanted)
            store["values"].insert_many(found)
            self.assertTrue(all(map(is_same, store["values"].find(), found)))
            streams = []
            for name in "bytes", "values":
                stream = io.BytesIO()
                store[name].export(stream)
                streams.append([*parts_of(stream.getvalue())])
            # Extended JSON has no place for what a NaN or a decimal says beside its value.
            unlike = [each for each, one, other in zip(found, *streams) if one != other]
            print(f"{count} documents of all kinds, {len(unlike)} with a NaN or a decimal that has other bits")
            for each in unlike:
                self.assertTrue("nan" in repr(each) or decimal.Decimal in kinds_of(each))
            self.assertLess(len(unlike), count / 5)

    def test_equality_with_the_classes_of_bson(self):
        for ours, theirs in [(ObjectId("6" * 24), bson.ObjectId("6" * 24)), (Int64(5), bson.Int64(5)),
                             (Timestamp(1, 2), bson.Timestamp(1, 2)), (Regex("a", re.I), bson.Regex("a", re.I))]:
            self.assertEqual(ours, theirs)
            self.assertEqual(theirs, ours)
            if not isinstance(ours, Regex):
                self.assertEqual(hash(theirs), hash(ours))
        for ours, theirs in [(MinKey(), bson.MinKey()), (MaxKey(), bson.MaxKey()),
                             (Binary(b"x", 5), bson.Binary(b"x", 5)), (Code("x", {"a": 1}), bson.Code("x", {"a": 1}))]:
            self.assertEqual(ours, theirs)
            if not isinstance(ours, Code):
                self.assertEqual(hash(theirs), hash(ours))
        self.assertEqual(ObjectId(bson.ObjectId("6" * 24)), ObjectId("6" * 24))
        self.assertLess(ObjectId("6" * 24), bson.ObjectId("7" * 24))

    def test_other_classes_of_bson(self):
        with self.open() as store:
            collection = store["c"]
            collection.insert_one(bson.SON([("_id", 1), ("b", bson.DBRef("c", 5)), ("a", bson.Decimal128("1.50"))]))
            self.assertEqual(repr(collection.find_one()),
                             "{'_id': 1, 'b': {'$ref': 'c', '$id': 5}, 'a': Decimal('1.50')}")
            raw = raw_bson.RawBSONDocument(bson.encode({"_id": 2, "a": {"b": 1}}))
            collection.insert_one(raw)
            self.assertEqual(collection.find_one(2), {"_id": 2, "a": {"b": 1}})
            own = bson.ObjectId()
            collection.insert_one({"_id": own, "n": bson.Int64(5)})
            self.assertEqual(collection.find_one({"_id": own})["n"], 5)
            self.assertEqual(collection.find_one(own)["_id"], own)
            self.assertEqual(collection.count_documents({"n": bson.Int64(5)}), 1)
            self.assertEqual(collection.count_documents({"n": 5}), 1)
            self.assertEqual(collection.delete_one({"_id": {"$in": [own]}}).deleted_count, 1)
            self.assertRaises(NotImplementedError, collection.find, {"a": bson.Regex("x")})
            with self.assertRaises(ValueError):
                collection.insert_one({"a": bson.Decimal128("sNaN")})


def as_decimal128(value):
    """What bson takes in the place of a decimal."""
    return bson.Decimal128(value) if isinstance(value, decimal.Decimal) else value


def came_back(value):
    """What a value that went in comes back as."""
    if isinstance(value, dict):
        return {name: came_back(member) for name, member in value.items()}
    if isinstance(value, list):
        return [came_back(item) for item in value]
    if isinstance(value, Code):
        return value if value.scope is None else Code(str(value), came_back(value.scope))
    if isinstance(value, re.Pattern):
        return Regex.from_native(value)
    if type(value) is int and not -(1 << 31) <= value < 1 << 31:
        return Int64(value)
    return value


def parts_of(stream):
    """The documents of a stream."""
    at = 0
    while at < len(stream):
        length = int.from_bytes(stream[at:at + 4], "little")
        yield stream[at:at + length]
        at += length


def kinds_of(value):
    """The classes of a value and of all in it."""
    yield type(value)
    if isinstance(value, dict):
        for member in value.values():
            yield from kinds_of(member)
    if isinstance(value, list):
        for item in value:
            yield from kinds_of(item)
    if isinstance(value, Code) and value.scope is not None:
        yield from kinds_of(value.scope)


if __name__ == "__main__":
    unittest.main()
