"""Values of each kind: what goes in comes back, and what can't be kept is refused before it is sent."""
import collections
import copy
import datetime
import decimal
import enum
import math
import pickle
import re
import struct
import unittest
import uuid

from common import WithFolder, is_same

import fallowtime
from fallowtime import (Binary, Code, DatetimeMS, DBPointer, Int64, MaxKey, MinKey, ObjectId, Regex, Symbol, Timestamp,
                        Undefined)

OID = ObjectId("650000000000000000000001")
# Values that come back as themselves.
KEPT = [
    None, True, False, 0, 1, -1, 2147483647, -2147483648, Int64(0), Int64(1), Int64(-1), Int64(2147483648),
    Int64(-(1 << 63)), Int64((1 << 63) - 1), 0.0, -0.0, 1.0, 1.5, 0.1, 1e16, 1e-5, 1e300, 5e-324,
    2.2250738585072014e-308, 1.7976931348623157e308, math.inf, -math.inf, math.nan, -math.nan, "", "text",
    "ü 中 😀 \n \x00 \x1f \x7f \u2028 \" \\ $oid", b"", b"\x00\xff", Binary(b"", 2), Binary(b"ab", 2),
    Binary(b"a", 4),
    Binary(b"abc", 0x80), Binary(b"0123456789abcdef", 3), uuid.UUID("00112233-4455-6677-8899-aabbccddeeff"),
    datetime.datetime(1970, 1, 1), datetime.datetime(2026, 3, 2, 9, 30, 0, 123000), datetime.datetime(1, 1, 1),
    datetime.datetime(9999, 12, 31, 23, 59, 59, 999000), datetime.datetime(1969, 12, 31, 23, 59, 59, 999000),
    DatetimeMS(-62135596800001), DatetimeMS(253402300800000), DatetimeMS(-(1 << 63)), DatetimeMS((1 << 63) - 1),
    decimal.Decimal("1.50"), decimal.Decimal("-0"), decimal.Decimal("0E-6176"), decimal.Decimal("1E+6111"),
    decimal.Decimal("9.999999999999999999999999999999999E+6144"), decimal.Decimal("1E-6176"), decimal.Decimal("NaN"),
    decimal.Decimal("Infinity"), decimal.Decimal("-Infinity"), decimal.Decimal("1234567890123456789012345678901234"),
    OID, Regex("a.b", "imsx"), Regex("", ""), Regex("é\n", "uz"), Code("f()"), Code("f()", {}),
    Code("f()", {"$oid": 1, "x": [OID]}), Symbol("s"), Symbol(""), Timestamp(0, 0), Timestamp(4294967295, 1),
    DBPointer("a.b", OID), MinKey(), MaxKey(), Undefined(), [], [1, 1.0, Int64(1)], {}, {"": 1},
    {"a": {"b": [{"c": None}, [], {}]}}, {"$ref": "c", "$id": OID}, {"$": 1, "$set": 2, "a.b": 3, "0": 4},
    {"b": 1, "a": 2},
]


class Level(enum.IntEnum):
    LOW = 1


class Colour(str, enum.Enum):
    RED = "red"


class Zone(datetime.tzinfo):
    def utcoffset(self, date):
        return datetime.timedelta(hours=2)

    def dst(self, date):
        return datetime.timedelta(0)


# Values that come back as another class that is equal, or as what is said here.
TAKEN = [
    (1 << 31, Int64(1 << 31)), (-(1 << 63), Int64(-(1 << 63))), ((1, 2), [1, 2]), (Level.LOW, 1), (Colour.RED, "red"),
    (Binary(b"x"), b"x"), (Binary(bytes(16), 4), uuid.UUID(int=0)),
    (collections.OrderedDict(b=1, a=2), {"b": 1, "a": 2}), (re.compile("a", re.I), Regex("a", "iu")),
    (re.compile("(?x) a"), Regex("(?x) a", "ux")), (DatetimeMS(0), datetime.datetime(1970, 1, 1)),
    (datetime.datetime(2026, 3, 2, 9, 30, tzinfo=Zone()), datetime.datetime(2026, 3, 2, 7, 30)),
    (datetime.datetime(2026, 3, 2, 9, 30, 0, 123999), datetime.datetime(2026, 3, 2, 9, 30, 0, 123000)),
    (datetime.datetime(1969, 12, 31, 23, 59, 59, 999999), datetime.datetime(1969, 12, 31, 23, 59, 59, 999000)),
    (decimal.Decimal("1." + "0" * 40), decimal.Decimal("1." + "0" * 33)),
]
SIGNALLING = struct.unpack("<d", struct.pack("<Q", 0x7FF8000000000001))[0]
# Values that are refused, with the error.
WRONG = [
    (1 << 63, OverflowError), (-(1 << 63) - 1, OverflowError), (Int64(1 << 63), OverflowError), ({1}, TypeError),
    (1j, TypeError), (object(), TypeError), (bytearray(b"x"), TypeError), (memoryview(b"x"), TypeError),
    (datetime.date(2026, 3, 2), TypeError), (datetime.time(1), TypeError), (datetime.timedelta(1), TypeError),
    (range(3), TypeError), ({1: 2}, TypeError), ({b"a": 2}, TypeError), ([{None: 1}], TypeError),
    ("\ud800", UnicodeEncodeError), ({"\udfff": 1}, UnicodeEncodeError), (re.compile(b"a"), TypeError),
    (re.compile("a", re.A), ValueError), (decimal.Decimal("1" * 35), ValueError),
    (decimal.Decimal("1E+6145"), ValueError), (decimal.Decimal("1E-6177"), ValueError),
    (decimal.Decimal("sNaN"), ValueError), (decimal.Decimal("-NaN"), ValueError), (decimal.Decimal("NaN1"), ValueError),
    (SIGNALLING, ValueError), (len, TypeError), (int, TypeError), (iter([]), TypeError),
]


class Kept(WithFolder):
    def test_each_comes_back(self):
        values = KEPT + [value for value, _ in TAKEN]
        wanted = KEPT + [value for _, value in TAKEN]
        with self.open() as store:
            for name in "in a document", "as a value", "in a list", "as an _id", "set":
                store[name].insert_many([{"_id": number} for number in range(len(values))])
            for number, (value, back) in enumerate(zip(values, wanted)):
                with self.subTest(value=value):
                    one = {"_id": number, "value": value, "list": [value, [value]], "document": {"value": value}}
                    store["one"].insert_one(one)
                    self.assert_same(store["one"].find_one({"_id": number}),
                                     {"_id": number, "value": back, "list": [back, [back]],
                                      "document": {"value": back}})
                    store["many"].insert_many([one, {**one, "_id": number + len(values)}])
                    store["set"].update_one({"_id": number}, {"$set": {"value": value}})
                    self.assert_same(store["set"].find_one({"_id": number}), {"_id": number, "value": back})
                    for again in value, back:
                        result = store["set"].update_one({"_id": number}, {"$set": {"value": again}})
                        self.assertEqual((result.matched_count, result.modified_count), (1, 0))
                    store["replaced"].replace_one({"_id": number}, {"value": value}, upsert=True)
                    self.assert_same(store["replaced"].find_one({"_id": number}), {"_id": number, "value": back})
                    self.assertEqual(store["replaced"].replace_one({"_id": number}, {"value": back}).modified_count, 0)
            self.assertEqual(store["many"].export(self.folder / "many"), 2 * len(values))
            for document in store["many"].find():
                self.assert_same(document["value"], wanted[document["_id"] % len(values)])
            self.assertEqual([document["_id"] for document in store["set"].find()], list(range(len(values))))

    def test_each_is_an_id(self):
        with self.open() as store:
            for number, value in enumerate(KEPT):
                if isinstance(value, Regex) or isinstance(value, dict) and "$" in next(iter(value), ""):
                    continue  # A query takes these for operators, or a search.
                with self.subTest(value=value):
                    ids = store[f"ids {number}"]
                    self.assertIs(ids.insert_one({"_id": value}).inserted_id, value)
                    self.assert_same(ids.find_one({"_id": value}), {"_id": value})
                    self.assert_same([*ids.find({"_id": value})], [{"_id": value}])
                    self.assertEqual(ids.count_documents({"_id": value}), 1)
                    self.assertEqual(ids.update_one({"_id": value}, {"$set": {"a": 1}}).modified_count, 1)
                    self.assertEqual(ids.delete_one({"_id": value}).deleted_count, 1)

    def test_what_cannot_be_kept_is_refused(self):
        with self.open() as store:
            for value, error in WRONG:
                with self.subTest(value=repr(value)):
                    places = {"v": value}, {"_id": 1, "v": [value]}, {"v": {"w": value}}, {"_id": value}
                    for document in places:
                        for call in (store["c"].insert_one, lambda one: store["c"].insert_many([{"_id": 0}, one]),
                                     lambda one: store["c"].replace_one({}, one),
                                     lambda one: store["c"].update_one({}, {"$set": {"v": one}}),
                                     lambda one: store["c"].find({"v": one})):
                            self.assertRaises(error, call, document)
            for document in 1, None, "a", [], [("a", 1)]:
                self.assertRaises(TypeError, store["c"].insert_one, document)
                self.assertRaises(TypeError, store["c"].replace_one, {}, document)
            self.assertEqual(store.list_collection_names(), [])

    def test_a_document_that_came_back_goes_in_again(self):
        with self.open() as store:
            store["one"].insert_many([{"_id": number, "value": value} for number, value in enumerate(KEPT)])
            store["two"].insert_many(store["one"].find())
            for name in "one", "two":
                store[name].export(self.folder / name)
        self.assertEqual((self.folder / "one").read_bytes(), (self.folder / "two").read_bytes())

    def test_dates_with_a_zone(self):
        with self.open(tz_aware=True) as store:
            date = datetime.datetime(2026, 3, 2, 9, 30, tzinfo=datetime.timezone.utc)
            for value in date, date.astimezone(Zone()), date.replace(tzinfo=None):
                store["c"].replace_one({"_id": 1}, {"date": value, "list": [value]}, upsert=True)
                found = store["c"].find_one(1)
                self.assertEqual((found["date"], found["date"].tzinfo, found["list"]),
                                 (date, datetime.timezone.utc, [date]))
            store["c"].insert_one({"_id": 2, "date": DatetimeMS(1 << 60)})
            self.assert_same(store["c"].find_one(2), {"_id": 2, "date": DatetimeMS(1 << 60)})

    def test_order_of_keys(self):
        document = {"z": 1, "_id": 5, "a": 2, "m": {"y": 1, "b": 2}}
        with self.open() as store:
            store["c"].insert_one(document)
            store["c"].insert_many([{**document, "_id": 6}])
            self.assertEqual([[*found] for found in store["c"].find()], [["z", "_id", "a", "m"]] * 2)
            self.assertEqual([*store["c"].find_one()["m"]], ["y", "b"])


class Reserved(WithFolder):
    def test_a_wrapper_by_accident(self):
        keys = ["$oid", "$symbol", "$regularExpression", "$numberInt", "$numberLong", "$numberDouble", "$numberDecimal",
                "$binary", "$uuid", "$code", "$timestamp", "$date", "$minKey", "$maxKey", "$dbPointer", "$undefined"]
        with self.open() as store:
            collection = store["c"]
            for key in keys:
                with self.subTest(key=key):
                    for value, path in [({key: 1}, key), ({"a": 1, key: 1}, key),
                                        ([1, {"b": {key: "x"}}], f"1.b.{key}"),
                                        (Code("f", {"d": {key: 1}}), f"d.{key}"), ({"b": {"$oid": 1}, key: 1}, key)]:
                        self.assert_refused("ReservedKey", collection.insert_one, {"x": {"y": value}},
                                            key=f"x.y.{path}")
                        self.assert_refused("ReservedKey", collection.insert_one, {"_id": value}, key=f"_id.{path}")
                        self.assert_refused("ReservedKey", collection.insert_many, [{}, {"x": value}], key=f"x.{path}")
                        self.assert_refused("ReservedKey", collection.replace_one, {}, {"x": value}, key=f"x.{path}")
                        self.assert_refused("ReservedKey", collection.update_one, {}, {"$set": {"x": value}},
                                            key=f"x.{path}")
                        self.assert_refused("ReservedKey", collection.find, {"x": {"$eq": value}}, key=path)
                        self.assert_refused("ReservedKey", collection.find_one, {"_id": {"$in": [value]}}, key=path)
                    self.assert_refused("ReservedKey", collection.find, {"x": {key: 1}}, key=key)
            self.assertEqual(store.list_collection_names(), [])

    def test_at_the_top_it_is_a_key(self):
        document = {"_id": 1, "$oid": "x", "$numberInt": {"a": 1}, "c": Code("f", {"$date": 1})}
        with self.open() as store:
            store["c"].insert_one(document)
            self.assert_same(store["c"].find_one(), document)
            self.assertRaises(ValueError, store["c"].update_one, {}, {"$set": {"$oid": "y"}})
            self.assertEqual(store["c"].update_one({}, {"$set": {"d": 1}}).modified_count, 1)
            self.assert_same(store["c"].find_one(), {**document, "d": 1})

    def test_what_came_as_bson_and_has_no_json(self):
        inner = b"\x02$oid\0\x02\0\0\0x\0\0"
        inner = struct.pack("<i", len(inner) + 4) + inner
        body = b"\x10_id\0\x01\0\0\0\x03a\0" + inner + b"\0"
        body = struct.pack("<i", len(body) + 4) + body
        (self.folder / "in.bson").write_bytes(body)
        with self.open() as store:
            collection = store["c"]
            self.assertEqual(collection.import_(self.folder / "in.bson"), 1)
            self.assert_refused("ReservedKey", collection.find_one, 1, key="a.$oid", document=0)
            self.assert_refused("ReservedKey", collection.find().next, key="a.$oid", document=0)
            self.assertEqual(collection.update_one({"_id": 1}, {"$set": {"b": 1}}).modified_count, 1)
            self.assertEqual(collection.update_one({"_id": 1}, {"$unset": {"b": 1}}).modified_count, 1)
            self.assertEqual(collection.count_documents({"_id": 1}), 1)
            self.assertEqual(collection.export(self.folder / "out.bson"), 1)
            self.assertEqual((self.folder / "out.bson").read_bytes(), body)
            # What is found and changed in one request is changed, even if it can't be returned.
            self.assert_refused("ReservedKey", collection.find_one_and_update, {"b": None}, {"$set": {"b": 1}},
                                key="a.$oid")
            self.assertEqual((collection.distinct("b"), collection.count_documents({"b": 1})), ([1], 1))
            self.assert_refused("ReservedKey", collection.find_one_and_delete, {"_id": 1}, key="a.$oid", document=0)
            self.assertEqual(collection.find_one_and_update({"b": 1}, {"$set": {"b": 2}}, ["b"]), {"_id": 1, "b": 1})
            self.assertEqual(repr(collection.replace_one({"_id": 1}, {"b": 1})), repr(fallowtime.UpdateResult(1, 1)))
            self.assert_same(collection.find_one(1), {"_id": 1, "b": 1})

    def test_levels(self):
        def nested(levels, wrap):
            value = 1
            for _ in range(levels - 1):
                value = wrap(value)
            return {"_id": levels, "v": value}

        with self.open() as store:
            for wrap in (lambda value: {"v": value}), (lambda value: [value]), (lambda value: (value,)):
                collection = store[repr(wrap)]
                collection.insert_one(nested(100, wrap))
                self.assertEqual(collection.count_documents({}), 1)
                self.assertEqual(repr(collection.find_one()),
                                 repr(nested(100, wrap)).replace("(", "[").replace(",)", "]"))
                for levels in 101, 102, 500, 5000:
                    self.assert_refused("TooDeep", collection.insert_one, nested(levels, wrap))
            circle = {}
            circle["circle"] = circle
            self.assert_refused("TooDeep", store["c"].insert_one, circle)


class Classes(unittest.TestCase):
    def test_object_ids(self):
        first, second = ObjectId(), ObjectId()
        self.assertLess(first, second)
        self.assertEqual(first, ObjectId(str(first)))
        self.assertEqual(ObjectId(first.binary), ObjectId(first))
        self.assertEqual(len({ObjectId() for _ in range(10000)}), 10000)
        now = datetime.datetime.now(datetime.timezone.utc)
        self.assertLess(abs((first.generation_time - now).total_seconds()), 60)
        for wrong in "12", b"12", "g" * 24, "6500000000000000000000010":
            self.assertRaises(ValueError, ObjectId, wrong)
            self.assertFalse(ObjectId.is_valid(wrong))
        self.assertRaises(TypeError, ObjectId, 5)
        self.assertFalse(ObjectId.is_valid(None))
        self.assertTrue(ObjectId.is_valid("A" * 24))
        self.assertNotEqual(first, str(first))

    def test_equality(self):
        self.assertEqual(Int64(5), 5)
        self.assertEqual((str(Int64(5)), f"{Int64(5)}", repr(Int64(5))), ("5", "5", "Int64(5)"))
        self.assertIs(type(Int64(5) + 1), int)
        self.assertEqual(Regex("a", "iu"), re.compile("a", re.I))
        self.assertEqual(re.compile("a", re.I), Regex("a", "iu"))
        self.assertNotEqual(Regex("a", "i"), re.compile("a", re.I))
        self.assertEqual(Regex("a", "ui"), Regex("a", re.I | re.U))
        self.assertEqual(Regex("a.", "su").try_compile(), re.compile("a.", re.S))
        self.assertRaises(ValueError, Regex("a", "z").try_compile)
        self.assertEqual(Binary(b"x"), b"x")
        self.assertNotEqual(Binary(b"x", 5), b"x")
        self.assertNotEqual(Binary(b"x", 5), Binary(b"x", 6))
        self.assertNotEqual(Code("x"), Code("x", {}))
        self.assertNotEqual(Code("x"), "x")
        self.assertEqual(Symbol("x"), "x")
        self.assertEqual((MinKey(), MaxKey(), Undefined()), (MinKey(), MaxKey(), Undefined()))
        self.assertNotEqual(MinKey(), MaxKey())
        self.assertLess(Timestamp(1, 2), Timestamp(2, 1))
        self.assertLess(DatetimeMS(1), DatetimeMS(2))
        self.assertEqual(DatetimeMS(datetime.datetime(1970, 1, 1, 0, 0, 1)).as_datetime(),
                         datetime.datetime(1970, 1, 1, 0, 0, 1))
        self.assertRaises(OverflowError, DatetimeMS(1 << 60).as_datetime)
        self.assertEqual(Timestamp(datetime.datetime(1970, 1, 1, 0, 1), 1).time, 60)

    def test_hashes_and_copies(self):
        for value in KEPT + [value for value, _ in TAKEN]:
            with self.subTest(value=value):
                for other in copy.deepcopy(value), pickle.loads(pickle.dumps(value)):
                    self.assertEqual(type(value), type(other))
                    self.assertTrue(value == other or is_same(value, other), (value, other))
                if not isinstance(value, (dict, list)):
                    self.assertEqual(hash(value), hash(copy.copy(value)))

    def test_wrong_arguments(self):
        for make, error in [(lambda: Timestamp(-1, 0), ValueError), (lambda: Timestamp(0, 1 << 32), ValueError),
                            (lambda: Timestamp("1", 0), TypeError), (lambda: Binary("x"), TypeError),
                            (lambda: Binary(b"x", 256), ValueError), (lambda: Binary(b"x", "4"), TypeError),
                            (lambda: Regex(b"x"), TypeError), (lambda: Regex("x", re.A), ValueError),
                            (lambda: Code(b"x"), TypeError), (lambda: Code("x", 1), TypeError),
                            (lambda: DBPointer(1, OID), TypeError), (lambda: DBPointer("x", "y"), ValueError),
                            (lambda: DatetimeMS("1"), TypeError), (lambda: DatetimeMS(1 << 63), OverflowError)]:
            self.assertRaises(error, make)

    def test_errors_are_copied(self):
        for error in fallowtime.Refused("ReservedKey", 5, "a.b"), fallowtime.DuplicateKeyError("DuplicateId"), \
                fallowtime.Ended("it ended", "refused: Busy\n", 1):
            other = pickle.loads(pickle.dumps(error))
            self.assertEqual((type(other), str(other), vars(other)), (type(error), str(error), vars(error)))
        self.assertEqual(str(fallowtime.Refused("ReservedKey", 5, "a.b")), "ReservedKey document 5 key a.b")


if __name__ == "__main__":
    unittest.main()
