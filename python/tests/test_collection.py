"""Each method of a store and of a collection."""
import datetime
import decimal
import inspect
import io
import itertools
import os
import pathlib
import re
import struct
import subprocess
import time
import unittest

from common import PROGRAM, WithFolder

import fallowtime
from fallowtime import Int64, ObjectId, Regex, aio


def counts(result):
    return result.matched_count, result.modified_count, result.upserted_id


class Inserting(WithFolder):
    def test_insert_one(self):
        with self.open() as store:
            orders = store["orders"]
            result = orders.insert_one({"_id": 1, "city": "Ulm"})
            self.assertEqual((result.inserted_id, result.acknowledged, repr(result)),
                             (1, True, "InsertOneResult(inserted_id=1)"))
            self.assertRaises(fallowtime.DuplicateKeyError, orders.insert_one, {"_id": 1})
            self.assert_refused("DuplicateId", orders.insert_one, {"_id": 1})
            document = {"city": "Bonn"}
            own = orders.insert_one(document).inserted_id
            self.assertIsInstance(own, ObjectId)
            self.assertEqual(document, {"city": "Bonn", "_id": own})
            self.assertEqual([*orders.find_one(own)], ["_id", "city"])
            self.assertRaises(fallowtime.DuplicateKeyError, orders.insert_one, document)
            self.assertEqual(orders.insert_one({"_id": None}).inserted_id, None)
            self.assertEqual(orders.count_documents({}), 3)

    def test_an_id_that_was_given_stays_away_if_nothing_was_sent(self):
        document = {"x": {1}}
        with self.open() as store:
            self.assertRaises(TypeError, store["c"].insert_one, document)
            self.assertRaises(TypeError, store["c"].insert_many, [{"y": 1}, document])
        self.assertEqual(document, {"x": {1}})

    def test_insert_many_puts_in_all_or_none(self):
        with self.open() as store:
            orders = store["orders"]
            documents = [{"_id": number} for number in range(3)] + [{"a": 1}]
            result = orders.insert_many(iter(documents))
            self.assertEqual(result.inserted_ids, [0, 1, 2, documents[3]["_id"]])
            self.assertIsInstance(documents[3]["_id"], ObjectId)
            refused = self.assert_refused("DuplicateId", orders.insert_many,
                                          [{"_id": 7}, {"_id": 8}, {"_id": 1}, {"_id": 9}], document=2)
            self.assertIsInstance(refused, fallowtime.DuplicateKeyError)
            self.assert_refused("DuplicateId", orders.insert_many, [{"_id": 7}, {"_id": 8}, {"_id": 7}], document=2)
            twice = {"x": 1}
            self.assert_refused("DuplicateId", orders.insert_many, [twice, {"x": 1}, twice], document=2)
            self.assertEqual(orders.count_documents({}), 4)
            for wrong in [], {}, {"_id": 1}, "ab", b"ab", 5, None, [1], [[("a", 1)]], ["a"]:
                self.assertRaises(TypeError, orders.insert_many, wrong)
            self.assertEqual(orders.count_documents({}), 4)

    def test_what_is_too_long(self):
        with self.open() as store:
            texts = [{"_id": number, "t": "x" * (15 << 20)} for number in range(5)]
            self.assertRaises(ValueError, store["c"].insert_many, texts)
            self.assertEqual(store["c"].insert_many(texts[:4]).inserted_ids, [0, 1, 2, 3])
            self.assert_refused("TooLong", store["c"].insert_one, {"_id": 9, "t": "x" * (16 << 20)})
            self.assertEqual([len(found["t"]) for found in store["c"].find()], [15 << 20] * 4)
            self.assertEqual(store["c"].count_documents({"t": texts[0]["t"]}), 4)

    def test_names(self):
        with self.open() as store:
            names = ["a", "-x", "--wait", "a.b", "$x", "ü\n\"", " ", "insert"]
            for name in names:
                store[name].insert_one({"_id": name})
                self.assertEqual((store[name].name, store[name].store), (name, store))
            self.assertEqual(sorted(store.list_collection_names()), sorted(names))
            self.assert_refused("BadName", store[""].insert_one, {})
            self.assert_refused("BadName", store["a\0"].find_one)
            for wrong in 1, None, b"a":
                self.assertRaises(TypeError, store.__getitem__, wrong)
            self.assertEqual(store["a"], store["a"])
            self.assertNotEqual(store["a"], store["-x"])
            self.assertEqual(len({store["a"], store["a"]}), 1)
            self.assertRaises(TypeError, iter, store)
            self.assertEqual(repr(store["a"]), f"fallowtime.open({str(self.folder / 'test.db')!r})['a']")


class Looking(WithFolder):
    def setUp(self):
        super().setUp()
        self.store = self.open()
        self.orders = self.store["orders"]
        pairs = [("Ulm", 1), ("Berlin", 1.5), ("Ulm", 1.0), ("Bonn", Int64(1))]
        self.documents = [{"_id": number, "city": city, "price": price} for number, (city, price) in enumerate(pairs)]
        self.orders.insert_many(self.documents)

    def test_find(self):
        self.assertEqual([*self.orders.find()], self.documents)
        self.assertEqual([*self.orders.find({})], self.documents)
        self.assertEqual([*self.orders.find({"city": "Ulm"})], [self.documents[0], self.documents[2]])
        self.assertEqual([*self.orders.find({"_id": 3})], self.documents[3:])
        self.assertEqual([*self.orders.find({"_id": "3"})], [])
        self.assertEqual([*self.store["none"].find()], [])
        self.assertRaises(TypeError, self.orders.find, "Ulm")
        self.assertRaises(TypeError, self.orders.find, [])

    def test_a_cursor(self):
        cursor = self.orders.find()
        self.assertIs(iter(cursor), cursor)
        self.assertTrue(cursor.alive)
        self.assertEqual(next(cursor), self.documents[0])
        self.orders.delete_one({"_id": 1})
        self.orders.insert_one({"_id": 9})
        self.assertEqual(cursor.next(), self.documents[1])
        self.assertEqual(cursor.to_list(), self.documents[2:])
        self.assertFalse(cursor.alive)
        self.assertRaises(StopIteration, next, cursor)
        with self.orders.find() as cursor:
            next(cursor)
        self.assertEqual(cursor.to_list(), [])
        cursor = self.orders.find()
        self.assertEqual(next(cursor)["_id"], 0)
        self.store.close()
        self.assertEqual(len([*cursor]), 3)
        self.assertRaises(fallowtime.Ended, next, self.orders.find())

    def test_find_one(self):
        self.assertEqual(self.orders.find_one(), self.documents[0])
        self.assertEqual(self.orders.find_one({}), self.documents[0])
        self.assertEqual(self.orders.find_one(1), self.documents[1])
        self.assertEqual(self.orders.find_one({"_id": 1}), self.documents[1])
        self.assertEqual(self.orders.find_one({"city": "Ulm", "price": {"$ne": 2}}), self.documents[0])
        self.assertIsNone(self.orders.find_one("1"))
        self.assertIsNone(self.orders.find_one({"city": "Rome"}))
        self.assertIsNone(self.store["none"].find_one())

    def test_counts(self):
        self.assertEqual(self.orders.count_documents({}), 4)
        self.assertEqual(self.orders.count_documents({"city": "Ulm"}), 2)
        self.assertEqual(self.orders.count_documents({"city": "Rome"}), 0)
        self.assertEqual(self.orders.estimated_document_count(), 4)
        self.assertRaises(TypeError, self.orders.count_documents)
        self.assertRaises(TypeError, self.orders.count_documents, None)

    def test_numbers_of_any_kind(self):
        for value in 1, 1.0, True and 1:
            self.assertEqual([found["_id"] for found in self.orders.find({"price": value})], [0, 2, 3])
        self.assertEqual([found["_id"] for found in self.orders.find({"price": Int64(1)})], [0, 2, 3])
        self.assertEqual([found["_id"] for found in self.orders.find({"price": {"$in": [1.5, 7]}})], [1])
        self.assertEqual(self.orders.count_documents({"price": True}), 0)
        kinds = self.store["kinds"]
        for own in 5, Int64(5), 5.0, 6.0, Int64(7), 1.5, 1 << 40, float(1 << 41):
            kinds.insert_one({"_id": own, "was": repr(own)})
        for asked in 5, Int64(5), 5.0, decimal.Decimal("5.0"):
            self.assertEqual([found["was"] for found in kinds.find({"_id": asked})], ["5", "Int64(5)", "5.0"])
            self.assertEqual(kinds.count_documents({"_id": asked}), 3)
        for asked, was in [(5, "5"), (5.0, "5"), (Int64(5), "5"), (6, "6.0"), (7, "Int64(7)"), (7.0, "Int64(7)"), (1.5, "1.5"),
                           (float(1 << 40), "1099511627776"), (1 << 41, "2199023255552.0")]:
            self.assertEqual(kinds.find_one(asked)["was"], was)
            self.assertEqual(kinds.find_one({"_id": asked})["was"], was)
        self.assertEqual(kinds.find_one(Int64(6))["was"], "6.0")
        self.assertEqual(kinds.find_one(decimal.Decimal("6"))["was"], "6.0")
        self.assertIsNone(kinds.find_one((1 << 53) + 1))
        self.assertEqual(kinds.delete_one({"_id": 7}).deleted_count, 1)
        self.assertEqual(kinds.update_one({"_id": 6}, {"$set": {"was": "six"}}).modified_count, 1)
        self.assertEqual(kinds.replace_one({"_id": 6}, {"_id": 6, "a": 1}).modified_count, 1)
        self.assertEqual(repr(kinds.find_one(6)), "{'_id': 6.0, 'a': 1}")

    def test_an_id_of_another_kind(self):
        """What is equal to the `_id` that is asked for is found by each method, however it is written."""
        Decimal, kinds = decimal.Decimal, self.store["kinds"]
        for own, asked in [(Decimal("1"), 1), (Decimal("1.0"), 1.0), (Decimal("1E+2"), Int64(100)),
                           (Int64(3), Decimal("3.00")),
                           (fallowtime.Symbol("a"), "a"), ("b", fallowtime.Symbol("b"))]:
            with self.subTest(own=own, asked=asked):
                kinds.insert_one({"_id": own, "n": 0})
                query = {"_id": asked}
                self.assert_same(list(kinds.find(query)), [{"_id": own, "n": 0}])
                self.assert_same(kinds.find_one(query), {"_id": own, "n": 0})
                self.assertEqual(kinds.count_documents(query), 1)
                self.assertEqual(counts(kinds.replace_one(query, {"n": 1})), (1, 1, None))
                self.assertEqual(counts(kinds.replace_one(query, {"_id": asked, "n": 2}, upsert=True)), (1, 1, None))
                self.assert_same(kinds.find_one_and_replace(query, {"_id": asked, "n": 3}), {"_id": own, "n": 2})
                self.assert_same(kinds.find_one_and_update(query, {"$inc": {"n": 1}}), {"_id": own, "n": 3})
                self.assert_same(kinds.find_one_and_delete(query), {"_id": own, "n": 4})
                self.assertEqual(kinds.delete_one(query).deleted_count, 0)
                kinds.insert_one({"_id": own})
                self.assertEqual(kinds.delete_one(query).deleted_count, 1)
        kinds.insert_many([{"_id": Decimal("NaN")}, {"_id": fallowtime.Symbol("a")}, {"_id": "a"}])
        self.assertEqual(counts(kinds.replace_one({"_id": float("nan")}, {"_id": float("nan"), "n": 1})), (1, 1, None))
        self.assert_same([found["_id"] for found in kinds.find({"_id": "a"})], [fallowtime.Symbol("a"), "a"])
        kinds.update_one({"_id": "a"}, {"$set": {"n": 2}})
        self.assert_same([found["_id"] for found in kinds.find({"_id": "a"}).sort("n").limit(1)], ["a"])
        self.assertRaises(fallowtime.WriteError, kinds.replace_one, {"_id": Decimal("NaN")}, {"_id": Decimal("1")})

    def test_one_index_for_numbers(self):
        """An `_id` that is a number is found by an index on it, which is made once and which nobody else sees."""
        kinds = self.store["kinds"]
        kinds.insert_many([{"_id": number} for number in range(10)])
        session = kinds._session
        ask, asked = session.ask, []
        session.ask = lambda command, *places: asked.append((command, *places[1:])) or ask(command, *places)
        self.addCleanup(delattr, session, "ask")
        kinds.find_one(1)
        kinds.delete_one({"_id": 2})
        self.assertEqual([request[0] for request in asked], ["index", "find", "delete"])
        self.assertEqual(list(kinds.index_information()), ["_id_"])
        kinds.create_index("_id")
        kinds.drop_index("_id_1")
        kinds.find_one(1)
        self.assertEqual([request[0] for request in asked[4:]], ["index", "drop_index", "index", "find"])

    def test_queries(self):
        many = self.store["many"]
        many.insert_many([
            {"_id": 0, "a": 1, "s": {"x": "deep", "list": [10, {"y": 5}]}}, {"_id": 1, "a": None}, {"_id": 2},
            {"_id": 3, "a": "1", "n": 1.5}, {"_id": 4, "a": [1, 2]}, {"_id": 5, "a": {"x": 1, "y": 2}},
            {"_id": 6, "a": Regex("U", "u")}, {"_id": 7, "a": float("nan")}, {"_id": 8, "a": float("inf")},
            {"_id": 9, "a": True}, {"_id": 10, "a": 1e16}, {"_id": 11, "a": decimal.Decimal("0.1")},
            {"_id": 12, "a": [{"x": 1, "y": 1}, {"x": 5, "y": 2}]}, {"_id": 13, "a": []}])
        rest = [*range(3, 14)]
        for query, wanted in [
            ({"s.x": "deep"}, [0]), ({"s.list.0": 10}, [0]), ({"s.list.1.y": 5}, [0]), ({"a": None}, [1, 2]),
            ({"a": {"$ne": None}}, [0, *rest]), ({"a": {"$exists": True}}, [0, 1, *rest]),
            ({"a": {"$exists": False}}, [2]), ({"a": {"$exists": 0}}, [2]),
            ({"a": {"$in": [1, "1", None]}}, [0, 1, 2, 3, 4]),
            ({"a": {"$in": (1,)}}, [0, 4]), ({"a": {"$nin": [1, "1", None]}}, [*range(5, 14)]),
            ({"a": {"$type": "string"}}, [3]), ({"a": {"$type": 2}}, [3]), ({"a": {"$type": 2.0}}, [3]),
            ({"a": {"$type": ["string", 16]}}, [0, 3, 4]), ({"a": {"$type": "array"}}, [4, 12, 13]),
            ({"a": {"$type": "number"}}, [0, 4, 7, 8, 10, 11]), ({"a": [1, 2]}, [4]), ({"a": {"y": 2, "x": 1}}, []),
            ({"a": 1}, [0, 4]), ({"a": {"$ne": 1}}, [1, 2, 3, *range(5, 14)]), ({"a": []}, [13]),
            ({"a": {"$gt": 1}}, [4, 8, 10]), ({"a": {"$gte": 1, "$lt": 2}}, [0, 4]), ({"a": {"$lte": 0.5}}, [11]),
            ({"a": {"$gt": "0"}}, [3]), ({"a": {"$not": {"$gt": 1}}}, [0, 1, 2, 3, 5, 6, 7, 9, 11, 12, 13]),
            ({"a": 0.1}, []), ({"a": decimal.Decimal("0.10")}, [11]), ({"a": Int64(1)}, [0, 4]),
            ({"a": {"$all": [1, 2]}}, [4]), ({"a": {"$all": []}}, []), ({"a": {"$size": 2}}, [4, 12]),
            ({"a": {"$size": 2.0}}, [4, 12]), ({"a": {"$mod": [2, 1]}}, [0, 4]), ({"a.x": 5}, [12]),
            ({"a.x": 5, "a.y": 1}, [12]), ({"a": {"$elemMatch": {"x": 5, "y": 1}}}, []),
            ({"a": {"$elemMatch": {"x": {"$gt": 4}, "y": 2}}}, [12]), ({"a": {"$elemMatch": {"$gt": 1, "$lt": 2}}}, []),
            ({"a": {"$elemMatch": {"$gt": 1, "$lt": 3}}}, [4]),
            ({"a": {"$elemMatch": {"$or": [{"x": 9}, {"y": 1}]}}}, [12]),
            ({"a": {"$all": [{"$elemMatch": {"x": 1, "y": 1}}, {"$elemMatch": {"x": 5}}]}}, [12]),
            ({"$comment": "why", "n": 1.5}, [3]), ({"a": {"$not": {"$size": 2}}, "_id": {"$gt": 10}}, [11, 13]),
            ({"_id": {"$gte": 3, "$lt": 5}}, [3, 4]),
            ({"a": {"$eq": {"x": 1, "y": 2}}}, [5]), ({"a": {"$eq": re.compile("U")}}, [6]),
            ({"a": {"$eq": Regex("U", "u")}}, [6]), ({"a": float("nan")}, [7]), ({"a": float("inf")}, [8]),
            ({"a": -float("inf")}, []), ({"a": True}, [9]), ({"a": 10 ** 16}, [10]), ({"a": 1e16}, [10]),
            ({"a": {"$not": {"$type": "number"}}, "n": {"$exists": True}}, [3]),
            ({"$or": [{"a": 1}, {"n": 1.5}]}, [0, 3, 4]), ({"$and": [{"a": "1"}, {"n": 1.5}]}, [3]),
            ({"$nor": [{"a": {"$exists": True}}]}, [2]), ({"$and": ({"a": 1},)}, [0, 4]),
            ({"_id": {"$in": [3, 9, 99]}}, [3, 9]), ({"_id": 3, "n": 1.5}, [3]), ({"_id": 3, "n": 1}, []),
            ({"a": {"$ne": 1, "$exists": True}}, [1, 3, *range(5, 14)]),
            ({"a": {"$regex": "^1"}}, [3]), ({"a": {"$regex": "^", "$options": ""}}, [3]), ({"a": {"$regex": "^11"}}, []),
            ({"s.x": {"$regex": re.compile("^de")}}, [0]), ({"s.x": {"$regex": Regex(r"^d\-")}}, []),
            ({"s.x": {"$regex": "e"}}, [0]), ({"s.x": {"$regex": re.compile("^DE", re.I)}}, [0]),
            ({"s.x": {"$regex": "E", "$options": "i"}}, [0]), ({"s.x": {"$regex": Regex("D E", "ix")}}, [0]),
            ({"s.x": {"$regex": re.compile("D E", re.I), "$options": ""}}, []),
        ]:
            with self.subTest(query=query):
                self.assertEqual([found["_id"] for found in many.find(query)], wanted)
                self.assertEqual(many.count_documents(query), len(wanted))
                found = many.find_one(query)
                self.assertEqual(found and found["_id"], wanted[0] if wanted else None)

    def test_what_no_query_is(self):
        for query, error in [
            ({"a": {"$exists": "x"}}, TypeError), ({"a": {"$in": 1}}, TypeError), ({"a": {"$in": "ab"}}, TypeError),
            ({"a": {"$exists": None}}, TypeError), ({"a": {"$type": [["int"]]}}, TypeError),
            ({"a": {"$size": "1"}}, TypeError), ({"a": {"$mod": 2}}, TypeError), ({"a": {"$mod": [2, "1"]}}, TypeError),
            ({"a": {"$all": 1}}, TypeError), ({"a": {"$elemMatch": 1}}, TypeError),
            ({"a": {"$not": 1}}, TypeError), ({"a": {"$not": {"b": 1}}}, TypeError), ({"$or": {}}, TypeError),
            ({"$and": [1]}, TypeError), ({1: 2}, TypeError), ({"a": 1 << 64}, OverflowError),
            ({"a": {"$in": [1 << 64]}}, OverflowError),
        ]:
            with self.subTest(query=query):
                self.assertRaises(error, self.orders.find, query)
                self.assertRaises(error, self.orders.count_documents, query)
        for query, at in [
            ({"a": {"$type": "text"}}, "$type takes no such value"),
            ({"a": {"$type": []}}, "$type takes no such value"),
            ({"a": {"$size": -1}}, "$size takes no such value"), ({"a": {"$mod": [0, 1]}}, "$mod takes no such value"),
            ({"$and": []}, "$and takes no such value"), ({"$or": ()}, "$or takes no such value"),
            ({"a": {"$in": [{"$gt": 1}]}}, "$in takes no such value"),
            ({"a": {"$all": [{"$gt": 1}]}}, "$all takes no such value"),
            ({"a": {"$elemMatch": {"b": 1, "a": {"$size": 0.5}}}}, "$size takes no such value"),
        ]:
            with self.subTest(query=query):
                self.assert_refused("Usage", next, self.orders.find(query), at=f"query {at}")
                self.assert_refused("Usage", self.orders.count_documents, query, at=f"query {at}")


class Changing(WithFolder):
    def setUp(self):
        super().setUp()
        self.store = self.open()
        self.orders = self.store["orders"]
        self.orders.insert_many([{"_id": 1, "a": 1}, {"_id": 2, "a": 1, "b": {"y": 1, "x": 2}}, {"_id": 3, "a": 2}])

    def test_replace_one(self):
        replace = self.orders.replace_one
        self.assertEqual(counts(replace({"_id": 1}, {"c": 1})), (1, 1, None))
        self.assertEqual(counts(replace({"_id": 1}, {"c": 1})), (1, 0, None))
        self.assertEqual(counts(replace({"_id": 1}, {"_id": 1, "c": 1})), (1, 0, None))
        self.assertEqual(counts(replace({"_id": 1}, {"c": 1, "_id": 1})), (1, 1, None))
        self.assertEqual([*self.orders.find_one(1)], ["c", "_id"])
        self.assertEqual(counts(replace({"a": 1}, {"z": 1, "y": 2})), (1, 1, None))
        self.assertEqual([*self.orders.find_one(2).items()], [("_id", 2), ("z", 1), ("y", 2)])
        self.assertEqual(counts(replace({"_id": 9}, {"c": 1})), (0, 0, None))
        self.assertEqual(counts(replace({"a": 9}, {"c": 1})), (0, 0, None))
        self.assertRaises(ValueError, replace, {"_id": 1}, {"_id": 2})
        self.assertRaises(ValueError, replace, {"_id": 1}, {"_id": "1"})
        self.assertRaises(ValueError, replace, {"a": 2}, {"_id": 1})
        self.assertRaises(ValueError, replace, {"_id": 1}, {"$set": {"a": 1}})
        self.assertRaises(TypeError, replace, 1, {"a": 1})
        self.assertRaises(TypeError, replace, {"_id": 1}, [("a", 1)])
        self.assertEqual([found["_id"] for found in self.orders.find()], [1, 2, 3])
        self.assertEqual(counts(replace({"_id": 3}, {})), (1, 1, None))
        self.assertEqual(self.orders.find_one(3), {"_id": 3})

    def test_replace_one_that_puts_in(self):
        def replace(query, document):
            return counts(self.orders.replace_one(query, document, upsert=True))

        self.assertEqual(replace({"_id": 1}, {"c": 1}), (1, 1, None))
        self.assertEqual(replace({"_id": 8}, {"c": 1}), (0, 0, 8))
        self.assertEqual(self.orders.find_one(8), {"_id": 8, "c": 1})
        self.assertEqual(replace({"_id": 9, "x": 1}, {"c": 2}), (0, 0, 9))
        self.assertEqual(replace({"x": 1}, {"_id": "own", "c": 3}), (0, 0, "own"))
        self.assertEqual(replace({"_id": 10.0}, {"c": 1, "_id": 10}), (0, 0, 10))
        matched, modified, own = replace({"x": 1}, {"c": 4})
        self.assertEqual((matched, modified, type(own)), (0, 0, ObjectId))
        self.assertEqual(self.orders.find_one(own), {"_id": own, "c": 4})
        self.assertEqual(type(replace({"_id": {"$in": [77, 78]}}, {"c": 5})[2]), ObjectId)
        self.assertRaises(NotImplementedError, replace, {"_id": {"$in": [77]}}, {"c": 5})
        self.assertEqual(replace({"_id": {"$eq": 79}, "x": 9}, {"c": 5}), (0, 0, 79))
        self.assertEqual(self.orders.delete_one({"_id": 79}).deleted_count, 1)
        self.assertEqual(replace({"_id": None}, {"c": 6}), (0, 0, None))
        self.assertEqual(self.orders.find_one({"_id": None}), {"_id": None, "c": 6})
        self.assertRaises(ValueError, replace, {"_id": 11}, {"_id": 12})
        self.assertRaises(fallowtime.DuplicateKeyError, replace, {"x": 1}, {"_id": 1})
        self.assertEqual(self.orders.count_documents({}), 10)

    def test_update_one(self):
        update = self.orders.update_one
        self.assertEqual(counts(update({"_id": 1}, {"$set": {"a": 5}})), (1, 1, None))
        self.assertEqual(counts(update({"_id": 1}, {"$set": {"a": 5}})), (1, 0, None))
        self.assertEqual(counts(update({"_id": 1}, {"$set": {"a": 5.0}})), (1, 1, None))
        self.assertEqual(counts(update({"_id": 1}, {"$set": {"b": {"z": 1, "a": 2}}})), (1, 1, None))
        self.assertEqual(counts(update({"_id": 1}, {"$set": {"b": {"a": 2, "z": 1}}})), (1, 1, None))
        self.assertEqual(counts(update({"_id": 1}, {"$set": {"b": {"a": 2, "z": 1}}})), (1, 0, None))
        self.assertEqual(repr(self.orders.find_one(1)), "{'_id': 1, 'a': 5.0, 'b': {'a': 2, 'z': 1}}")
        self.assertEqual(counts(update({"_id": 1}, {"$set": {"d": 1, "c": 2}, "$unset": {"a": ""}})), (1, 1, None))
        self.assertEqual(repr(self.orders.find_one(1)), "{'_id': 1, 'b': {'a': 2, 'z': 1}, 'd': 1, 'c': 2}")
        self.assertEqual(counts(update({"_id": 1}, {"$unset": {"d": 1}})), (1, 1, None))
        self.assertEqual(counts(update({"_id": 1}, {"$unset": {"d": 1}})), (1, 0, None))
        self.assertEqual(counts(update({"_id": 1}, {"$unset": {"b": 1, "c": 1, "none": 1}})), (1, 1, None))
        self.assertEqual(self.orders.find_one(1), {"_id": 1})
        self.assertEqual(counts(update({"a": 1}, {"$set": {"a": 7}})), (1, 1, None))
        self.assertEqual(repr(self.orders.find_one(2)), "{'_id': 2, 'a': 7, 'b': {'y': 1, 'x': 2}}")
        self.assertEqual(counts(update({"a": 1}, {"$set": {"a": 7}})), (0, 0, None))
        self.assertEqual(counts(update({"_id": 1}, {"$set": {}, "$unset": {}})), (1, 0, None))
        self.assertEqual(counts(update({"_id": 1}, {"$set": {"-x": 2, "y.z": 1}, "$inc": {"n": 3}})), (1, 1, None))
        self.assertEqual(counts(update({"_id": 1}, {"$inc": {"n": 4}, "$push": {"y.l": {"$each": [1, 2]}}})), (1, 1, None))
        self.assertEqual(repr(self.orders.find_one(1)), "{'_id': 1, '-x': 2, 'y': {'z': 1, 'l': [1, 2]}, 'n': 7}")
        self.assert_refused("NotANumber", update, {"_id": 1}, {"$set": {"-x": 5}, "$inc": {"y.l": 1}}, document=0)
        self.assert_refused("Through", update, {"_id": 1}, {"$set": {"n.m": 5}}, document=0)
        self.assertEqual(self.orders.find_one(1)["-x"], 2)

    def test_update_to_the_date(self):
        def now():
            return datetime.datetime.now(datetime.timezone.utc).replace(tzinfo=None)

        instant = datetime.timedelta(milliseconds=1)
        for method in self.orders.update_one, self.orders.update_many:
            before = now()
            done = method({"_id": 1}, {"$currentDate": {"seen": True, "by.day": {"$type": "date"}}})
            self.assertEqual(counts(done), (1, 1, None))
            order = self.orders.find_one(1)
            self.assertEqual(order["seen"], order["by"]["day"])
            self.assertTrue(before - instant < order["seen"] <= now(), order)
            time.sleep(0.05)

    def test_update_many(self):
        update = self.orders.update_many
        self.assertEqual(counts(update({}, {"$set": {"c": 1}})), (3, 3, None))
        self.assertEqual(counts(update({"_id": {"$in": [1, 2]}}, {"$inc": {"c": 1}})), (2, 2, None))
        self.assertEqual(counts(update({}, {"$set": {"c": 2}})), (3, 1, None))
        self.orders.update_one({"_id": 2}, {"$set": {"c": "two"}})
        self.assert_refused("NotANumber", update, {}, {"$inc": {"c": 1}}, document=1)
        self.assertEqual([order["c"] for order in self.orders.find()], [2, "two", 2])
        self.assertEqual(counts(update({"c": 3}, {"$inc": {"c": 1}})), (0, 0, None))
        self.assertEqual(counts(update({"c": 9}, {"$set": {"a": 1}, "$inc": {"n": 2}}, upsert=True))[:2], (0, 0))
        self.assertEqual(self.orders.find_one({"c": 9}, {"_id": 0}), {"c": 9, "a": 1, "n": 2})

    def test_what_an_update_does_not_name_stays_bit_for_bit(self):
        body = (b"\x10_id\0\x01\0\0\0" b"\x01nan\0\x01\x02\x03\x04\x05\x06\xf4\xff" b"\x10a\0\x01\0\0\0"
                b"\x13decimal\0" + b"\xff" * 15 + b"\x6b" b"\x10b\0\x01\0\0\0")
        body = struct.pack("<i", len(body) + 5) + body + b"\0"
        (self.folder / "in.bson").write_bytes(body)
        exact = self.store["exact"]
        exact.import_(self.folder / "in.bson")
        self.assertEqual(counts(exact.update_one({"_id": 1}, {"$set": {"a": 2, "b": 2}})), (1, 1, None))
        exact.export(self.folder / "out.bson")
        changed = body.replace(b"\x10a\0\x01", b"\x10a\0\x02").replace(b"\x10b\0\x01", b"\x10b\0\x02")
        self.assertEqual((self.folder / "out.bson").read_bytes(), changed)

    def test_what_no_update_is(self):
        for update, error in [
            ({}, ValueError), ({"a": 1}, ValueError), ({"$set": {"a": 1}, "b": 2}, ValueError),
            ({"$set": 1}, TypeError), ({"$set": {1: 2}}, TypeError),
            ({"$set": {"a": 1}, "$unset": {"a": 1}}, ValueError), (None, TypeError), ("$set", TypeError),
            ({"$unset": ["a"]}, TypeError), ({"$set": {"a.": 1}}, ValueError), ({"$set": {"": 1}}, ValueError),
            ({"$unset": {"a.$b": 1}}, ValueError), ({"$inc": {"a": "1"}}, ValueError),
            ({"$set": {"a": 1, "a.b": 2}}, ValueError), ({"$currentDate": {"a": False}}, ValueError),
            ({"$currentDate": {"a": {"$type": "timestamp"}}}, NotImplementedError),
            ([{"$set": {"a": 1}}], NotImplementedError), ({"$set": {"a": 1}, "$bit": {"b": 1}}, NotImplementedError),
        ]:
            with self.subTest(update=update):
                self.assertRaises(error, self.orders.update_one, {"_id": 1}, update)
        self.assert_refused("BadKey", self.orders.update_one, {"_id": 1}, {"$set": {"_id": 1}}, key="_id")
        self.assert_refused("BadKey", self.orders.update_one, {"_id": 1}, {"$unset": {"_id": 1}}, key="_id")
        self.assertEqual(self.orders.find_one(1), {"_id": 1, "a": 1})

    def test_update_one_that_puts_in(self):
        update = self.orders.update_one
        self.assertEqual(counts(update({"_id": 8}, {"$set": {"b": 1, "a": 2}, "$unset": {"c": 1}}, upsert=True)),
                         (0, 0, 8))
        self.assertEqual(repr(self.orders.find_one(8)), "{'_id': 8, 'b': 1, 'a': 2}")
        self.assertEqual(counts(update({"_id": 8}, {"$set": {"b": 2}}, upsert=True)), (1, 1, None))
        for query, changes, wanted in [
            ({"_id": 10}, {"$inc": {"b": 1}}, {"_id": 10, "b": 1}),
            ({"_id": 11}, {"$set": {"b.c": 1}, "$inc": {"b.d": 2.5}}, {"_id": 11, "b": {"c": 1, "d": 2.5}}),
            ({"x.y": 1, "_id": 12, "z": {"$gt": 1}}, {"$set": {"x.z": 2}}, {"_id": 12, "x": {"y": 1, "z": 2}}),
            ({"$and": [{"_id": 13}, {"x": {"$eq": [1]}}]}, {"$set": {"x": 2}, "$setOnInsert": {"y": 3}},
             {"_id": 13, "x": 2, "y": 3}),
            ({"_id": 14, "z": 1}, {"$push": {"a": 1, "b": {"$each": [1, 2]}}, "$addToSet": {"c": 3}, "$min": {"d": 4}},
             {"_id": 14, "z": 1, "a": [1], "b": [1, 2], "c": [3], "d": 4}),
            ({"_id": 15, "$or": [{"z": 5}, {"z": 6}]}, {"$pull": {"a": 1}, "$max": {"e": None}},
             {"_id": 15, "e": None}),
            ({"_id": 16, "z": {"a": 1}}, {"$set": {"z": 2}}, {"_id": 16, "z": 2}),
            ({"_id": 17}, {"$push": {"a": {"$each": [1, 2, 3], "$position": 9, "$slice": 2},
                                     "b": {"$each": [1, 2, 3], "$slice": -2}, "c": {"$each": [1], "$slice": 0}}},
             {"_id": 17, "a": [1, 2], "b": [2, 3], "c": []}),
            ({"_id": 18}, {"$mul": {"b": 2}}, {"_id": 18, "b": 0}),
            ({"_id": 19, "b": 1}, {"$inc": {"b": 1}}, {"_id": 19, "b": 2}),
            ({"_id": 20, "b": {"c": 1}}, {"$set": {"b.d": 1}}, {"_id": 20, "b": {"c": 1, "d": 1}}),
            ({"_id": 21, "b.c": 1}, {"$set": {"b": 1}}, {"_id": 21, "b": 1}),
            ({"_id": 22, "b": 1}, {"$unset": {"b": 1}}, {"_id": 22}),
            ({"_id": 23}, {"$addToSet": {"b": {"$each": [1, 2, 1]}}}, {"_id": 23, "b": [1, 2]}),
        ]:
            with self.subTest(query=query):
                self.assertEqual(counts(update(query, changes, upsert=True)), (0, 0, wanted["_id"]))
                self.assert_same(self.orders.find_one(wanted["_id"]), wanted)
        own = update({"z": 99}, {"$set": {"b": 1}}, upsert=True).upserted_id
        self.assertEqual(self.orders.find_one(own), {"_id": own, "z": 99, "b": 1})
        for query, changes in [
            ({"_id": 77, "b": {"$in": [1]}}, {"$set": {"c": 1}}), ({"_id": 77, "b": {"$all": [1]}}, {"$set": {"c": 1}}),
            ({"_id": 77, "$or": [{"b": 1}]}, {"$set": {"c": 1}}), ({"_id.a": 77}, {"$set": {"c": 1}}),
        ]:
            with self.subTest(query=query), self.assertRaises(NotImplementedError):
                update(query, changes, upsert=True)
        self.assertIsNone(self.orders.find_one(77))
        self.assertRaises(fallowtime.DuplicateKeyError, update, {"_id": 8, "b": 77}, {"$set": {"c": 1}}, upsert=True)
        with self.assertRaises(ValueError) as raised:
            update({"b": 1, "$and": [{"b": 2}]}, {"$set": {"c": 1}}, upsert=True)
        self.assertEqual(raised.exception.code, 54)
        self.assert_refused("NotANumber", update, {"b": "x"}, {"$inc": {"b": 1}}, upsert=True)

    def test_delete_one(self):
        delete = self.orders.delete_one
        self.assertEqual(delete({"_id": 9}).deleted_count, 0)
        self.assertEqual(delete({"a": 1}).deleted_count, 1)
        self.assertEqual([found["_id"] for found in self.orders.find()], [2, 3])
        self.assertEqual(delete({"_id": 3}).deleted_count, 1)
        self.assertEqual(delete({}).deleted_count, 1)
        self.assertEqual(delete({}).deleted_count, 0)
        self.assertEqual(self.store.list_collection_names(), [])
        self.assertRaises(TypeError, delete, 1)

    def test_an_id_that_is_no_scalar(self):
        own = {"b": 1, "a": [1, 2]}
        self.orders.insert_one({"_id": own, "a": 9})
        self.assertEqual(self.orders.find_one({"_id": {"b": 1.0, "a": [1, 2]}})["a"], 9)
        self.assertIsNone(self.orders.find_one({"_id": {"a": [1, 2], "b": 1}}))
        self.assertEqual(self.orders.count_documents({"_id": {"a": [1, 2], "b": 1}}), 0)
        self.assertEqual(counts(self.orders.update_one({"a": 9}, {"$set": {"c": 1}})), (1, 1, None))
        self.assertEqual(counts(self.orders.replace_one({"a": 9}, {"c": 1})), (1, 1, None))
        self.assertEqual([*self.orders.find_one({"_id": own})["_id"]], ["b", "a"])
        self.assertEqual(self.orders.delete_one({"c": 1}).deleted_count, 1)


class Indexes(WithFolder):
    def setUp(self):
        super().setUp()
        self.store = self.open()
        self.orders = self.store["orders"]
        self.documents = [{"_id": number, "customer": {"city": city}, "price": number % 3}
                          for number, city in enumerate(["Ulm", "Bonn", "Ulm", None, "Rome", "Bonn"])]
        self.orders.insert_many(self.documents)

    def ids(self, query):
        return [found["_id"] for found in self.orders.find(query)]

    def test_what_is_found_stays(self):
        queries = [{"customer.city": "Ulm"}, {"customer.city": None}, {"customer.city": {"$in": ["Bonn", "Rome", 7]}},
                   {"price": 1, "customer.city": "Bonn"}, {"$or": [{"price": 0}, {"price": 2.0}]}, {"price": Int64(1)},
                   {"customer.city": {"$ne": "Ulm"}}, {"customer": {"city": "Rome"}}, {}]

        def answers():
            return [(self.ids(query), self.orders.count_documents(query)) for query in queries]

        before = answers()
        self.assertEqual(self.orders.create_index("customer.city"), "customer.city_1")
        self.assertEqual(self.orders.create_index([("price", 1)]), "price_1")
        self.assertEqual(answers(), before)
        self.orders.insert_one({"_id": 9, "customer": {"city": "Ulm"}})
        self.assertEqual(self.ids(queries[0]), [0, 2, 9])
        self.orders.delete_one({"_id": 0})
        self.orders.update_one({"_id": 1}, {"$set": {"customer": {"city": "Ulm"}}})
        self.orders.replace_one({"_id": 2}, {"customer": {"city": "Bonn"}})
        self.assertEqual((self.ids(queries[0]), self.ids({"customer.city": "Bonn"})), ([1, 9], [2, 5]))
        changed = answers()
        self.orders.drop_index("customer.city_1")
        self.orders.drop_index({"price": 1})
        self.orders.drop_index([("none", 1)])
        self.assertEqual(answers(), changed)
        self.store.close()
        self.store = self.open()
        self.orders = self.store["orders"]
        self.assertEqual(answers(), changed)

    def test_forms_of_keys(self):
        for keys in "a.b", ["a.b"], [("a.b", 1)], (["a.b", 1],), {"a.b": 1}, [("a.b", 1.0)]:
            self.assertEqual(self.orders.create_index(keys), "a.b_1")
        self.assertEqual(self.orders.create_index([("a.b", -1)]), "a.b_-1")
        self.orders.drop_index("a.b_-1")
        for keys in "a.b_1", ["a.b"], [("a.b", 1)], {"a.b": 1}:
            self.assertIsNone(self.orders.drop_index(keys))
        self.assertEqual(self.orders.create_index("a_1"), "a_1_1")
        self.assertEqual(self.orders.create_index("", unique=False, session=None), "_1")
        self.assertEqual(self.store["none"].create_index("ü\"\n"), "ü\"\n_1")
        self.assert_refused("BadName", self.store[""].create_index, "a")
        self.assert_refused("BadName", self.store[""].drop_index, "a_1")
        self.assertEqual(self.store.list_collection_names(), ["orders"])

    def test_what_cannot_be_had(self):
        self.store.close()
        for keys, name in [([("a", 1), ("b", 1)], "several keys"), (["a", "b"], "several keys"),
                           ({"a": 1, "b": 1}, "several keys"), ([("a", 2)], "2"), ({"a": "text"}, "text"),
                           ([("a", "hashed")], "hashed"), ([("a", True)], "True"),
                           ("$**", r"\$\*\*"), ([("a.$**", 1)], r"a\.\$\*\*")]:
            with self.assertRaisesRegex(NotImplementedError, name):
                self.orders.create_index(keys)
            if not isinstance(keys, str):
                with self.assertRaisesRegex(NotImplementedError, name):
                    self.orders.drop_index(keys)
        for option in [{"unique": True}, {"expireAfterSeconds": 1}, {"partialFilterExpression": {}}, {"collation": {}},
                       {"expireAfterSeconds": 0}, {"session": 1}]:
            with self.assertRaisesRegex(NotImplementedError, next(iter(option))):
                self.orders.create_index("a", **option)
        for keys, error in [(None, TypeError), (5, TypeError), ([], ValueError), ([("a",)], TypeError),
                            ([5], TypeError), ([(5, 1)], TypeError)]:
            self.assertRaises(error, self.orders.create_index, keys)
            self.assertRaises(error, self.orders.drop_index, keys)
        self.assertRaises(TypeError, self.orders.create_index, "a", uniqe=True)
        for name in "a", "a_2", "":
            self.assertRaises(ValueError, self.orders.drop_index, name)


class Files(WithFolder):
    def test_export_and_import(self):
        with self.open() as store:
            documents = [{"_id": number, "x": -0.0} for number in range(5)]
            store["a"].insert_many(documents)
            self.assertEqual(store["a"].export(self.folder / "a.bson"), 5)
            stream = io.BytesIO()
            self.assertEqual(store["a"].export(stream), 5)
            self.assertEqual(stream.getvalue(), (self.folder / "a.bson").read_bytes())
            self.assertEqual(store["b"].import_(str(self.folder / "a.bson")), 5)
            stream.seek(0)
            self.assertEqual(store["c"].import_(stream), 5)
            self.assertEqual(repr([*store["c"].find()]), repr(documents))
            self.assert_refused("DuplicateId", store["b"].import_, self.folder / "a.bson", document=0)
            self.assert_refused("EndInside", store["d"].import_, io.BytesIO(stream.getvalue()[:-1]), document=4)
            self.assert_refused("NoId", store["d"].import_, io.BytesIO(struct.pack("<i", 5) + b"\0"), document=0)
            self.assertEqual(store["none"].export(self.folder / "none"), 0)
            self.assertEqual(store["none"].import_(self.folder / "none"), 0)
            self.assertEqual(sorted(store.list_collection_names()), ["a", "b", "c"])
            self.assertRaises(FileNotFoundError, store["d"].import_, self.folder / "not there")
            self.assertRaises(OSError, store["a"].export, self.folder)
            self.assertRaises(TypeError, store["d"].import_, io.StringIO("text"))
            self.assertRaises(ValueError, store["d"].import_, io.BytesIO(bytes(50 << 20)))

    def test_backup(self):
        with self.open() as store:
            store["c"].insert_one({"_id": 1})
            store.backup(self.folder / "monday.db")
            store["c"].insert_one({"_id": 2})
            self.assert_refused("Exists", store.backup, self.folder / "monday.db")
            self.assert_refused("NoFolder", store.backup, self.folder / "none" / "monday.db")
            self.assert_refused("NoName", store.backup, self.folder / "monday.db-wal")
            store.backup(str(self.folder / "-tuesday.db"))
            self.assertEqual(store["c"].count_documents({}), 2)
        for name, ids in ("monday.db", [1]), ("-tuesday.db", [1, 2]):
            with self.open(name) as store:
                self.assertEqual([found["_id"] for found in store["c"].find()], ids)

    def test_names_of_files(self):
        here = os.getcwd()
        os.chdir(self.folder)
        try:
            for name in "-x.db", "--help", "a b.db", pathlib.Path("p.db"), "ü.db":
                with fallowtime.open(name) as store:
                    store["c"].insert_one({"_id": 1})
                    os.chdir(here)
                    store.backup(self.folder / f"{name}.copy")
                    os.chdir(self.folder)
                    self.assertEqual(store.path, str(self.folder / name))
                self.assertTrue(os.path.exists(name))
            for name in ":memory:", "file:x.db":
                self.assertRaises(NotImplementedError, fallowtime.open, name)
            self.assertRaises(ValueError, fallowtime.open, "")
            for name in 5, None, b"x.db":
                self.assertRaises(TypeError, fallowtime.open, name)
            for wait, error in (-1, ValueError), (1.5, TypeError), ("1", TypeError), (True, TypeError):
                self.assertRaises(error, fallowtime.open, "x.db", wait=wait)
        finally:
            os.chdir(here)

    def test_beside_the_program(self):
        with self.open() as store:
            store["c"].insert_one({"_id": 1, "x": 1.5})
            found = subprocess.run([PROGRAM, self.folder / "test.db", "get", "c", "1"], capture_output=True, text=True)
            self.assertEqual((found.stdout, found.stderr), ('{"_id":1,"x":1.5}\n', ""))


class Absent(WithFolder):
    """What can't be had is refused before anything is sent: also by a store that is closed, which sends nothing."""

    def test_what_cannot_be_had(self):
        store = self.open()
        collection, cursor = store["c"], store["c"].find()
        store.close()
        for name in "watch", "find_raw_batches", "create_search_index":
            with self.assertRaisesRegex(NotImplementedError, name):
                getattr(collection, name)({}, x=1)
        for name in "where", "count", "collation", "max_time_ms", "min":
            with self.assertRaisesRegex(NotImplementedError, name):
                getattr(cursor, name)(1)
        for name in "command", "aggregate", "start_session", "watch":
            with self.assertRaisesRegex(NotImplementedError, name):
                getattr(store, name)("x")
        for method, words, option in itertools.chain(
            [("find", ({},), {name: 1}) for name in ("collation", "session", "max_time_ms", "cursor_type", "let")],
            [("find_one", ({},), {name: 1}) for name in ("collation", "show_record_id")],
            [("count_documents", ({},), {name: 1}) for name in ("collation", "session")],
            [("insert_one", ({},), {"session": 1}), ("insert_many", ([{}],), {"session": 1}),
             ("delete_one", ({},), {"collation": 1}), ("delete_many", ({},), {"let": {"a": 1}}),
             ("replace_one", ({}, {}), {"collation": 1}), ("find_one_and_delete", ({},), {"collation": 1}),
             ("find_one_and_update", ({}, {"$set": {"a": 1}}), {"collation": 1}),
             ("update_one", ({}, {"$set": {"a": 1}}), {"let": {"a": 1}})],
        ):
            with self.assertRaisesRegex(NotImplementedError, next(iter(option))):
                getattr(collection, method)(*words, **option)
        for query, name in [({"a": {"$near": 1}}, "$near"), ({"a": {"$regex": 1}}, "$regex"),
                            ({"a": {"$regex": re.compile(b"^x")}}, "$regex"), ({"a": {"$regex": Regex("x", "l")}}, "$regex"),
                            ({"a": {"$regex": "^x", "$options": "z"}}, "$options"),
                            ({"$where": "x"}, "$where"),
                            ({"a": {"$elemMatch": {"$gt": 1, "$regex": ["x"]}}}, "$regex"),
                            ({"a": {"$elemMatch": {"b": re.compile("x")}}}, "regular"),
                            ({"$expr": {}}, "$expr"), ({"$or": [{"a": {"$bitsAllSet": 1}}]}, "$bitsAllSet"),
                            ({"a": {"$not": {"$slice": 1}}}, "$slice"), ({"a": re.compile("x")}, "regular"),
                            ({"a": {"$in": [re.compile("x")]}}, "regular"), ({"a": {"$all": [Regex("x")]}}, "regular"),
                            ({"a": {"$not": re.compile("x")}}, "regular"), ({"_id": {"$text": 1}}, "$text"),
                            ({"_id": re.compile("x")}, "regular"), ({"a": {"$eq": 1, "$options": "i"}}, "$options"),
                            ({"a": Regex("x")}, "regular")]:
            for call in (collection.find, collection.find_one, collection.count_documents, collection.delete_one,
                         collection.delete_many, collection.find_one_and_delete,
                         lambda query: collection.update_one(query, {"$set": {"a": 1}}),
                         lambda query: collection.replace_one(query, {})):
                with self.subTest(query=query), self.assertRaisesRegex(NotImplementedError, re.escape(name)):
                    call(query)

    def test_options_that_ask_for_nothing(self):
        with self.open() as store:
            collection = store["c"]
            collection.insert_one({"_id": 1}, session=None, bypass_document_validation=False)
            self.assertEqual([*collection.find({}, None, sort=None, limit=0, skip=0, no_cursor_timeout=False)],
                             [{"_id": 1}])
            self.assertEqual(store.list_collection_names(session=None), ["c"])
            self.assertRaises(TypeError, collection.find, {}, frobnicate=None)
            self.assertRaises(TypeError, collection.insert_one, {}, ordered=True)

    def test_names_that_nobody_has(self):
        with self.open() as store:
            self.assertFalse(hasattr(store["c"].find(), "frobnicate"))
            for thing in store, store["c"], store["c"].find():
                self.assertRaises(AttributeError, getattr, thing, "_frobnicate")
                self.assertRaises(AttributeError, getattr, thing, "__frobnicate__")
            for thing in store, store["c"]:
                self.assertRaises(TypeError, thing.frobnicate, {})
                self.assertRaises(TypeError, thing)
                self.assertRaises(TypeError, iter, thing)

    def test_each_method_has_a_text(self):
        classes = [vars(module)[name] for module in (fallowtime, aio) for name in module.__all__]
        for kind in filter(inspect.isclass, classes):
            self.assertTrue(inspect.getdoc(kind), kind)
            for name, method in vars(kind).items():
                if not name.startswith("_") and (inspect.isfunction(method) or isinstance(method, property)):
                    self.assertTrue(inspect.getdoc(method), f"{kind.__name__}.{name}")
        self.assertTrue(inspect.getdoc(fallowtime.open) and inspect.getdoc(aio.open))


if __name__ == "__main__":
    unittest.main()
