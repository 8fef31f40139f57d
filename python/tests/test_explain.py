"""What `explain` says of a query, and that the program does what it says."""
import datetime
import os
import pathlib
import re
import unittest
from decimal import Decimal

from common import WithFolder

import fallowtime
from fallowtime import Int64, ObjectId, Regex, Symbol

# Queries that an index on a.b serves, and queries that it doesn't.
SERVED = [
    {"a.b": 5}, {"a.b": {"$eq": 5.0}}, {"a.b": 0.5}, {"a.b": Int64(5)}, {"a.b": Decimal("5.0")}, {"a.b": "5"},
    {"a.b": Symbol("5")}, {"a.b": ObjectId("5" * 24)}, {"a.b": datetime.datetime(2026, 1, 2)}, {"a.b": True},
    {"a.b": {"$in": [5, "6", 7.5]}}, {"a.b": {"$all": [5, None]}}, {"a.b": {"$gt": 0, "$eq": 5}}, {"x": 0, "a.b": 5},
    {"$or": [{"a.b": 5}, {"a.b": 6, "x": 0}]}, {"$and": [{"x": 0}, {"$and": [{"a.b": 5}, {"x": 0}]}]},
    {"a.b": {"$type": "array"}}, {"a.b": {"$type": ["array", 19]}}, {"a.b": float("inf")},
    {"a": {"$type": "array"}, "a.b": {"$gt": 0}}, {"$comment": "why", "a.b": 5}, {"a.b": {"$all": [[5], 5]}},
    {"a.b": {"$lt": 5}}, {"a.b": {"$gte": 5, "$lt": 9.5}}, {"a.b": {"$gt": "5"}}, {"a.b": {"$lte": Symbol("5")}},
    {"$and": [{"a.b": {"$gt": Decimal("5.5")}}, {"x": 0, "a.b": {"$lt": Int64(9)}}]}, {"a.b": {"$gt": 5, "$lte": 9}},
    {"a.b": {"$gte": datetime.datetime(2026, 1, 2)}},
]
NOT_SERVED = [
    {}, {"x": 0}, {"a": 5}, {"a.b.c": 5}, {"a": {"b": 5}}, {"a.b": None}, {"a.b": [5]}, {"a.b": {"c": 5}},
    {"a.b": Decimal("0.5")}, {"a.b": float("nan")}, {"a.b": {"$gt": True}}, {"a.b": {"$gte": None}}, {"a.b": {"$lt": [5]}},
    {"$or": [{"a.b": {"$lt": 5}}]}, {"a.b": {"$ne": 5}}, {"a.b": {"$nin": [5]}},
    {"a.b": {"$not": {"$eq": 5}}}, {"a.b": {"$exists": True}}, {"a.b": {"$mod": [5, 0]}}, {"a.b": {"$size": 5}},
    {"a.b": {"$elemMatch": {"$eq": 5}}}, {"a.b": {"$type": "int"}}, {"a.b": {"$type": "number"}},
    {"a.b": {"$type": ["array", "int"]}}, {"a.b": {"$in": [5, None]}}, {"a.b": {"$in": []}}, {"a.b": {"$all": []}},
    {"a.b": {"$all": [None]}}, {"$or": [{"a.b": 5}, {"x": 0}]}, {"$nor": [{"a.b": 5}]}, {"a": {"$type": "array"}},
    {"a": {"$type": "array"}, "a.b": {"$ne": 5}}, {"a": {"$type": "array"}, "a.b": {"$exists": False}},
    {"a.b": {"$eq": re.compile("5")}}, {"a.b": {"$eq": Regex("5", "")}}, {"a.b": b"5"}, {"_id": {"x": 5}},
    {"_id": Decimal("0.5")},
]
SCANNED = {"stage": "COLLSCAN", "direction": "forward"}


def plan_of(cursor):
    return cursor.explain()["queryPlanner"]["winningPlan"]


class Explaining(WithFolder):
    def test_with_an_index(self):
        store = self.open()
        store.c.create_index("a.b")
        plan = {"stage": "IXSCAN", "keyPattern": {"a.b": 1}, "indexName": "a.b_1", "direction": "forward"}
        for query in SERVED:
            with self.subTest(query=query):
                self.assertEqual(plan_of(store.c.find(query)), plan)
                self.assertEqual(plan_of(store.other.find(query)), SCANNED)
        for query in NOT_SERVED:
            with self.subTest(query=query):
                self.assertEqual(plan_of(store.c.find(query)), SCANNED)

    def test_the_rest_of_it(self):
        store = self.open()
        cursor = store.c.find({"a": 5, "b": {"$in": [1, None]}}).sort("a").limit(3)
        self.assertEqual(cursor.explain(), {"queryPlanner": {
            "namespace": "test.c", "parsedQuery": {"a": 5, "b": {"$in": [1, None]}}, "winningPlan": SCANNED,
            "rejectedPlans": []}, "ok": 1.0})
        self.assertEqual(list(cursor), [])
        for own in "x", 5, 0.5, Decimal("5.0"):
            self.assertEqual(plan_of(store.c.find({"_id": own})), {"stage": "IDHACK"})
        store.c.create_index([("a", -1)], name="own")
        self.assertEqual(plan_of(cursor)["indexName"], "own")
        self.assertEqual(plan_of(cursor)["keyPattern"], {"a": -1})
        store.c.create_index("a")
        store.c.create_index("b")
        self.assertEqual(plan_of(cursor)["indexName"], "own")
        self.assertEqual(plan_of(store.c.find({"a": 1, "b": 1})),
                         {"stage": "IXSCAN", "indexNames": ["own", "b_1"], "direction": "forward"})
        store.c.drop_indexes()
        self.assertEqual(plan_of(cursor), SCANNED)
        store.close()
        self.assertRaises(fallowtime.Ended, cursor.explain)

    def test_only_read(self):
        with self.open() as store:
            store.c.insert_one({"_id": 1, "a": 5})
        reader = self.open(readonly=True)
        self.assertEqual(plan_of(reader.c.find({"a": 5})), SCANNED)
        self.assertEqual(plan_of(reader.c.find({"_id": "x"})), {"stage": "IDHACK"})
        self.assertEqual(plan_of(reader.c.find({"_id": 1})), SCANNED)

    @unittest.skipUnless(os.path.exists("/proc/self/schedstat"), "the time of a process is in /proc")
    def test_the_program_does_so(self):
        """A query that an index serves takes a small part of the time of one that looks at each document."""
        store = self.open()
        store.c.insert_many([{"_id": f"i{number}", "a": {"b": number}, "x": 0, "text": "x" * 99}
                             for number in range(4000)])
        whole = self.ticks(store, {"x": 1})
        store.c.create_index("a.b")
        for query in SERVED + NOT_SERVED:
            with self.subTest(query=query):
                self.assertEqual(plan_of(store.c.find(query))["stage"] == "IXSCAN",
                                 self.ticks(store, query) < whole / 4)

    def ticks(self, store, query):
        """The processor's time of the program for a query, in nanoseconds."""
        schedstat = pathlib.Path(f"/proc/{store._session._process.pid}/schedstat")
        began = int(schedstat.read_text().split()[0])
        for _ in range(3):
            store.c.count_documents(query)
        return int(schedstat.read_text().split()[0]) - began


if __name__ == "__main__":
    unittest.main()
