"""Updates of items of arrays, by `array_filters` and `$[]`."""
import datetime
import unittest

from common import WithFolder

import fallowtime
from fallowtime import Int64, ReturnDocument, Symbol, UpdateMany, UpdateOne

LINES = [{"article": "tea", "count": 3}, {"article": "milk", "count": 1},
         {"article": "tea", "count": 5, "tags": ["a", "b"]}]


class Items(WithFolder):
    def setUp(self):
        super().setUp()
        self.orders = self.open().orders
        self.orders.insert_one({"_id": 1, "lines": LINES, "a": {"b": [1, 2.0, [2], "x", None, Int64(2)]}, "n": 5})

    def assert_made(self, update, array_filters, wanted, modified=1):
        """Whether an update makes this of the document, whose members that aren't named stay."""
        before = self.orders.find_one(1)
        result = self.orders.update_one({"_id": 1}, update, array_filters=array_filters)
        self.assertEqual((result.matched_count, result.modified_count), (1, modified))
        self.assert_same(self.orders.find_one(1), {**before, **wanted})
        self.orders.replace_one({"_id": 1}, before)

    def assert_fails(self, code, update, array_filters=None, kind=fallowtime.WriteError):
        before = self.orders.find_one(1)
        with self.assertRaises(kind) as caught:
            self.orders.update_one({"_id": 1}, update, array_filters=array_filters)
        self.assertEqual(getattr(caught.exception, "code", None), code)
        self.assert_same(self.orders.find_one(1), before)

    def test_set(self):
        tea, milk, more = LINES
        self.assert_made({"$set": {"lines.$[i].count": 9}}, [{"i.article": "tea"}],
                         {"lines": [{**tea, "count": 9}, milk, {**more, "count": 9}]})
        self.assert_made({"$set": {"lines.$[i].count": 9}}, [{"i.article": "tea", "i.count": 5}],
                         {"lines": [tea, milk, {**more, "count": 9}]})
        self.assert_made({"$set": {"lines.$[i].new.b": [{"x": 1}], "top": 1.5}}, [{"i.tags": "b"}],
                         {"lines": [tea, milk, {**more, "new": {"b": [{"x": 1}]}}], "top": 1.5})
        self.assert_made({"$set": {"lines.$[line2]": None}}, [{"line2": {"article": "milk", "count": 1}}],
                         {"lines": [tea, None, more]})
        self.assert_made({"$set": {"lines.$[].count": 0}}, None, {"lines": [{**line, "count": 0} for line in LINES]})
        self.assert_made({"$set": {"a.b.$[]": 0}}, [], {"a": {"b": [0] * 6}})
        self.assert_made({"$set": {"lines.$[i].tags.$[j]": "c", "lines.$[k].count": 0}},
                         [{"i.count": {"$eq": 5}}, {"j": "a"}, {"k.count": 1.0}],
                         {"lines": [tea, {**milk, "count": 0}, {**more, "tags": ["c", "b"]}]})

    def test_equal_values(self):
        """Numbers are equal by value, and an item that is an array by its items, too."""
        values = [1, 2.0, [2], "x", None, Int64(2)]
        for wanted, places in [(2, (1, 2, 5)), (2.0, (1, 2, 5)), ([2], (2,)), ("x", (3,)), (Symbol("x"), (3,)), (7, ()),
                               ({"$eq": 1}, (0,)), (True, ())]:
            with self.subTest(wanted=wanted):
                made = [-1 if place in places else value for place, value in enumerate(values)]
                self.assert_made({"$set": {"a.b.$[i]": -1}}, [{"i": wanted}], {"a": {"b": made}}, int(bool(places)))
        day = datetime.datetime(2020, 1, 2, 3, 4, 5, 678000)
        self.orders.update_one({"_id": 1}, {"$set": {"days": [day, day.replace(year=2021)]}})
        self.assert_made({"$set": {"days.$[i]": 0}}, [{"i": day.replace(tzinfo=datetime.timezone.utc)}],
                         {"days": [0, day.replace(year=2021)]})

    def test_unset(self):
        tea, milk, more = LINES
        self.assert_made({"$unset": {"lines.$[i].count": ""}}, [{"i.article": "tea"}],
                         {"lines": [{"article": "tea"}, milk, {"article": "tea", "tags": ["a", "b"]}]})
        self.assert_made({"$unset": {"lines.$[i]": ""}}, [{"i.article": "milk"}], {"lines": [tea, None, more]})
        self.assert_made({"$unset": {"lines.$[].none.x": "", "lines.$[].article.x": ""}}, None, {}, 0)
        self.orders.update_one({"_id": 1}, {"$set": {"z": 1}})
        self.orders.update_one({"_id": 1}, {"$unset": {"z": 1, "none.x": 1}, "$set": {"lines.$[]": 1}})
        self.assertEqual(list(self.orders.find_one(1)), ["_id", "lines", "a", "n"])

    def test_what_stays(self):
        self.assert_made({"$set": {"lines.$[i].count": 9}}, [{"i.article": "none"}], {}, 0)
        self.assert_made({"$set": {"lines.$[i].count": 1}}, [{"i.article": "milk"}], {}, 0)
        self.assert_made({"$set": {"lines.$[i].count": 1.0}}, [{"i.article": "milk"}],
                         {"lines": [LINES[0], {"article": "milk", "count": 1.0}, LINES[2]]})
        result = self.orders.update_one({"_id": 2}, {"$set": {"lines.$[].count": 1}})
        self.assertEqual((result.matched_count, result.modified_count, result.upserted_id), (0, 0, None))

    def test_several_documents(self):
        self.orders.insert_many([{"_id": 2, "lines": []}, {"_id": 3, "lines": LINES[:1]}])
        result = self.orders.update_many({}, {"$set": {"lines.$[i].count": 9}}, array_filters=[{"i.article": "tea"}])
        self.assertEqual((result.matched_count, result.modified_count), (3, 2))
        self.assertEqual([[line["count"] for line in found["lines"]] for found in self.orders.find()],
                         [[9, 1, 9], [], [9]])
        # If one can't be changed, none is.
        self.orders.insert_one({"_id": 4, "lines": 5})
        with self.assertRaises(fallowtime.WriteError):
            self.orders.update_many({}, {"$set": {"lines.$[].count": 0}})
        self.assertEqual(self.orders.count_documents({"lines.count": 0}), 0)
        result = self.orders.bulk_write([
            UpdateOne({}, {"$set": {"lines.$[i].count": 8}}, array_filters=[{"i.article": "milk"}], sort=[("_id", 1)]),
            UpdateMany({"_id": {"$lt": 4}}, {"$set": {"lines.$[i].count": 7}}, array_filters=[{"i.count": 9}])])
        self.assertEqual((result.matched_count, result.modified_count), (4, 3))

    def test_the_first_by_sort(self):
        self.orders.insert_one({"_id": 2, "n": 9, "lines": LINES})
        self.orders.update_one({}, {"$set": {"lines.$[].count": 0}}, sort=[("n", -1)])
        self.assertEqual(self.orders.find_one({"lines.count": 0})["_id"], 2)
        found = self.orders.find_one_and_update({}, {"$set": {"lines.$[i].count": 4}}, {"lines.count": 1}, [("n", 1)],
                                                array_filters=[{"i.count": 1}], return_document=ReturnDocument.AFTER)
        self.assertEqual(found, {"_id": 1, "lines": [{"count": 3}, {"count": 4}, {"count": 5}]})
        self.assertIsNone(self.orders.find_one_and_update({"_id": 7}, {"$set": {"lines.$[]": 4}}))

    def test_errors(self):
        self.assert_fails(2, {"$set": {"none.$[].count": 1}})
        self.assert_fails(2, {"$unset": {"none.$[].count": 1}})
        self.assert_fails(2, {"$set": {"n.$[]": 1}})
        self.assert_fails(2, {"$set": {"n.x.$[]": 1}})
        self.assert_fails(2, {"$set": {"lines.$[i]": 1}})
        self.assert_fails(2, {"$set": {"$[i].x": 1}}, [{"i": 1}])
        self.assert_fails(28, {"$set": {"lines.$[].article.x": 1}})
        self.assert_fails(28, {"$set": {"lines.$[].count": 1, "a.b.c": 1}})
        self.assert_fails(9, {"$set": {"n": 1}}, [{"i": 1}])
        self.assert_fails(9, {"$set": {"lines.$[i]": 1}}, [{"i": 1}, {"i.x": 1}])
        self.assert_fails(9, {"$set": {"lines.$[i]": 1}}, [{"i": 1, "j": 1}])
        self.assert_fails(9, {"$set": {"lines.$[i]": 1}}, [{}])
        self.assert_fails(9, {"$set": {"lines..$[]": 1}})
        self.assert_fails(9, {"$set": {"lines.$[].$x": 1}})
        self.assert_fails(2, {"$set": {"lines.$[X].x": 1}})
        self.assert_fails(2, {"$set": {"lines.$[X].x": 1}}, [{"X": 1}])
        self.assert_fails(66, {"$set": {"_id.$[]": 1}})

    def test_conflicts(self):
        for update, filters in [
            ({"$set": {"lines.$[]": 1, "lines": 1}}, None), ({"$set": {"lines.$[].x": 1, "lines.0.x": 1}}, None),
            ({"$set": {"lines.$[].x": 1}, "$unset": {"lines.$[].x": 1}}, None),
            ({"$set": {"lines.$[i].x": 1, "lines.$[].x": 1}}, [{"i.article": "tea"}]),
            ({"$set": {"lines.$[i].x": 1, "lines.$[].x.y": 1}}, [{"i.article": "tea"}]),
        ]:
            with self.subTest(update=update):
                self.assert_fails(40, update, filters)
        self.assert_made({"$set": {"lines.$[i].x": 1, "lines.$[j].x": 2}}, [{"i.count": 3}, {"j.count": 1}],
                         {"lines": [{**LINES[0], "x": 1}, {**LINES[1], "x": 2}, LINES[2]]})

    def test_what_is_refused(self):
        for update, filters in [
            ({"$inc": {"lines.$[].count": 1}}, None), ({"$set": {"lines.$[]": 1}, "$push": {"x": 1}}, None),
            ({"$set": {"lines.$.count": 1}}, None), ({"$inc": {"lines.$.count": 1}}, None),
            ({"$set": {"lines.$[].x": 1, "a.b.0": 1}}, None),
            ({"$set": {"lines.$[i]": 1}}, [{"i.count": {"$gt": 1}}]), ({"$set": {"lines.$[i]": 1}}, [{"i": None}]),
            ({"$set": {"lines.$[i]": 1}}, [{"$or": [{"i": 1}]}]),
            ({"$set": {"lines.$[i]": 1}}, [{"i": fallowtime.Regex("x", "")}]),
        ]:
            with self.subTest(update=update, filters=filters):
                self.assert_fails(None, update, filters, NotImplementedError)
        self.assertRaises(NotImplementedError, self.orders.update_one, {}, {"$set": {"lines.$[]": 1}}, upsert=True)
        self.assertRaises(TypeError, self.orders.update_one, {}, {"$set": {"lines.$[i]": 1}}, array_filters={"i": 1})
        self.assertRaises(TypeError, self.orders.update_one, {}, {"$set": {"lines.$[i]": 1}}, array_filters=["i"])


if __name__ == "__main__":
    unittest.main()
