"""Transactions: several changes in one step."""
import unittest

from common import WithFolder

import fallowtime


class Transactions(WithFolder):
    def test_all_are_made(self):
        store = self.open()
        with store.transaction() as changes:
            self.assertEqual(changes.insert("a", {"_id": 1, "n": 1}), 1)
            self.assertEqual(changes.put(store["b"], {"_id": 2, "d": {"k": 1}}), 2)
            changes.set("a", 1, "n", 2.5)
            changes.unset("b", 2, "d.k")
            changes.unset("b", 2, "d")
            changes.unset("b", 2, "d")
            changes.replace("a", {"_id": 1, "m": [1]})
            changes.insert("a", {"_id": 3})
            changes.remove("a", 3)
            self.assertIsNone(store["a"].find_one(1))
        self.assertEqual(changes.results, [1, 2, None, True, True, False, None, 3, None])
        self.assertEqual(list(store["a"].find()), [{"_id": 1, "m": [1]}])
        self.assertEqual(list(store["b"].find()), [{"_id": 2}])

    def test_questions_and_changes_by_query(self):
        store = self.open()
        store["a"].insert_many([{"_id": own, "n": own} for own in range(4)])
        with store.transaction() as changes:
            changes.update_many("a", {"n": {"$gte": 2}}, {"$inc": {"n": 10}})
            changes.find("a", {"n": {"$gt": 10}}, sort=[("_id", -1)], limit=1)
            changes.delete_one("a", {"n": 0})
            changes.count("a")
            changes.update_one(store["b"], {"_id": "x"}, {"$set": {"n": 1}}, upsert=True)
            changes.replace_one("b", {"n": 1}, {"m": 2})
            changes.delete_many("a", {"n": {"$lt": 13}})
            changes.find("b")
        updated, found, deleted, number, upserted, replaced, more, last = changes.results
        self.assertEqual((updated.matched_count, updated.modified_count), (2, 2))
        self.assertEqual(found, [{"_id": 3, "n": 13}])
        self.assertEqual((deleted.deleted_count, number, more.deleted_count), (1, 3, 2))
        self.assertEqual((upserted.upserted_id, upserted.did_upsert), ("x", True))
        self.assertEqual((replaced.matched_count, replaced.modified_count), (1, 1))
        self.assertEqual(last, [{"_id": "x", "m": 2}])
        self.assertEqual(list(store["a"].find()), [{"_id": 3, "n": 13}])

    def test_an_update_that_cant_be_made(self):
        store = self.open()
        store["a"].insert_many([{"_id": 1, "n": 1}, {"_id": 2, "n": "x"}])
        with self.assertRaises(fallowtime.Refused) as caught:
            with store.transaction() as changes:
                changes.delete_one("a", {"n": "y"})
                changes.update_many("a", {}, {"$inc": {"n": 1}})
        self.assertEqual((caught.exception.request, caught.exception.kind, caught.exception.document), (1, "NotANumber", 1))
        self.assertEqual(list(store["a"].find()), [{"_id": 1, "n": 1}, {"_id": 2, "n": "x"}])

    def test_none_is_made(self):
        store = self.open()
        store["a"].insert_one({"_id": 1, "n": 1})
        with self.assertRaises(fallowtime.DuplicateKeyError) as caught:
            with store.transaction() as changes:
                changes.set("a", 1, "n", 2)
                changes.insert("a", {"_id": 1})
        self.assertEqual((caught.exception.request, caught.exception.kind), (1, "DuplicateId"))
        self.assertEqual(str(caught.exception), "DuplicateId request 1")
        self.assertEqual(store["a"].find_one(1), {"_id": 1, "n": 1})

    def test_an_exception_leaves_all_out(self):
        store = self.open()
        with self.assertRaises(ZeroDivisionError):
            with store.transaction() as changes:
                changes.insert("a", {"_id": 1})
                raise ZeroDivisionError
        self.assertEqual(store.list_collection_names(), [])
        self.assertRaises(fallowtime.InvalidOperation, changes.remove, "a", 1)
        self.assertRaises(fallowtime.InvalidOperation, changes.__enter__)

    def test_ids_are_made(self):
        store, document = self.open(), {"n": 1}
        with store.transaction() as changes:
            own = changes.insert("a", document)
        self.assertEqual(document, {"n": 1, "_id": own})
        self.assertEqual(changes.results, [own])
        self.assertEqual(store["a"].find_one(own), {"_id": own, "n": 1})

    def test_nothing_is_sent_of_an_empty_one(self):
        store = self.open()
        with store.transaction() as changes:
            pass
        self.assertEqual(changes.results, [])

    def test_a_store_that_is_only_read(self):
        self.open()["a"].insert_one({"_id": 1})
        store = self.open(readonly=True)
        self.assertRaises(fallowtime.InvalidOperation, store.transaction)


if __name__ == "__main__":
    unittest.main()
