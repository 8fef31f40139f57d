"""What programs that were written for pymongo call: errors, several requests at once, finding and changing at once,
cursors, names."""
import importlib.util
import os
import pickle
import subprocess
import sys
import threading
import unittest
from types import SimpleNamespace
from unittest import mock

from common import PYTHON, WithFolder

import fallowtime
from fallowtime import (DeleteMany, DeleteOne, InsertOne, Int64, ObjectId, ReplaceOne, ReturnDocument, UpdateMany,
                        UpdateOne)

AFTER = ReturnDocument.AFTER


def counts(details):
    return {name: value for name, value in details.items() if name.startswith("n") and value}


class WithOrders(WithFolder):
    def setUp(self):
        super().setUp()
        self.store = self.open()
        self.orders = self.store.orders
        self.documents = [{"_id": number, "x": number * 11, "tags": ["a", {"b": number}]} for number in (1, 2, 3)]
        self.orders.insert_many(self.documents)

    def ids(self, *query):
        return [found["_id"] for found in self.orders.find(*query)]

    def assert_fails(self, code, call, *arguments, kind=fallowtime.OperationFailure, **options):
        with self.assertRaises(kind) as caught:
            call(*arguments, **options)
        self.assertEqual(caught.exception.code, code)
        return caught.exception


class Names(WithFolder):
    """What programs that are written for pymongo import."""

    def test_names_that_are_imported(self):
        for module, names in {
            "fallowtime": "WriteConcern ReadPreference CursorType TEXT HASHED GEO2D GEOSPHERE ASCENDING MongoClient",
            "fallowtime.collection": "Collection ReturnDocument", "fallowtime.database": "Database",
            "fallowtime.cursor": "Cursor CursorType", "fallowtime.command_cursor": "CommandCursor",
            "fallowtime.mongo_client": "MongoClient", "fallowtime.read_concern": "ReadConcern",
            "fallowtime.results": "BulkWriteResult DeleteResult InsertManyResult InsertOneResult UpdateResult",
            "fallowtime.write_concern": "WriteConcern", "fallowtime.read_preferences": "ReadPreference Secondary",
        }.items():
            for name in names.split():
                self.assertTrue(hasattr(importlib.import_module(module), name), f"{module}.{name}")

    def test_what_they_do(self):
        """The options mean nothing, or are refused as they are used."""
        from fallowtime.read_concern import ReadConcern

        store = self.open()
        self.assertIsInstance(store, importlib.import_module("fallowtime.database").Database)
        orders = store.get_collection("orders", write_concern=fallowtime.WriteConcern(w="majority", j=True),
                                      read_preference=fallowtime.ReadPreference.SECONDARY_PREFERRED,
                                      read_concern=ReadConcern("majority"))
        orders.insert_one({"_id": 1})
        self.assertEqual(list(orders.find(cursor_type=fallowtime.CursorType.NON_TAILABLE)), [{"_id": 1}])
        self.assertEqual(repr(fallowtime.WriteConcern(w=1, wtimeout=5)), "WriteConcern(w=1, wtimeout=5)")
        self.assertEqual(fallowtime.WriteConcern(w=1), fallowtime.WriteConcern(1))
        self.assertNotEqual(fallowtime.WriteConcern(w=1), fallowtime.WriteConcern(2))
        self.assertEqual(fallowtime.ReadPreference.NEAREST.name, "Nearest")
        self.assertRaisesRegex(NotImplementedError, "linearizable", orders.with_options,
                               read_concern=ReadConcern("linearizable"))
        self.assertRaisesRegex(NotImplementedError, "cursor_type", orders.find,
                               cursor_type=fallowtime.CursorType.TAILABLE)
        for kind in fallowtime.TEXT, fallowtime.HASHED, fallowtime.GEO2D, fallowtime.GEOSPHERE:
            self.assertRaisesRegex(NotImplementedError, kind, orders.create_index, [("a", kind)])

    def test_methods_of_before(self):
        """A call of a method of pymongo 3 or of mongosh names the one that is meant."""
        store = self.open()
        for call, meant in [
            (store.orders.insert, "a Collection has no method insert: use insert_one"),
            (store.orders.save, "replace_one"), (store.orders.count, "count_documents"),
            (store.orders.update, "update_one"), (store.orders.remove, "delete_one"),
            (store.orders.insertOne, "use insert_one$"), (store.orders.find_on, "use find_one$"),
            (store.list_collections, "a Store has no method list_collections: use list_collection_names"),
            (store.orders.frobnicate, "a Collection has no method frobnicate$"),
        ]:
            with self.assertRaisesRegex(TypeError, meant):
                call({})
        with fallowtime.MongoClient(self.folder / "data") as client:
            self.assertRaisesRegex(TypeError, "a MongoClient has no method database_names: use list_database_names",
                                   client.database_names)


class Errors(WithOrders):
    def test_a_key_that_is_there(self):
        error = self.assert_fails(11000, self.orders.insert_one, {"_id": 2}, kind=fallowtime.DuplicateKeyError)
        self.assertEqual((error.details["keyPattern"], error.details["keyValue"]), ({"_id": 1}, {"_id": 2}))
        self.assertIn("E11000", error.details["errmsg"])
        self.assertEqual((str(error), error.has_error_label("x"), error.timeout), ("DuplicateId", False, False))
        self.assertIsInstance(error, fallowtime.WriteError)
        error = self.assert_fails(11000, self.orders.replace_one, {"x": 5}, {"_id": 2}, upsert=True)
        self.assertEqual(error.details["keyValue"], {"_id": 2})

    def test_codes(self):
        self.assert_fails(14, self.orders.update_one, {}, {"$inc": {"tags": 1}}, kind=fallowtime.WriteError)
        self.assert_fails(28, self.orders.update_one, {}, {"$set": {"x.y": 1}}, kind=fallowtime.WriteError)
        self.assert_fails(66, self.orders.update_one, {}, {"$set": {"_id": 1}}, kind=fallowtime.WriteError)
        self.assert_fails(66, self.orders.replace_one, {"_id": 1}, {"_id": 5}, kind=fallowtime.WriteError)
        self.assert_fails(40, self.orders.update_one, {}, {"$set": {"a": 1, "a.b": 2}}, kind=fallowtime.WriteError)
        self.assert_fails(9, self.orders.update_one, {}, {"$inc": {"a": "1"}}, kind=fallowtime.WriteError)
        self.assert_fails(52, self.orders.insert_one, {"_id": {"$a": 1}}, kind=fallowtime.WriteError)
        self.assert_fails(52, self.orders.insert_many, [{"_id": {"$a": 1}}], kind=fallowtime.WriteError)
        self.orders.insert_one({"_id": {"$ref": "c", "$id": 1}})
        self.assertEqual(self.orders.count_documents({}), 4)

    def test_pickle(self):
        error = self.assert_fails(11000, self.orders.insert_one, {"_id": 2})
        for one in error, fallowtime.BulkWriteError({"nInserted": 1}), fallowtime.OperationFailure("x", 2, {"a": 1}), \
                fallowtime.Ended("why", "refused: Busy", 1):
            copy = pickle.loads(pickle.dumps(one))
            self.assertEqual((type(copy).__name__, str(copy), copy.args), (type(one).__name__, str(one), one.args))
            self.assertEqual(getattr(copy, "details", None), getattr(one, "details", None))

    def test_those_that_are_only_caught(self):
        """All classes of pymongo's errors are there, below those of which they are kinds."""
        errors = importlib.import_module("fallowtime.errors")
        for name, base in [
            ("AutoReconnect", errors.ConnectionFailure), ("NetworkTimeout", errors.AutoReconnect),
            ("ServerSelectionTimeoutError", errors.AutoReconnect), ("NotPrimaryError", errors.AutoReconnect),
            ("CursorNotFound", errors.OperationFailure), ("ExecutionTimeout", errors.OperationFailure),
            ("WTimeoutError", errors.WriteConcernError), ("WriteConcernError", errors.OperationFailure),
            ("ProtocolError", errors.PyMongoError), ("InvalidURI", errors.ConfigurationError),
            ("DocumentTooLarge", errors.InvalidDocument), ("EncryptionError", errors.PyMongoError),
        ]:
            self.assertTrue(issubclass(getattr(errors, name), base), name)
        for name in errors.__all__:
            self.assertTrue(issubclass(getattr(errors, name), Exception) and getattr(errors, name).__doc__, name)
        if importlib.util.find_spec("pymongo") is not None:
            script = ("import pymongo.errors as theirs\n"
                      "print(*(name for name in dir(theirs) if name[0] != '_'"
                      " and getattr(getattr(theirs, name), '__module__', '') == theirs.__name__))")
            theirs = subprocess.run([sys.executable, "-c", script], capture_output=True, text=True, check=True).stdout
            self.assertLess(set(theirs.split()), set(errors.__all__))
        self.assertRaises(errors.InvalidDocument, self.orders.insert_one, {"a": {1}})
        self.assertRaises(errors.InvalidDocument, self.orders.insert_one, {1: "a"})
        self.assertRaises(errors.InvalidId, ObjectId, "x")

    def test_they_are_pymongos_once_it_is_imported(self):
        """In a process of its own, as what is imported stays so."""
        if importlib.util.find_spec("pymongo") is None:
            self.skipTest("there is no pymongo")
        script = """
import pickle, sys
import fallowtime
orders = fallowtime.open("x.db").orders
orders.insert_one({"_id": 1})
def caught(call, *arguments):
    try:
        call(*arguments)
    except Exception as error:
        return error
before = caught(orders.insert_one, {"_id": 1})
assert "pymongo" not in sys.modules and type(before) is fallowtime.DuplicateKeyError
import pymongo
import pymongo.errors as theirs
for call, arguments, ours, others in [
    (orders.insert_one, ({"_id": 1},), fallowtime.DuplicateKeyError, [theirs.DuplicateKeyError]),
    (orders.insert_many, ([{"_id": 1}],), fallowtime.DuplicateKeyError,
     [theirs.BulkWriteError, theirs.DuplicateKeyError]),
    (orders.bulk_write, ([fallowtime.InsertOne({"_id": 1})],), fallowtime.BulkWriteError, [theirs.BulkWriteError]),
    (orders.bulk_write, ([],), fallowtime.InvalidOperation, [theirs.InvalidOperation]),
    (orders.update_one, ({}, {"$set": {"_id.x": 1}}), fallowtime.Refused, [theirs.WriteError]),
    (lambda: orders.find({}, hint="x"), (), fallowtime.OperationFailure, [theirs.OperationFailure]),
    (fallowtime.open, ("/none/none/x.db",), fallowtime.Ended, [theirs.ConnectionFailure]),
]:
    error = caught(call, *arguments)
    assert isinstance(error, ours), error
    for other in others:
        assert isinstance(error, other), (error, other)
    copy = pickle.loads(pickle.dumps(error))
    assert str(copy) == str(error) and isinstance(copy, others[0]), copy
    assert not error.has_error_label("x")
requests = [pymongo.InsertOne({"_id": 5}), pymongo.UpdateOne({"_id": 5}, {"$set": {"x": 1}}),
            pymongo.ReplaceOne({"_id": 6}, {"y": 1}, upsert=True), pymongo.DeleteMany({"_id": 1}),
            pymongo.UpdateMany({}, {"$inc": {"n": 1}}), pymongo.DeleteOne({"_id": 7})]
assert orders.bulk_write(requests).bulk_api_result == {
    "writeErrors": [], "writeConcernErrors": [], "nInserted": 1, "nUpserted": 1, "nMatched": 3, "nModified": 3,
    "nRemoved": 1, "upserted": [{"index": 2, "_id": 6}]}
assert orders.create_indexes([pymongo.IndexModel([("x", -1)], name="own")]) == ["own"]
print([*orders.find()])
"""
        found = subprocess.run([sys.executable, "-c", script], cwd=self.folder, capture_output=True, text=True,
                               env={**os.environ, "PYTHONPATH": str(PYTHON)})
        self.assertEqual((found.stdout, found.stderr),
                         ("[{'_id': 5, 'x': 1, 'n': 1}, {'_id': 6, 'y': 1, 'n': 1}]\n", ""))


class Several(WithOrders):
    def test_insert_many_not_ordered(self):
        documents = [{"_id": 2}, {"_id": 5}, {"_id": 3}, {"_id": 5}, {"a": 1}, {"_id": 6}]
        with self.assertRaises(fallowtime.BulkWriteError) as caught:
            self.orders.insert_many(documents, ordered=False)
        details = caught.exception.details
        self.assertEqual([(one["index"], one["code"], one["keyValue"]["_id"], one["op"]["_id"])
                          for one in details["writeErrors"]], [(0, 11000, 2, 2), (2, 11000, 3, 3), (3, 11000, 5, 5)])
        self.assertEqual((details["nInserted"], caught.exception.code), (3, 65))
        self.assertEqual(self.ids(), [1, 2, 3, 5, documents[4]["_id"], 6])
        self.assertEqual(self.orders.insert_many([{"_id": 7}, {"_id": 8}], ordered=False).inserted_ids, [7, 8])

    def test_one_that_is_too_long(self):
        with self.assertRaises(fallowtime.BulkWriteError) as caught:
            self.orders.insert_many([{"_id": 7}, {"_id": 8, "t": "x" * (16 << 20)}, {"_id": 9}], ordered=False)
        self.assertEqual([one["index"] for one in caught.exception.details["writeErrors"]], [1])
        self.assertEqual(self.ids(), [1, 2, 3, 7, 9])

    def test_many_that_are_there(self):
        """The number of requests doesn't grow with the square of that of the faults."""
        some = self.store.some
        some.insert_many([{"_id": number} for number in range(0, 400, 2)])
        with mock.patch.object(type(some), "_import", autospec=True, side_effect=type(some)._import) as asked:
            with self.assertRaises(fallowtime.BulkWriteError) as caught:
                some.insert_many([{"_id": number} for number in range(400)], ordered=False)
        self.assertEqual([one["index"] for one in caught.exception.details["writeErrors"]], list(range(0, 400, 2)))
        self.assertLess(sum(len(call.args[1]) for call in asked.call_args_list), 2400)
        self.assertEqual(some.count_documents({}), 400)

    def test_insert_many_in_one(self):
        with self.assertRaises(fallowtime.InsertManyError) as caught:
            self.orders.insert_many([{"_id": 7}, {"_id": 2}])
        details = caught.exception.details
        self.assertEqual((details["nInserted"], details["writeErrors"][0]["index"]), (0, 1))
        self.assertEqual(caught.exception.document, 1)
        self.assertIsInstance(caught.exception, fallowtime.BulkWriteError)

    def test_bulk_write(self):
        document = {"x": 1}
        result = self.orders.bulk_write([
            InsertOne({"_id": 4}), InsertOne(document), UpdateOne({"_id": 1}, {"$set": {"x": 1}}),
            UpdateMany({"x": {"$lt": 30}}, {"$inc": {"x": 1}}), UpdateOne({"_id": 9}, {"$inc": {"x": 1}}, upsert=True),
            ReplaceOne({"_id": 3}, {"y": 1}), ReplaceOne({"_id": 10}, {"y": 2}, upsert=True), DeleteOne({"_id": 4}),
            DeleteMany({"_id": {"$gte": 9}}), DeleteOne({"_id": 77})])
        self.assertEqual((result.inserted_count, result.matched_count, result.modified_count, result.deleted_count,
                          result.upserted_count, result.upserted_ids), (2, 5, 5, 3, 2, {4: 9, 6: 10}))
        self.assertTrue(result.acknowledged)
        self.assertEqual([*self.orders.find({}, {"tags": 0})],
                         [{"_id": 1, "x": 2}, {"_id": 2, "x": 23}, {"_id": 3, "y": 1},
                          {"_id": document["_id"], "x": 2}])

    def test_bulk_write_with_faults(self):
        requests = [InsertOne({"_id": 4}), InsertOne({"_id": 4}), InsertOne({"_id": 5}),
                    UpdateOne({"_id": 1}, {"$inc": {"tags": 1}}), UpdateOne({"_id": 1}, {"$inc": {"x": 1}}),
                    ReplaceOne({"_id": 1}, {"_id": 8}), DeleteOne({"_id": 2})]
        with self.assertRaises(fallowtime.BulkWriteError) as caught:
            self.orders.bulk_write(requests)
        self.assertEqual(counts(caught.exception.details), {"nInserted": 1})
        self.assertEqual([(one["index"], one["code"]) for one in caught.exception.details["writeErrors"]], [(1, 11000)])
        self.assertEqual(self.ids(), [1, 2, 3, 4])
        self.orders.delete_one({"_id": 4})
        with self.assertRaises(fallowtime.BulkWriteError) as caught:
            self.orders.bulk_write(requests, ordered=False)
        self.assertEqual(counts(caught.exception.details),
                         {"nInserted": 2, "nMatched": 1, "nModified": 1, "nRemoved": 1})
        self.assertEqual([(one["index"], one["code"]) for one in caught.exception.details["writeErrors"]],
                         [(1, 11000), (3, 14), (5, 66)])
        self.assertEqual(caught.exception.details["writeErrors"][1]["op"],
                         {"q": {"_id": 1}, "u": {"$inc": {"tags": 1}}, "multi": False, "upsert": False})
        self.assertEqual(self.ids(), [1, 3, 4, 5])

    def test_what_is_refused_before_anything_is_sent(self):
        for request, error in [(UpdateOne({}, [{"$set": {"a": 1}}]), NotImplementedError), (5, TypeError),
                               (DeleteOne({}, collation={"locale": "de"}), NotImplementedError),
                               (UpdateMany({}, {"$set": {"a": 1}}, array_filters=[{"a": 1}]), ValueError),
                               (UpdateMany({}, {"$inc": {"a.$[]": 1}}), NotImplementedError),
                               (UpdateOne({}, {"$set": {"a": 1}}, sort=5), TypeError),
                               (UpdateOne({}, {"a": 1}), ValueError), (ReplaceOne({}, {"$set": {"a": 1}}), ValueError),
                               (InsertOne({"a": {1}}), TypeError), (DeleteMany({"$where": "x"}), NotImplementedError),
                               ({"_id": 1}, TypeError), (InsertOne([]), TypeError)]:
            with self.subTest(request=request):
                self.assertRaises(error, self.orders.bulk_write, [DeleteMany({}), request])
        self.assertRaises(fallowtime.InvalidOperation, self.orders.bulk_write, [])
        self.assertRaises(TypeError, self.orders.bulk_write, DeleteOne({}))
        self.assertEqual(self.ids(), [1, 2, 3])

    def test_requests_themselves(self):
        self.assertEqual(UpdateOne({"a": 1}, {"$set": {"b": 1}}), UpdateOne({"a": 1}, {"$set": {"b": 1}}))
        self.assertNotEqual(DeleteOne({"a": 1}), DeleteMany({"a": 1}))
        self.assertEqual(repr(InsertOne({"a": 1})), "InsertOne(doc={'a': 1})")

    def test_delete_many(self):
        self.assertEqual(self.orders.delete_many({"x": {"$gt": 11}}).deleted_count, 2)
        self.assertEqual(self.orders.delete_many({"x": {"$gt": 11}}).deleted_count, 0)
        self.orders.insert_many([{"_id": 7}, {"_id": 7.0}, {"_id": Int64(7)}, {"_id": {"a": 7}}])
        self.assertEqual(self.orders.delete_many({"_id": 7}).deleted_count, 3)
        self.assertEqual(self.orders.delete_many({}).raw_result, {"n": 2, "ok": 1.0})
        self.assertEqual(self.store.list_collection_names(), [])

    def test_drop(self):
        self.orders.create_index("x")
        self.store.drop_collection("orders")
        self.assertEqual((self.ids(), self.orders.index_information()), ([], {}))
        self.orders.drop()
        self.store.drop_collection(self.orders)

    def test_rename(self):
        self.orders.create_index("x")
        before = list(self.orders.find())
        self.assertEqual(self.orders.rename("moved"), {"ok": 1.0})
        moved = self.store["moved"]
        self.assertEqual((list(moved.find()), list(moved.index_information())), (before, ["_id_", "x_1"]))
        self.assertEqual((self.ids(), self.orders.index_information()), ([], {}))
        self.assertEqual(moved.count_documents({"x": before[0]["x"]}), 1)
        self.assert_fails(26, self.orders.rename, "new")
        self.assert_fails(48, moved.rename, "moved")
        self.assertRaises(TypeError, moved.rename, 1)
        target = self.store["target"]
        target.insert_one({"_id": 1})
        target.create_index("y")
        self.assert_fails(48, moved.rename, "target")
        self.assert_fails(48, target.rename, "target", dropTarget=True)
        self.assert_fails(26, self.orders.rename, "target", dropTarget=True)
        self.assertEqual(moved.rename("target", dropTarget=True), {"ok": 1.0})
        self.assertEqual((list(target.find()), list(target.index_information())), (before, ["_id_", "x_1"]))
        self.assertEqual((list(moved.find()), moved.index_information()), ([], {}))


class FindingAndChanging(WithOrders):
    def test_delete(self):
        delete = self.orders.find_one_and_delete
        self.assertEqual(delete({"x": {"$gt": 11}}), self.documents[1])
        self.assertEqual(delete({"_id": 3}, {"x": 1, "_id": 0}), {"x": 33})
        self.assertIsNone(delete({"_id": 3}))
        self.assertEqual(self.ids(), [1])

    def test_replace(self):
        replace = self.orders.find_one_and_replace
        self.assertEqual(replace({"_id": 2}, {"x": 1}), self.documents[1])
        self.assertEqual(replace({"x": 1}, {"x": 2}, return_document=AFTER), {"_id": 2, "x": 2})
        self.assertEqual(replace({"_id": 2}, {"x": 2}, ["x"], return_document=AFTER), {"_id": 2, "x": 2})
        self.assertIsNone(replace({"_id": 9}, {"x": 2}, return_document=AFTER))
        self.assertIsNone(replace({"_id": 9}, {"x": 2}, upsert=True))
        self.assertEqual(replace({"_id": 10}, {"x": 2}, upsert=True, return_document=AFTER), {"_id": 10, "x": 2})
        self.assertEqual(replace({"_id": None}, {"x": 2}, upsert=True, return_document=AFTER), {"_id": None, "x": 2})
        self.assertRaises(ValueError, replace, {"_id": 2}, {"$set": {"x": 1}})
        self.assertRaises(ValueError, replace, {"_id": 2}, {"_id": 3})
        self.assertEqual(self.ids(), [1, 2, 3, 9, 10, None])

    def test_update(self):
        update = self.orders.find_one_and_update
        self.assertEqual(update({"x": {"$gt": 11}}, {"$inc": {"x": 1}}), self.documents[1])
        self.assertEqual(update({"x": {"$gt": 11}}, {"$inc": {"x": 1}}, {"x": True}, return_document=AFTER),
                         {"_id": 2, "x": 24})
        self.assertEqual(update({"x": 24}, {"$set": {"x": 0}}, {"x": True}, return_document=AFTER), {"_id": 2, "x": 0})
        self.assertIsNone(update({"_id": 9}, {"$inc": {"x": 1}}, return_document=AFTER))
        self.assertIsNone(update({"_id": 9}, {"$inc": {"x": 1}}, upsert=True))
        self.assertEqual(update({"x": 99}, {"$set": {"y": 1}}, {"_id": 0}, upsert=True, return_document=AFTER),
                         {"x": 99, "y": 1})
        self.assertRaises(ValueError, update, {"_id": 2}, {"x": 1})
        self.assertRaises(ValueError, update, {"_id": 77}, {"$inc": {"x": "1"}})
        self.assertRaises(ValueError, update, {"_id": 2}, {"$inc": {"x": 1}}, return_document=5)
        self.assertRaises(NotImplementedError, update, {"_id": 2}, [{"$set": {"x": 1}}])

    def test_threads(self):
        """No change is lost, and none is returned twice."""
        def count():
            for _ in range(20):
                found.append(self.orders.find_one_and_update({"_id": "n"}, {"$inc": {"n": 1}}, upsert=True,
                                                             return_document=AFTER)["n"])

        found = []
        threads = [threading.Thread(target=count) for _ in range(4)]
        for thread in threads:
            thread.start()
        for thread in threads:
            thread.join()
        self.assertEqual(sorted(found), list(range(1, 81)))

    def test_numbers_of_several_kinds(self):
        kinds = self.store.kinds
        kinds.insert_many([{"_id": Int64(5), "n": 0}, {"_id": 5, "n": 0}])
        self.assert_same(kinds.find_one_and_update({"_id": 5}, {"$inc": {"n": 1}}, return_document=AFTER),
                         {"_id": Int64(5), "n": 1})
        self.assert_same(kinds.find_one_and_delete({"_id": 5, "n": 0}), {"_id": 5, "n": 0})
        self.assert_same(kinds.find_one_and_replace({"n": 1}, {"_id": 5, "n": 2}, return_document=AFTER),
                         {"_id": Int64(5), "n": 2})
        self.assertEqual(kinds.replace_one({"n": 2}, {"_id": 5.0, "n": 3}).modified_count, 1)
        self.assertEqual(kinds.replace_one({"n": 3}, {"_id": 5.0, "n": 3}).modified_count, 0)
        self.assert_same(list(kinds.find()), [{"_id": Int64(5), "n": 3}])
        for call in kinds.replace_one, kinds.find_one_and_replace:
            self.assert_fails(66, call, {"n": 3}, {"_id": 6})

    def requests(self, call, *arguments, **options):
        """What a call returns, and which commands it asks of the program."""
        session = type(self.store._session)
        with mock.patch.object(session, "ask", autospec=True, side_effect=session.ask) as asked:
            return call(*arguments, **options), [one.args[1] for one in asked.call_args_list]

    def test_one_request(self):
        """What is found and changed is so in one request, except by an `_id` alone, which is found at once."""
        orders = self.orders
        for wanted, command, call, arguments, options in [
            ({"_id": 3}, "find-and-update", orders.find_one_and_update,
             ({"x": {"$gt": 11}}, {"$inc": {"x": 1}}, ["_id"], [("x", -1)]), {}),
            ({"x": 0}, "find-and-update", orders.find_one_and_update, ({"_id": 1}, {"$set": {"x": 0}}),
             {"projection": {"x": 1, "_id": 0}, "return_document": AFTER, "upsert": True}),
            ({"_id": 2, "y": 1}, "find-and-replace", orders.find_one_and_replace, ({"x": 22}, {"y": 1}),
             {"return_document": AFTER, "upsert": True}),
            (self.documents[2]["tags"], "distinct", orders.distinct, ("tags", {"_id": 3}), {}),
            ({"_id": 2, "y": 1}, "find-and-delete", orders.find_one_and_delete, ({"y": 1},), {}),
            (None, "find-and-delete", orders.find_one_and_delete, ({"y": 1}, {"x": 1}, [("x", 1)]), {}),
        ]:
            with self.subTest(command=command, arguments=arguments):
                self.assertEqual(self.requests(call, *arguments, **options), (wanted, [command]))
        result, commands = self.requests(orders.replace_one, {"x": 7}, {"x": 8}, upsert=True)
        self.assertEqual((type(result.upserted_id), commands), (ObjectId, ["replace-one"]))
        self.assertEqual(self.requests(orders.find_one_and_delete, {"_id": 1}, ["x"]),
                         ({"_id": 1, "x": 0}, ["index", "find", "remove"]))
        orders.insert_one({"_id": "x", "x": 1})
        self.assertEqual(self.requests(orders.find_one_and_delete, {"_id": "x"}, ["x"]),
                         ({"_id": "x", "x": 1}, ["get", "remove"]))

    def test_replacements_that_are_put_in(self):
        """What a query asks to be equal is nothing to a replacement, apart from the `_id`."""
        replace = self.orders.replace_one
        self.assertEqual(replace({"x": 7, "$and": [{"x": 8}]}, {"_id": 7, "y": 1}, upsert=True).upserted_id, 7)
        self.assertEqual(replace({"_id": {"$eq": Int64(8)}, "x": 8}, {"_id": 8}, upsert=True).upserted_id, 8)
        self.assertEqual(replace({"_id": {"$eq": 9}, "x.y": 8}, {"y": 1}, upsert=True).upserted_id, 9)
        error = self.assert_fails(11000, replace, {"_id": {"$eq": 9}, "x": 8}, {"y": 1}, upsert=True)
        self.assertEqual(error.details["keyValue"], {"_id": 9})
        self.assert_same(list(self.orders.find({"_id": {"$gt": 3}})),
                         [{"_id": 7, "y": 1}, {"_id": 8}, {"_id": 9, "y": 1}])


class Asking(WithOrders):
    def test_projections(self):
        collection = self.store.parts
        document = {"_id": 1, "a": {"b": 1, "c": {"d": 2, "e": 3}}, "l": [{"x": 1, "y": 2}, 5, [{"x": 3, "y": 4}, 6]],
                    "z": 9}
        collection.insert_one(document)
        for projection, wanted in [
            (None, document), ({}, document), ([], document), (["z"], {"_id": 1, "z": 9}), ({"_id": 1}, {"_id": 1}),
            ({"_id": 0, "z": 1}, {"z": 9}), ({"a.c.d": 1}, {"_id": 1, "a": {"c": {"d": 2}}}),
            ({"a.b.x": 1, "z": True}, {"_id": 1, "a": {}, "z": 9}), ({"z.x": 1}, {"_id": 1}),
            ({"l.x": 1}, {"_id": 1, "l": [{"x": 1}, [{"x": 3}]]}), ({"none": 1}, {"_id": 1}),
            ({"l.x": 0, "a": 0}, {"_id": 1, "l": [{"y": 2}, 5, [{"y": 4}, 6]], "z": 9}),
            ({"a.c.d": 0, "l": False, "_id": 0}, {"a": {"b": 1, "c": {"e": 3}}, "z": 9}),
            ({"_id": 0}, {name: value for name, value in document.items() if name != "_id"}),
            ({"l": 0, "a": 0, "_id": 1}, {"_id": 1, "z": 9}), ({"z": 2.5, "_id": False}, {"z": 9}),
            ({"z": 1, "a": 1, "_id": 0}, {"a": document["a"], "z": 9}), ({"l.0": 1}, {"_id": 1, "l": [{}, [{}]]}),
        ]:
            with self.subTest(projection=projection):
                self.assert_same(collection.find_one({}, projection), wanted)
                self.assert_same(next(collection.find({}, projection)), wanted)
        for projection, error in [
            ({"a": 1, "z": 0}, fallowtime.OperationFailure), ({"a": 1, "a.b": 1}, fallowtime.OperationFailure),
            ({"a.b": 0, "a": 0}, fallowtime.OperationFailure), ({"l": {"$slice": 1}}, NotImplementedError),
            ({"l.$": 1}, NotImplementedError), ({"a": "$z"}, NotImplementedError), ({"a..b": 1}, NotImplementedError),
            (5, TypeError), ({5: 1}, TypeError), ("z", TypeError),
        ]:
            with self.subTest(projection=projection):
                self.assertRaises(error, collection.find, {}, projection)
                self.assertRaises(error, collection.find_one, {}, projection)

    def test_distinct(self):
        collection = self.store.values
        values = [1, "1", 1.0, Int64(1), True, None, [1, [2], "x"], {"a": 1, "b": 2}, {"b": 2, "a": 1},
                  {"a": 1.0, "b": 2}, float("nan"), float("nan"), fallowtime.Symbol("x"), b"x", ObjectId("6" * 24),
                  -0.0, 0]
        collection.insert_many([{"v": value} for value in values] + [{}])
        self.assertEqual(repr(collection.distinct("v")),
                         repr([None, float("nan"), -0.0, 1, "1", "x", {"a": 1, "b": 2}, {"b": 2, "a": 1}, [2], b"x",
                               ObjectId("6" * 24), True]))
        self.assertEqual(self.orders.distinct("tags.b"), [1, 2, 3])
        self.assertEqual(self.orders.distinct("tags.1.b", {"_id": {"$lt": 3}}), [1, 2])
        self.assertEqual(self.orders.distinct("none"), [])
        self.assertEqual(self.orders.find({"_id": {"$gt": 1}}, {"_id": 1}).limit(1).distinct("x"), [22, 33])
        self.assertEqual(self.orders.find({"_id": 2}).distinct("x"), [22])
        self.assertEqual(self.store.kinds.find({"_id": "a"}).distinct("x"), [])
        self.assertRaises(TypeError, self.orders.distinct, 5)
        self.assertRaises(TypeError, self.orders.distinct, "x", 5)
        self.assertRaises(TypeError, self.orders.find().distinct, 5)

    def test_distinct_by_places(self):
        """Behind an array digits are a place, and no key of the documents in it."""
        places = self.store.places
        places.insert_many([{"a": [{"0": 5, "b": 1}, [7, 8]]}, {"a": {"0": 4, "01": 3}}, {"0": {"0": 2}}])
        for path, wanted in [("a.0", [{"0": 5, "b": 1}, 4]), ("a.1", [7, 8]), ("a.0.0", [5]), ("a.1.0", [7]),
                             ("0.0", [2]), ("a.01", [3]), ("a.0.b", [1]), ("a.b", [1])]:
            with self.subTest(path=path):
                self.assertEqual(places.distinct(path), wanted)
                self.assertEqual(places.find().distinct(path), wanted)

    def test_parts(self):
        self.assertEqual(self.ids({}, None, 1, 1), [2])
        self.assertEqual([found["_id"] for found in self.orders.find(skip=1)], [2, 3])
        self.assertEqual([found["_id"] for found in self.orders.find(limit=-2)], [1, 2])
        self.assertEqual(self.orders.find_one({}, skip=2)["_id"], 3)
        self.assertIsNone(self.orders.find_one({"_id": 1}, skip=1))
        self.assertEqual([self.orders.count_documents({}, **part) for part in
                          ({"skip": 1}, {"limit": 2}, {"skip": 2, "limit": 9}, {"skip": 9}, {"limit": 0})],
                         [2, 2, 1, 0, 3])
        for options, error in [({"skip": -1}, ValueError), ({"skip": "1"}, TypeError), ({"limit": 1.5}, TypeError)]:
            self.assertRaises(error, self.orders.find, {}, **options)

    def test_cursors(self):
        find = self.orders.find
        self.assertEqual((find()[0], find({"_id": {"$gt": 1}})[1]), (self.documents[0], self.documents[2]))
        self.assertEqual((list(find()[1:]), list(find()[:2]), list(find()[1:2]), list(find()[1:1])),
                         (self.documents[1:], self.documents[:2], self.documents[1:2], []))
        self.assertEqual(find().skip(1)[1], self.documents[2])
        for wrong, error in [(3, IndexError), (-1, IndexError), ("x", TypeError), (slice(0, 2, 2), IndexError),
                             (slice(2, 1), IndexError), (slice(-1, 1), IndexError)]:
            self.assertRaises(error, find().__getitem__, wrong)
        cursor = find().skip(1).limit(1)
        self.assertEqual(cursor.to_list(), self.documents[1:2])
        for call in (lambda: cursor.skip(1)), (lambda: cursor.limit(1)), (lambda: cursor[0]), (lambda: cursor[0:1]):
            self.assertRaises(fallowtime.InvalidOperation, call)
        self.assertEqual((cursor.clone().to_list(), cursor.rewind().to_list()), (self.documents[1:2],) * 2)
        self.assertEqual(find().to_list(2), self.documents[:2])
        self.assertEqual(find().comment("x").batch_size(2).allow_disk_use(True).hint("_id_").to_list(), self.documents)
        cursor = find()
        self.assertEqual((cursor.collection, cursor.session, cursor.try_next()), (self.orders, None, self.documents[0]))
        cursor.close()
        self.assertEqual((cursor.try_next(), cursor.alive), (None, False))

    def test_what_is_no_sort(self):
        for keys, error in [("$natural", NotImplementedError), ({"x": {"$meta": "textScore"}}, NotImplementedError),
                            ([("x", 2)], ValueError), (5, TypeError), ([(5, 1)], TypeError), ([], ValueError),
                            ("", fallowtime.OperationFailure), ("a..b", fallowtime.OperationFailure)]:
            self.assertRaises(error, self.orders.find().sort, keys)
        for method in self.orders.update_many, self.orders.delete_one, self.orders.delete_many:
            self.assertRaises(TypeError, method, {}, {"$set": {"x": 1}}, sort=[("x", 1)])
        self.assertEqual(self.ids(), [1, 2, 3])

    def test_sorts(self):
        orders = self.orders
        orders.insert_one({"_id": 4, "x": 11})
        self.assertEqual([found["_id"] for found in orders.find().sort("x", -1)], [3, 2, 1, 4])
        self.assertEqual([found["_id"] for found in orders.find(sort=[("x", 1), ("_id", -1)]).skip(1).limit(2)], [1, 2])
        self.assertEqual(orders.find().sort([("x", 1), ("_id", -1)])[0]["_id"], 4)
        self.assertEqual(orders.find_one({}, sort=[("x", -1)])["_id"], 3)
        self.assertEqual(orders.find_one({}, ["x"], sort={"x": 1}, skip=2), {"_id": 2, "x": 22})
        self.assertEqual([found["_id"] for found in orders.aggregate(
            [{"$sort": {"x": -1}}, {"$match": {"x": {"$lt": 33}}}, {"$limit": 2}])], [2, 1])
        self.assertEqual(orders.find_one_and_update({}, {"$inc": {"x": 1}}, ["x"], [("x", -1)]), {"_id": 3, "x": 33})
        self.assertEqual(orders.find_one_and_replace({"_id": {"$lt": 4}}, {"x": 1}, sort=[("x", -1)],
                                                     return_document=AFTER), {"_id": 3, "x": 1})
        self.assertEqual(orders.find_one_and_delete({}, sort=[("x", -1)])["_id"], 2)
        self.assertEqual([found["_id"] for found in orders.find(sort={"x": 1, "_id": -1}, limit=2)], [3, 4])
        orders.insert_many([{"_id": Int64(1), "x": 50}, {"_id": "1", "x": 0}])
        self.assert_fails(None, orders.update_one, {}, {"$set": {"x": 1}}, sort=[("x", -1)])
        self.assert_same(orders.find_one_and_update({}, {"$set": {"x": 1}}, ["x"], [("x", -1)]),
                         {"_id": Int64(1), "x": 50})
        self.assertEqual(orders.find_one_and_update({}, {"$set": {"x": 7}}, ["x"], [("x", 1)], return_document=AFTER),
                         {"_id": "1", "x": 7})

    def test_order(self):
        """Of the values of all kinds, and of arrays by their least or their greatest item."""
        values = [None, -1, 0.5, Int64(1), "B", "a", {"a": 1}, b"b", ObjectId("6" * 24), False, True]
        some = self.store.some
        some.insert_many([{"_id": number, "v": value} for number, value in reversed(list(enumerate(values)))])
        self.assertEqual([found["_id"] for found in some.find().sort("v")], list(range(len(values))))
        self.assertEqual([found["_id"] for found in some.find().sort("v", -1).limit(3)], [10, 9, 8])
        some.insert_many([{"_id": "l", "v": [0.25, 2]}, {"_id": "e", "v": []}, {"_id": "n"}])
        self.assertEqual([found["_id"] for found in some.find().sort("v").limit(6)], ["e", 0, "n", 1, "l", 2])
        self.assertEqual([found["_id"] for found in some.find({"v": {"$gt": 0}}).sort("v", -1)], ["l", 3, 2])

    def test_changes_by_sort(self):
        orders = self.orders
        self.assertEqual(orders.update_one({"_id": {"$lt": 3}}, {"$set": {"y": 1}}, sort=[("x", -1)]).modified_count, 1)
        self.assertEqual(orders.replace_one({}, {"y": 2}, sort={"x": -1}).modified_count, 1)
        self.assertEqual(orders.update_one({"x": 5}, {"$set": {"y": 3}}, upsert=True, sort=[("x", 1)]).upserted_id,
                         orders.find_one({"y": 3})["_id"])
        self.assertEqual(orders.update_one({"x": 6}, {"$set": {"y": 3}}, sort=[("x", 1)]).matched_count, 0)
        self.assertEqual([*orders.find({"_id": {"$lt": 4}}, {"tags": 0})],
                         [{"_id": 1, "x": 11}, {"_id": 2, "x": 22, "y": 1}, {"_id": 3, "y": 2}])
        result = orders.bulk_write([UpdateOne({}, {"$set": {"y": 0}}, sort=[("x", -1)]),
                                    ReplaceOne({}, {"y": 9}, sort=[("y", -1)])])
        self.assertEqual((result.matched_count, orders.find_one({"y": 0})["_id"]), (2, 2))

    def test_pipelines_that_write(self):
        aggregate, out = self.orders.aggregate, self.store.out
        first, later = {"$match": {"_id": {"$lt": 3}}}, {"$match": {"_id": {"$gt": 1}}}
        self.assertEqual(list(aggregate([{"$sort": {"x": -1}}, first, {"$project": {"x": 1}}, {"$out": "out"}])), [])
        self.assertEqual([*out.find()], [{"_id": 2, "x": 22}, {"_id": 1, "x": 11}])
        self.assertRaisesRegex(NotImplementedError, "has documents", aggregate, [{"$out": "out"}])
        for stage, wanted in [
            ({"into": "out", "whenMatched": "keepExisting", "whenNotMatched": "discard"}, [[2, 22], [1, 11]]),
            ({"into": "out", "whenMatched": "keepExisting"}, [[2, 22], [1, 11], [3, 33, "a"]]),
            ("out", [[2, 22, "a"], [1, 11], [3, 33, "a"]]),
        ]:
            aggregate([later, {"$merge": stage}])
            found = [[document["_id"], document["x"], *document.get("tags", [])[:1]] for document in out.find()]
            self.assertEqual(found, wanted)
        out.update_many({}, {"$set": {"y": 1}, "$unset": {"x": 1}})
        self.orders.aggregate([first, {"$merge": {"into": {"db": "test", "coll": "out"}, "on": ["_id"]}}])
        self.assert_same(out.find_one(2), {"_id": 2, "tags": ["a", {"b": 2}], "y": 1, "x": 22})
        self.orders.aggregate([first, {"$project": {"x": 1}}, {"$merge": {"into": "out", "whenMatched": "replace"}}])
        self.assertEqual([*out.find({"_id": {"$lt": 3}})], [{"_id": 2, "x": 22}, {"_id": 1, "x": 11}])
        self.assert_fails(11000, aggregate, [{"$merge": {"into": "out", "whenMatched": "fail"}}])
        self.assert_fails(13113, aggregate, [{"$merge": {"into": "none", "whenNotMatched": "fail"}}])
        aggregate([{"$count": "n"}, {"$out": "counts"}])
        self.assertEqual([*self.store.counts.find({}, {"_id": 0})], [{"n": 3}])
        aggregate([{"$match": {"_id": 9}}, {"$out": "none"}])
        self.assertEqual(sorted(self.store.list_collection_names()), ["counts", "orders", "out"])

    def test_pipelines_that_dont_write(self):
        for stage, error in [
            ({"$out": {"db": "x", "coll": "y"}}, NotImplementedError), ({"$out": 5}, fallowtime.OperationFailure),
            ({"$out": {"db": "x"}}, NotImplementedError), ({"$merge": {"into": "x", "on": "y"}}, NotImplementedError),
            ({"$merge": {"into": "x", "whenMatched": []}}, NotImplementedError),
            ({"$merge": {"into": "x", "let": {}}}, NotImplementedError), ({"$merge": {}}, fallowtime.OperationFailure),
            ({"$merge": {"into": "x", "whenMatched": "insert"}}, fallowtime.OperationFailure),
        ]:
            with self.subTest(stage=stage):
                self.assertRaises(error, self.orders.aggregate, [stage])
        self.assertRaises(NotImplementedError, self.orders.aggregate, [{"$out": "x"}, {"$merge": "x"}])
        self.assertRaises(NotImplementedError, self.orders.aggregate, [{"$out": "x"}, {"$limit": 1}])
        self.assertEqual(self.store.list_collection_names(), ["orders"])

    def test_pipelines(self):
        aggregate = self.orders.aggregate
        for pipeline, wanted in [
            ([], self.documents), ([{"$match": {"_id": {"$gt": 1}}}], self.documents[1:]),
            ([{"$match": {"_id": {"$gt": 1}}}, {"$match": {"x": {"$lt": 33}}}], self.documents[1:2]),
            ([{"$skip": 1}, {"$limit": 1}, {"$project": {"x": 1, "_id": 0}}], [{"x": 22}]),
            ([{"$match": {"_id": {"$gt": 1}}}, {"$count": "n"}], [{"n": 2}]),
            ([{"$limit": 2}, {"$count": "n"}], [{"n": 2}]),
            ([{"$match": {"_id": 9}}, {"$count": "n"}], []),
            ([{"$limit": 2}, {"$match": {"_id": {"$gt": 1}}}], self.documents[1:2]),
            ([{"$limit": 2}, {"$skip": 1}], self.documents[1:2]), ([{"$limit": 2}, {"$limit": 1}], self.documents[:1]),
            ([{"$group": {"_id": None, "n": {"$count": {}}, "sum": {"$sum": "$x"}, "least": {"$min": "$x"}}}],
             [{"_id": None, "n": 3, "sum": 66, "least": 11}]),
            ([{"$group": {"_id": "$y", "all": {"$push": "$x"}}}, {"$sort": {"_id": -1}}, {"$limit": 1}],
             [{"_id": None, "all": [11, 22, 33]}]),
            ([{"$unwind": "$tags"}, {"$group": {"_id": "$_id", "n": {"$sum": 1}}}, {"$count": "n"}], [{"n": 3}]),
            ([{"$unwind": {"path": "$none", "preserveNullAndEmptyArrays": True}}], self.documents),
        ]:
            with self.subTest(pipeline=pipeline):
                self.assertEqual(list(aggregate(pipeline)), wanted)
        for pipeline, error in [
            ([{"$project": {"x": "$y"}}], NotImplementedError), ([{"$unwind": "x"}], NotImplementedError),
            ([{"$unwind": {"path": "$x", "includeArrayIndex": "i"}}], NotImplementedError),
            ([{"$group": {"x": {"$sum": 1}}}], TypeError), ([{"$group": {"_id": {"x": "$x"}}}], NotImplementedError),
            ([{"$group": {"_id": 1, "x": {"$stdDevPop": "$x"}}}], NotImplementedError),
            ([{"$group": {"_id": 1, "x": {"$sum": {"$add": [1]}}}}], NotImplementedError),
            ([{"$group": {"_id": "$$ROOT"}}], NotImplementedError), ([{"$group": {"_id": 1, "x.y": {}}}], ValueError),
            ([{"$group": {"_id": 1, "x": 5}}], TypeError), ([{"$sort": {}}, {"$unwind": "$x"}], TypeError),
            ([{"$lookup": {}}], NotImplementedError),
            ([{"$match": {}, "$limit": 1}], TypeError), ({"$match": {}}, TypeError), ([{"$limit": 0}], ValueError),
            ([{"$count": "$x"}], ValueError), ([{"$project": {}}], TypeError), ([{"$match": 5}], TypeError),
        ]:
            with self.subTest(pipeline=pipeline):
                self.assertRaises(error, aggregate, pipeline)


class Names(WithOrders):
    def test_names(self):
        for same in self.store.orders, self.store.get_collection("orders"), self.store["orders"]:
            self.assertEqual(same, self.orders)
        self.assertEqual((self.store.name, self.orders.full_name), ("test", "test.orders"))
        self.assertIs(self.orders.database, self.store)
        self.assertEqual((self.orders.archive.name, self.orders["archive"].name), ("orders.archive",) * 2)
        self.assertEqual((self.orders.with_options(write_concern=5, read_preference=5), self.orders.options()),
                         (self.orders, {}))
        self.assertEqual(self.store.with_options(read_concern=1), self.store)
        for thing in self.orders, self.store:
            self.assertFalse(hasattr(thing, "codec_options"))
        self.assertFalse(hasattr(self.store, "client"))
        linearizable = SimpleNamespace(level="linearizable")
        for method in self.orders.with_options, self.store.with_options, lambda **options: self.store.get_collection(
                "orders", **options):
            method(read_concern=SimpleNamespace(level="majority"))
            self.assertRaises(NotImplementedError, method, read_concern=linearizable)
        self.assertRaises(NotImplementedError, self.orders.with_options, codec_options=5)
        self.assertRaises(NotImplementedError, self.store.get_collection, "orders", codec_options=5)
        self.assertEqual(self.store.create_collection("new").name, "new")
        self.assertRaises(fallowtime.CollectionInvalid, self.store.create_collection, "orders")
        self.assertRaises(NotImplementedError, self.store.create_collection, "capped", capped=True)

    def test_modules(self):
        for module, names in [("fallowtime.errors", ["PyMongoError", "DuplicateKeyError", "BulkWriteError",
                                                     "ConfigurationError"]),
                              ("fallowtime.operations", ["InsertOne", "UpdateOne", "IndexModel"]),
                              ("fallowtime", ["ASCENDING", "DESCENDING", "ReturnDocument", "MongoClient"])]:
            for name in names:
                self.assertTrue(hasattr(importlib.import_module(module), name), name)


class ListsOfIndexes(WithOrders):
    def test_lists(self):
        self.assertEqual(self.store.none.index_information(), {})
        self.assertEqual(self.orders.index_information(), {"_id_": {"v": 2, "key": [("_id", 1)]}})
        self.assertEqual(self.orders.create_index([("x", -1)], name="own", sparse=True, background=True), "own")
        self.assertEqual(self.orders.create_index("x", comment="why"), "x_1")
        self.assertEqual(self.orders.create_indexes([fallowtime.IndexModel("y"), fallowtime.IndexModel([("z", 1)])]),
                         ["y_1", "z_1"])
        self.assertEqual(self.orders.index_information(), {
            "_id_": {"v": 2, "key": [("_id", 1)]}, "x_1": {"v": 2, "key": [("x", 1)]},
            "own": {"v": 2, "key": [("x", -1)], "sparse": True, "background": True},
            "y_1": {"v": 2, "key": [("y", 1)]}, "z_1": {"v": 2, "key": [("z", 1)]}})
        self.assertEqual([(one["name"], one["key"]) for one in self.orders.list_indexes()][:2],
                         [("_id_", {"_id": 1}), ("own", {"x": -1})])
        self.orders.drop_index("own")
        self.orders.drop_index([("x", 1)])
        self.assertEqual(sorted(self.orders.index_information()), ["_id_", "y_1", "z_1"])
        self.orders.drop_indexes()
        self.assertEqual(sorted(self.orders.index_information()), ["_id_"])

    def test_what_is_at_odds(self):
        self.orders.create_index("x")
        self.assert_fails(85, self.orders.create_index, "x", name="other")
        self.assert_fails(86, self.orders.create_index, "y", name="x_1")
        self.assert_fails(72, self.orders.drop_index, "_id_")
        self.assertRaises(TypeError, self.orders.create_index, "y", name=5)
        self.assertRaises(TypeError, self.orders.create_indexes, ["y"])
        self.assertRaises(NotImplementedError, self.orders.create_indexes,
                          [fallowtime.IndexModel("y"), fallowtime.IndexModel("z", unique=True)])
        self.assertEqual(sorted(self.orders.index_information()), ["_id_", "x_1"])

    def test_hints(self):
        self.orders.create_index("x")
        for hint in "_id_", "x_1", [("x", 1)], {"_id": 1}, None:
            self.assertEqual(len(list(self.orders.find({}, hint=hint))), 3)
            self.assertEqual(self.orders.update_one({"_id": 1}, {"$set": {"x": 11}}, hint=hint).matched_count, 1)
        for hint in "y_1", [("y", 1)], [("x", -1)]:
            for call in (lambda: self.orders.find({}, hint=hint), lambda: self.orders.find().hint(hint),
                         lambda: self.orders.delete_many({}, hint=hint),
                         lambda: self.orders.count_documents({}, hint=hint),
                         lambda: self.orders.bulk_write([DeleteOne({}, hint=hint)])):
                self.assert_fails(2, call)


if __name__ == "__main__":
    unittest.main()
