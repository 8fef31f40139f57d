"""Stores that are only read, and the stores of a folder."""
import os
import stat
import subprocess
import sys
import threading
import unittest

from common import PYTHON, WithFolder

import fallowtime
from fallowtime import DeleteOne, InsertOne, ObjectId

NAMES = ["plain", "with space", '"quoted', "line\nfeed", "--dashed", "é\u2028", "a.b"]
DOCUMENTS = [{"_id": 1, "x": 2.5, "t": "line\nfeed\u2028"}, {"_id": "--canonical", "x": -0.0},
             {"_id": "1", "x": [b"b", None]}, {"_id": ObjectId("6" * 24), "a1": 5, "a,b": 6},
             {"_id": {"d": 1}, "x": 9}]


class OnlyRead(WithFolder):
    def setUp(self):
        super().setUp()
        self.store = self.open()
        for name in NAMES:
            self.store[name].insert_many(DOCUMENTS)
        self.reader = self.open(readonly=True)

    def test_what_it_returns(self):
        """What the store returns that has the file, and has it meanwhile."""
        self.assertEqual(self.reader.list_collection_names(), self.store.list_collection_names())
        self.assertEqual(sorted(self.reader.list_collection_names()), sorted(NAMES))
        for name in NAMES:
            with self.subTest(name=name):
                self.assert_same(list(self.reader[name].find()), DOCUMENTS)
        plain = self.reader.plain
        self.assert_same([plain.find_one({"_id": document["_id"]}) for document in DOCUMENTS], DOCUMENTS)
        self.assertEqual((plain.find_one("none"), plain.find_one({"x": 7})), (None, None))
        self.assertEqual(list(self.reader.none.find()), [])
        self.assertEqual([plain.count_documents(query) for query in ({}, {"x": {"$gt": 1}}, {"a,b": 6})], [5, 2, 1])
        self.assertEqual((plain.estimated_document_count(), plain.distinct("x")), (5, [None, -0.0, 2.5, 9, b"b"]))
        self.assertEqual((plain.distinct("t"), plain.distinct("none"), plain.distinct("x.1"), plain.distinct("a,b")),
                         (["line\nfeed\u2028"], [], [None], [6]))
        self.assertEqual(plain.find({"_id": "1"}).distinct("x"), [None, b"b"])
        self.assertEqual(plain.export(self.folder / "a.bson"), 5)
        self.store.plain.export(self.folder / "b.bson")
        self.assertEqual((self.folder / "a.bson").read_bytes(), (self.folder / "b.bson").read_bytes())

    def test_sorts_and_parts(self):
        ids = [document["_id"] for document in DOCUMENTS]
        for part, places in [
            ({"sort": [("x", 1)]}, [2, 3, 1, 0, 4]), ({"sort": [("a1", -1), ("x", -1)]}, [3, 2, 4, 0, 1]),
            ({"skip": 1, "limit": 2}, [1, 2]), ({"sort": "x", "skip": 3}, [0, 4]), ({"limit": 0}, [0, 1, 2, 3, 4]),
        ]:
            with self.subTest(part=part):
                found = [document["_id"] for document in self.reader.plain.find({}, **part)]
                self.assertEqual(found, [document["_id"] for document in self.store.plain.find({}, **part)])
                self.assertEqual(found, [ids[place] for place in places])
        for path in "a,b", "a:1", "-a", "a b":
            self.assertRaises(NotImplementedError, self.reader.plain.find(sort=path).to_list)
        self.assertEqual(list(self.reader.plain.aggregate([{"$match": {"x": 9}}, {"$count": "n"}])), [{"n": 1}])
        grouped = self.reader.plain.aggregate([{"$group": {"_id": "$x", "n": {"$sum": 1}}}])
        self.assertRaises(NotImplementedError, list, grouped)

    def test_nothing_is_changed(self):
        plain = self.reader.plain
        for call in [
            lambda: plain.insert_one({}), lambda: plain.insert_many([{}]), lambda: plain.delete_many({"none": 1}),
            lambda: plain.update_one({"none": 1}, {"$set": {"x": 1}}), lambda: plain.replace_one({"none": 1}, {}),
            lambda: plain.find_one_and_update({"none": 1}, {"$set": {"x": 1}}), lambda: plain.drop(), lambda: plain.rename("new"),
            lambda: plain.find_one_and_delete({"none": 1}), lambda: plain.create_index("x"),
            lambda: plain.bulk_write([DeleteOne({"none": 1})]), lambda: plain.bulk_write([InsertOne({})]),
            lambda: plain.import_(os.devnull), lambda: self.reader.drop_collection("plain"),
            lambda: plain.aggregate([{"$out": "new"}]), lambda: plain.update_many({}, {"$set": {"x.$[]": 1}}),
        ]:
            self.assertRaises(fallowtime.InvalidOperation, call)
        self.assert_same(list(self.store.plain.find()), DOCUMENTS)
        self.assertEqual(sorted(self.store.list_collection_names()), sorted(NAMES))

    def test_it_sees_what_was_answered(self):
        for number in range(20):
            self.store.plain.insert_one({"_id": f"new {number}"})
            self.assertEqual(self.reader.plain.count_documents({}), 6 + number)

    def test_any_number_of_readers(self):
        """Threads of one store, processes, and one that was forked, while the file is changed."""
        found, wrong = [], []

        def read():
            try:
                found.extend(len(list(self.reader.plain.find({"x": {"$exists": 1}}))) for _ in range(5))
            except Exception as error:
                wrong.append(error)

        threads = [threading.Thread(target=read) for _ in range(4)]
        script = ("import fallowtime; c = fallowtime.open('test.db', readonly=True).plain;"
                  "print([len(list(c.find({'x': {'$exists': 1}}))) for _ in range(3)])")
        processes = [subprocess.Popen([sys.executable, "-c", script], cwd=self.folder, stdout=subprocess.PIPE,
                                      text=True, env={**os.environ, "PYTHONPATH": str(PYTHON)}) for _ in range(3)]
        for thread in threads:
            thread.start()
        for number in range(30):
            self.store.plain.insert_one({"new": number})
        for thread in threads:
            thread.join()
        self.assertEqual((wrong, found), ([], [4] * 20))
        self.assertEqual([process.communicate()[0] for process in processes], ["[4, 4, 4]\n"] * 3)
        child = os.fork()
        if not child:
            os._exit(self.reader.plain.count_documents({}) != 35)
        self.assertEqual(os.waitpid(child, 0)[1], 0)

    def test_a_file_that_may_not_be_written(self):
        self.store.close()
        path = self.folder / "test.db"
        path.chmod(stat.S_IRUSR)
        with fallowtime.open(path, readonly=True) as reader:
            self.assertEqual(reader.plain.count_documents({}), 5)
            reader.backup(self.folder / "copy.db")
        self.assertEqual(self.open("copy.db", readonly=True).plain.count_documents({}), 5)

    def test_errors(self):
        with self.assertRaises(fallowtime.Ended) as caught:
            self.open("none.db", readonly=True)
        self.assertEqual(caught.exception.kind, "NoFile")
        self.assertFalse((self.folder / "none.db").exists())
        self.assert_refused("Usage", self.reader.plain.find({"x": {"$size": 1.5}}).to_list,
                            at="query $size takes no such value")
        texts = ["x" * 1000] * 200
        self.assertRaisesRegex(ValueError, "131071", self.reader.plain.count_documents, {"x": {"$in": texts}})
        self.assertEqual(self.reader.plain.count_documents({"x": {"$nin": texts[:100]}}), 5)
        self.reader.close()
        self.reader.close()
        for call in (self.reader.plain.find_one, self.reader.list_collection_names,
                     lambda: self.reader.backup(self.folder / "late.db"), lambda: self.reader.plain.insert_one({})):
            self.assertRaises(fallowtime.Ended, call)


class Clients(WithFolder):
    def test_stores_of_a_folder(self):
        folder = self.folder / "data"
        with fallowtime.MongoClient(folder, serverSelectionTimeoutMS=5, w=1, tz_aware=True) as client:
            self.assertEqual(client.list_database_names(), [])
            client.shop.orders.insert_one({"_id": 1})
            self.assertIs(client["shop"], client.shop)
            self.assertIs(client.get_database("shop"), client.shop)
            self.assertIs(client.get_default_database("shop"), client.shop)
            self.assertIs(client.shop.client, client)
            self.assertIs(client.shop.orders.database.client, client)
            self.assertEqual((client["two"].name, client.two.path), ("two", str(folder / "two.db")))
            self.assertEqual(client.list_database_names(), ["shop", "two"])
            self.assertEqual(client.server_info(), {"version": "4.4.0", "versionArray": [4, 4, 0, 0], "ok": 1.0})
            self.assertEqual(repr(client), f"fallowtime.MongoClient({str(folder)!r})")
        self.assertRaises(fallowtime.InvalidOperation, lambda: client.shop)
        client.close()
        with fallowtime.MongoClient(folder, readonly=True) as reader:
            self.assertEqual(reader.shop.orders.find_one(), {"_id": 1})
            self.assertRaises(fallowtime.InvalidOperation, reader.shop.orders.insert_one, {})
            self.assertRaises(fallowtime.Ended, lambda: reader.three)
        self.assertEqual(sorted(os.listdir(folder))[0], "shop.db")
        self.assertFalse((folder / "three.db").exists())

    def test_a_store_that_has_ended(self):
        client = fallowtime.MongoClient(self.folder)
        client.shop.orders.insert_one({"_id": 1})
        client.shop.close()
        self.assertEqual(client.shop.orders.find_one(), {"_id": 1})
        client.shop._session._process.kill()
        self.assertRaises(fallowtime.Ended, client.shop.orders.find_one)
        self.assertEqual(client.shop.orders.find_one(), {"_id": 1})
        client.close()

    def test_what_is_wrong(self):
        client = fallowtime.MongoClient(self.folder)
        self.addCleanup(client.close)
        for name in "", "a/b", "a.b", "a b", "$a", "a\0", '"':
            self.assertRaises(fallowtime.InvalidName, lambda: client[name])
        self.assertRaises(TypeError, lambda: client[5])
        self.assertRaises(TypeError, client)
        for call in client.get_default_database, client.get_database:
            self.assertRaises(fallowtime.ConfigurationError, call)
        for call in client.start_session, lambda: client.drop_database("shop"), client.list_databases:
            self.assertRaises(NotImplementedError, call)
        self.assertFalse(hasattr(client, "codec_options"))
        self.assertRaises(NotImplementedError, fallowtime.MongoClient, "mongodb://localhost")
        self.assertRaises(NotImplementedError, fallowtime.MongoClient, host="localhost")
        self.assertRaises(TypeError, fallowtime.MongoClient, unknown=1)
        self.assertEqual(os.listdir(self.folder), [])


if __name__ == "__main__":
    unittest.main()
