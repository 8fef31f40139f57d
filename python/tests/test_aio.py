"""The package for asyncio."""
import asyncio
import doctest
import os
import threading
import unittest

from common import WithFolder

import fallowtime
import fallowtime.aio
from fallowtime import InsertOne, ReturnDocument


class Aio(WithFolder, unittest.IsolatedAsyncioTestCase):
    async def asyncSetUp(self):
        # A busy machine is slow, and nothing is written of that.
        asyncio.get_running_loop().slow_callback_duration = 60
        self.store = await fallowtime.aio.open(self.folder / "test.db")
        self.addCleanup(self.store.close)
        self.orders = self.store.orders
        self.documents = [{"_id": number, "x": number * 11} for number in (1, 2, 3)]
        await self.orders.insert_many(self.documents)

    async def test_requests(self):
        orders = self.orders
        self.assertEqual((await orders.insert_one({"_id": 4})).inserted_id, 4)
        self.assertEqual((await orders.update_one({"_id": 4}, {"$set": {"x": 1}})).modified_count, 1)
        self.assertEqual((await orders.update_many({}, {"$inc": {"x": 1}})).modified_count, 4)
        self.assertEqual((await orders.replace_one({"_id": 4}, {"x": 9})).modified_count, 1)
        self.assertEqual(await orders.find_one({"x": {"$lt": 10}}), {"_id": 4, "x": 9})
        self.assertEqual((await orders.count_documents({}), await orders.estimated_document_count()), (4, 4))
        self.assertEqual(await orders.distinct("x"), [9, 12, 23, 34])
        self.assertEqual(await orders.find_one_and_update({}, {"$set": {"x": 0}}, sort=[("x", 1)],
                                                          return_document=ReturnDocument.AFTER), {"_id": 4, "x": 0})
        self.assertEqual(await orders.find_one_and_replace({"_id": 4}, {"x": 5}), {"_id": 4, "x": 0})
        self.assertEqual(await orders.find_one_and_delete({"_id": 4}, {"_id": 0}), {"x": 5})
        self.assertEqual((await orders.bulk_write([InsertOne({"_id": 5})])).inserted_count, 1)
        self.assertEqual((await orders.delete_one({"_id": 5})).deleted_count, 1)
        self.assertEqual((await orders.delete_many({})).deleted_count, 3)
        self.assertEqual((await orders.find_one(), await orders.options()), (None, {}))

    async def test_transactions(self):
        async with self.store.transaction() as changes:
            changes.set("orders", 1, "x", 12)
            changes.remove(self.orders, 2)
        self.assertEqual(changes.results, [None, None])
        self.assertEqual(await self.orders.find().to_list(None), [{"_id": 1, "x": 12}, self.documents[2]])
        with self.assertRaises(fallowtime.DuplicateKeyError):
            async with self.store.transaction() as changes:
                changes.set("orders", 1, "x", 13)
                changes.insert("orders", {"_id": 3})
        with self.assertRaises(ZeroDivisionError):
            async with self.store.transaction() as changes:
                changes.remove("orders", 1)
                raise ZeroDivisionError
        self.assertEqual(await self.orders.find_one(1), {"_id": 1, "x": 12})

    async def test_cursors(self):
        find = self.orders.find
        self.assertEqual([found async for found in find()], self.documents)
        self.assertEqual(await find({"_id": {"$gt": 1}}).to_list(None), self.documents[1:])
        cursor = find({}, {"x": 1}).sort("x", -1).skip(1).limit(5)
        self.assertEqual((await cursor.to_list(1), await cursor.next(), cursor.alive),
                         (self.documents[1:2], self.documents[0], False))
        with self.assertRaises(StopAsyncIteration):
            await cursor.next()
        self.assertRaises(fallowtime.InvalidOperation, cursor.sort, "x")
        self.assertEqual([found["_id"] async for found in cursor.rewind()], [2, 1])
        self.assertEqual([found["_id"] async for found in cursor.clone().limit(1)], [2])
        self.assertEqual(await find().distinct("x"), [11, 22, 33])
        cursor = find().batch_size(2).comment("why").hint("_id_").allow_disk_use(True)
        self.assertEqual((await cursor.next(), cursor.alive, cursor.collection), (self.documents[0], True, self.orders))
        await cursor.close()
        self.assertEqual((await cursor.to_list(), cursor.alive), ([], False))
        self.assertRaises(NotImplementedError, find, {"$where": "x"})
        self.assertRaises(NotImplementedError, find().where)
        self.assertEqual((await find({"_id": "a"}).explain())["queryPlanner"]["winningPlan"], {"stage": "IDHACK"})

    async def test_pipelines(self):
        aggregate = self.orders.aggregate
        cursor = aggregate([{"$sort": {"x": -1}}, {"$limit": 2}])
        self.assertEqual((cursor.alive, await cursor.next(), await cursor.to_list(5)),
                         (True, self.documents[2], self.documents[1:2]))
        self.assertEqual([found async for found in aggregate([{"$count": "n"}])], [{"n": 3}])
        cursor = aggregate([{"$out": "out"}])
        self.assertEqual(await self.store.out.count_documents({}), 0)
        self.assertEqual((await cursor.to_list(None), await self.store.out.count_documents({})), ([], 3))
        cursor = aggregate([{"$out": "never"}])
        await cursor.close()
        self.assertEqual((await cursor.to_list(), await self.store.never.count_documents({})), ([], 0))
        with self.assertRaises(NotImplementedError):
            await aggregate([{"$lookup": {"from": "x"}}]).to_list()

    async def test_indexes_and_names(self):
        self.assertEqual(await self.orders.create_index("x"), "x_1")
        self.assertEqual([found["name"] async for found in self.orders.list_indexes()], ["_id_", "x_1"])
        self.assertEqual(list(await self.orders.index_information()), ["_id_", "x_1"])
        await self.orders.drop_indexes()
        self.assertEqual((await self.store.create_collection("new")).name, "new")
        with self.assertRaises(fallowtime.CollectionInvalid):
            await self.store.create_collection("orders")
        self.assertEqual((self.store.name, self.orders.name, self.orders.full_name), ("test", "orders", "test.orders"))
        self.assertEqual((self.orders.old.name, self.store.get_collection("orders"), self.store["orders"]),
                         ("orders.old", self.orders, self.orders))
        self.assertEqual(self.orders.with_options(write_concern=1), self.orders)
        self.assertEqual(await self.orders.export(self.folder / "a.bson"), 3)
        self.assertEqual(await self.store.copy.import_(self.folder / "a.bson"), 3)
        self.assertEqual(sorted(await self.store.list_collection_names()), ["copy", "orders"])
        self.assertEqual(await self.store.copy.rename("moved"), {"ok": 1.0})
        await self.store.drop_collection("moved")
        await self.store.drop_collection(self.orders)
        self.assertEqual(await self.store.list_collection_names(), [])
        await self.store.backup(self.folder / "copy.db")
        self.assertTrue((self.folder / "copy.db").exists())
        for thing in self.store, self.orders:
            self.assertFalse(hasattr(thing, "codec_options"))
            self.assertRaises(NotImplementedError, thing.watch)

    async def test_many_at_once(self):
        """Each gets its own answer, no change is lost, and all are made in one thread."""
        found = await asyncio.gather(*[self.orders.find_one_and_update(
            {"_id": 1}, {"$inc": {"x": 1}}, return_document=ReturnDocument.AFTER) for _ in range(50)])
        self.assertEqual(sorted(one["x"] for one in found), list(range(12, 62)))
        threads = {await self.store._run(threading.get_ident) for _ in range(5)}
        self.assertEqual(len(threads - {threading.get_ident()}), 1)

    async def test_errors(self):
        with self.assertRaises(fallowtime.DuplicateKeyError):
            await self.orders.insert_one({"_id": 1})
        with self.assertRaises(fallowtime.Ended) as caught:
            await fallowtime.aio.open(self.folder / "test.db", wait=0)
        self.assertEqual(caught.exception.kind, "Busy")
        reader = await fallowtime.aio.open(self.folder / "test.db", readonly=True)
        self.assertEqual(await reader.orders.find_one(2), self.documents[1])
        with self.assertRaises(fallowtime.InvalidOperation):
            await reader.orders.insert_one({})
        reader.close()
        task = asyncio.ensure_future(self.orders.update_many({}, {"$inc": {"x": 1}}))
        await asyncio.sleep(0)
        task.cancel()
        with self.assertRaises(asyncio.CancelledError):
            await task
        self.assertIn((await self.orders.find_one(3))["x"], (33, 34))
        self.store.close()
        self.store.close()
        with self.assertRaises(RuntimeError):
            await self.orders.find_one()

    async def test_clients(self):
        client = fallowtime.aio.AsyncIOMotorClient(self.folder / "data", maxPoolSize=5)
        self.assertEqual(await client.list_database_names(), [])
        await client.shop.orders.insert_one({"_id": 1})
        self.assertIs(client["shop"], client.get_database("shop"))
        self.assertEqual([found async for found in client["shop"]["orders"].find()], [{"_id": 1}])
        self.assertEqual((await client.list_database_names(), (await client.server_info())["ok"]), (["shop"], 1.0))
        self.assertRaises(NotImplementedError, client.start_session)
        client.close()
        self.assertRaises(fallowtime.InvalidOperation, lambda: client.shop)


class Text(WithFolder):
    def test_the_example(self):
        here = os.getcwd()
        os.chdir(self.folder)
        try:
            self.assertEqual(doctest.testmod(fallowtime.aio).failed, 0)
        finally:
            os.chdir(here)


if __name__ == "__main__":
    unittest.main()
