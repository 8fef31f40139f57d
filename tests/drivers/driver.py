#!/usr/bin/python3
"""What tests/relay.py asks by pymongo: driver.py ADDRESS. Prints a line for each step: its name, and what came of it or
`error` and MongoDB's number. driver.c and driver.js ask the same."""
import sys

import pymongo
from pymongo.errors import BulkWriteError, OperationFailure

client = pymongo.MongoClient(sys.argv[1], serverSelectionTimeoutMS=10_000)
database = client.get_default_database()
items = database["python"]


def step(name, ask):
    try:
        print(name, ask())
    except OperationFailure as error:
        print(name, "error", error.code)


def unordered():
    try:
        items.insert_many([{"_id": 1}, {"_id": 1000, "a": 7}, {"_id": 2}], ordered=False)
    except BulkWriteError as error:
        return error.details["nInserted"], [one["index"] for one in error.details["writeErrors"]]


def totals(cursor):
    found = [one["a"] for one in cursor]
    return len(found), sum(found)


def closed():
    cursor = items.find({}, batch_size=10)
    next(cursor)
    cursor.close()
    return items.find_one({"_id": 3})["a"]


def unanswered():
    items.with_options(write_concern=pymongo.WriteConcern(w=0)).insert_one({"_id": 9999, "a": 7})
    return items.find_one({"_id": 9999})["a"]


def long_ones():
    texts = database["python_long"]
    texts.insert_many([{"_id": n, "text": "x" * 1_000_000} for n in range(20)])
    return sum(len(one["text"]) for one in texts.find({}, batch_size=8))


step("ping", lambda: int(client.admin.command("ping")["ok"]))
step("insert_one", lambda: items.insert_one({"_id": 1, "a": 1}).inserted_id)
step("insert_many", lambda: len(items.insert_many([{"_id": n, "a": n % 7} for n in range(2, 300)]).inserted_ids))
step("duplicate", lambda: items.insert_one({"_id": 1}))
step("unordered", unordered)
step("batches", lambda: totals(items.find({}, batch_size=50)))
step("default_batches", lambda: totals(items.find({})))
step("closed_cursor", closed)
step("find_one", lambda: items.find_one({"_id": 5}))
step("find_none", lambda: items.find_one({"_id": 5000}))
step("sorted", lambda: [one["_id"] for one in items.find({"a": 3}).sort("_id", -1).limit(2)])
step("count", lambda: items.count_documents({"a": 3}))
step("estimated", lambda: items.estimated_document_count())
step("distinct", lambda: sorted(items.distinct("a")))
step("replace_one", lambda: items.replace_one({"_id": 5}, {"a": 6}).modified_count)
step("upsert", lambda: items.replace_one({"_id": 5000}, {"a": 6}, upsert=True).upserted_id)
step("update_one", lambda: items.update_one({"_id": 6}, {"$set": {"b": 1}}).modified_count)
step("update_many", lambda: items.update_many({"a": 2}, {"$inc": {"a": 100}}).modified_count)
step("delete_one", lambda: items.delete_one({"_id": 7}).deleted_count)
step("delete_many", lambda: items.delete_many({"a": 4}).deleted_count)
step("unanswered", unanswered)
step("unknown_command", lambda: database.command("nosuch"))
step("unknown_operator", lambda: items.find_one({"a": {"$nosuch": 1}}))
step("collections", lambda: "python" in database.list_collection_names())
step("long_documents", long_ones)
step("drop", lambda: items.drop())
client.close()
