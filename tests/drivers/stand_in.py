#!/usr/bin/python3
"""Stands in for `fallowtime FILE --messages` where the program doesn't have that yet, for the tests of the relay alone.

stand_in.py FILE --messages

Whole messages of MongoDB's wire protocol come on standard input, and the answer to each goes out on standard output, in
their order; none to an OP_MSG that says that no answer is wanted. Documents are kept in memory, and every change is
appended to FILE before it is answered. What a message asks for is read and found by `bson` of pymongo and a few lines:
this shows nothing of the program but the way in and out.
"""
import fcntl
import os
import pathlib
import struct
import sys

import bson

HEADER = struct.Struct("<iiii")
OP_REPLY, OP_QUERY, OP_MSG = 1, 2004, 2013
CHECKSUM, MORE_TO_COME = 1, 2
LONGEST = 48_000_000
FIRST_BATCH, LONGEST_BATCH = 101, 16 << 20
HELLO = {
    "helloOk": True, "ismaster": True, "isWritablePrimary": True, "maxBsonObjectSize": 16 << 20,
    "maxMessageSizeBytes": LONGEST, "maxWriteBatchSize": 100_000, "logicalSessionTimeoutMinutes": 30,
    "minWireVersion": 0, "maxWireVersion": 9, "readOnly": False}
COMPARISONS = {
    "$gt": lambda a, b: a > b, "$gte": lambda a, b: a >= b, "$lt": lambda a, b: a < b, "$lte": lambda a, b: a <= b}


class Refused(Exception):
    def __init__(self, code, name, text):
        super().__init__(text)
        self.document = {"ok": 0.0, "errmsg": text, "code": code, "codeName": name}


def key_of(value):
    """What an _id is known by: numbers by their values, and other kinds by their bytes."""
    return value if isinstance(value, (int, float)) and not isinstance(value, bool) else bson.encode({"": value})


def value_at(document, path):
    for key in path.split("."):
        document = document.get(key) if isinstance(document, dict) else None
    return document


def answers(document, query):
    """Whether a document answers a query of values, $in, $ne and comparisons."""
    for path, wanted in query.items():
        value = value_at(document, path)
        tests = wanted if isinstance(wanted, dict) and next(iter(wanted), "").startswith("$") else {"$eq": wanted}
        for name, operand in tests.items():
            if name in COMPARISONS:
                found = type(value) is type(operand) and COMPARISONS[name](value, operand)
            elif name in ("$eq", "$in", "$ne"):
                found = (value in operand if name == "$in" else value == operand) != (name == "$ne")
            else:
                raise Refused(2, "BadValue", f"unknown operator: {name}")
            if not found:
                return False
    return True


class Store:
    """Collections in memory, and the file of their changes."""

    def __init__(self, path):
        self.file = open(path, "a+b", buffering=0)
        try:
            fcntl.flock(self.file, fcntl.LOCK_EX | fcntl.LOCK_NB)
        except BlockingIOError:
            sys.exit("refused: Busy")
        self.collections, self.cursors, self.last_cursor = {}, {}, 0
        self.file.seek(0)
        for change in bson.decode_file_iter(self.file):
            self.apply(change)

    def apply(self, change):
        documents = self.collections.setdefault(change["in"], {})
        for id_ in change.get("removed", []):
            documents.pop(key_of(id_), None)
        for document in change.get("put", []):
            documents[key_of(document["_id"])] = document

    def change(self, name, **change):
        change = {"in": name, **change}
        self.file.write(bson.encode(change))
        self.apply(change)

    def select(self, name, query=None, skip=0, limit=0):
        found = [one for one in self.collections.get(name, {}).values() if answers(one, query or {})]
        return found[skip:skip + abs(limit) if limit else None]

    # Each command gets its document, whose lists of documents may have come beside it.

    def insert(self, name, command):
        taken = self.collections.get(name, {})
        fresh, errors = {}, []
        for index, document in enumerate(command["documents"]):
            if "_id" not in document:
                document = {"_id": bson.ObjectId(), **document}
            key = key_of(document["_id"])
            if key in taken or key in fresh:
                errors.append({"index": index, "code": 11000, "keyValue": {"_id": document["_id"]},
                               "errmsg": f"E11000 duplicate key error: {document['_id']!r}"})
                if command.get("ordered", True):
                    break
            else:
                fresh[key] = document
        for at in range(0, len(fresh), 100):
            self.change(name, put=list(fresh.values())[at:at + 100])
        return {"n": len(fresh), **({"writeErrors": errors} if errors else {})}

    def update(self, name, command):
        matched = changed = 0
        upserted = []
        for index, one in enumerate(command["updates"]):
            found = self.select(name, one["q"])[:None if one.get("multi") else 1]
            for old in found:
                new = self.updated(old, one["u"])
                changed += new != old
                if new != old:
                    self.change(name, put=[new])
            matched += len(found)
            if not found and one.get("upsert"):
                new = self.updated({key: value for key, value in one["q"].items()}, one["u"])
                new.setdefault("_id", bson.ObjectId())
                self.change(name, put=[new])
                upserted.append({"index": index, "_id": new["_id"]})
                matched += 1
        return {"n": matched, "nModified": changed, **({"upserted": upserted} if upserted else {})}

    @staticmethod
    def updated(old, update):
        if not next(iter(update), "").startswith("$"):
            return {"_id": old["_id"], **update} if "_id" in old else update
        new = dict(old)
        for operator, fields in update.items():
            for key, value in fields.items():
                if operator == "$set":
                    new[key] = value
                elif operator == "$inc":
                    new[key] = new.get(key, 0) + value
                elif operator == "$unset":
                    new.pop(key, None)
                else:
                    raise Refused(9, "FailedToParse", f"Unknown modifier: {operator}")
        return new

    def delete(self, name, command):
        n = 0
        for one in command["deletes"]:
            found = self.select(name, one["q"], limit=one["limit"])
            n += len(found)
            if found:
                self.change(name, removed=[document["_id"] for document in found])
        return {"n": n}

    def batch(self, name, documents, size, key):
        """The next batch of a cursor, and the cursor of the rest."""
        taken, length = 0, 0
        while taken < min(size, len(documents)) and (not taken or length < LONGEST_BATCH):
            length += len(bson.encode(documents[taken])) if len(documents) < 1000 else 100
            taken += 1
        cursor, rest = 0, documents[taken:]
        if rest:
            self.last_cursor += 1
            cursor = self.last_cursor
            self.cursors[cursor] = (name, rest)
        return {"cursor": {"id": bson.Int64(cursor), "ns": f"{self.database}.{name}", key: documents[:taken]}}

    def find(self, name, command):
        found = self.select(name, command.get("filter"))
        for path, direction in reversed(list(command.get("sort", {}).items())):
            found.sort(key=lambda one: value_at(one, path), reverse=direction < 0)
        skip, limit = command.get("skip", 0), command.get("limit", 0)
        found = found[skip:skip + abs(limit) if limit else None]
        size = command.get("batchSize", FIRST_BATCH)
        if command.get("singleBatch") or limit < 0:
            found = found[:size]
        return self.batch(name, found, size, "firstBatch")

    def getMore(self, cursor, command):
        name, rest = self.cursors.pop(cursor, (None, None))
        if name != command["collection"]:
            raise Refused(43, "CursorNotFound", f"cursor id {cursor} not found")
        return self.batch(name, rest, command.get("batchSize") or len(rest), "nextBatch")

    def killCursors(self, name, command):
        killed = [cursor for cursor in command["cursors"] if self.cursors.pop(cursor, None)]
        return {"cursorsKilled": killed}

    def count(self, name, command):
        return {"n": len(self.select(name, command.get("query"), command.get("skip", 0), command.get("limit", 0)))}

    def distinct(self, name, command):
        found = (value_at(one, command["key"]) for one in self.select(name, command.get("query")))
        return {"values": list(dict.fromkeys(value for value in found if value is not None))}

    def aggregate(self, name, command):
        found = self.select(name)
        for stage in command["pipeline"]:
            (operator, value), = stage.items()
            if operator == "$match":
                found = [one for one in found if answers(one, value)]
            elif operator == "$skip":
                found = found[value:]
            elif operator == "$limit":
                found = found[:value]
            elif operator == "$group" and len(value) == 2:
                (key, total), = ((key, one) for key, one in value.items() if key != "_id")
                found = [{"_id": value["_id"], key: len(found) * total["$sum"]}] if found else []
            else:
                raise Refused(40324, "Location40324", f"Unrecognized pipeline stage name: {operator!r}")
        return self.batch(name, found, command.get("cursor", {}).get("batchSize", FIRST_BATCH), "firstBatch")

    def drop(self, name, command):
        if not self.collections.get(name):
            raise Refused(26, "NamespaceNotFound", "ns not found")
        self.change(name, removed=[one["_id"] for one in self.select(name)])
        return {}

    def listCollections(self, name, command):
        names = [{"name": name, "type": "collection", "options": {}} for name, held in self.collections.items() if held]
        return self.batch("$cmd.listCollections", names, len(names), "firstBatch")

    def listDatabases(self, name, command):
        return {"databases": [{"name": self.database}]}

    def listIndexes(self, name, command):
        return self.batch(name, [{"v": 2, "key": {"_id": 1}, "name": "_id_"}], 1, "firstBatch")


# Those of the server, which every database has.
OF_SERVER = {
    "hello": HELLO, "ismaster": HELLO, "isMaster": HELLO, "ping": {}, "buildInfo": {"version": "4.4.0", "versionArray": [4, 4, 0, 0]},
    "endSessions": {}}
OF_SERVER["buildinfo"] = OF_SERVER["buildInfo"]
OF_FILE = ["insert", "update", "delete", "find", "getMore", "killCursors", "count", "distinct", "aggregate", "drop",
           "listCollections", "listIndexes"]


def answer_to(store, command):
    """The document that answers a command."""
    try:
        name = next(iter(command), "")
        if name in OF_SERVER:
            return {**OF_SERVER[name], "ok": 1.0}
        if name == "listDatabases":
            return {**store.listDatabases(None, command), "ok": 1.0}
        if name not in OF_FILE:
            raise Refused(59, "CommandNotFound", f"no such command: '{name}'")
        if command.get("startTransaction"):
            raise Refused(20, "IllegalOperation", "Transaction numbers are only allowed on a replica set member or mongos")
        if command["$db"] != store.database:
            raise Refused(73, "InvalidNamespace", f"this file is the database {store.database}")
        return {**getattr(store, name)(command[name], command), "ok": 1.0}
    except Refused as refused:
        return refused.document
    except (KeyError, TypeError, ValueError, AttributeError, OverflowError, bson.errors.BSONError) as error:
        return {"ok": 0.0, "errmsg": f"{type(error).__name__}: {error}", "code": 2, "codeName": "BadValue"}


def document_at(held, at):
    """The document that begins at a place, and where it ends."""
    length, = struct.unpack_from("<i", held, at)
    if not 5 <= length <= len(held) - at:
        raise ValueError
    return bson.decode(held[at:at + length]), at + length


def command_of(message):
    """The command of an OP_MSG, with its lists of documents under their names."""
    flags, = struct.unpack_from("<I", message, 16)
    if flags & 0xFFFC:
        raise ValueError
    at, end, command, lists = 20, len(message) - (4 if flags & CHECKSUM else 0), None, {}
    while at < end:
        kind = message[at]
        if kind == 0 and command is None:
            command, at = document_at(message[:end], at + 1)
        elif kind == 1:
            length, = struct.unpack_from("<i", message, at + 1)
            part = message[at + 5:at + 1 + length]
            name, documents = part.split(b"\0", 1)
            if length < 5 or at + 1 + length > end or name.decode() in lists:
                raise ValueError
            lists[name.decode()] = bson.decode_all(documents)
            at += 1 + length
        else:
            raise ValueError
    if command is None:
        raise ValueError
    return {**command, **lists}


def reply_to(store, message):
    """The bytes that answer a message, or None."""
    _, number, _, operation = HEADER.unpack_from(message)
    try:
        if operation == OP_QUERY:
            command, _ = document_at(message, message.index(b"\0", 20) + 9)
            document = bson.encode(answer_to(store, command))
            return HEADER.pack(36 + len(document), 0, number, OP_REPLY) + struct.pack("<iqii", 8, 0, 0, 1) + document
        if operation != OP_MSG:
            raise ValueError
        document = answer_to(store, command_of(message))
    except (ValueError, IndexError, struct.error, bson.errors.BSONError):
        document = {"ok": 0.0, "errmsg": "the message can't be read", "code": 17, "codeName": "ProtocolError"}
    if operation == OP_MSG and len(message) >= 20 and message[16] & MORE_TO_COME:
        return None
    document = bson.encode(document)
    return HEADER.pack(21 + len(document), 0, number, OP_MSG) + bytes(5) + document


def exactly(count):
    """So many bytes of standard input. The end of the program if that ends before."""
    held = bytearray()
    while len(held) < count:
        piece = os.read(0, min(count - len(held), 1 << 20))
        if not piece:
            sys.exit(1 if held or count != 4 else 0)
        held += piece
    return bytes(held)


def main():
    if len(sys.argv) != 3 or sys.argv[2] != "--messages":
        sys.exit("words: stand_in.py FILE --messages")
    store = Store(sys.argv[1])
    store.database = pathlib.Path(sys.argv[1]).name.partition(".")[0] or "test"
    while True:
        length = exactly(4)
        if not 16 <= struct.unpack("<i", length)[0] <= LONGEST:
            sys.exit("refused: Reader")
        answer = reply_to(store, length + exactly(struct.unpack("<i", length)[0] - 4))
        while answer:
            answer = answer[os.write(1, answer):]


if __name__ == "__main__":
    main()
