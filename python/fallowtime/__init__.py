"""Fallowtime for Python: documents in named collections, in one file, with the names of pymongo.

    >>> import fallowtime
    >>> with fallowtime.open("shop.db") as store:
    ...     store["orders"].insert_one({"_id": 1, "city": "Ulm", "price": 1.5})
    ...     store["orders"].find_one({"city": "Ulm"})
    InsertOneResult(inserted_id=1)
    {'_id': 1, 'city': 'Ulm', 'price': 1.5}

The file is opened by the program `fallowtime`, which runs beside this process. It is found by the variable FALLOWTIME
of the environment, on the path, or in the checkout in which this package lies.
"""
from __future__ import annotations

from ._client import MongoClient
from ._collection import Collection
from ._concerns import CursorType, ReadPreference, WriteConcern
from ._cursor import CommandCursor, Cursor
from ._errors import (BulkWriteError, CollectionInvalid, ConfigurationError, ConnectionFailure, DuplicateKeyError,
                      Ended, FallowtimeError, InsertManyError, InvalidName, InvalidOperation, InvalidWriteError,
                      OperationFailure, Refused, RefusedWrite, WriteError)
from ._index import ASCENDING, DESCENDING, GEO2D, GEOSPHERE, HASHED, TEXT
from ._results import BulkWriteResult, DeleteResult, InsertManyResult, InsertOneResult, ReturnDocument, UpdateResult
from ._store import Store, open
from ._transaction import Transaction
from ._values import (Binary, Code, DatetimeMS, DBPointer, Int64, MaxKey, MinKey, ObjectId, Regex, Symbol, Timestamp,
                      Undefined)
from .operations import DeleteMany, DeleteOne, IndexModel, InsertOne, ReplaceOne, UpdateMany, UpdateOne

__version__ = "0.1.0"

__all__ = [
    "ASCENDING", "Binary", "BulkWriteError", "BulkWriteResult", "Code", "Collection", "CollectionInvalid",
    "CommandCursor", "ConfigurationError", "ConnectionFailure", "Cursor", "CursorType", "DBPointer", "DESCENDING",
    "DatetimeMS", "DeleteMany", "DeleteOne", "DeleteResult", "DuplicateKeyError", "Ended", "FallowtimeError", "GEO2D",
    "GEOSPHERE", "HASHED", "IndexModel", "InsertManyError", "InsertManyResult", "InsertOne", "InsertOneResult", "Int64",
    "InvalidName", "InvalidOperation", "InvalidWriteError", "MaxKey", "MinKey", "MongoClient", "ObjectId",
    "OperationFailure", "ReadPreference", "Refused", "RefusedWrite", "Regex", "ReplaceOne", "ReturnDocument", "Store",
    "Symbol", "TEXT", "Timestamp", "Transaction", "Undefined", "UpdateMany", "UpdateOne", "UpdateResult",
    "WriteConcern", "WriteError", "open",
]

# They are of this package, as tracebacks and pickle name them, wherever in it they are written.
for _name in __all__:
    if hasattr(globals()[_name], "__module__"):
        globals()[_name].__module__ = __name__
del _name
