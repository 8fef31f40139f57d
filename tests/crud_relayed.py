"""For tests/crud.py: pymongo over the relay of the package for Python."""
import contextlib
import os

import pymongo as module
from bson.errors import InvalidDocument
from pymongo import results  # noqa: F401
from pymongo.command_cursor import CommandCursor
from pymongo.cursor import Cursor
from pymongo.errors import BulkWriteError, ConfigurationError, OperationFailure, WriteError
from pymongo.read_concern import ReadConcern

from relaying import Relay

concern = ReadConcern
# The errors of docs/DRIVERS.md by which a part of a request, or all of it, is refused: what can't be read, a transaction, a
# command, another database, what is known and not had, and a key.
REFUSED = {2, 20, 59, 73, 238, 40415}
_relays = []


@contextlib.contextmanager
def opened(folder, number):
    """The database of the relay, with nothing in it; the relay is one for all tests."""
    if not _relays:
        relay = Relay(os.environ["FALLOWTIME"], folder / "test.db")
        _relays.append((relay, module.MongoClient(relay.address)))
    database = _relays[0][1].get_default_database()
    for name in database.list_collection_names():
        database[name].delete_many({})
    yield database


def fitting(name, arguments):
    """The arguments of a method as pymongo takes them."""
    if name == "aggregate" and "batch_size" in arguments:
        arguments["batchSize"] = arguments.pop("batch_size")
    return arguments


def is_cursor(answer):
    return isinstance(answer, (Cursor, CommandCursor))


def type_of(value):
    """The type of a value as the tests write it: pymongo has one of its own for Int64."""
    return int if isinstance(value, int) and not isinstance(value, bool) else type(value)


def is_refusal(error, wanted):
    """Whether an error is a refusal by name, or of pymongo, which doesn't have all that newer drivers have; a test may want
    an error."""
    if wanted is not None:
        return False
    if isinstance(error, (TypeError, ConfigurationError, InvalidDocument)):
        return True
    return isinstance(error, OperationFailure) and not isinstance(error, (BulkWriteError, WriteError)) and error.code in REFUSED
