"""Errors, where pymongo has them: ``from fallowtime.errors import DuplicateKeyError``."""
from ._errors import (BulkWriteError, CollectionInvalid, ConfigurationError, ConnectionFailure, DuplicateKeyError,
                      Ended, FallowtimeError, InsertManyError, InvalidDocument, InvalidId, InvalidName,
                      InvalidOperation, InvalidWriteError, OperationFailure, Refused, RefusedWrite, WriteError)

PyMongoError = FallowtimeError


# Those below are never raised here: a program that is written for pymongo catches them.


class ProtocolError(FallowtimeError):
    """A server's message can't be read."""

    _pymongos = "ProtocolError"


class AutoReconnect(ConnectionFailure):
    """A connection was lost, and will be made anew."""

    _pymongos = "AutoReconnect"


class NetworkTimeout(AutoReconnect):
    """A server didn't answer in time."""

    _pymongos = "NetworkTimeout"


class NotPrimaryError(AutoReconnect):
    """A server isn't the one that takes changes."""

    _pymongos = "NotPrimaryError"


NotMasterError = NotPrimaryError


class ServerSelectionTimeoutError(AutoReconnect):
    """No server was found in time."""

    _pymongos = "ServerSelectionTimeoutError"


class WaitQueueTimeoutError(ConnectionFailure):
    """No connection was free in time."""

    _pymongos = "WaitQueueTimeoutError"


class CursorNotFound(OperationFailure):
    """A server has closed a cursor."""

    _pymongos = "CursorNotFound"


class ExecutionTimeout(OperationFailure):
    """A request took longer than its limit."""

    _pymongos = "ExecutionTimeout"


class WriteConcernError(OperationFailure):
    """A change wasn't made on as many servers as it had to be."""

    _pymongos = "WriteConcernError"


class WTimeoutError(WriteConcernError):
    """A change wasn't made on so many servers in time."""

    _pymongos = "WTimeoutError"


class InvalidURI(ConfigurationError):
    """The address of a server can't be read."""

    _pymongos = "InvalidURI"


class ExceededMaxWaiters(FallowtimeError):
    """Too many threads wait for a connection."""

    _pymongos = "ExceededMaxWaiters"


class DocumentTooLarge(InvalidDocument):
    """A document is too long for a server."""


class EncryptionError(FallowtimeError):
    """A value couldn't be encrypted."""

    _pymongos = "EncryptionError"


class EncryptedCollectionError(EncryptionError):
    """A collection with encrypted values couldn't be made."""

    _pymongos = "EncryptedCollectionError"


class ClientBulkWriteException(OperationFailure):
    """Some of several requests of a client weren't done."""

    _pymongos = "ClientBulkWriteException"


__all__ = [
    "AutoReconnect", "BulkWriteError", "ClientBulkWriteException", "CollectionInvalid", "ConfigurationError",
    "ConnectionFailure", "CursorNotFound", "DocumentTooLarge", "DuplicateKeyError", "EncryptedCollectionError",
    "EncryptionError", "Ended", "ExceededMaxWaiters", "ExecutionTimeout", "FallowtimeError", "InsertManyError",
    "InvalidDocument", "InvalidId", "InvalidName", "InvalidOperation", "InvalidURI", "InvalidWriteError",
    "NetworkTimeout", "NotMasterError", "NotPrimaryError", "OperationFailure", "ProtocolError", "PyMongoError",
    "Refused", "RefusedWrite", "ServerSelectionTimeoutError", "WTimeoutError", "WaitQueueTimeoutError",
    "WriteConcernError", "WriteError",
]
