"""What pymongo has and isn't supported here: it raises NotImplementedError, which names it, before anything is sent."""
from __future__ import annotations

import re
from typing import TYPE_CHECKING, Any, Callable, FrozenSet, Mapping, NoReturn

_WHOLE = "documents come as a whole"
_CHOSEN = "the program takes the best index itself"
_SEARCHED = "texts aren't searched"
_LETTERS = "texts are compared by their letters"

# What an option of a method would do, or why there is no such method.
OPTIONS = {
    "collation": _LETTERS,
    "session": "there are no transactions",
    "let": "there are no variables",
    "hint": _CHOSEN,
    "min": _CHOSEN,
    "max": _CHOSEN,
    "cursor_type": "a cursor ends with its last document",
    "oplog_replay": "there is no log",
    "return_key": _WHOLE,
    "show_record_id": _WHOLE,
    "snapshot": "an answer is a snapshot",
    "max_time_ms": "a request has no time limit",
    "max_await_time_ms": "a request has no time limit",
    "max_scan": "a query looks at as many documents as it has to",
    "modifiers": "a query has no modifiers",
    "filter": "all names are listed",
    "maxTimeMS": "a request has no time limit",
    "codec_options": "values come back as they went in",
}
# Options that pymongo has and that mean nothing here: what is answered with them is what is answered without them.
IDLE = frozenset([
    "allow_disk_use", "allow_partial_results", "batch_size", "bypass_document_validation", "comment", "nameOnly",
    "no_cursor_timeout", "allowDiskUse", "batchSize", "read_concern", "read_preference", "write_concern",
])
# The same of an index.
OPTIONS_OF_INDEX = {
    "unique": "the _id alone is unique",
    "expireAfterSeconds": "documents stay until they are removed",
    "partialFilterExpression": "an index is on all documents of a collection",
    "hidden": "an index that isn't wanted is dropped",
    "collation": _LETTERS,
    "bucketSize": "places aren't searched",
    "min": "places aren't searched",
    "max": "places aren't searched",
    "wildcardProjection": "an index is on one path",
    "session": OPTIONS["session"],
}
IDLE_OF_INDEX = frozenset(["background", "sparse", "comment", "commitQuorum"])
OF_COLLECTION = {
    "aggregate_raw_batches": "export gives the bytes of BSON",
    "create_search_index": _SEARCHED,
    "create_search_indexes": _SEARCHED,
    "drop_search_index": _SEARCHED,
    "find_raw_batches": "export gives the bytes of BSON",
    "list_search_indexes": _SEARCHED,
    "update_search_index": _SEARCHED,
    "watch": "changes aren't reported",
}
OF_CURSOR = {
    "add_option": "a query has no options",
    "collation": _LETTERS,
    "count": "count_documents counts",
    "max": _CHOSEN,
    "max_await_time_ms": "a request has no time limit",
    "max_time_ms": "a request has no time limit",
    "min": _CHOSEN,
    "remove_option": "a query has no options",
    "where": "there is no JavaScript",
}
OF_STORE = {
    "aggregate": "a pipeline is one of a collection",
    "command": "the methods are all there is",
    "cursor_command": "the methods are all there is",
    "dereference": "a query finds a document",
    "drop_database": "a store is a file",
    "start_session": "there are no transactions",
    "validate_collection": "the program tests the file as it opens it",
    "watch": "changes aren't reported",
}

OF_CLIENT = {
    "drop_database": "a store is a file",
    "fsync": "what was answered is on the disk",
    "list_databases": "list_database_names lists them",
    "start_session": "there are no transactions",
    "watch": "changes aren't reported",
}
# Options of a client. Those of connections mean nothing here.
OPTIONS_OF_CLIENT = {
    "document_class": "a document is a dict",
    "host": "a client has a folder of stores, and no server",
    "port": "a client has a folder of stores, and no server",
    "type_registry": "values are of the classes of this package",
}
IDLE_OF_CLIENT = frozenset([
    "appname", "connect", "connectTimeoutMS", "heartbeatFrequencyMS", "j", "journal", "localThresholdMS",
    "maxIdleTimeMS", "maxPoolSize", "minPoolSize", "readPreference", "retryReads", "retryWrites",
    "serverSelectionTimeoutMS", "socketTimeoutMS", "w", "waitQueueTimeoutMS", "wtimeoutMS",
])

# What pymongo had before its version 4, and mongosh has, by what does that now.
FORMER = {
    "collection_names": "list_collection_names()",
    "count": "count_documents(query)",
    "database_names": "list_database_names()",
    "ensure_index": "create_index(path)",
    "find_and_modify": "find_one_and_update, find_one_and_replace or find_one_and_delete",
    "group": "aggregate([{'$group': ..}])",
    "initialize_ordered_bulk_op": "bulk_write(requests)",
    "initialize_unordered_bulk_op": "bulk_write(requests, ordered=False)",
    "inline_map_reduce": "aggregate(pipeline)",
    "insert": "insert_one(document) or insert_many(documents)",
    "list_collections": "list_collection_names()",
    "map_reduce": "aggregate(pipeline)",
    "remove": "delete_one(query) or delete_many(query)",
    "save": "replace_one({'_id': ..}, document, upsert=True)",
    "update": "update_one(query, update), update_many(query, update) or replace_one(query, document)",
}

# What pymongo's collections and databases have and these haven't, and what is no name of a collection, therefore.
PROPERTIES = frozenset(["client", "codec_options", "read_concern", "read_preference", "write_concern"])


def refuse(name: str, reason: str) -> NoReturn:
    """Raises the error for something that isn't supported."""
    raise NotImplementedError(f"{name} isn't supported: {reason}")


def test_options(
    method: str, options: Mapping[str, Any], known: Mapping[str, str] = OPTIONS, idle: FrozenSet[str] = IDLE
) -> None:
    """NotImplementedError for an option of pymongo that is given and would mean something, TypeError for one that
    nobody has."""
    for name, value in options.items():
        if name not in known and name not in idle:
            raise TypeError(f"{method} has no argument {name}")
        if value and name not in idle:
            refuse(f"{name} of {method}", known[name])


def test_concern(options: Mapping[str, Any]) -> None:
    """NotImplementedError for reading of the level that MongoDB refuses where something is written, too. The others
    mean nothing here."""
    if getattr(options.get("read_concern"), "level", None) == "linearizable":
        refuse("the read_concern linearizable", "what is read is what every request that was answered has left")


class WithAbsent:
    """A class with methods that pymongo has and that aren't supported: each raises when it is called."""

    __slots__ = ()
    _absent: Mapping[str, str] = {}

    if not TYPE_CHECKING:

        def __getattr__(self, name: str) -> Callable[..., NoReturn]:
            reason = self._absent.get(name)
            if reason is None:
                return self._other(name)

            def absent(*arguments: Any, **options: Any) -> NoReturn:
                refuse(name, reason)

            return absent

        def _other(self, name: str) -> Any:
            """What a name means that nobody has."""
            raise AttributeError(f"{type(self).__name__} has no {name}")


def no_method(kind: type, name: str) -> TypeError:
    """The error for a call of what is no method, and so the name of a collection or a store. It names the method that
    is meant, if that is known: by a former name, by one of mongosh's form, as `insertOne`, or by a mistyped one."""
    import difflib

    methods = [method for method in dir(kind) if not method.startswith("_")]
    plain = re.sub("[A-Z]", lambda found: "_" + found[0].lower(), name)
    meant = FORMER.get(name) or next(iter(difflib.get_close_matches(plain, methods, 1, 0.8)), None)
    text = f"a {kind.__name__} has no method {name}"
    return TypeError(f"{text}: use {meant}" if meant else text)


def is_name(name: str) -> bool:
    """Whether an attribute may be the name of a collection."""
    return not name.startswith("_") and name not in PROPERTIES
