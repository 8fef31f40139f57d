"""Fallowtime for asyncio, with the names of motor: each call is that of `fallowtime`, in a thread of the store's own.

    >>> import asyncio, fallowtime.aio
    >>> async def main():
    ...     async with await fallowtime.aio.open("shop.db") as store:
    ...         await store.orders.insert_one({"_id": 1, "city": "Ulm"})
    ...         return [order async for order in store.orders.find({"city": "Ulm"})]
    >>> asyncio.run(main())
    [{'_id': 1, 'city': 'Ulm'}]

Requests of a store are answered one after the other, and meanwhile the loop goes on. A call that is cancelled may be
done all the same.
"""
from __future__ import annotations

import asyncio
import functools
from concurrent.futures import ThreadPoolExecutor
from typing import Any, Awaitable, Callable, Dict, List, Optional, TypeVar, Union

from ._absent import WithAbsent, is_name
from ._client import MongoClient
from ._collection import Collection
from ._cursor import CommandCursor, Cursor
from ._store import Path, Store
from ._transaction import Transaction

Document = Dict[str, Any]
Answer = TypeVar("Answer")

__all__ = [
    "AsyncIOMotorClient", "AsyncIOMotorCollection", "AsyncIOMotorCommandCursor", "AsyncIOMotorCursor",
    "AsyncIOMotorDatabase", "AsyncIOMotorTransaction", "open",
]


def _new_thread() -> ThreadPoolExecutor:
    """The thread of a store, which starts with its first call."""
    return ThreadPoolExecutor(1, "fallowtime")


def _awaited(method: Callable[..., Any]) -> Callable[..., Awaitable[Any]]:
    """A method of a class of `fallowtime` as one that is awaited. What it is of is in the member `delegate`."""

    @functools.wraps(method)
    async def call(self: Any, *arguments: Any, **options: Any) -> Any:
        return await self._run(functools.partial(method, self.delegate, *arguments, **options))

    return call


def _returning_itself(method: Callable[..., Any]) -> Callable[..., Any]:
    """A method of a cursor that asks for nothing and returns the cursor."""

    @functools.wraps(method)
    def call(self: Any, *arguments: Any, **options: Any) -> Any:
        method(self.delegate, *arguments, **options)
        return self

    return call


class AsyncIOMotorCommandCursor:
    """The documents that a request returns: ``async for``, or `to_list`. The request is sent as the first one is asked
    for."""

    def __init__(self, collection: "AsyncIOMotorCollection", make: Callable[[], CommandCursor]) -> None:
        self.collection = collection
        self._make: Optional[Callable[[], CommandCursor]] = make
        self._run = collection.database._run

    def _begun(self) -> CommandCursor:
        """The cursor, once the request was sent. It is called in the thread of the store."""
        if self._make is not None:
            self.delegate, self._make = self._make(), None
        self.delegate._begin()
        return self.delegate

    def __aiter__(self) -> "AsyncIOMotorCommandCursor":
        return self

    async def __anext__(self) -> Document:
        if self._make is not None or not self.delegate._is_begun:
            await self._run(self._begun)
        try:
            return next(self.delegate)
        except StopIteration:
            raise StopAsyncIteration from None

    async def next(self) -> Document:
        """The next document. StopAsyncIteration after the last one."""
        return await self.__anext__()

    async def to_list(self, length: Optional[int] = None) -> List[Document]:
        """A list of all documents that are left, or of the next ones, so many at the most."""
        return await self._run(lambda: self._begun().to_list(length))

    @property
    def alive(self) -> bool:
        """Whether a document may be left."""
        return self._make is not None or self.delegate.alive

    async def close(self) -> None:
        """Lets the documents go that are left."""
        if self._make is not None:
            self.delegate, self._make = CommandCursor(self.collection.delegate, list), None
        self.delegate.close()


class AsyncIOMotorCursor(AsyncIOMotorCommandCursor, WithAbsent):
    """The documents that a query selects. Until the first one is asked for, `sort`, `skip` and `limit` say which are
    wanted, and each of them returns the cursor."""

    delegate: Cursor
    _absent = Cursor._absent

    def __init__(self, collection: "AsyncIOMotorCollection", cursor: Cursor) -> None:
        super().__init__(collection, lambda: cursor)
        self.delegate, self._make = cursor, None

    sort = _returning_itself(Cursor.sort)
    skip = _returning_itself(Cursor.skip)
    limit = _returning_itself(Cursor.limit)
    hint = _returning_itself(Cursor.hint)
    comment = _returning_itself(Cursor.comment)
    batch_size = _returning_itself(Cursor.batch_size)
    allow_disk_use = _returning_itself(Cursor.allow_disk_use)
    rewind = _returning_itself(Cursor.rewind)
    distinct = _awaited(Cursor.distinct)
    explain = _awaited(Cursor.explain)

    def clone(self) -> "AsyncIOMotorCursor":
        """A cursor of the same query, from the beginning."""
        return AsyncIOMotorCursor(self.collection, self.delegate.clone())


class AsyncIOMotorCollection(WithAbsent):
    """A collection of a store. Its methods are those of `fallowtime.Collection`, and are awaited, except for `find`,
    `aggregate` and `list_indexes`, which return a cursor at once."""

    _absent = Collection._absent

    def __init__(self, database: "AsyncIOMotorDatabase", delegate: Collection) -> None:
        self.database, self.delegate = database, delegate
        self._run = database._run

    insert_one = _awaited(Collection.insert_one)
    insert_many = _awaited(Collection.insert_many)
    bulk_write = _awaited(Collection.bulk_write)
    find_one = _awaited(Collection.find_one)
    count_documents = _awaited(Collection.count_documents)
    estimated_document_count = _awaited(Collection.estimated_document_count)
    distinct = _awaited(Collection.distinct)
    replace_one = _awaited(Collection.replace_one)
    update_one = _awaited(Collection.update_one)
    update_many = _awaited(Collection.update_many)
    delete_one = _awaited(Collection.delete_one)
    delete_many = _awaited(Collection.delete_many)
    find_one_and_update = _awaited(Collection.find_one_and_update)
    find_one_and_replace = _awaited(Collection.find_one_and_replace)
    find_one_and_delete = _awaited(Collection.find_one_and_delete)
    create_index = _awaited(Collection.create_index)
    create_indexes = _awaited(Collection.create_indexes)
    drop_index = _awaited(Collection.drop_index)
    drop_indexes = _awaited(Collection.drop_indexes)
    index_information = _awaited(Collection.index_information)
    drop = _awaited(Collection.drop)
    rename = _awaited(Collection.rename)
    options = _awaited(Collection.options)
    export = _awaited(Collection.export)
    import_ = _awaited(Collection.import_)

    def find(self, *arguments: Any, **options: Any) -> AsyncIOMotorCursor:
        """The documents that a query selects, by the arguments of `fallowtime.Collection.find`."""
        return AsyncIOMotorCursor(self, self.delegate.find(*arguments, **options))

    def aggregate(self, *arguments: Any, **options: Any) -> AsyncIOMotorCommandCursor:
        """What a pipeline makes of the documents. It is sent, and read, as the first one is asked for."""
        return AsyncIOMotorCommandCursor(self, lambda: self.delegate.aggregate(*arguments, **options))

    def list_indexes(self, **options: Any) -> AsyncIOMotorCommandCursor:
        """The indexes, one document each."""
        return AsyncIOMotorCommandCursor(self, lambda: self.delegate.list_indexes(**options))

    @property
    def name(self) -> str:
        """Its name."""
        return self.delegate.name

    @property
    def full_name(self) -> str:
        """The name of the store and its own, with a dot between them."""
        return self.delegate.full_name

    def with_options(self, **options: Any) -> "AsyncIOMotorCollection":
        """The collection itself: options of reading and writing several servers mean nothing here."""
        self.delegate.with_options(**options)
        return self

    def __getitem__(self, name: str) -> "AsyncIOMotorCollection":
        """The collection of this name, a dot, and another one."""
        return AsyncIOMotorCollection(self.database, self.delegate[name])

    def _other(self, name: str) -> "AsyncIOMotorCollection":
        if not is_name(name):
            raise AttributeError(f"{type(self).__name__} has no {name}")
        return self[name]

    def __eq__(self, other: object) -> Any:
        return isinstance(other, AsyncIOMotorCollection) and self.delegate == other.delegate

    def __hash__(self) -> int:
        return hash(self.delegate)


class AsyncIOMotorTransaction:
    """Changes that are made in one step, at the end of an ``async with`` block, which has the `fallowtime.Transaction`:
    its methods only note what is to be done, so none of them is awaited."""

    def __init__(self, database: "AsyncIOMotorDatabase", delegate: Transaction) -> None:
        self.delegate, self._run = delegate, database._run

    async def __aenter__(self) -> Transaction:
        return self.delegate.__enter__()

    async def __aexit__(self, *error: Any) -> None:
        await self._run(functools.partial(self.delegate.__exit__, *error))


class AsyncIOMotorDatabase(WithAbsent):
    """A store, which `open` or a client opens: ``store["orders"]`` or ``store.orders`` is a collection."""

    _absent = Store._absent

    def __init__(self, delegate: Store, thread: ThreadPoolExecutor, is_opened: bool) -> None:
        self.delegate, self._thread, self._is_opened = delegate, thread, is_opened

    async def _run(self, call: Callable[[], Answer]) -> Answer:
        """The answer to a call, from the thread."""
        return await asyncio.get_running_loop().run_in_executor(self._thread, self._answer, call)

    def _answer(self, call: Callable[[], Answer]) -> Answer:
        if not self._is_opened:
            self.delegate._session.open()
            self._is_opened = True
        return call()

    list_collection_names = _awaited(Store.list_collection_names)
    backup = _awaited(Store.backup)

    async def create_collection(self, name: str, **options: Any) -> AsyncIOMotorCollection:
        """The collection of a name, which is listed once it has a document. CollectionInvalid if it has one."""
        await self._run(lambda: self.delegate.create_collection(name, **options))
        return self[name]

    async def drop_collection(self, name_or_collection: Union[str, AsyncIOMotorCollection], **options: Any) -> None:
        """Removes all documents of a collection, and drops its indexes."""
        found = self[name_or_collection] if isinstance(name_or_collection, str) else name_or_collection
        await found.drop(**options)

    def transaction(self) -> AsyncIOMotorTransaction:
        """Changes that are made in one step, as `fallowtime.Store.transaction` makes them::

            async with store.transaction() as changes:
                changes.set("accounts", "alice", "balance", 70)
                changes.set("accounts", "bob", "balance", 130)
        """
        return AsyncIOMotorTransaction(self, self.delegate.transaction())

    @property
    def name(self) -> str:
        """The name of the file, without its folder and its ending."""
        return self.delegate.name

    def __getitem__(self, name: str) -> AsyncIOMotorCollection:
        """The collection of a name, which may have no document yet."""
        return AsyncIOMotorCollection(self, self.delegate[name])

    def get_collection(self, name: str, **options: Any) -> AsyncIOMotorCollection:
        """The collection of a name. Options of reading and writing several servers mean nothing here."""
        return AsyncIOMotorCollection(self, self.delegate.get_collection(name, **options))

    def _other(self, name: str) -> AsyncIOMotorCollection:
        if not is_name(name):
            raise AttributeError(f"{type(self).__name__} has no {name}")
        return self[name]

    def close(self) -> None:
        """Closes the file, once the requests under way are answered."""
        self._thread.shutdown()
        self.delegate.close()

    async def __aenter__(self) -> "AsyncIOMotorDatabase":
        return self

    async def __aexit__(self, *error: object) -> None:
        self.close()


class AsyncIOMotorClient(WithAbsent):
    """The stores in a folder, as `fallowtime.MongoClient` has them, with its arguments. A store is opened by its first
    request."""

    _absent = MongoClient._absent

    def __init__(self, *arguments: Any, **options: Any) -> None:
        self.delegate = MongoClient(*arguments, **options)
        self._databases: Dict[str, AsyncIOMotorDatabase] = {}

    def __getitem__(self, name: str) -> AsyncIOMotorDatabase:
        """The store of a name. One that has ended is opened anew."""
        store = self.delegate._store(name, is_opened=False)
        if name not in self._databases or self._databases[name].delegate is not store:
            self._databases[name] = AsyncIOMotorDatabase(store, _new_thread(), is_opened=False)
        return self._databases[name]

    def _other(self, name: str) -> AsyncIOMotorDatabase:
        if not is_name(name):
            raise AttributeError(f"{type(self).__name__} has no {name}")
        return self[name]

    def get_database(self, name: str, **options: Any) -> AsyncIOMotorDatabase:
        """The store of a name. Options of reading and writing several servers mean nothing here."""
        found = self[name]
        found.delegate.with_options(**options)
        return found

    async def list_database_names(self, **options: Any) -> List[str]:
        """The names of the stores that have a file."""
        return self.delegate.list_database_names(**options)

    async def server_info(self) -> Dict[str, Any]:
        """The version of the package."""
        return self.delegate.server_info()

    def close(self) -> None:
        """Closes all stores, once the requests under way are answered."""
        for database in self._databases.values():
            database._thread.shutdown()
        self.delegate.close()


async def open(path: Path, **options: Any) -> AsyncIOMotorDatabase:
    """Opens the store in a file, by the arguments of `fallowtime.open`. It is closed by `close`, or by ``async
    with``."""
    thread = _new_thread()
    try:
        store = await asyncio.get_running_loop().run_in_executor(thread, functools.partial(Store, path, **options))
    except BaseException:
        thread.shutdown(wait=False)
        raise
    return AsyncIOMotorDatabase(store, thread, is_opened=True)
