"""A store: one file, and the program that has it open."""
from __future__ import annotations

import os
import weakref
from typing import TYPE_CHECKING, Any, Dict, List, NoReturn, Optional, Set, Union

from ._absent import OF_STORE, WithAbsent, is_name, no_method, refuse, test_concern, test_options
from ._collection import Collection
from ._decode import Decoder
from ._errors import CollectionInvalid
from ._index import Index
from ._program import absolute, find_program, run
from ._reader import Reader
from ._session import Session
from ._transaction import Transaction

if TYPE_CHECKING:
    from ._client import MongoClient

Path = Union[str, "os.PathLike[str]"]


class Store(WithAbsent):
    """A store in a file, which `fallowtime.open` opens: ``store["orders"]`` or ``store.orders`` is a collection.

    Threads may share it: their requests are answered one after the other, each to the one who asked. It is closed by
    `close`, at the end of a `with`, or when nothing refers to it any more. A process that is forked has to open a file
    of its own, unless it only reads.
    """

    _absent = OF_STORE

    def __init__(self, path: Path, wait: Optional[int] = None, tz_aware: bool = False, readonly: bool = False,
                 client: Optional["MongoClient"] = None, is_opened: bool = True) -> None:
        self._path = absolute(path)
        self._program = find_program()
        self._client = client
        self._waiting = [] if wait is None else ["--wait", str(_seconds(wait))]
        self._decoder = Decoder(tz_aware)
        self._session: Union[Session, Reader]
        if readonly:
            self._session = Reader(self._program, self._path, self._waiting)
        else:
            self._session = Session(self._program, [self._path, *self._waiting])
        # The indexes of each collection that were made, by their names: they are in memory, until the store is closed.
        self._indexes: Dict[str, Dict[str, Index]] = {}
        # The names of the collections that have an index on `_id` of which nobody else knows.
        self._indexed_by_id: Set[str] = set()
        if is_opened:
            self._session.open()
        self._closing = weakref.finalize(self, self._session.close_quietly)

    @property
    def path(self) -> str:
        """The file, from the root."""
        return self._path

    @property
    def name(self) -> str:
        """The name of the file, without its folder and its ending."""
        return os.path.splitext(os.path.basename(self._path))[0]

    @property
    def client(self) -> "MongoClient":
        """The client that opened the store. AttributeError if `fallowtime.open` did."""
        if self._client is None:
            raise AttributeError("a store that fallowtime.open opened has no client")
        return self._client

    def __getitem__(self, name: str) -> Collection:
        """The collection of a name, which may have no document yet."""
        if not isinstance(name, str):
            raise TypeError(f"the name of a collection is a text, and not {name!r}")
        return Collection(self, name)

    def _other(self, name: str) -> Collection:
        """What an attribute means that is none of a store: a collection."""
        if not is_name(name):
            raise AttributeError(f"{type(self).__name__} has no {name}")
        return self[name]

    if TYPE_CHECKING:

        def __getattr__(self, name: str) -> Collection: ...

    # Without this, `in` and `for` would count through names.
    __iter__ = None

    def __call__(self, *arguments: Any, **options: Any) -> NoReturn:
        if self._client is None:
            raise TypeError("a store isn't called")
        raise no_method(type(self._client), self.name)

    def get_collection(self, name: str, **options: Any) -> Collection:
        """The collection of a name. Options of reading and writing several servers mean nothing here."""
        test_options("get_collection", options)
        test_concern(options)
        return self[name]

    def create_collection(self, name: str, **options: Any) -> Collection:
        """The collection of a name, which is listed once it has a document. CollectionInvalid if it has one."""
        for option, value in options.items():
            if value and option not in ("read_concern", "read_preference", "write_concern", "check_exists"):
                refuse(f"{option} of create_collection", "a collection has no options")
        if name in self.list_collection_names():
            raise CollectionInvalid(f"collection {name} already exists")
        return self[name]

    def drop_collection(self, name_or_collection: Union[str, Collection], **options: Any) -> None:
        """Removes all documents of a collection, and drops its indexes."""
        if not isinstance(name_or_collection, Collection):
            name_or_collection = self[name_or_collection]
        name_or_collection.drop(**options)

    def with_options(self, **options: Any) -> "Store":
        """The store itself: options of reading and writing several servers mean nothing here."""
        test_options("with_options", options)
        test_concern(options)
        return self

    def list_collection_names(self, **options: Any) -> List[str]:
        """The names of the collections that have a document."""
        test_options("list_collection_names", options)
        names: List[str] = self._session.ask("collections")["names"]
        return names

    def transaction(self) -> Transaction:
        """Changes that are made in one step, at the end of a `with` block::

            with store.transaction() as changes:
                changes.set("accounts", "alice", "balance", 70)
                changes.set("accounts", "bob", "balance", 130)

        All of them are made, or, if one is refused or an exception leaves the block, none. The `request` of the
        `Refused` is the place, from 0, of the one at fault.
        """
        self._session.test_changes()
        return Transaction(self)

    def backup(self, path: Path) -> None:
        """Writes all that the store holds into a new file: what every request that was answered has left. Requests may
        go on meanwhile.

        `Refused` with the kind ``"Exists"`` if there is a file already, or the log of one of that name, which would be
        played over it.
        """
        self._session.test_open()
        run(self._program, [self._path, "backup", absolute(path), *self._waiting])

    def close(self) -> None:
        """Closes the file. Requests after that are `Ended`. It may be called again."""
        self._session.close()

    def __enter__(self) -> "Store":
        return self

    def __exit__(self, kind: Any, error: Any, trace: Any) -> None:
        if kind is None:
            self.close()
        else:
            self._session.close_quietly()

    def __repr__(self) -> str:
        return f"fallowtime.open({self._path!r})"


def _seconds(wait: int) -> int:
    if not isinstance(wait, int) or isinstance(wait, bool):
        raise TypeError(f"wait is a number of seconds, and not {wait!r}")
    if wait < 0:
        raise ValueError(f"wait is a number of seconds, and not {wait}")
    return wait


def open(path: Path, *, wait: Optional[int] = None, tz_aware: bool = False, readonly: bool = False) -> Store:
    """Opens the store in a file, which is made if it isn't there.

    `wait` is for how many seconds a file is waited for that another process has; else it is 5. With `tz_aware` the
    dates that come back say that they are in UTC; without it they have no zone, as pymongo's. With `readonly` nothing
    can be changed, and nobody has to wait: each request is a process of the program that takes no lock, and its answer
    what every request that was answered before has left, of this process and of any other one.

    `Ended` if the file can't be opened; its `kind` says why: ``"Busy"`` if another process has it, ``"NoFile"`` if
    there is none that could be read.
    """
    return Store(path, wait, tz_aware, readonly)
