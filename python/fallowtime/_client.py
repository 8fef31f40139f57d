"""The stores of a folder, under the names of pymongo's client."""
from __future__ import annotations

import os
import threading
from typing import TYPE_CHECKING, Any, Dict, List, NoReturn, Optional

from ._absent import IDLE_OF_CLIENT, OF_CLIENT, OPTIONS_OF_CLIENT, WithAbsent, is_name, refuse, test_options
from ._errors import ConfigurationError, InvalidName, InvalidOperation
from ._program import absolute
from ._store import Path, Store

ENDING = ".db"
# The version of MongoDB that is reported.
VERSION = [4, 4, 0, 0]
# What no name of a store may have, as in MongoDB.
WRONG = frozenset(' /\\."$\0')


class MongoClient(WithAbsent):
    """The stores in a folder, as pymongo's client has the databases of a server: ``client["shop"]`` or ``client.shop``
    is the store in its file ``shop.db``. A store is opened when it is named first, and then, with the folder, made if
    it isn't there.

    Its options are those of `fallowtime.open`. Those of pymongo that are about connections mean nothing here.
    """

    _absent = OF_CLIENT

    def __init__(self, folder: Path = ".", *, wait: Optional[int] = None, tz_aware: bool = False,
                 readonly: bool = False, **options: Any) -> None:
        test_options("MongoClient", options, OPTIONS_OF_CLIENT, IDLE_OF_CLIENT)
        if "://" in os.fspath(folder):
            refuse(f"a client of {folder}", OPTIONS_OF_CLIENT["host"])
        self._folder = absolute(folder)
        self._options: Dict[str, Any] = {"wait": wait, "tz_aware": tz_aware, "readonly": readonly}
        self._stores: Dict[str, Store] = {}
        self._lock = threading.RLock()
        self._is_closed = False

    def __getitem__(self, name: str) -> Store:
        """The store of a name. One that has ended is opened anew."""
        return self._store(name)

    def _store(self, name: str, is_opened: bool = True) -> Store:
        _test_name(name)
        with self._lock:
            if self._is_closed:
                raise InvalidOperation("Cannot use MongoClient after close")
            store = self._stores.get(name)
            if store is None or not store._session.is_open:
                if not self._options["readonly"]:
                    os.makedirs(self._folder, exist_ok=True)
                path = os.path.join(self._folder, name + ENDING)
                store = Store(path, client=self, is_opened=is_opened, **self._options)
                self._stores[name] = store
            return store

    def _other(self, name: str) -> Store:
        """What an attribute means that is none of a client: a store."""
        if not is_name(name):
            raise AttributeError(f"{type(self).__name__} has no {name}")
        return self[name]

    if TYPE_CHECKING:

        def __getattr__(self, name: str) -> Store: ...

    # Without this, `in` and `for` would count through names.
    __iter__ = None

    def __call__(self, *arguments: Any, **options: Any) -> NoReturn:
        raise TypeError("a client isn't called, and has no such method")

    def get_database(self, name: Optional[str] = None, **options: Any) -> Store:
        """The store of a name. Options of reading and writing several servers mean nothing here."""
        return self.get_default_database(name, **options) if name is None else self[name].with_options(**options)

    def get_default_database(self, default: Optional[str] = None, **options: Any) -> Store:
        """The store of a name. ConfigurationError without one, as a folder names none."""
        if default is None:
            raise ConfigurationError("No default database name defined or provided.")
        return self.get_database(default, **options)

    def list_database_names(self, **options: Any) -> List[str]:
        """The names of the stores that have a file."""
        test_options("list_database_names", options)
        names = os.listdir(self._folder) if os.path.isdir(self._folder) else []
        return sorted(name[:-len(ENDING)] for name in names if name.endswith(ENDING) and not WRONG & set(name[:-3]))

    def server_info(self, **options: Any) -> Dict[str, Any]:
        """The version of MongoDB whose names and meaning are here, by which programs see what they may ask for, as a
        relay has it."""
        test_options("server_info", options)
        return {"version": ".".join(map(str, VERSION[:3])), "versionArray": list(VERSION), "ok": 1.0}

    def close(self) -> None:
        """Closes all stores. Nothing is asked for after that. It may be called again."""
        with self._lock:
            self._is_closed = True
            for store in self._stores.values():
                store.close()

    def __enter__(self) -> "MongoClient":
        return self

    def __exit__(self, *error: object) -> None:
        self.close()

    def __repr__(self) -> str:
        return f"fallowtime.MongoClient({self._folder!r})"


def _test_name(name: str) -> None:
    if not isinstance(name, str):
        raise TypeError(f"the name of a store is a text, and not {name!r}")
    if not name or WRONG & set(name):
        raise InvalidName(f"a store has a name without blanks, dots and any of / \\ \" $, and not {name!r}")
