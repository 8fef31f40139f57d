"""A collection, with those methods of pymongo's that are supported."""
from __future__ import annotations

from typing import TYPE_CHECKING, Any, Dict, NoReturn

from ._absent import OF_COLLECTION, WithAbsent, is_name, no_method, test_concern, test_options
from ._aggregating import Aggregating

if TYPE_CHECKING:
    from ._store import Store


class Collection(Aggregating, WithAbsent):
    """The documents of one name in a store. It is there as soon as it has a document, and as long as it has one.

    ``store.orders.archive`` is the collection of the name ``orders.archive``.
    """

    __slots__ = ()
    _absent = OF_COLLECTION

    @property
    def name(self) -> str:
        """Its name."""
        return self._name

    @property
    def store(self) -> "Store":
        """The store in which it is."""
        return self._store

    @property
    def database(self) -> "Store":
        """The store in which it is, as pymongo calls it."""
        return self._store

    def with_options(self, **options: Any) -> "Collection":
        """The collection itself: options of reading and writing several servers mean nothing here."""
        test_options("with_options", options)
        test_concern(options)
        return self

    def options(self, **options: Any) -> Dict[str, Any]:
        """An empty dict: a collection has no options."""
        test_options("options", options)
        return {}

    def __getitem__(self, name: str) -> "Collection":
        """The collection of this name, a dot, and another one."""
        return self._store[f"{self._name}.{name}"]

    def _other(self, name: str) -> "Collection":
        """What an attribute means that is none of a collection: another collection."""
        if not is_name(name):
            raise AttributeError(f"{type(self).__name__} has no {name}")
        return self[name]

    if TYPE_CHECKING:

        def __getattr__(self, name: str) -> "Collection": ...

    # Without this, `in` and `for` would count through names.
    __iter__ = None

    def __call__(self, *arguments: Any, **options: Any) -> NoReturn:
        owner, _, name = self._name.rpartition(".")
        raise no_method(type(self) if owner else type(self._store), name)

    def __eq__(self, other: object) -> Any:
        if isinstance(other, Collection):
            return self._store is other._store and self._name == other._name
        return NotImplemented

    def __hash__(self) -> int:
        return hash((id(self._store), self._name))

    def __repr__(self) -> str:
        return f"{self._store!r}[{self._name!r}]"
