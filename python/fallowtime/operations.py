"""Requests of `bulk_write` and `create_indexes`, where pymongo has them: ``fallowtime.operations.UpdateOne``. Those of
pymongo itself are taken in their places."""
from __future__ import annotations

from typing import Any, Dict, Mapping, Optional, Sequence, Tuple

Document = Mapping[str, Any]


class _Request:
    __slots__: Tuple[str, ...] = ()

    def _values(self) -> Dict[str, Any]:
        names = (name for kind in type(self).__mro__ for name in getattr(kind, "__slots__", ()))
        return {name[1:]: getattr(self, name) for name in names}

    def __repr__(self) -> str:
        values = ", ".join(f"{name}={value!r}" for name, value in self._values().items())
        return f"{type(self).__name__}({values})"

    def __eq__(self, other: object) -> Any:
        if not isinstance(other, _Request) or type(other) is not type(self):
            return NotImplemented
        return self._values() == other._values()

    __hash__ = None  # type: ignore[assignment]


class InsertOne(_Request):
    """Puts a document in."""

    __slots__ = ("_doc",)

    def __init__(self, document: Document) -> None:
        self._doc = document


class _Delete(_Request):
    __slots__ = ("_filter", "_collation", "_hint")

    def __init__(self, filter: Document, collation: Any = None, hint: Any = None) -> None:
        self._filter, self._collation, self._hint = filter, collation, hint


class DeleteOne(_Delete):
    """Removes the first document that a query selects."""

    __slots__ = ()


class DeleteMany(_Delete):
    """Removes all documents that a query selects."""

    __slots__ = ()


class ReplaceOne(_Request):
    """Puts a document in the place of the first one that a query selects."""

    __slots__ = ("_filter", "_doc", "_upsert", "_collation", "_hint", "_sort")

    def __init__(self, filter: Document, replacement: Document, upsert: bool = False, collation: Any = None,
                 hint: Any = None, sort: Any = None) -> None:
        self._filter, self._doc, self._upsert, self._collation = filter, replacement, upsert, collation
        self._hint, self._sort = hint, sort


class _Update(_Request):
    __slots__ = ("_filter", "_doc", "_upsert", "_collation", "_array_filters", "_hint")

    def __init__(self, filter: Document, update: Any, upsert: bool = False, collation: Any = None,
                 array_filters: Optional[Sequence[Document]] = None, hint: Any = None) -> None:
        self._filter, self._doc, self._upsert, self._collation = filter, update, upsert, collation
        self._array_filters, self._hint = array_filters, hint


class UpdateOne(_Update):
    """Changes the first document that a query selects."""

    __slots__ = ("_sort",)

    def __init__(self, filter: Document, update: Any, upsert: bool = False, collation: Any = None,
                 array_filters: Optional[Sequence[Document]] = None, hint: Any = None, sort: Any = None) -> None:
        super().__init__(filter, update, upsert, collation, array_filters, hint)
        self._sort = sort


class UpdateMany(_Update):
    """Changes all documents that a query selects."""

    __slots__ = ()


class IndexModel:
    """An index that `create_indexes` makes, by the arguments of `create_index`."""

    __slots__ = ("_keys", "_options")

    def __init__(self, keys: Any, **options: Any) -> None:
        self._keys, self._options = keys, options
