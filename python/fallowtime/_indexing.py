"""Indexes: the methods of a collection that make, list and drop them."""
from __future__ import annotations

from typing import Any, Dict, List, Mapping, Sequence, Tuple, Union

from ._absent import IDLE_OF_INDEX, OPTIONS_OF_INDEX, test_options
from ._cursor import CommandCursor
from ._encode import encode_text
from ._errors import ID_INDEX, INDEX_KEYS, INDEX_NAME, NO_HINT, OperationFailure
from ._index import ID_KEYS, ID_NAME, VERSION, Index, only_key, path_of_name
from ._requests import Requests

Keys = Union[str, Sequence[Any], Mapping[str, Any]]


class Indexing(Requests):
    """The indexes of a collection. They are in memory, and the store, which alone has the file, knows those it made."""

    __slots__ = ()

    def create_index(self, keys: Keys, **options: Any) -> str:
        """Makes an index on a path, if there is none, and returns its name: ``customer.city_1``, or the one that
        `name` says. `keys` is the path, or a list of it and 1 or -1. It is kept in memory, and gone when the store is
        closed.

        Of what a query selects nothing changes. A query that asks for a value at the path looks at few documents.
        """
        index = Index(keys, options)
        with self._session.lock:
            known = self._store._indexes.setdefault(self._name, {})
            for other in known.values():
                if other.name == index.name and other.keys != index.keys:
                    raise OperationFailure(f"an index named {index.name} has other keys", INDEX_NAME)
                if other.keys == index.keys and other.name != index.name:
                    raise OperationFailure(f"the index with these keys has the name {other.name}", INDEX_KEYS)
            self._ask("index", encode_text(index.path))
            known.setdefault(index.name, index)
        return index.name

    def create_indexes(self, indexes: Sequence[Any], **options: Any) -> List[str]:
        """Makes several indexes, each as an `IndexModel` says, and returns their names."""
        test_options("create_indexes", options, OPTIONS_OF_INDEX, IDLE_OF_INDEX)
        models = [_arguments(model) for model in indexes]
        for keys, given in models:
            Index(keys, given)
        return [self.create_index(keys, **given) for keys, given in models]

    def drop_index(self, index_or_name: Keys, **options: Any) -> None:
        """Drops the index with a name, or with such keys as `create_index` takes. There may be none."""
        test_options("drop_index", options, OPTIONS_OF_INDEX)
        with self._session.lock:
            known = self._store._indexes.get(self._name, {})
            if not isinstance(index_or_name, str):
                keys = [only_key("drop_index", index_or_name)]
                names = [name for name, index in known.items() if index.keys == keys]
                path = keys[0][0]
            else:
                if index_or_name == ID_NAME:
                    raise OperationFailure("cannot drop _id index", ID_INDEX)
                names = [index_or_name] if index_or_name in known else []
                path = known[index_or_name].path if names else path_of_name(index_or_name)
            # One of the other direction is the same one for the program.
            if not any(index.path == path for name, index in known.items() if name not in names):
                self._ask("drop_index", encode_text(path))
                if path == "_id":
                    self._store._indexed_by_id.discard(self._name)
            for name in names:
                del known[name]

    def drop_indexes(self, **options: Any) -> None:
        """Drops all indexes except that on `_id`."""
        test_options("drop_indexes", options, OPTIONS_OF_INDEX)
        with self._session.lock:
            for name in list(self._store._indexes.get(self._name, {})):
                self.drop_index(name)

    def _rename_indexes(self, name: str) -> None:
        """Makes the same indexes of the collection of another name, and drops these."""
        other = self._store[name]
        known = self._store._indexes.setdefault(name, {})
        for index in self._known_indexes():
            other._ask("index", encode_text(index.path))
            known.setdefault(index.name, index)
        self.drop_indexes()

    def list_indexes(self, **options: Any) -> CommandCursor:
        """The indexes, one document each: none of a collection that has no document and no index."""
        test_options("list_indexes", options, OPTIONS_OF_INDEX)

        def listed() -> List[Dict[str, Any]]:
            return [{"v": VERSION, "key": dict(entry["key"]), "name": name, **_options_of(entry)}
                    for name, entry in self.index_information().items()]

        return CommandCursor(self, listed)

    def index_information(self, **options: Any) -> Dict[str, Dict[str, Any]]:
        """The indexes by their names, each with its keys and the options with which it was made."""
        test_options("index_information", options, OPTIONS_OF_INDEX)
        known = self._store._indexes.get(self._name, {})
        if not known and self._name not in self._store.list_collection_names():
            return {}
        found = {ID_NAME: {"v": VERSION, "key": list(ID_KEYS)}}
        found.update((name, {"v": VERSION, "key": index.keys, **index.options}) for name, index in known.items())
        return found

    def _known_indexes(self) -> List[Index]:
        """The indexes that were made, as they came."""
        with self._session.lock:
            return list(self._store._indexes.get(self._name, {}).values())

    def _test_hint(self, hint: Any) -> None:
        """OperationFailure if an index is named, by its name or its keys, that isn't there. The program takes the best
        one itself."""
        if hint is None:
            return
        known = self._store._indexes.get(self._name, {})
        if isinstance(hint, str):
            is_there = hint == ID_NAME or hint in known
        else:
            keys = [only_key("a hint", hint)]
            is_there = keys == ID_KEYS or any(index.keys == keys for index in known.values())
        if not is_there:
            raise OperationFailure("hint provided does not correspond to an existing index", NO_HINT)


def _options_of(entry: Mapping[str, Any]) -> Dict[str, Any]:
    return {name: value for name, value in entry.items() if name not in ("v", "key")}


def _arguments(model: Any) -> Tuple[Any, Dict[str, Any]]:
    """The keys and the options of an IndexModel, of this package or of pymongo."""
    if hasattr(model, "_keys"):
        return model._keys, model._options
    if not hasattr(model, "document"):
        raise TypeError(f"create_indexes takes IndexModels, and not {model!r}")
    document = dict(model.document)
    keys = list(document.pop("key").items())
    return keys, document
