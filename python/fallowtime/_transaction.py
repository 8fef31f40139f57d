"""Changes that are made in one step: the requests of a `with` block, sent as one list."""
from __future__ import annotations

from typing import TYPE_CHECKING, Any, Callable, Dict, List, Optional, Protocol, Union

from ._changing import MANY, UPSERT, UPSERT_OF_MANY
from ._encode import encode_document, encode_text, encode_value
from ._errors import InvalidOperation
from ._part import Part
from ._query import encode_query
from ._requests import Document, give_id, update_result, with_id
from ._results import DeleteResult, UpdateResult
from ._update import encode_update

if TYPE_CHECKING:
    from ._store import Store


class Named(Protocol):
    """A collection, or one for asyncio."""

    @property
    def name(self) -> str: ...


Place = Union[str, Named]


class Transaction:
    """Changes and questions, in any collections of a store: they are done at the end of the `with` block in one step,
    all of them, or, if one is refused or an exception leaves the block, none.

    Each sees what those before it do, and what it returns is in `results` then. What the store's own methods read
    meanwhile is without them.
    """

    def __init__(self, store: "Store") -> None:
        self._store = store
        self._decoder = store._decoder
        self._requests: List[str] = []
        self._results: List[Callable[[Dict[str, Any]], Any]] = []
        self._is_ended = False
        #: What each returns, in their order, once they are done: of `insert` and `put` the `_id`, of `unset` whether a
        #: value was there, of a question and of a change by query what the collection's method of its name returns
        #: (of `find` a list), else None.
        self.results: List[Any] = []

    def insert(self, collection: Place, document: Document) -> Any:
        """Puts a document in, and returns its `_id`: one without `_id` gets a new ObjectId, in `document` as well. It
        is refused (DuplicateKeyError) if the collection has a document with its `_id`."""
        return self._put("insert", collection, document)

    def put(self, collection: Place, document: Document) -> Any:
        """Puts a document in the place of the one with its `_id`, or in if there is none, and returns the `_id`."""
        return self._put("put", collection, document)

    def replace(self, collection: Place, document: Document) -> None:
        """Puts a document in the place of the one with its `_id`. It is refused (NotFound) if there is none."""
        self._add(lambda answer: None, "replace", collection, encode_document(document))

    def set(self, collection: Place, own: Any, path: str, value: Any) -> None:
        """Puts a value at a path of the document with an `_id`. It is refused (NotFound) if there is none."""
        self._add(lambda answer: None, "set", collection, encode_value(own), encode_text(path), encode_value(value))

    def unset(self, collection: Place, own: Any, path: str) -> None:
        """Takes the value at a path of the document with an `_id` away, if there is one. It is refused (NotFound) if
        there is no such document."""
        self._add(lambda answer: answer["was_there"], "unset", collection, encode_value(own), encode_text(path))

    def remove(self, collection: Place, own: Any) -> None:
        """Removes the document with an `_id`. It is refused (NotFound) if there is none."""
        self._add(lambda answer: None, "remove", collection, encode_value(own))

    def find(self, collection: Place, query: Optional[Document] = None, *, sort: Any = None, skip: int = 0,
             limit: int = 0) -> None:
        """The documents that a query selects, or all, as a list."""
        part = Part(sort, skip, limit).text()
        self._add(lambda answer: [self._decoder.document(tree) for tree in answer["documents"]], "find", collection,
                  encode_query(query or {}), *([part] if part else []))

    def count(self, collection: Place, query: Optional[Document] = None) -> None:
        """How many documents a query selects, or all."""
        self._add(lambda answer: int(answer["count"]), "count", collection, encode_query(query or {}))

    def update_one(self, collection: Place, query: Document, update: Document, upsert: bool = False) -> None:
        """Changes the first document that a query selects; with `upsert` one is put in if there is none."""
        self._update(collection, query, encode_update("update_one", update), [UPSERT] if upsert else [])

    def update_many(self, collection: Place, query: Document, update: Document, upsert: bool = False) -> None:
        """Changes all documents that a query selects; with `upsert` one is put in if there is none."""
        self._update(collection, query, encode_update("update_many", update), [UPSERT_OF_MANY if upsert else MANY])

    def replace_one(self, collection: Place, query: Document, replacement: Document, upsert: bool = False) -> None:
        """Puts another document in the place of the first one that a query selects, which keeps its `_id`; with `upsert`
        it is put in if there is none."""
        self._add(self._updated, "replace-one", collection, encode_query(query), encode_document(replacement),
                  *([UPSERT] if upsert else []))

    def delete_one(self, collection: Place, query: Document) -> None:
        """Removes the first document that a query selects."""
        self._delete(collection, query, [])

    def delete_many(self, collection: Place, query: Document) -> None:
        """Removes all documents that a query selects."""
        self._delete(collection, query, [MANY])

    def _update(self, collection: Place, query: Document, update: str, options: List[str]) -> None:
        self._add(self._updated, "update", collection, encode_query(query), update, *options)

    def _updated(self, answer: Dict[str, Any]) -> UpdateResult:
        return update_result(answer, self._decoder)

    def _delete(self, collection: Place, query: Document, options: List[str]) -> None:
        self._add(lambda answer: DeleteResult(int(answer["count"])), "delete", collection, encode_query(query), *options)

    def _put(self, command: str, collection: Place, document: Document) -> Any:
        text, own = with_id(document)
        self._add(lambda answer: own, command, collection, text)
        give_id(document, own)
        return own

    def _add(self, result: Callable[[Dict[str, Any]], Any], command: str, collection: Place, *places: str) -> None:
        if self._is_ended:
            raise InvalidOperation("the block of the transaction has ended")
        name = collection if isinstance(collection, str) else collection.name
        self._requests.append("[" + ",".join([f'"{command}"', encode_text(name), *places]) + "]")
        self._results.append(result)

    def __enter__(self) -> "Transaction":
        if self._is_ended:
            raise InvalidOperation("the block of the transaction has ended")
        return self

    def __exit__(self, kind: Any, error: Any, trace: Any) -> None:
        self._is_ended = True
        if kind is None and self._requests:
            answer = self._store._session.ask("all", "[" + ",".join(self._requests) + "]")
            self.results = [result(each) for result, each in zip(self._results, answer["all"])]
