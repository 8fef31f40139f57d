"""The documents of an answer, one after the other."""
from __future__ import annotations

import json
from typing import TYPE_CHECKING, Any, Callable, Dict, Iterator, List, Optional, Union, overload

from ._absent import OF_CURSOR, WithAbsent
from ._errors import InvalidOperation
from ._explain import is_found, plan_of
from ._part import Part, keys_of
from ._projection import Projection

if TYPE_CHECKING:
    from ._indexing import Indexing
    from ._requests import Selection

Document = Dict[str, Any]


class CommandCursor(WithAbsent):
    """The documents that a request returned. The request is sent as the first one is asked for; later changes change
    nothing of them."""

    __slots__ = ("_collection", "_fetch", "_documents", "_is_begun")
    _absent = OF_CURSOR

    def __init__(self, collection: "Indexing", fetch: Callable[[], List[Any]]) -> None:
        self._collection, self._fetch = collection, fetch
        # Those that are left, the last one first.
        self._documents: List[Any] = []
        self._is_begun = False

    def __iter__(self) -> Iterator[Document]:
        return self

    def __next__(self) -> Document:
        self._begin()
        try:
            return self._made(self._documents.pop())
        except IndexError:
            raise StopIteration from None

    def _begin(self) -> None:
        if not self._is_begun:
            self._documents = list(self._fetch())
            self._documents.reverse()
            self._is_begun = True

    def _made(self, fetched: Any) -> Document:
        """The document of what was fetched."""
        document: Document = fetched
        return document

    def next(self) -> Document:
        """The next document. StopIteration after the last one."""
        return next(self)

    def try_next(self) -> Optional[Document]:
        """The next document, or None after the last one."""
        return next(self, None)

    def to_list(self, length: Optional[int] = None) -> List[Document]:
        """A list of all documents that are left, or of the next ones, so many at the most."""
        if length is None:
            return list(self)
        return [document for _, document in zip(range(length), self)]

    def batch_size(self, batch_size: int) -> Any:
        """The cursor itself: all documents come in one answer."""
        return self

    @property
    def collection(self) -> Any:
        """The collection of the documents."""
        return self._collection

    @property
    def alive(self) -> bool:
        """Whether a document may be left."""
        return not self._is_begun or bool(self._documents)

    @property
    def session(self) -> None:
        """None: there are no transactions."""

    def close(self) -> None:
        """Lets the documents go that are left."""
        self._is_begun = True
        self._documents.clear()

    def __enter__(self) -> Any:
        return self

    def __exit__(self, *error: object) -> None:
        self.close()


class Cursor(CommandCursor):
    """The documents that a query selects, in the order in which they came into the collection. They are asked for with
    the first one, and until then `skip`, `limit` and `sort` say which are wanted; each of them returns the cursor."""

    __slots__ = ("_select", "_project", "_part")

    def __init__(self, collection: "Indexing", select: "Selection", project: Projection, part: Part) -> None:
        super().__init__(collection, lambda: self._selected(self._part))
        self._select, self._project, self._part = select, project, part

    def _selected(self, part: Part) -> List[Any]:
        """The trees of the documents of a part: of their fields alone, unless they come as a whole."""
        fields = self._project.fields
        return self._select(part.but(fields=fields) if fields and not self._select.are_whole else part)

    def _made(self, fetched: Any) -> Document:
        document = self._collection._decoder.document(fetched)
        return self._project(document) if self._select.are_whole else document

    def _fetched(self, part: Part) -> List[Document]:
        """All documents of a part."""
        return [self._made(tree) for tree in self._selected(part)]

    def _with(self, **changed: Any) -> "Cursor":
        if self._is_begun:
            raise InvalidOperation("cannot set options after executing query")
        self._part = self._part.but(**changed)
        return self

    def skip(self, skip: int) -> "Cursor":
        """Leaves out so many documents at the beginning."""
        return self._with(skip=skip)

    def limit(self, limit: int) -> "Cursor":
        """Takes so many documents at the most, 0 for all."""
        return self._with(limit=limit)

    def sort(self, key_or_list: Any, direction: Optional[int] = 1) -> "Cursor":
        """Puts the documents in the order of the values at paths: a path with 1, or with -1 if the greatest value comes
        first, or a list of such pairs."""
        keys = keys_of(key_or_list, direction)
        if not keys:
            raise ValueError("a sort has a path")
        return self._with(sort=keys)

    def hint(self, index: Any) -> "Cursor":
        """Names an index, which has to be there. The program takes the best one itself."""
        self._collection._test_hint(index)
        return self._with()

    def comment(self, comment: Any) -> "Cursor":
        """The cursor itself: a comment asks nothing."""
        return self._with()

    def allow_disk_use(self, allow_disk_use: bool) -> "Cursor":
        """The cursor itself: nothing is put on the disk."""
        return self._with()

    def clone(self) -> "Cursor":
        """A cursor of the same query, from the beginning."""
        return Cursor(self._collection, self._select, self._project, self._part)

    def rewind(self) -> "Cursor":
        """The cursor itself, from the beginning: the documents are asked for once more."""
        self.close()
        self._is_begun = False
        return self

    def distinct(self, key: str) -> List[Any]:
        """The different values at a path of all documents of the query, whatever the part."""
        return self._collection._distinct(key, self._select.query)

    def explain(self) -> Dict[str, Any]:
        """How the documents are found, as MongoDB says it: ``["queryPlanner"]["winningPlan"]["stage"]`` is `IXSCAN` by
        an index, whose `indexName` is there, `IDHACK` by the `_id` at once, and `COLLSCAN` by a look at each document.
        Nothing is asked for: it is told from the query and the indexes that are there now. Of several that serve the
        query `indexNames` has them all, and the program goes by the one that has the fewest documents."""
        self._collection._session.test_open()
        query = json.loads(self._select.query)
        is_by_id = self._select.are_whole or self._select.is_by_id and is_found(query["_id"])
        plan = plan_of(query, is_by_id, self._collection._known_indexes())
        return {"queryPlanner": {"namespace": self._collection.full_name,
                                 "parsedQuery": self._collection._decoder.document(query),
                                 "winningPlan": plan, "rejectedPlans": []}, "ok": 1.0}

    @overload
    def __getitem__(self, index: int) -> Document: ...

    @overload
    def __getitem__(self, index: slice) -> "Cursor": ...

    def __getitem__(self, index: Union[int, slice]) -> Any:
        """The document of a place, or the cursor itself for those from one place to another."""
        if isinstance(index, slice):
            return self._sliced(index)
        if not isinstance(index, int) or isinstance(index, bool):
            raise TypeError(f"a cursor has places, and not {index!r}")
        if index < 0:
            raise IndexError("a cursor has places from 0")
        self._with()
        found = self._fetched(self._part.but(skip=self._part.skip + index, limit=1))
        if not found:
            raise IndexError(f"there is no document at the place {index}")
        return found[0]

    def _sliced(self, places: slice) -> "Cursor":
        if places.step is not None:
            raise IndexError("a cursor has no steps")
        begin = 0 if places.start is None else places.start
        if begin < 0 or places.stop is not None and places.stop < begin:
            raise IndexError("a cursor has places from 0, and a slice ends behind its beginning")
        self._with(skip=begin, limit=0 if places.stop is None else places.stop - begin)
        if begin == places.stop:
            self.close()
        return self
