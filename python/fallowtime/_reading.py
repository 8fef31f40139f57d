"""Looking: the methods of a collection that only read."""
from __future__ import annotations

import binascii
import builtins
import os
from collections.abc import Mapping
from typing import IO, Any, Dict, List, Optional, Union

from ._absent import test_options
from ._cursor import Cursor
from ._indexing import Indexing
from ._part import WHOLE, Part
from ._projection import projection_of
from ._query import asks_for_plain_number, encode_query, is_one_look
from ._requests import Document

File = Union[str, "os.PathLike[str]", IO[bytes]]


class Reading(Indexing):
    """What a collection is asked for."""

    __slots__ = ()

    def find_one(self, filter: Any = None, projection: Any = None, *, sort: Any = None, skip: int = 0, hint: Any = None,
                 **options: Any) -> Optional[Dict[str, Any]]:
        """The first document that a query selects, or None. What is no dict is the `_id` that is asked for.

        By an `_id` it is one look into an index, unless it is a dict or a list. By another query the program reads the
        documents up to that one, or with `sort` all of them, and sends that one alone.
        """
        test_options("find_one", options)
        self._test_hint(hint)
        project, part = projection_of(projection), Part(sort, skip) if sort or skip else WHOLE
        if not isinstance(filter, Mapping):
            filter = {} if filter is None else {"_id": filter}
        is_plain = not sort and not projection and asks_for_plain_number(filter)
        if skip or not is_plain and not is_one_look(filter):
            found = Cursor(self, self._selection(filter), project, part)._fetched(part.first())
            return found[0] if found else None
        held = self._seek(filter)
        return None if held is None else project(self._decoder.document(held[1]))

    def find(self, filter: Optional[Document] = None, projection: Any = None, skip: int = 0, limit: int = 0,
             *, sort: Any = None, hint: Any = None, **options: Any) -> Cursor:
        """The documents that a query selects, or all, as a cursor. They are asked for with the first one."""
        test_options("find", options)
        self._test_hint(hint)
        select = self._selection({} if filter is None else filter)
        return Cursor(self, select, projection_of(projection), Part(sort, skip, limit))

    def count_documents(self, filter: Document, *, skip: int = 0, limit: int = 0, hint: Any = None,
                        **options: Any) -> int:
        """How many documents a query selects, or a part of them."""
        test_options("count_documents", options)
        self._test_hint(hint)
        part = Part(None, skip, limit)
        return part.count(int(self._ask("count", encode_query(filter))["count"]))

    def estimated_document_count(self, **options: Any) -> int:
        """How many documents there are: they are counted, and not estimated."""
        test_options("estimated_document_count", options)
        return int(self._ask("count")["count"])

    def distinct(self, key: str, filter: Optional[Document] = None, **options: Any) -> List[Any]:
        """The different values at a path of the documents that a query selects, each once, in the order of values. An
        array at its end counts as its items."""
        test_options("distinct", options)
        return self._distinct(key, encode_query({} if filter is None else filter))

    def export(self, file: File) -> int:
        """Writes all documents as BSON, one after the other, to a file that is named, or is open for bytes. Returns
        how many there are. A file that is there is written over."""
        stream = binascii.a2b_base64(self._ask("export")["bytes"]["$binary"]["base64"])
        if isinstance(file, (str, os.PathLike)):
            with builtins.open(file, "wb") as opened:
                opened.write(stream)
        else:
            file.write(stream)
        return _number_of_documents(stream)


def _number_of_documents(stream: bytes) -> int:
    """How many documents lie one after the other. Each begins with its length."""
    number = at = 0
    while at < len(stream):
        at += int.from_bytes(stream[at:at + 4], "little")
        number += 1
    return number
