"""Changing: the methods of a collection that put documents in, change them and remove them.

Each of them is read first, and refused if it isn't supported, before anything is sent: it makes a step, which is done
then.
"""
from __future__ import annotations

import builtins
import json
import os
from collections.abc import Mapping
from typing import Any, Callable, Dict, Iterable, List, Optional, Sequence, Tuple

from ._absent import refuse, test_options
from ._bulk import Bulk, insert_each
from ._encode import encode_document, encode_text, encode_value, test_document
from ._errors import (IMMUTABLE, NO_SOURCE, TARGET_EXISTS, DuplicateKeyError, InsertManyError, InvalidOperation, InvalidWriteError,
                      OperationFailure, Refused)
from ._items import ItemUpdate, item_update_of
from ._part import FIRST, Part
from ._query import are_operators, are_same_id, encode_query, ids_of, is_one_look
from ._reading import File, Reading
from ._requests import Document, Found, give_id, is_by_id, is_stricter, test_id, with_id
from ._results import BulkWriteResult, DeleteResult, InsertManyResult, InsertOneResult, UpdateResult
from ._steps import step_of
from ._update import encode_update
from ._upsert import equalities, upserted_id
from ._values import ObjectId
from ._wanted import Wanted, wanted_of

Hint = Any
# Options of the program's changes.
MANY, UPSERT, UPSERT_OF_MANY = '{"many":true}', '{"upsert":true}', '{"many":true,"upsert":true}'

# Why a collection isn't renamed, by the kind of the refusal.
OF_RENAME = {
    "NotFound": ("source namespace does not exist", NO_SOURCE), "DuplicateId": ("target namespace exists", TARGET_EXISTS)}


class Changing(Reading):
    """What changes a collection."""

    __slots__ = ()

    # ---- putting in

    def insert_one(self, document: Document, **options: Any) -> InsertOneResult:
        """Puts a document in. One without `_id` gets a new ObjectId, in `document` as well.

        `DuplicateKeyError` if the collection has a document with its `_id`.
        """
        test_options("insert_one", options)
        text, own = with_id(document)
        give_id(document, own)
        self._insert(text, own)
        return InsertOneResult(own)

    def insert_many(self, documents: Iterable[Document], ordered: bool = True, **options: Any) -> InsertManyResult:
        """Puts documents in, all or none of them. Those without `_id` get new ObjectIds, as in `insert_one`.

        `InsertManyError`, a `BulkWriteError` and a `DuplicateKeyError`, if the collection has the `_id` of one, or two
        have the same one: its `document` is the place, from 0, of the one at fault. With `ordered=False` all others go
        in, and a `BulkWriteError` says which didn't. ValueError if they don't fit into one request, of 64 MiB.
        """
        test_options("insert_many", options)
        if isinstance(documents, (Mapping, str, bytes)):
            raise TypeError(f"insert_many takes a list of documents, and not {type(documents).__name__}")
        listed = list(documents)
        if not listed:
            raise TypeError("insert_many takes one document at least")
        written = _written(listed)
        if ordered:
            self._insert_all(listed, written)
        else:
            bulk = Bulk(self.full_name)
            bulk.insert(insert_each(self._import, [text for text, _ in written], is_ordered=False), 0, listed)
            bulk.end()
        return InsertManyResult([own for _, own in written])

    def _insert_all(self, listed: List[Document], written: List[Tuple[str, Any]]) -> None:
        try:
            self._import([text for text, _ in written])
        except DuplicateKeyError as error:
            place = error.document or 0
            bulk = Bulk(self.full_name)
            bulk.fail(place, error._of_id(self.full_name, written[place][1]), listed[place])
            raise InsertManyError(error.kind, error.document)._of_counts(bulk.counts) from None

    def _import(self, texts: Sequence[str]) -> None:
        self._ask("import", "[" + ",".join(texts) + "]")

    def import_(self, file: File) -> int:
        """Puts the documents of a file in, all or none: BSON, one after the other, each with its `_id`. The file is
        named, or is open for bytes. Returns how many there are.

        `DuplicateKeyError` as in `insert_many`. ValueError if the file has more than some 48 MiB; the program takes
        more while no store has its file open: ``fallowtime FILE import NAME < file``.
        """
        if isinstance(file, (str, os.PathLike)):
            with builtins.open(file, "rb") as opened:
                stream = opened.read()
        else:
            stream = file.read()
        if not isinstance(stream, bytes):
            raise TypeError(f"a file of BSON has bytes, and this one {type(stream).__name__}")
        return int(self._ask("import", encode_value(stream))["count"])

    def bulk_write(self, requests: Sequence[Any], ordered: bool = True, **options: Any) -> BulkWriteResult:
        """Does several requests one after the other: `InsertOne`, `UpdateOne`, `UpdateMany`, `ReplaceOne`, `DeleteOne`
        and `DeleteMany`, each as the method of its name does it. It ends at the first one that is refused, or with
        `ordered=False` goes on, and a `BulkWriteError` says which ones were. What was done before stays."""
        test_options("bulk_write", options)
        if not isinstance(requests, (list, tuple)):
            raise TypeError(f"bulk_write takes a list of requests, and not {type(requests).__name__}")
        if not requests:
            raise InvalidOperation("No operations to execute")
        steps = [step_of(self, request) for request in requests]
        bulk = Bulk(self.full_name)
        with self._session.lock:
            bulk.run(steps, self._import, ordered)
        return BulkWriteResult(bulk.end())

    # ---- changing

    def replace_one(self, filter: Document, replacement: Document, upsert: bool = False, *, hint: Hint = None,
                    sort: Any = None, **options: Any) -> UpdateResult:
        """Puts `replacement` in the place of the first document that a query selects, as it came, or by `sort`. It
        gets the `_id` of that one, and may not have another one.

        With `upsert` it is put in if no document is selected: with its own `_id`, else with that of the query, else
        with a new ObjectId.
        """
        return self._replacement("replace_one", filter, replacement, upsert, hint, options, sort)()

    def _replacement(self, method: str, filter: Document, replacement: Document, upsert: bool, hint: Hint,
                     options: Document, sort: Any) -> Callable[[], UpdateResult]:
        self._test_change(method, filter, hint, options)
        text, query, part = _replacement_text(replacement), encode_query(filter), Part(sort)
        own = _id_to_put_in(filter, replacement) if upsert else None

        def step() -> UpdateResult:
            with self._session.lock:
                # For an `_id`, which is found at once here, the program looks at each document, and it takes no sort.
                if not sort and not is_one_look(filter):
                    self._prepare(filter)
                    try:
                        return self._replace_first(query, text, own, upsert)
                    except Refused as refused:
                        if not is_stricter(refused):
                            raise
                found = self._seek(filter, part, even_reserved=True)
                return self._replace_or_put_in(found, replacement, own, upsert)

        return step

    def update_one(self, filter: Document, update: Document, upsert: bool = False, *, array_filters: Any = None,
                   hint: Hint = None, sort: Any = None, **options: Any) -> UpdateResult:
        """Changes the first document that a query selects, as it came, or by `sort`: by MongoDB's operators, such as
        `$set`, `$unset`, `$inc` and `$push`, at paths, all at once. What is under other keys stays as it is, bit for
        bit. Items of arrays are changed by `$set` and `$unset` at paths such as ``lines.$[i].count``, with
        ``array_filters=[{"i.article": "tea"}]``.

        With `upsert` a document is put in if none is selected, in the same step: what the operators make, with
        `$setOnInsert`, of the values that the query asks to be equal.
        """
        return self._change("update_one", filter, update, upsert, hint, options, sort=sort,
                            array_filters=array_filters)()

    def update_many(self, filter: Document, update: Document, upsert: bool = False, *, array_filters: Any = None,
                    hint: Hint = None, **options: Any) -> UpdateResult:
        """Changes all documents that a query selects, as `update_one` does the first one, in one step: if one of them
        is refused, none is changed, and `document` of the `Refused` says which of those that `find` returns it is. If
        items are changed, it is a step for each document."""
        return self._change("update_many", filter, update, upsert, hint, options, is_many=True,
                            array_filters=array_filters)()

    def _change(self, method: str, filter: Document, update: Document, upsert: bool, hint: Hint, options: Document, *,
                is_many: bool = False, sort: Any = None, array_filters: Any = None) -> Callable[[], UpdateResult]:
        self._test_change(method, filter, hint, options)
        text, query, part = encode_update(method, update), encode_query(filter), Part(sort)
        items = self._item_update(update, array_filters, upsert)
        if items is not None:
            return self._change_of_items(self._selection(filter), part if is_many else part.first(), items)
        own = _id_asked_for(filter) if upsert else None

        def change() -> UpdateResult:
            if upsert:
                return self._upsert(own, query, text, UPSERT_OF_MANY if is_many else UPSERT)
            return self._update(query, text, *([MANY] if is_many else []))

        def change_sorted() -> UpdateResult:
            with self._session.lock:
                found = self._seek(filter, part)
                return change() if found is None else self._update(self._query_of(found), text)

        return change_sorted if sort else change

    def _change_of_items(self, select: Callable[[Part], List[Any]], part: Part,
                         items: ItemUpdate) -> Callable[[], UpdateResult]:
        def step() -> UpdateResult:
            with self._session.lock:
                return self._change_items(select(part), items)

        return step

    def _change_of_found(self, items: ItemUpdate) -> Callable[[Found], UpdateResult]:
        return lambda found: self._change_items([] if found is None else [found[1]], items)

    # ---- removing

    def delete_one(self, filter: Document, *, hint: Hint = None, **options: Any) -> DeleteResult:
        """Removes the first document that a query selects."""
        return self._removal("delete_one", filter, hint, options, is_many=False)()

    def delete_many(self, filter: Document, *, hint: Hint = None, **options: Any) -> DeleteResult:
        """Removes all documents that a query selects, in one step."""
        return self._removal("delete_many", filter, hint, options, is_many=True)()

    def _removal(self, method: str, filter: Document, hint: Hint, options: Document,
                 is_many: bool) -> Callable[[], DeleteResult]:
        self._test_change(method, filter, hint, options)
        if is_one_look(filter) and not is_many:
            ids = ids_of(filter["_id"])
            return lambda: self._remove(ids)
        query, many = encode_query(filter), [MANY] if is_many else []

        def remove() -> DeleteResult:
            self._prepare(filter)
            return DeleteResult(int(self._ask("delete", query, *many)["count"]))

        return remove

    def _remove(self, ids: List[str]) -> DeleteResult:
        """Removes the first document with one of these `_id`s that is there, which is found at once."""
        with self._session.lock:
            removed = (1 for own in ids if self._answer_if_found("remove", own) is not None)
            return DeleteResult(next(removed, 0))

    def drop(self, **options: Any) -> None:
        """Removes all documents, in one step, and drops the indexes."""
        test_options("drop", options)
        with self._session.lock:
            self._ask("drop")
            self.drop_indexes()

    def rename(self, new_name: str, dropTarget: bool = False, **options: Any) -> Dict[str, Any]:
        """Gives its documents, in their order and in one step, and its indexes to the collection of another name. With
        `dropTarget` the documents and the indexes of that one are removed, the documents in the same step.

        OperationFailure if there is no document, or if the other collection has one that isn't removed, or is this one.
        """
        test_options("rename", options)
        dropping = ['{"drop":true}'] if dropTarget else []
        with self._session.lock:
            try:
                self._ask("rename", encode_text(new_name), *dropping)
            except Refused as refused:
                if refused.kind not in OF_RENAME:
                    raise
                raise OperationFailure(*OF_RENAME[refused.kind]) from None
            if dropTarget:
                self._store[new_name].drop_indexes()
            self._rename_indexes(new_name)
        return {"ok": 1.0}

    # ---- finding and changing at once

    def find_one_and_delete(self, filter: Document, projection: Any = None, sort: Any = None, hint: Hint = None,
                            **options: Any) -> Optional[Dict[str, Any]]:
        """Removes the first document that a query selects, and returns it, or None."""
        self._test_change("find_one_and_delete", filter, hint, options)
        wanted, query = wanted_of(projection, sort), encode_query(filter)
        if not is_by_id(filter):
            return self._find_and("find-and-delete", [query], wanted)
        with self._session.lock:
            found = self._seek(filter, wanted.part)
            if found is None:
                return None
            self._ask("remove", found[0])
        return wanted.project(self._decoder.document(found[1]))

    def find_one_and_replace(self, filter: Document, replacement: Document, projection: Any = None, sort: Any = None,
                             upsert: bool = False, return_document: bool = False, hint: Hint = None,
                             **options: Any) -> Optional[Dict[str, Any]]:
        """Puts another document in the place of the first one that a query selects, and returns that one, or the other
        one with `ReturnDocument.AFTER`. None if no document is selected, or was there before an `upsert`."""
        self._test_change("find_one_and_replace", filter, hint, options)
        text, query = _replacement_text(replacement), encode_query(filter)
        wanted = wanted_of(projection, sort, return_document)
        own = _id_to_put_in(filter, replacement) if upsert else None

        def put_in() -> UpdateResult:
            return self._replace_or_put_in(None, replacement, own, upsert)

        with self._session.lock:
            if not is_by_id(filter):
                try:
                    return self._find_and("find-and-replace", [query, text], wanted, put_in if upsert else None)
                except Refused as refused:
                    if not is_stricter(refused):
                        raise
            return self._seek_and_change(
                filter, wanted, lambda found: self._replace_or_put_in(found, replacement, own, upsert))

    def find_one_and_update(self, filter: Document, update: Document, projection: Any = None, sort: Any = None,
                            upsert: bool = False, return_document: bool = False, array_filters: Any = None,
                            hint: Hint = None, **options: Any) -> Optional[Dict[str, Any]]:
        """Changes the first document that a query selects, and returns it as it was, or as it is with
        `ReturnDocument.AFTER`. None if no document is selected, or was there before an `upsert`."""
        self._test_change("find_one_and_update", filter, hint, options)
        text, query = encode_update("find_one_and_update", update), encode_query(filter)
        items, wanted = self._item_update(update, array_filters, upsert), wanted_of(projection, sort, return_document)
        if items is not None:
            return self._seek_and_change(filter, wanted, self._change_of_found(items))
        own = _id_asked_for(filter) if upsert else None

        def put_in() -> UpdateResult:
            return self._upsert(own, query, text, UPSERT)

        return self._find_and("find-and-update", [query, text], wanted, put_in if upsert else None)

    def _find_and(self, command: str, places: List[str], wanted: Wanted,
                  put_in: Optional[Callable[[], UpdateResult]] = None) -> Optional[Dict[str, Any]]:
        """What a command returns that finds a document and changes it, both in one request. If it finds none, one is
        put in by a second request, with no other one in between."""
        options = wanted.text()
        with self._session.lock:
            tree = self._ask_update(command, *places, *([options] if options else []))["document"]
            if tree is not None:
                return self._decoder.document(tree)
            if put_in is None:
                return None
            own = encode_value(put_in().upserted_id)
            return self._document_of(own, wanted) if wanted.is_after else None

    def _seek_and_change(self, filter: Document, wanted: Wanted,
                         change: Callable[[Found], UpdateResult]) -> Optional[Dict[str, Any]]:
        """The same by several requests: by an `_id` alone, as that is found at once, and of what the program can't
        change in one."""
        with self._session.lock:
            found = self._seek(filter, wanted.part)
            result = change(found)
            if found is not None and not wanted.is_after:
                return wanted.project(self._decoder.document(found[1]))
            if not wanted.is_after or found is None and not result.did_upsert:
                return None
            return self._document_of(encode_value(result.upserted_id) if found is None else found[0], wanted)

    def _document_of(self, own: str, wanted: Wanted) -> Dict[str, Any]:
        """What is wanted of the document with this `_id`."""
        return wanted.project(self._decoder.document(self._got(own)[0]))

    # ---- parts

    def _test_change(self, method: str, filter: Document, hint: Hint, options: Document) -> None:
        self._session.test_changes()
        test_options(method, options)
        test_document(filter)
        self._test_hint(hint)

    def _update(self, query: str, update: str, *options: str) -> UpdateResult:
        return self._result(self._ask_update("update", query, update, *options))

    def _upsert(self, own: Any, query: str, update: str, options: str) -> UpdateResult:
        """Updates, or puts a document in, with this `_id` if the query asks for one."""
        try:
            return self._update(query, update, options)
        except DuplicateKeyError as error:
            raise error._of_id(self.full_name, own) from None

    def _replace_first(self, query: str, text: str, own: Any, upsert: bool) -> UpdateResult:
        """Replaces the first document, or puts one in, which is the one with this `_id`."""
        try:
            return self._result(self._ask("replace-one", query, text, *([UPSERT] if upsert else [])))
        except DuplicateKeyError as error:
            raise error._of_id(self.full_name, own) from None

    def _replace_or_put_in(self, found: Found, replacement: Document, own: Any, upsert: bool) -> UpdateResult:
        """Replaces the document that was found, or puts one in with this `_id`."""
        if found is not None:
            return self._replace(found, replacement)
        if not upsert:
            return UpdateResult(0, 0)
        self._insert(self._text_with_id(replacement, encode_value(own)), own)
        return UpdateResult(0, 0, own, did_upsert=True)

    def _item_update(self, update: Document, array_filters: Any, upsert: bool) -> Optional[ItemUpdate]:
        items = item_update_of(update, array_filters, self._decoder)
        if items is not None and upsert:
            refuse("a path through items with upsert", "the document that is put in has no items")
        return items

    def _change_items(self, trees: List[Any], items: ItemUpdate) -> UpdateResult:
        """Changes items of documents, once it is known what becomes of each one."""
        texts = [items.changed(tree) for tree in trees]
        for text in texts:
            if text is not None:
                self._ask("replace", text)
        return UpdateResult(len(texts), sum(text is not None for text in texts))

    def _query_of(self, found: Tuple[str, Any]) -> str:
        """A query whose first document is one that was found in another order, by its `_id`."""
        query = '{"_id":{"$eq":%s}}' % found[0]
        own = self._decoder.value(found[1]["_id"])
        is_alone = is_one_look({"_id": own}) and len(ids_of(own)) == 1
        if not is_alone and self._own_of(self._ask_part(query, FIRST)[0]) != self._own_of(found[1]):
            raise OperationFailure("several documents have this number as _id, and this one isn't the first of them")
        return query

    def _replace(self, found: Tuple[str, Any], replacement: Document) -> UpdateResult:
        own, tree = found
        if "_id" in replacement and not are_same_id(self._decoder.value(json.loads(own)), replacement["_id"]):
            raise InvalidWriteError(
                f"the document that is selected has the _id {own}; its replacement may have no other", IMMUTABLE)
        text = self._text_with_id(replacement, own)
        if tree is not None and encode_document(self._decoder.document(tree)) == text:
            return UpdateResult(1, 0)
        self._ask("replace", text)
        return UpdateResult(1, 1)


def _written(documents: Sequence[Document]) -> List[Tuple[str, Any]]:
    """The texts of documents with their `_id`s, which the documents get as well. One that is in the list twice is a
    document that gets one `_id`, and then another with the same."""
    texts: Dict[int, Tuple[str, Any]] = {}
    for document in documents:
        if id(document) not in texts:
            texts[id(document)] = with_id(document)
    written = [texts[id(document)] for document in documents]
    for document, (_, own) in zip(documents, written):
        give_id(document, own)
    return written


def _replacement_text(replacement: Document) -> str:
    test_document(replacement)
    if are_operators(replacement):
        raise ValueError("a replacement is a document, and has no operators")
    return encode_document(replacement)


def _id_asked_for(query: Document) -> Any:
    """The `_id` that a query asks for, or None, as a document is put in. NotImplementedError if the program makes of
    the query what MongoDB doesn't."""
    for _ in equalities(query):
        pass
    asked = list(upserted_id(query))
    for own in asked:
        test_id(own)
    return asked[0] if asked else None


def _id_to_put_in(query: Document, document: Document) -> Any:
    """The `_id` of a document that is put in as no query selected one."""
    asked = list(upserted_id(query))
    own = document["_id"] if "_id" in document else asked[0] if asked else ObjectId()
    if not all(are_same_id(own, value) for value in asked):
        raise ValueError(f"the query asks for the _id {asked[0]!r}; the document may have no other")
    test_id(own)
    return own
