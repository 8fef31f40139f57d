"""What a collection asks the program."""
from __future__ import annotations

import json
from collections.abc import Mapping, MutableMapping
from typing import TYPE_CHECKING, Any, Callable, List, Optional, Tuple, Union

from ._decode import Decoder, Tree
from ._distinct import distinct_values, may_name_place
from ._encode import encode_document, encode_text, encode_value, test_document
from ._errors import (CONFLICT, DOLLAR_KEY, NOT_PARSED, TWO_VALUES, DuplicateKeyError, InvalidWriteError, Refused,
                      WriteError)
from ._part import FIRST, WHOLE, Part
from ._query import asks_for_id, asks_for_plain_number, encode_query, ids_of, is_numeral, is_one_look
from ._reader import Reader
from ._results import UpdateResult
from ._session import Session
from ._values import ObjectId

if TYPE_CHECKING:
    from ._store import Store

Document = Mapping[str, Any]
# The first document that a query selects: its `_id`, as text, and its tree.
Found = Optional[Tuple[str, Tree]]
# How the program's words for an update end of which one path is the beginning of another.
CONFLICTING = "meets another path"
# Classes of `_id`s that are no documents, as most are.
PLAIN = (int, str, ObjectId, float, bytes)
# The part that most requests want.
OF_FIRST = FIRST.text()
# Keys of an `_id` that is a reference, which begin with `$` and may.
OF_REFERENCES = frozenset(["$ref", "$id", "$db"])


class Selection:
    """A query that was read, which asks for the trees of the documents that it selects, or of a part of them."""

    __slots__ = ("query", "is_by_id", "are_whole", "_fetch")

    def __init__(self, query: str, is_by_id: bool, are_whole: bool, fetch: Callable[[Part], List[Tree]]) -> None:
        # As the program reads it; whether it asks for a number as `_id`, which an index may serve; and whether the
        # documents come by one look for their `_id`, as a whole, whatever fields are wanted.
        self.query, self.is_by_id, self.are_whole = query, is_by_id, are_whole
        self._fetch = fetch

    def __call__(self, part: Part) -> List[Tree]:
        return self._fetch(part)


class Requests:
    """The requests of one collection."""

    __slots__ = ("_store", "_name", "_session", "_decoder", "_quoted")

    def __init__(self, store: "Store", name: str) -> None:
        self._store, self._name = store, name
        self._session: Union[Session, Reader] = store._session
        self._decoder: Decoder = store._decoder
        self._quoted = encode_text(name)

    @property
    def full_name(self) -> str:
        """The name of the store and its own, with a dot between them."""
        return f"{self._store.name}.{self._name}"

    def _ask(self, command: str, *places: str) -> Any:
        """The answer to a command of this collection."""
        return self._session.ask(command, self._quoted, *places)

    def _answer_if_found(self, command: str, *places: str) -> Any:
        """The answer to a command of a document, or None if there is no such document."""
        try:
            return self._ask(command, *places)
        except Refused as refused:
            if refused.kind == "NotFound":
                return None
            raise

    def _selection(self, query: Document) -> Selection:
        """A query that is read here."""
        test_document(query)
        text = encode_query(query)
        if is_one_look(query):
            ids = ids_of(query["_id"])
            return Selection(text, False, True, lambda part: self._with_ids(text, ids, part))
        is_by_id = asks_for_number(query) and self._session.has_indexes

        def fetch(part: Part) -> List[Tree]:
            self._prepare(query)
            return self._ask_part(text, part)

        return Selection(text, is_by_id, False, fetch)

    def _with_ids(self, query: str, ids: List[str], part: Part) -> List[Tree]:
        """The trees of a part of the documents with these `_id`s, which are all that a query selects."""
        with self._session.lock:
            found = [tree for own in ids for tree in self._got(own)]
            # Which of several comes first the program alone knows.
            return part.of(found) if len(found) < 2 else self._ask_part(query, part)

    def _prepare(self, query: Document) -> None:
        """Makes an index on `_id`, once in the life of the store, if a query asks for a number there, which may be
        written in many ways, so that the program reads few documents. Without it it reads all, with the same answer."""
        indexed = self._store._indexed_by_id
        if self._name in indexed or not self._session.has_indexes or not asks_for_number(query):
            return
        try:
            self._ask("index", '"_id"')
        except Refused as refused:
            if refused.kind != "Memory":
                raise
        indexed.add(self._name)

    def _got(self, own: str) -> List[Tree]:
        """The tree of the document with this `_id`, if there is one."""
        answer = self._answer_if_found("get", own)
        return [] if answer is None else [answer["document"]]

    def _ask_part(self, query: str, part: Part) -> List[Tree]:
        text = OF_FIRST if part is FIRST else part.text()
        places = [query, text] if text else [query] if query != "{}" else []
        return list(self._ask("find", *places)["documents"])

    def _distinct(self, path: str, query: str) -> List[Any]:
        """The different values at a path, in the order of values. MongoDB promises none: it has this one by an index on
        the path, and else that in which it meets them."""
        if not isinstance(path, str):
            raise TypeError(f"a path is a text, and not {path!r}")
        if may_name_place(path):
            # Here MongoDB's rule is another one than the program's.
            return distinct_values(map(self._decoder.document, self._ask_part(query, WHOLE)), path)
        return [self._decoder.value(tree) for tree in self._ask("distinct", encode_text(path), query)["values"]]

    def _seek(self, query: Document, part: Part = WHOLE, even_reserved: bool = False) -> Found:
        """The first document that a query selects. With `even_reserved` the tree is None of a document that has no
        Extended JSON, and is asked for by its `_id`."""
        test_document(query)
        if not is_one_look(query):
            self._prepare(query)
            trees = self._ask_part(encode_query(query), part.first())
            return (self._own_of(trees[0]), trees[0]) if trees else None
        with self._session.lock:
            for own in ids_of(query["_id"]):
                try:
                    answer = self._answer_if_found("get", own)
                except Refused as refused:
                    if refused.kind == "ReservedKey" and even_reserved:
                        return own, None
                    raise
                if answer is not None:
                    return own, answer["document"]
            return None

    def _own_of(self, tree: Tree) -> str:
        """The `_id` of a document, as text."""
        return encode_value(self._decoder.value(tree["_id"]))

    def _insert(self, text: str, own: Any) -> None:
        try:
            self._ask("insert", text)
        except DuplicateKeyError as error:
            raise error._of_id(self.full_name, own) from None

    def _text_with_id(self, document: Document, own: str) -> str:
        """The text of a document with this `_id`, at its place if it has one, else in front."""
        value = self._decoder.value(json.loads(own))
        return encode_document({**document, "_id": value} if "_id" in document else {"_id": value, **document})

    def _ask_update(self, command: str, *places: str) -> Any:
        """The answer to a command that has an update. ValueError if it isn't one that the program takes."""
        try:
            return self._ask(command, *places)
        except Refused as refused:
            if refused.kind == "Usage" and refused.at is not None and refused.at.startswith("update "):
                code = CONFLICT if refused.at.endswith(CONFLICTING) else NOT_PARSED
                raise InvalidWriteError(refused.at, code) from None
            if refused.kind == "Usage" and refused.at is not None and refused.at.endswith(CONFLICTING):
                raise InvalidWriteError(refused.at, TWO_VALUES) from None
            raise

    def _result(self, answer: Any) -> UpdateResult:
        return update_result(answer, self._decoder)


def asks_for_number(query: Document) -> bool:
    """Whether a query is one for an `_id` alone that is a number."""
    return asks_for_plain_number(query) or asks_for_id(query) and is_numeral(query["_id"])


def is_by_id(query: Document) -> bool:
    """Whether a query is one for an `_id` alone that is found without a scan."""
    return is_one_look(query) or asks_for_number(query)


def update_result(answer: Any, decoder: Decoder) -> UpdateResult:
    """How many documents a change found and changed, or the `_id` of one that it put in."""
    if "upserted" not in answer:
        return UpdateResult(answer["matched"], answer["changed"])
    return UpdateResult(0, 0, decoder.value(answer["upserted"]), did_upsert=True)


def is_stricter(refused: Refused) -> bool:
    """Whether a replacement was refused by a rule of the program that MongoDB hasn't: an `_id` has the kind of its
    number, and what a query asks to be equal can be set beside each other."""
    return refused.kind == "Id" or refused.at is not None and refused.at.endswith(CONFLICTING)


def with_id(document: Document) -> Tuple[str, Any]:
    """The text of a document, with a new `_id` in front if it has none, and the `_id`."""
    test_document(document)
    if "_id" in document:
        text, own = encode_document(document), document["_id"]
        if not isinstance(own, PLAIN):
            test_id(own)
        return text, own
    own = ObjectId()
    return encode_document({"_id": own, **document}), own


def test_id(own: Any) -> None:
    """WriteError if an `_id` is one that MongoDB has not: a document with a key that begins with `$`."""
    for key in own if isinstance(own, Mapping) else ():
        if isinstance(key, str) and key.startswith("$") and key not in OF_REFERENCES:
            raise WriteError(f"_id fields may not contain '$'-prefixed fields: {key} is not valid for storage.",
                             DOLLAR_KEY, {"index": 0, "code": DOLLAR_KEY})


def give_id(document: Document, own: Any) -> None:
    """Puts the new `_id` of a document into that itself."""
    if "_id" not in document and isinstance(document, MutableMapping):
        document["_id"] = own
