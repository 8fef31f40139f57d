"""What a query asks to be equal, of which a document is made that is put in as none is selected.

The program makes it, of what MongoDB's manual says. Where MongoDB takes another condition for an equality, this is a
NotImplementedError before anything is sent."""
from __future__ import annotations

from collections.abc import Mapping
from typing import Any, Iterator, Tuple

from ._absent import refuse
from ._query import are_operators, is_regex

# Operators of queries that ask for no one value, so that a document that is put in has none of them.
_VAGUE = frozenset(["$ne", "$gt", "$gte", "$lt", "$lte", "$nin", "$size", "$exists", "$type", "$mod", "$regex",
                    "$options", "$not", "$elemMatch"])


def upserted_id(query: "Mapping[str, Any]") -> Iterator[Any]:
    """The `_id` that a query asks for, if it asks for one."""
    for path, value in equalities(query, "_id"):
        if path == "_id":
            yield value
        elif path.startswith("_id."):
            refuse(f"{path} with upsert", "an _id is asked for as a whole")


def equalities(query: "Mapping[str, Any]", beginning: str = "") -> Iterator[Tuple[str, Any]]:
    """The paths of a query, of those that begin so, with the values that they are to be equal to."""
    for path, value in query.items():
        if path == "$and":
            for inner in value:
                yield from equalities(inner, beginning)
        elif path == "$or" and len(value) == 1:
            refuse("$or of one query with upsert", "the query itself does it")
        elif path.startswith("$") or not path.startswith(beginning):
            continue
        elif not are_operators(value):
            if not is_regex(value):
                yield path, value
        else:
            yield from _equalities_below(path, value)


def _equalities_below(path: str, operators: "Mapping[str, Any]") -> Iterator[Tuple[str, Any]]:
    for operator, value in operators.items():
        if operator == "$eq":
            yield path, value
        elif operator == "$in" and len(value) != 1:
            continue
        elif operator not in _VAGUE:
            refuse(f"{operator} under {path} with upsert", "a query for a value asks for it by $eq")
