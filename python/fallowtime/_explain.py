"""Which index serves a query. The program says nothing of it, so it is told from the query and from the indexes that
the store made, by the rules of docs/QUERIES.md#indexes."""
from __future__ import annotations

import decimal
from collections.abc import Mapping
from typing import Any, Dict, Iterable, List, Set, Tuple

from ._decode import Tree
from ._encode import GREATEST_INT64, LEAST_INT64
from ._index import Index
from ._query import are_operators

# The typed values of canonical Extended JSON that an index finds, whatever they are.
FOUND = frozenset(["$numberInt", "$numberLong", "$oid", "$date", "$symbol"])
# The kinds of which an index has a list: arrays and decimals, by their names and numbers.
LISTED = ("array", "decimal", 4, 19)
# Operators that ask for what lies on one side of a value, and the typed values of which an index finds that.
RANGES = frozenset(["$gt", "$gte", "$lt", "$lte"])
ORDERED = frozenset(["$numberInt", "$numberLong", "$numberDouble", "$numberDecimal", "$symbol", "$date"])
# Operators that ask for what isn't there, by which no index on their path is looked for.
NEGATED = frozenset(["$ne", "$nin", "$not"])

Query = Mapping[str, Tree]


def plan_of(query: Query, is_by_id: bool, indexes: Iterable[Index]) -> Dict[str, Any]:
    """How the documents of a query are found, in MongoDB's words: by their `_id` at once, by an index, or by a look at
    each one. Of several indexes that serve it the program takes the one that has the fewest documents."""
    if is_by_id:
        return {"stage": "IDHACK"}
    by_path: Dict[str, Index] = {}
    for index in indexes:
        by_path.setdefault(index.path, index)
    names = _paths_of(query) & by_path.keys()
    serving = [index for path, index in by_path.items() if names and _serves(path.split("."), query)]
    if not serving:
        return {"stage": "COLLSCAN", "direction": "forward"}
    if len(serving) > 1:
        return {"stage": "IXSCAN", "indexNames": [index.name for index in serving], "direction": "forward"}
    return {"stage": "IXSCAN", "keyPattern": dict(serving[0].keys), "indexName": serving[0].name,
            "direction": "forward"}


def _paths_of(query: Query) -> Set[str]:
    """The paths of which a query asks that something is there."""
    paths: Set[str] = set()
    for path, value in query.items():
        if path in ("$and", "$or"):
            paths.update(*map(_paths_of, value))
        elif not path.startswith("$") and any(_asks(*condition) for condition in _conditions(value)):
            paths.add(path)
    return paths


def _asks(operator: str, operand: Tree) -> bool:
    """Whether a condition asks that something is there."""
    if operator == "$exists":
        return operand not in (False, {"$numberInt": "0"}, {"$numberLong": "0"})
    return operator not in NEGATED and not (operator in ("$in", "$all") and not operand)


def _conditions(value: Tree) -> List[Tuple[str, Tree]]:
    """What is asked of a path, by operators."""
    return list(value.items()) if are_operators(value) else [("$eq", value)]


def _serves(index: List[str], query: Query, with_ranges: bool = True) -> bool:
    """Whether an index on the path of these keys serves a query: one of what it asks together. Ranges it serves only
    where they are asked of every document."""
    return any(_entry_serves(index, path, value, with_ranges) for path, value in query.items())


def _entry_serves(index: List[str], path: str, value: Tree, with_ranges: bool) -> bool:
    if path == "$and":
        return any(_serves(index, inner, with_ranges) for inner in value)
    if path == "$or":
        return all(_serves(index, inner, with_ranges=False) for inner in value)
    keys = path.split(".")
    if path.startswith("$") or index[:len(keys)] != keys:
        return False
    is_whole = index == keys
    ranged = with_ranges and is_whole
    return any(_condition_serves(operator, operand, is_whole) or ranged and _is_range(operator, operand)
               for operator, operand in _conditions(value))


def _condition_serves(operator: str, operand: Tree, is_whole: bool) -> bool:
    """Whether an index serves a condition at its path, or, if it isn't the whole one, at a beginning of it."""
    if operator == "$type":
        kinds = operand if isinstance(operand, list) else [operand]
        return all(_kind_of(kind) in LISTED for kind in kinds)
    if operator == "$eq":
        return is_whole and is_found(operand)
    if operator == "$in":
        return all(is_whole and is_found(value) for value in operand)
    if operator == "$all":
        return not operand or is_whole and any(is_found(value) for value in operand)
    return False


def _is_range(operator: str, operand: Tree) -> bool:
    """Whether a condition asks for what is less or greater than a number, a text or a date."""
    typed = isinstance(operand, Mapping) and len(operand) == 1 and next(iter(operand)) in ORDERED
    return operator in RANGES and (typed or isinstance(operand, str))


def _kind_of(tree: Tree) -> Any:
    """The name or the number of a kind."""
    return int(float(next(iter(tree.values())))) if isinstance(tree, Mapping) else tree


def is_found(tree: Tree) -> bool:
    """Whether an index finds a value: a text, a number, an ObjectId, a date, a truth value."""
    if not isinstance(tree, Mapping):
        return isinstance(tree, (str, bool))
    if len(tree) != 1:
        return False
    (kind, value), = tree.items()
    if kind == "$numberDouble":
        return value not in ("NaN", "-NaN")
    return kind in FOUND or kind == "$numberDecimal" and _is_whole(decimal.Decimal(value))


def _is_whole(number: decimal.Decimal) -> bool:
    """Whether a decimal is a whole number of 64 bits."""
    return number.is_finite() and LEAST_INT64 <= number <= GREATEST_INT64 and number == int(number)
