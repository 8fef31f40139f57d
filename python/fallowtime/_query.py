"""Queries in MongoDB's language, as JSON that the program reads (docs/QUERIES.md). What the language hasn't here is a
NotImplementedError before anything is sent."""
from __future__ import annotations

import decimal
import re
from collections.abc import Mapping
from typing import Any, Callable, Dict, List

from ._encode import RESERVED, encode_text, encode_value
from ._values import Code, ObjectId, Regex, Symbol, is_foreign, options_of

# Classes of most `_id`s: those that are written in one way, or two, and those that are written in many.
PLAIN, NUMBERS = frozenset([str, ObjectId]), frozenset([int, float])
JOINING = frozenset(["$and", "$or", "$nor"])
# The options of a pattern that the program takes.
_OPTIONS = frozenset("imsux")


def is_number(value: Any) -> bool:
    """Whether a value is an integer or a double, whose number documents have in several kinds."""
    return isinstance(value, (int, float)) and not isinstance(value, bool)


def is_regex(value: Any) -> bool:
    """Whether a value is a regular expression, by which MongoDB searches texts."""
    return isinstance(value, (re.Pattern, Regex)) or is_foreign(value, "Regex")


def are_operators(value: Any) -> bool:
    """Whether a value under a path is one of operators: a document whose first key begins with `$`, and doesn't begin
    a reference."""
    if not isinstance(value, Mapping):
        return False
    first = next(iter(value), None)
    return isinstance(first, str) and first.startswith("$") and first not in RESERVED and first != "$ref"


def _plain_operand(value: Any) -> str:
    """A value that is asked for elsewhere than under `$eq`, where a regular expression would search."""
    if is_regex(value):
        raise NotImplementedError("a search by a regular expression as a value isn't supported: under $regex it searches")
    return encode_value(value)


def _list_of(operator: str, value: Any) -> List[Any]:
    if not isinstance(value, (list, tuple)):
        raise TypeError(f"{operator} takes a list, and not {type(value).__name__}")
    return list(value)


def _bracketed(texts: List[str]) -> str:
    return "[" + ",".join(texts) + "]"


def _in(value: Any) -> str:
    return _bracketed([_plain_operand(item) for item in _list_of("$in", value)])


def _nin(value: Any) -> str:
    return _bracketed([_plain_operand(item) for item in _list_of("$nin", value)])


def _all(value: Any) -> str:
    items = _list_of("$all", value)
    return _bracketed([_operators(item) if are_operators(item) else _plain_operand(item) for item in items])


def _element_match(value: Any) -> str:
    """Operators on an item, or a query of one that is a document."""
    if not isinstance(value, Mapping):
        raise TypeError(f"$elemMatch takes a dict, and not {type(value).__name__}")
    return _operators(value) if next(iter(value), None) in _OPERATORS else encode_query(value)


def _number(operator: str, value: Any) -> str:
    if not is_numeral(value):
        raise TypeError(f"{operator} takes a number, and not {value!r}")
    return encode_value(value)


def _size(value: Any) -> str:
    return _number("$size", value)


def _mod(value: Any) -> str:
    return _bracketed([_number("$mod", item) for item in _list_of("$mod", value)])


def _exists(value: Any) -> str:
    return encode_value(value) if isinstance(value, bool) else _number("$exists", value)


def _kind(value: Any) -> str:
    return encode_text(value) if isinstance(value, str) else _number("$type", value)


def _type(value: Any) -> str:
    return _bracketed([_kind(item) for item in value]) if isinstance(value, (list, tuple)) else _kind(value)


def _regex(value: Any) -> str:
    """A pattern, which the program refuses if it hasn't its syntax. What `re.compile` makes of a text has the flag for
    Unicode, which a text of BSON is in any case."""
    if isinstance(value, str):
        return encode_text(value)
    if is_regex(value):
        options = value.options if isinstance(value, Regex) else options_of(value.flags)
        if isinstance(value.pattern, str) and _OPTIONS.issuperset(options):
            # Those beside it are refused if it has its own, so it has none for what is done in any case.
            return encode_value(Regex(value.pattern, options.replace("u", "")))
    raise NotImplementedError(f"$regex takes a text, or a pattern with the options imsux, and not {value!r}")


def _options(value: Any) -> str:
    if not isinstance(value, str) or not _OPTIONS.issuperset(value):
        raise NotImplementedError(f"$options takes the letters imsux, and not {value!r}")
    return encode_text(value)


def _not(value: Any) -> str:
    if is_regex(value):
        return _plain_operand(value)
    if not are_operators(value):
        raise TypeError(f"$not takes a dict of operators, and not {value!r}")
    return _operators(value)


_OPERATORS: Dict[str, Callable[[Any], str]] = {
    "$eq": encode_value,
    "$ne": _plain_operand,
    "$gt": _plain_operand,
    "$gte": _plain_operand,
    "$lt": _plain_operand,
    "$lte": _plain_operand,
    "$in": _in,
    "$nin": _nin,
    "$all": _all,
    "$elemMatch": _element_match,
    "$size": _size,
    "$exists": _exists,
    "$type": _type,
    "$mod": _mod,
    "$regex": _regex,
    "$options": _options,
    "$not": _not,
}


def _operators(value: "Mapping[str, Any]") -> str:
    if "$options" in value and "$regex" not in value:
        raise NotImplementedError("$options isn't supported in a query without $regex")
    parts = []
    for name, operand in value.items():
        write = _OPERATORS.get(name)
        if write is None:
            raise NotImplementedError(f"the operator {name} isn't supported in a query")
        parts.append(encode_text(name) + ":" + write(operand))
    return "{" + ",".join(parts) + "}"


def _joined(name: str, value: Any) -> str:
    if not isinstance(value, (list, tuple)):
        raise TypeError(f"{name} takes a list of queries, and not {type(value).__name__}")
    return "[" + ",".join([encode_query(item) for item in value]) + "]"


def _entry(path: Any, value: Any) -> str:
    if not isinstance(path, str):
        raise TypeError(f"a path in a query is a text, and not {path!r}")
    if path in JOINING:
        return encode_text(path) + ":" + _joined(path, value)
    if path == "$comment":
        return encode_text(path) + ":" + encode_value(value)
    if path.startswith("$"):
        raise NotImplementedError(f"the operator {path} isn't supported at the top of a query")
    return encode_text(path) + ":" + (_operators(value) if are_operators(value) else _plain_operand(value))


def encode_query(query: Any) -> str:
    """The JSON of a query. NotImplementedError for what the language hasn't here."""
    if not isinstance(query, Mapping):
        raise TypeError(f"a query is a dict, and not {type(query).__name__}")
    return "{" + ",".join([_entry(path, value) for path, value in query.items()]) + "}"


def asks_for_id(query: "Mapping[str, Any]") -> bool:
    """Whether a query is one for an `_id` alone."""
    return len(query) == 1 and "_id" in query and not are_operators(query["_id"]) and not is_regex(query["_id"])


def is_one_look(query: "Mapping[str, Any]") -> bool:
    """Whether a query is one for an `_id` alone whose documents are those with the `ids_of` its value."""
    if len(query) == 1 and type(query.get("_id")) in PLAIN:
        return True
    return not asks_for_plain_number(query) and asks_for_id(query) and not has_many_ids(query["_id"])


def asks_for_plain_number(query: "Mapping[str, Any]") -> bool:
    """Whether a query is one for an `_id` alone that is an `int` or a `float`: quickly, as most requests ask this."""
    return len(query) == 1 and type(query.get("_id")) in NUMBERS


def has_many_ids(value: Any) -> bool:
    """Whether `_id`s that are equal to a value may be written in many ways: as a number is in each kind and, as a
    decimal, with more or fewer zeros, and so is what is made of several values."""
    return (is_numeral(value) or isinstance(value, (Mapping, list, tuple, Code))
            or any(is_foreign(value, name) for name in ("Code", "DBRef")))


def ids_of(value: Any) -> List[str]:
    """The `_id`s that are equal to a value, as JSON, its own one first: a text and a symbol are. At most one document
    has each of them."""
    own = encode_value(value)
    if isinstance(value, Symbol):
        return [own, encode_text(str(value))]
    return [own, encode_value(Symbol(value))] if isinstance(value, str) else [own]


def are_same_id(one: Any, other: Any) -> bool:
    """Whether two values are equal as `_id`s in a query, so that a document may have either of them."""
    if is_numeral(one) and is_numeral(other):
        first, second = _number_of(one), _number_of(other)
        return bool(first == second or first != first and second != second)
    return encode_value(one) in ids_of(other)


def is_numeral(value: Any) -> bool:
    """Whether a value is a number of any kind."""
    return is_number(value) or isinstance(value, decimal.Decimal) or is_foreign(value, "Decimal128")


def _number_of(value: Any) -> Any:
    """A number that compares exactly with those of other kinds. Each NaN is one that can be compared."""
    number = value.to_decimal() if is_foreign(value, "Decimal128") else value
    return float("nan") if isinstance(number, decimal.Decimal) and number.is_nan() else number
