"""What is at a path of a value, whether two values are equal, and the different values at a path with a place."""
from __future__ import annotations

import decimal
from typing import Any, Dict, Hashable, Iterable, Iterator, List, Optional

from ._values import Code


def may_name_place(path: str) -> bool:
    """Whether a key behind the first one is of digits, which is the place of an item, or a key of a document."""
    return any(_is_of_digits(key) for key in path.split(".")[1:])


def distinct_values(documents: Iterable[Dict[str, Any]], path: str) -> List[Any]:
    """The values at a path, the first one of those that are equal. An array at its end counts as its items.

    As MongoDB has it, and the program has not: behind an array digits are a place alone. For the program they are also
    a key of the documents in the array, as in a query."""
    found: Dict[Hashable, Any] = {}
    for document in documents:
        for value in values_at(document, path.split("."), are_digits_places=True):
            for item in value if isinstance(value, list) else [value]:
                found.setdefault(identity(item), item)
    return list(found.values())


def values_at(value: Any, keys: List[str], are_digits_places: bool = False) -> Iterator[Any]:
    """What is behind the keys: in a document at the key, in an array in each document or at the place that a key is,
    or, with `are_digits_places`, at the place alone if the key is of digits."""
    if not keys:
        yield value
    elif isinstance(value, dict):
        if keys[0] in value:
            yield from values_at(value[keys[0]], keys[1:], are_digits_places)
    elif isinstance(value, list):
        place = _place_of(keys[0])
        if place is not None and place < len(value):
            yield from values_at(value[place], keys[1:], are_digits_places)
        if are_digits_places and _is_of_digits(keys[0]):
            return
        for item in value:
            if isinstance(item, dict):
                yield from values_at(item, keys, are_digits_places)


def _is_of_digits(key: str) -> bool:
    return key.isascii() and key.isdigit()


def _place_of(key: str) -> Optional[int]:
    """The place that a key is, if it is written as one."""
    return int(key) if _is_of_digits(key) and (key == "0" or key[0] != "0") else None


def identity(value: Any) -> Hashable:
    """What two values have in common exactly if they are equal, as queries compare them."""
    if isinstance(value, bool) or value is None:
        return (type(value), value)
    if isinstance(value, (int, float, decimal.Decimal)):
        return ("number", "nan" if value != value else value)
    if isinstance(value, str) and not isinstance(value, Code):
        return ("text", str(value))
    if isinstance(value, dict):
        return ("document", tuple((key, identity(inner)) for key, inner in value.items()))
    if isinstance(value, list):
        return ("array", tuple(identity(item) for item in value))
    return (type(value), repr(value))
