"""Which of the documents that a query selects are wanted, in which order, and which fields of them."""
from __future__ import annotations

from collections.abc import Mapping
from typing import Any, Dict, List, Optional, Tuple

from ._absent import refuse
from ._decode import Tree
from ._encode import encode_text
from ._errors import EMPTY_KEY, OperationFailure


class Part:
    """An order, how many documents are left out at the beginning, and how many are wanted at the most, 0 for all. Of
    each the fields at paths with 1, or all but those with 0."""

    __slots__ = ("keys", "skip", "limit", "fields")

    def __init__(self, sort: Any = None, skip: int = 0, limit: int = 0,
                 fields: Optional[Dict[str, int]] = None) -> None:
        self.keys, self.fields = keys_of(sort), fields or {}
        self.skip, self.limit = _number("skip", skip), abs(_number("limit", limit))

    def first(self) -> "Part":
        """The first document of the part."""
        return FIRST if self is WHOLE else self.but(limit=1)

    def but(self, **changed: Any) -> "Part":
        """The same, except for what is named."""
        options: Dict[str, Any] = {"sort": self.keys, "skip": self.skip, "limit": self.limit, "fields": self.fields}
        return Part(**{**options, **changed})

    def text(self, other: str = "") -> str:
        """It as the program reads it: `{"sort":{"a":1},"fields":{"b":0},"skip":1,"limit":1}`, with another option if
        there is one; empty if all documents are wanted as they came."""
        named = (("sort", self.keys), ("fields", self.fields))
        parts = [f'"{name}":{{{_paths_text(paths)}}}' for name, paths in named if paths]
        parts.extend(f'"{name}":{number}' for name, number in (("skip", self.skip), ("limit", self.limit)) if number)
        parts.extend([other] if other else [])
        return "{%s}" % ",".join(parts) if parts else ""

    def of(self, trees: List[Tree]) -> List[Tree]:
        """The part of documents that are in order."""
        return trees[self.skip:self.skip + self.limit] if self.limit else trees[self.skip:]

    def count(self, number: int) -> int:
        """How many of so many documents are in the part."""
        left = max(0, number - self.skip)
        return min(left, self.limit) if self.limit else left


def _paths_text(paths: Dict[str, int]) -> str:
    return ",".join(f"{encode_text(path)}:{number}" for path, number in paths.items())


def keys_of(sort: Any, direction: Optional[int] = 1) -> Dict[str, int]:
    """The paths by which is sorted, each with 1, or with -1 if the greatest value comes first."""
    if sort is None or sort == [] or sort == ():
        return {}
    if isinstance(sort, str):
        return dict([_key(sort, 1 if direction is None else direction)])
    if not isinstance(sort, (Mapping, list, tuple)):
        raise TypeError(f"a sort is a path, or a list of paths with 1 or -1, and not {sort!r}")
    pairs = sort.items() if isinstance(sort, Mapping) else [(key, 1) if isinstance(key, str) else key for key in sort]
    return dict([_key(*pair) for pair in pairs])


def _key(path: Any, direction: Any) -> Tuple[str, int]:
    if not isinstance(path, str):
        raise TypeError(f"a path is a text, and not {path!r}")
    if path.startswith("$") or isinstance(direction, Mapping):
        refuse(f"a sort by {path}", "documents are sorted by the values at paths")
    if not all(path.split(".")):
        raise OperationFailure(f"the path {path!r} of a sort has a key that is empty", EMPTY_KEY)
    if isinstance(direction, bool) or direction not in (1, -1):
        raise ValueError(f"a direction is 1 or -1, and not {direction!r}")
    return path, int(direction)


def _number(name: str, value: Any) -> int:
    if not isinstance(value, int) or isinstance(value, bool):
        raise TypeError(f"{name} is a number of documents, and not {value!r}")
    if value < 0 and name == "skip":
        raise ValueError(f"{name} is a number of documents, and not {value}")
    return value


WHOLE, FIRST = Part(), Part(limit=1)
