"""The paths and the names of indexes, as pymongo writes them: `customer.city` and `customer.city_1`."""
from __future__ import annotations

from collections.abc import Mapping
from typing import Any, List, Tuple

from ._absent import IDLE_OF_INDEX, OPTIONS_OF_INDEX, refuse, test_options

# pymongo's words for the two directions of keys. An index has none here, and serves both.
ASCENDING, DESCENDING = 1, -1
# Those for indexes of other sorts, which are refused by name as one is made.
GEO2D, GEOSPHERE, HASHED, TEXT = "2d", "2dsphere", "hashed", "text"
# The index on _id that every collection has, by its name and its keys.
ID_NAME, ID_KEYS = "_id_", [("_id", ASCENDING)]
# The version of indexes that MongoDB reports.
VERSION = 2


class Index:
    """An index that was made: its name, its path, its direction, and options that mean nothing here."""

    __slots__ = ("name", "path", "direction", "options")

    def __init__(self, keys: Any, options: Mapping[str, Any]) -> None:
        given = {name: value for name, value in options.items() if value is not None and value is not False}
        name = given.pop("name", None)
        test_options("create_index", dict.fromkeys(given, True), OPTIONS_OF_INDEX, IDLE_OF_INDEX)
        self.path, self.direction = only_key("create_index", keys)
        self.name: str = name_of(self.path, self.direction) if name is None else name
        if not isinstance(self.name, str) or not self.name:
            raise TypeError(f"the name of an index is a text, and not {name!r}")
        self.options = {name: value for name, value in given.items() if name != "comment"}

    @property
    def keys(self) -> List[Tuple[str, int]]:
        """Its keys, as pymongo has them."""
        return [(self.path, self.direction)]


def name_of(path: str, direction: int = ASCENDING) -> str:
    """The name of an index on a path, if it is given none."""
    return f"{path}_{direction}"


def path_of_name(name: str) -> str:
    """The path in a name that an index was given as `create_index` names it."""
    for direction in ASCENDING, DESCENDING:
        ending = name_of("", direction)
        if name.endswith(ending):
            return name[:-len(ending)]
    raise ValueError(f"an index has the name that create_index returns, and not {name!r}")


def _pairs(keys: Any) -> List[Tuple[Any, Any]]:
    """The keys with their directions. A key alone ascends."""
    if isinstance(keys, Mapping):
        return list(keys.items())
    if not isinstance(keys, (list, tuple)):
        raise TypeError(f"an index is on a path, or a list of one path and 1, and not on {keys!r}")
    return [(key, ASCENDING) if isinstance(key, str) else _pair(key) for key in keys]


def _pair(pair: Any) -> Tuple[Any, Any]:
    if not isinstance(pair, (list, tuple)) or len(pair) != 2:
        raise TypeError(f"a key of an index is a path and 1, and not {pair!r}")
    return pair[0], pair[1]


def only_key(method: str, keys: Any) -> Tuple[str, int]:
    """The path and the direction of the only key."""
    pairs = [(keys, ASCENDING)] if isinstance(keys, str) else _pairs(keys)
    if not pairs:
        raise ValueError("an index has a key")
    if len(pairs) > 1:
        refuse(f"{method} on several keys", "an index is on one path; there may be several")
    path, direction = pairs[0]
    if not isinstance(path, str):
        raise TypeError(f"a path is a text, and not {path!r}")
    _test_path(method, path)
    if isinstance(direction, bool) or direction not in (ASCENDING, DESCENDING):
        refuse(f"{method} with {direction!r}", "an index is one of values, and 1 or -1 stands for that")
    return path, int(direction)


def _test_path(method: str, path: str) -> None:
    """NotImplementedError for a path that stands for many."""
    if "$**" in path.split("."):
        refuse(f"{method} on {path}", "an index is on one path")
