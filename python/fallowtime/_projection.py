"""The fields of documents that are wanted, by paths: those that are named, or all others. The program takes them where
it looks for documents (`find`), and this module where a document comes whole: by its `_id`, or as it is changed."""
from __future__ import annotations

from collections.abc import Mapping
from typing import Any, Callable, Dict

from ._absent import refuse
from ._errors import COLLISION, OperationFailure
from ._query import is_number

Document = Dict[str, Any]
# Which paths are named, as a tree of their keys; None ends one.
Paths = Dict[str, Any]


class Projection:
    """What is wanted of documents."""

    __slots__ = ("fields", "_take")

    def __init__(self, fields: Dict[str, int], take: Callable[[Document], Document]) -> None:
        # As the program reads it: the paths, with 1 at those that are wanted and 0 at the others; empty for all.
        self.fields = fields
        self._take = take

    def __call__(self, document: Document) -> Document:
        """What is wanted of a whole document."""
        return self._take(document)


def projection_of(asked: Any) -> Projection:
    """What is wanted, as a program for pymongo says it."""
    if asked is None:
        return WHOLE_DOCUMENTS
    members = _members(asked)
    kinds = {path: _is_wanted(path, value) for path, value in members.items()}
    wanted = {is_wanted for path, is_wanted in kinds.items() if path != "_id"}
    if len(wanted) > 1:
        raise OperationFailure("a projection names what is wanted or what isn't, and not both", 31254)
    if not kinds:
        return WHOLE_DOCUMENTS
    is_inclusion = wanted.pop() if wanted else kinds["_id"]
    _tree(kinds)
    paths = _tree([path for path, is_wanted in kinds.items() if is_wanted == is_inclusion])
    # Beside fields that aren't wanted the `_id` is there anyhow, and the program lets it not be named.
    fields = {path: int(is_wanted) for path, is_wanted in kinds.items() if is_inclusion or not is_wanted}
    if is_inclusion:
        if kinds.get("_id", True):
            paths.setdefault("_id", None)
        return Projection(fields, lambda document: _included(document, paths))
    return Projection(fields, lambda document: _excluded(document, paths))


def _whole(document: Document) -> Document:
    return document


def _members(asked: Any) -> Dict[str, Any]:
    """A projection as a dict. A list has the paths that are wanted."""
    members = dict(asked) if isinstance(asked, Mapping) else asked
    if isinstance(asked, (list, tuple, set, frozenset)):
        members = {path: 1 for path in asked}
    if not isinstance(members, dict):
        raise TypeError(f"a projection is a dict or a list of paths, and not {type(asked).__name__}")
    for path in members:
        if not isinstance(path, str):
            raise TypeError(f"a path is a text, and not {path!r}")
        if not all(path.split(".")) or "$" in path:
            refuse(f"the path {path!r} of a projection", "it has a key between its dots, and no $")
    return members


def _is_wanted(path: str, value: Any) -> bool:
    if not isinstance(value, bool) and not is_number(value):
        refuse(f"{value!r} in a projection", "a path is wanted, as 1 says, or isn't, as 0 says")
    return bool(value)


def _tree(paths: Any) -> Paths:
    tree: Paths = {}
    for path in paths:
        inner: Any = tree
        *before, last = path.split(".")
        for key in before:
            inner = inner.setdefault(key, {})
            if inner is None:
                raise _collision(path)
        if last in inner:
            raise _collision(path)
        inner[last] = None
    return tree


def _collision(path: str) -> OperationFailure:
    return OperationFailure(f"Path collision at {path}: a path of a projection is the beginning of another", COLLISION)


def _included(document: Document, paths: Paths) -> Document:
    """What is at the paths. Of an array each document in it, or in an array in it, is taken; a value that has no
    members is left out where a path goes on."""
    made = {}
    for key, value in document.items():
        if key not in paths:
            continue
        inner = paths[key]
        if inner is None:
            made[key] = value
        elif isinstance(value, dict):
            made[key] = _included(value, inner)
        elif isinstance(value, list):
            made[key] = _items(value, inner, _included, keeps=False)
    return made


def _excluded(document: Document, paths: Paths) -> Document:
    """What isn't at the paths."""
    made = {}
    for key, value in document.items():
        inner = paths.get(key, ...)
        if inner is None:
            continue
        if inner is not ... and isinstance(value, dict):
            value = _excluded(value, inner)
        elif inner is not ... and isinstance(value, list):
            value = _items(value, inner, _excluded, keeps=True)
        made[key] = value
    return made


def _items(items: Any, paths: Paths, take: Callable[[Document, Paths], Document], keeps: bool) -> Any:
    """The same of the items of an array."""
    made = []
    for item in items:
        if isinstance(item, dict):
            made.append(take(item, paths))
        elif isinstance(item, list):
            made.append(_items(item, paths, take, keeps))
        elif keeps:
            made.append(item)
    return made


WHOLE_DOCUMENTS = Projection({}, _whole)
