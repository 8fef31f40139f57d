"""Updates of items of arrays: `$set` and `$unset` at paths such as ``lines.$[i].count``, of the items that
`array_filters` choose, and ``lines.$[].count``, of all.

The program's updates lead through documents alone. So a document is changed here, as the tree of canonical Extended
JSON that came from the program, and goes back as a whole. What else is asked of an item than that values are equal is
a NotImplementedError before anything is sent."""
from __future__ import annotations

import json
import re
from collections.abc import Mapping
from typing import Any, Dict, Hashable, List, NamedTuple, Optional, Sequence, Set, Tuple

from ._absent import refuse
from ._decode import Decoder, Tree
from ._distinct import identity, values_at
from ._encode import RESERVED, encode_value
from ._errors import BAD_VALUE, CONFLICT, NOT_PARSED, THROUGH, InvalidWriteError, WriteError
from ._query import are_operators, is_regex

# A step of a path through items: all of them, or those that the filter of a name chooses. And the item that the query
# of the update found, which isn't supported.
ALL_ITEMS = "$[]"
STEP = re.compile(r"\$\[.*\]")
NAME = re.compile(r"[a-z][a-zA-Z0-9]*")
FOUND_ITEM = "$"
# In the place of a value that isn't there.
MISSING = object()

Steps = Tuple[str, ...]
# What is asked of an item: the keys of a path in it, and what its value is to be equal to.
Filter = List[Tuple[List[str], Hashable]]


class Change(NamedTuple):
    """What is at a path afterwards: a tree, or MISSING."""

    steps: Steps
    value: Any


class ItemUpdate:
    """An update with a path through items."""

    __slots__ = ("_changes", "_filters", "_decoder")

    def __init__(self, changes: List[Change], filters: Dict[str, Filter], decoder: Decoder) -> None:
        self._changes, self._filters, self._decoder = changes, filters, decoder

    def changed(self, tree: Tree) -> Optional[str]:
        """A document as it is afterwards, as text, or None if it stays as it is. WriteError if it can't be changed."""
        made, ends = tree, _Ends()
        for change in self._changes:
            made = self._made(made, change.steps, (), change.value, ends)
        text = _text(made)
        return None if text == _text(tree) else text

    def _made(self, node: Any, steps: Steps, way: Steps, value: Any, ends: "_Ends") -> Any:
        """What is there afterwards in the place of `node`, to which `way` led, and from which `steps` lead on."""
        if not steps:
            ends.add(way)
            return value
        if STEP.fullmatch(steps[0]):
            return self._items_made(node, steps, way, value, ends)
        if node is MISSING and value is not MISSING:
            _test_no_items(steps, way)
            node = {}
        if isinstance(node, list) and steps[0].isdecimal():
            refuse(f"the place {steps[0]} of an array in an update", "items are chosen by array_filters")
        if not way or _is_document(node):
            return self._members_made(node, steps, way, value, ends)
        _test_no_items(steps, way)
        if value is not MISSING:
            raise WriteError(f"Cannot create field '{steps[0]}' in element {'.'.join(way)}", THROUGH)
        return node

    def _members_made(self, node: Any, steps: Steps, way: Steps, value: Any, ends: "_Ends") -> Any:
        """The same of a document."""
        key = steps[0]
        made = self._made(node.get(key, MISSING), steps[1:], (*way, key), value, ends)
        if made is not MISSING:
            return {**node, key: made}
        return {other: inner for other, inner in node.items() if other != key}

    def _items_made(self, node: Any, steps: Steps, way: Steps, value: Any, ends: "_Ends") -> Any:
        """The same of an array, of which each item that is chosen is changed. One that goes leaves null."""
        if node is MISSING:
            _test_no_items(steps, way)
        if not isinstance(node, list):
            raise WriteError(f"Cannot apply array updates to non-array element {'.'.join(way)}", BAD_VALUE)
        items = []
        for place, item in enumerate(node):
            if self._is_chosen(steps[0], item):
                item = self._made(item, steps[1:], (*way, str(place)), value, ends)
            items.append(None if item is MISSING else item)
        return items

    def _is_chosen(self, step: str, item: Tree) -> bool:
        """Whether an item is one of those that a step leads to."""
        if step == ALL_ITEMS:
            return True
        value = self._decoder.value(item)
        return all(_has(value, keys, wanted) for keys, wanted in self._filters[step[2:-1]])


class _Ends:
    """The places that were changed in a document. None of them is below another one."""

    __slots__ = ("_ends", "_ways")

    def __init__(self) -> None:
        self._ends: Set[Steps] = set()
        self._ways: Set[Steps] = set()

    def add(self, end: Steps) -> None:
        ways = {end[:length] for length in range(len(end) + 1)}
        if ways & self._ends or end in self._ways:
            raise _conflict(end)
        self._ends.add(end)
        self._ways |= ways


def item_update_of(update: "Mapping[str, Mapping[str, Any]]", array_filters: Any,
                   decoder: Decoder) -> Optional[ItemUpdate]:
    """An update that has a path through items, or None if it has none."""
    filters = _filters_of(array_filters, decoder)
    paths = [(operator, path, value) for operator, members in update.items() for path, value in members.items()]
    used = {step for _, path, _ in paths for step in path.split(".") if step == FOUND_ITEM or STEP.fullmatch(step)}
    if not used and not filters:
        return None
    for name in filters:
        if f"$[{name}]" not in used:
            raise InvalidWriteError(f"The array filter for identifier '{name}' was not used in the update", NOT_PARSED)
    changes = sorted((_change_of(*each, filters) for each in paths), key=lambda change: change.steps)
    _test_apart([change.steps for change in changes])
    return ItemUpdate(changes, filters, decoder)


def _change_of(operator: str, path: str, value: Any, filters: Dict[str, Filter]) -> Change:
    steps = tuple(path.split("."))
    if FOUND_ITEM in steps:
        refuse(f"the path {path} of an update", "items are chosen by array_filters, or are all, by $[]")
    if operator not in ("$set", "$unset"):
        refuse(f"{operator} beside a path through items", "items are changed by $set and $unset")
    for step in steps:
        if not step or step.startswith("$") and not STEP.fullmatch(step):
            raise InvalidWriteError(f"{operator} {path} is no path of keys", NOT_PARSED)
        if step.startswith("$") and step != ALL_ITEMS and step[2:-1] not in filters:
            raise InvalidWriteError(f"No array filter found for identifier '{step[2:-1]}' in path '{path}'", BAD_VALUE)
    if STEP.fullmatch(steps[0]):
        raise InvalidWriteError(f"Cannot have array filter identifier at the beginning of {path}", BAD_VALUE)
    return Change(steps, json.loads(encode_value(value)) if operator == "$set" else MISSING)


def _filters_of(array_filters: Any, decoder: Decoder) -> Dict[str, Filter]:
    """What is asked of items, by the names that stand for them."""
    if array_filters is None:
        return {}
    if not isinstance(array_filters, (list, tuple)):
        raise TypeError(f"array_filters is a list of queries, and not {type(array_filters).__name__}")
    filters: Dict[str, Filter] = {}
    for query in array_filters:
        if not isinstance(query, Mapping):
            raise TypeError(f"an array filter is a dict, and not {type(query).__name__}")
        names = {path.partition(".")[0] for path in query}
        if any(name.startswith("$") for name in names):
            refuse(f"{', '.join(sorted(names))} in an array filter", "an item is chosen by the values that it has")
        if len(names) != 1 or names & filters.keys():
            raise InvalidWriteError(f"An array filter has one name of its own in its paths, and not {sorted(names)}",
                                    NOT_PARSED)
        name = names.pop()
        if not NAME.fullmatch(name):
            raise InvalidWriteError(f"The name of an array filter begins with a small letter, and not as {name!r}",
                                    BAD_VALUE)
        filters[name] = [(path.split(".")[1:], _wanted(path, value, decoder)) for path, value in query.items()]
    return filters


def _wanted(path: str, value: Any, decoder: Decoder) -> Hashable:
    """What the value at a path of an item is to be equal to."""
    if are_operators(value) and list(value) == ["$eq"]:
        value = value["$eq"]
    elif are_operators(value) or is_regex(value):
        refuse(f"{value!r} of {path} in an array filter", "an item is chosen by the values that it has")
    if value is None:
        refuse(f"None of {path} in an array filter", "an item is chosen by the values that it has")
    return identity(decoder.value(json.loads(encode_value(value))))


def _has(item: Any, keys: List[str], wanted: Hashable) -> bool:
    """Whether an item has a value at a path, itself or as an item of an array."""
    for value in values_at(item, keys):
        if identity(value) == wanted or isinstance(value, list) and wanted in map(identity, value):
            return True
    return False


def _test_apart(paths: Sequence[Steps]) -> None:
    """A conflict if one path is the beginning of another one, or if one leads to items by their filter where another
    one has a key."""
    for place, one in enumerate(paths):
        for other in paths[place + 1:]:
            same = 0
            while same < min(len(one), len(other)) and one[same] == other[same]:
                same += 1
            if same in (len(one), len(other)) or bool(STEP.fullmatch(one[same])) != bool(STEP.fullmatch(other[same])):
                raise _conflict(other)


def _conflict(path: Steps) -> InvalidWriteError:
    return InvalidWriteError(f"Updating the path '{'.'.join(path)}' would create a conflict", CONFLICT)


def _test_no_items(steps: Steps, way: Steps) -> None:
    """WriteError if steps lead through items, as nothing is where the way leads."""
    if any(STEP.fullmatch(step) for step in steps):
        raise WriteError(f"The path '{'.'.join(way)}' must exist in the document in order to apply array updates.",
                         BAD_VALUE)


def _is_document(tree: Tree) -> bool:
    """Whether a tree is that of a document, and not of a typed value."""
    return isinstance(tree, dict) and next(iter(tree), None) not in RESERVED


def _text(tree: Tree) -> str:
    return json.dumps(tree, ensure_ascii=False, separators=(",", ":"))
