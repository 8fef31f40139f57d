"""Updates in MongoDB's operators, as JSON that the program reads. What isn't supported is a NotImplementedError before
anything is sent."""
from __future__ import annotations

from collections.abc import Mapping
from typing import Any

from ._absent import refuse
from ._encode import encode_document, encode_text
from ._errors import refusal

# The operators that the program has, each with an object of paths.
OPERATORS = frozenset([
    "$set", "$setOnInsert", "$unset", "$inc", "$mul", "$min", "$max", "$currentDate", "$push", "$addToSet",
    "$pull", "$pullAll", "$pop", "$rename",
])


def encode_update(method: str, update: Any) -> str:
    """An update as JSON. NotImplementedError for operators that aren't supported."""
    if isinstance(update, (list, tuple)):
        refuse(f"a pipeline of {method}", "an update has operators, as $set")
    if not isinstance(update, Mapping):
        raise TypeError(f"an update is a dict, and not {type(update).__name__}")
    if not update:
        raise ValueError("an update has operators, as $set")
    for operator, members in update.items():
        if not isinstance(operator, str) or not operator.startswith("$"):
            raise ValueError(f"an update has operators, as $set, and {operator!r} is none")
        if operator not in OPERATORS:
            refuse(f"the operator {operator} of {method}", "an update has " + ", ".join(sorted(OPERATORS)))
        if not isinstance(members, Mapping):
            raise TypeError(f"{operator} takes a dict, and not {type(members).__name__}")
        if operator == "$currentDate" and {"$type": "timestamp"} in members.values():
            refuse(f"a timestamp of $currentDate in {method}", "it sets a date")
        for path in members:
            _test_path(path)
    texts = (f"{encode_text(operator)}:{encode_document(members)}" for operator, members in update.items())
    return "{" + ",".join(texts) + "}"


def _test_path(path: Any) -> None:
    if not isinstance(path, str):
        raise TypeError(f"a path is a text, and not {path!r}")
    if path.partition(".")[0] == "_id":
        raise refusal("BadKey", key=path)
