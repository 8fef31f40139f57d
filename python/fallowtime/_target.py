"""Where a pipeline puts what comes of it: the stages `$out` and `$merge`."""
from __future__ import annotations

from collections.abc import Mapping
from typing import Any, NamedTuple, Optional, Tuple

from ._absent import refuse
from ._errors import BAD_VALUE, OperationFailure

# The stages, which come last.
OUT, MERGE = "$out", "$merge"
# What a document becomes that is there already, and what becomes of one that isn't. The first of each is meant if none
# is named.
MATCHED = ("merge", "replace", "keepExisting", "fail")
UNMATCHED = ("insert", "discard", "fail")


class Target(NamedTuple):
    """A collection of a store, or of the pipeline's own, and what becomes of documents in it."""

    stage: str
    database: Optional[str]
    name: str
    matched: str = MATCHED[0]
    unmatched: str = UNMATCHED[0]


def target_of(stage: str, value: Any) -> Target:
    """What a stage says."""
    if stage == OUT:
        return Target(stage, *_place(stage, value))
    given = dict(value) if isinstance(value, Mapping) else {"into": value}
    place = _place(stage, given.pop("into", None))
    if given.pop("on", "_id") not in ("_id", ["_id"], ("_id",)):
        refuse("on of $merge", "documents are the same by their _id")
    matched = _choice("whenMatched", given.pop("whenMatched", MATCHED[0]), MATCHED)
    unmatched = _choice("whenNotMatched", given.pop("whenNotMatched", UNMATCHED[0]), UNMATCHED)
    if given:
        refuse(f"{', '.join(given)} of $merge", "it has into, whenMatched and whenNotMatched")
    return Target(stage, *place, matched, unmatched)


def _place(stage: str, value: Any) -> Tuple[Optional[str], str]:
    """The name of a store, if there is one, and that of a collection."""
    database = None
    if isinstance(value, Mapping):
        if set(value) != {"db", "coll"}:
            refuse(f"{', '.join(value)} of {stage}", "a collection has a db and a coll")
        database, value = value["db"], value["coll"]
    if not isinstance(value, str) or not value:
        raise OperationFailure(f"{stage} takes the name of a collection, and not {value!r}", BAD_VALUE)
    return database, value


def _choice(name: str, value: Any, choices: Tuple[str, ...]) -> str:
    if isinstance(value, (list, tuple)):
        refuse(f"a pipeline as {name} of $merge", "it is " + ", ".join(choices))
    if value not in choices:
        raise OperationFailure(f"{name} of $merge is {', '.join(choices)}, and not {value!r}", BAD_VALUE)
    return str(value)
