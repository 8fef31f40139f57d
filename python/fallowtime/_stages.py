"""Stages of a pipeline as JSON that the program reads (docs/QUERIES.md, Pipelines). What a stage hasn't here is a
NotImplementedError before anything is sent."""
from __future__ import annotations

from collections.abc import Mapping
from typing import Any, Callable, Dict, List, Tuple

from ._absent import refuse
from ._encode import encode_text, encode_value
from ._part import keys_of
from ._projection import projection_of
from ._query import encode_query

# A stage by its name, and what it takes.
Stage = Tuple[str, Any]
# What becomes of the values of a group.
ACCUMULATORS = frozenset(["$sum", "$avg", "$min", "$max", "$first", "$last", "$push", "$addToSet"])
# Values that stand for themselves wherever they are.
CONSTANTS = (type(None), bool, int, float)


def encode_stages(stages: List[Stage]) -> str:
    """The stages, one after the other."""
    return "[%s]" % ",".join(_object({name: ENCODERS[name](value)}) for name, value in stages)


def test_stage(name: str, value: Any) -> None:
    """Refuses what a stage of its own kind can't take, before it is known who runs it."""
    if name == "$project" and (not isinstance(value, Mapping) or not value):
        raise TypeError(f"$project takes a dict that has a path, and not {value!r}")
    if name == "$count":
        _test_name("$count", value)
    if name in ("$skip", "$limit") and (not isinstance(value, int) or isinstance(value, bool) or value < 0):
        raise ValueError(f"{name} takes a number, and not {value!r}")
    if name == "$limit" and value < 1:
        raise ValueError(f"$limit takes a number from 1, and not {value!r}")


def _object(members: Dict[str, str]) -> str:
    return "{%s}" % ",".join(f"{encode_text(key)}:{text}" for key, text in members.items())


def _test_name(where: str, name: Any) -> None:
    if not isinstance(name, str) or not name or name.startswith("$") or "." in name:
        raise ValueError(f"{where} takes the name of a key, and not {name!r}")


def _query(value: Any) -> str:
    return encode_query(value)


def _sort(value: Any) -> str:
    keys = keys_of(value)
    if not isinstance(value, Mapping) or not keys:
        raise TypeError(f"$sort takes a dict of paths with 1 or -1, and not {value!r}")
    return _object({path: str(way) for path, way in keys.items()})


def _number(value: Any) -> str:
    return str(value)


def _fields(value: Any) -> str:
    return _object({path: str(is_wanted) for path, is_wanted in projection_of(value).fields.items()})


def _path(where: str, value: Any) -> str:
    if not isinstance(value, str) or not value.startswith("$") or value.startswith("$$"):
        refuse(f"{value!r} in {where}", "a path is a text with one $ in front")
    return encode_text(value)


def _unwind(value: Any) -> str:
    if not isinstance(value, Mapping):
        return _path("$unwind", value)
    given = dict(value)
    path, keeps = _path("$unwind", given.pop("path", None)), given.pop("preserveNullAndEmptyArrays", False)
    if given:
        refuse(f"{', '.join(map(str, given))} of $unwind", "it has path and preserveNullAndEmptyArrays")
    if not isinstance(keeps, bool):
        raise TypeError(f"preserveNullAndEmptyArrays is True or False, and not {keeps!r}")
    return _object({"path": path, "preserveNullAndEmptyArrays": str(keeps).lower()}) if keeps else path


def _operand(where: str, value: Any) -> str:
    """A path, or a constant."""
    if isinstance(value, str):
        return _path(where, value) if value.startswith("$") else encode_text(value)
    if not isinstance(value, CONSTANTS):
        refuse(f"{value!r} in {where}", "it takes a path, None, a truth value, an int, a float or a text")
    return encode_value(value)


def _accumulated(field: str, value: Any) -> str:
    if not isinstance(value, Mapping) or len(value) != 1:
        raise TypeError(f"the field {field!r} of $group takes a dict with one key, and not {value!r}")
    (name, operand), = value.items()
    if name == "$count" and operand == {}:
        return '{"$count":{}}'
    if name not in ACCUMULATORS:
        refuse(f"{name} in $group", "it has " + ", ".join(sorted(ACCUMULATORS)) + " and $count")
    return _object({name: _operand(name, operand)})


def _group(value: Any) -> str:
    if not isinstance(value, Mapping) or "_id" not in value:
        raise TypeError(f"$group takes a dict that has an _id, and not {value!r}")
    for name in value:
        _test_name("$group", name)
    return _object({name: _operand("_id of $group", taken) if name == "_id" else _accumulated(name, taken)
                    for name, taken in value.items()})


# Each stage that the program runs, and how what it takes is written.
ENCODERS: Dict[str, Callable[[Any], str]] = {
    "$match": _query,
    "$sort": _sort,
    "$skip": _number,
    "$limit": _number,
    "$project": _fields,
    "$count": encode_text,
    "$unwind": _unwind,
    "$group": _group,
}
