"""Values of canonical Extended JSON, as trees of JSON, which are the program's answers."""
from __future__ import annotations

import binascii
import datetime
import decimal
import uuid
from typing import Any, Callable, Dict

from ._values import (EPOCH, FIRST_DATE, LAST_DATE, MILLISECOND, UTC, Binary, Code, DatetimeMS, DBPointer, Int64,
                      MaxKey, MinKey, ObjectId, Regex, Symbol, Timestamp, Undefined)

Tree = Any


def _binary(tree: Tree) -> Any:
    data, subtype = binascii.a2b_base64(tree["base64"]), int(tree["subType"], 16)
    if subtype == 0:
        return data
    if subtype == 4 and len(data) == 16:
        return uuid.UUID(bytes=data)
    return Binary(data, subtype)


def _regex(tree: Tree) -> Regex:
    return Regex(tree["pattern"], tree["options"])


def _timestamp(tree: Tree) -> Timestamp:
    return Timestamp(tree["t"], tree["i"])


def _pointer(tree: Tree) -> DBPointer:
    return DBPointer(tree["$ref"], ObjectId(tree["$id"]["$oid"]))


def _date(tree: Tree) -> Any:
    milliseconds = int(tree["$numberLong"])
    if FIRST_DATE <= milliseconds <= LAST_DATE:
        return EPOCH + milliseconds * MILLISECOND
    return DatetimeMS(milliseconds)


def _date_of_zone(tree: Tree) -> Any:
    date = _date(tree)
    return date.replace(tzinfo=UTC) if isinstance(date, datetime.datetime) else date


def _min_key(tree: Tree) -> MinKey:
    return MinKey()


def _max_key(tree: Tree) -> MaxKey:
    return MaxKey()


def _undefined(tree: Tree) -> Undefined:
    return Undefined()


def _int64(tree: Tree) -> Int64:
    return Int64(tree)


_READERS: Dict[str, Callable[[Tree], Any]] = {
    "$numberInt": int,
    "$numberLong": _int64,
    "$numberDouble": float,
    "$numberDecimal": decimal.Decimal,
    "$oid": ObjectId,
    "$date": _date,
    "$binary": _binary,
    "$regularExpression": _regex,
    "$symbol": Symbol,
    "$code": Code,
    "$timestamp": _timestamp,
    "$dbPointer": _pointer,
    "$minKey": _min_key,
    "$maxKey": _max_key,
    "$undefined": _undefined,
}


class Decoder:
    """Makes values of trees. Dates are in UTC, and say so if `tz_aware` is true."""

    def __init__(self, tz_aware: bool) -> None:
        self._readers: Dict[str, Callable[[Tree], Any]] = {**_READERS, "$date": _date_of_zone} if tz_aware else _READERS

    def document(self, tree: Tree) -> Dict[str, Any]:
        """A document, at whose top no key is taken for a typed value."""
        value = self.value
        return {key: inner if type(inner) is str else value(inner) for key, inner in tree.items()}

    def value(self, tree: Tree) -> Any:
        """A value."""
        kind = type(tree)
        if kind is dict:
            if len(tree) == 1:
                for key, inner in tree.items():
                    read = self._readers.get(key)
                    if read is not None:
                        return read(inner)
            elif "$code" in tree:
                return Code(tree["$code"], self.document(tree["$scope"]))
            return self.document(tree)
        if kind is list:
            value = self.value
            return [value(item) for item in tree]
        return tree
