"""Values as canonical Extended JSON, which says the kind of each. What goes in is taken for its kind or refused, and
never guessed."""
from __future__ import annotations

import binascii
import datetime
import decimal
import math
import re
import struct
import uuid
from collections.abc import Mapping
from json import encoder
from typing import Any, Callable, Dict, FrozenSet, Optional

from ._errors import InvalidDocument, refusal
from ._values import (Binary, Code, DatetimeMS, DBPointer, Int64, MaxKey, MinKey, ObjectId, Regex, Symbol, Timestamp,
                      Undefined, milliseconds_of, options_of)

# The keys that make an object of Extended JSON a typed value. A dict with one of them, below the top, would come back
# as that.
RESERVED = frozenset([
    "$oid", "$symbol", "$regularExpression", "$numberInt", "$numberLong", "$numberDouble", "$numberDecimal", "$binary",
    "$uuid", "$code", "$timestamp", "$date", "$minKey", "$maxKey", "$dbPointer", "$undefined",
])
# How many documents and arrays may lie in each other, the outermost one counted.
DEEPEST = 100
LEAST_INT32, GREATEST_INT32 = -1 << 31, (1 << 31) - 1
LEAST_INT64, GREATEST_INT64 = -1 << 63, (1 << 63) - 1
# The decimals of 128 bits: what doesn't fit is an error, and nothing is rounded.
DECIMAL128 = decimal.Context(prec=34, Emin=-6143, Emax=6144, clamp=1,
                             traps=[decimal.Inexact, decimal.Overflow, decimal.InvalidOperation])
# The bits of the two NaNs that have a text.
NAN_TEXTS = {0x7FF8 << 48: "NaN", 0xFFF8 << 48: "-NaN"}


# A text with its quotes, and every letter as it is.
encode_text: Callable[[str], str] = getattr(encoder, "encode_basestring")


class _Reserved(Exception):
    """A reserved key below the top."""


def double_text(value: float) -> str:
    """The text of a double, which is read as that double and no other."""
    if math.isfinite(value):
        return float.__repr__(value)
    if math.isinf(value):
        return "Infinity" if value > 0 else "-Infinity"
    bits, = struct.unpack("<Q", struct.pack("<d", value))
    if bits not in NAN_TEXTS:
        raise ValueError(f"a NaN of the bits {bits:016x} has no text of its own")
    return NAN_TEXTS[bits]


def decimal_text(value: decimal.Decimal) -> str:
    """The text of a decimal that fits into 128 bits."""
    if value.is_nan() and (value.is_snan() or value.is_signed() or value.as_tuple().digits):
        raise ValueError(f"{value!r} has no text of its own")
    try:
        return str(DECIMAL128.create_decimal(value))
    except decimal.DecimalException:
        raise ValueError(f"{value!r} doesn't fit into the digits and exponents of a decimal of 128 bits") from None


def test_int64(value: int) -> int:
    """The number itself. OverflowError if it has more than 64 bits."""
    if LEAST_INT64 <= value <= GREATEST_INT64:
        return value
    raise OverflowError(f"an int has at most 64 bits here, and {int(value)} has more")


def _null(value: None) -> str:
    return "null"


def _boolean(value: bool) -> str:
    return "true" if value else "false"


def _int(value: int) -> str:
    if LEAST_INT32 <= value <= GREATEST_INT32:
        return '{"$numberInt":"%d"}' % value
    return _int64(value)


def _int64(value: int) -> str:
    return '{"$numberLong":"%d"}' % test_int64(value)


def _double(value: float) -> str:
    return '{"$numberDouble":"%s"}' % double_text(value)


def _decimal(value: decimal.Decimal) -> str:
    return '{"$numberDecimal":"%s"}' % decimal_text(value)


def _decimal128(value: Any) -> str:
    return _decimal(value.to_decimal())


def _date(value: datetime.datetime) -> str:
    return '{"$date":{"$numberLong":"%d"}}' % milliseconds_of(value)


def _milliseconds(value: Any) -> str:
    return '{"$date":{"$numberLong":"%d"}}' % test_int64(int(value))


def _object_id(value: Any) -> str:
    return '{"$oid":"%s"}' % value.binary.hex()


def _of_subtype(value: bytes, subtype: int) -> str:
    base64 = binascii.b2a_base64(value, newline=False).decode("ascii")
    return '{"$binary":{"base64":"%s","subType":"%02x"}}' % (base64, subtype)


def _bytes(value: bytes) -> str:
    return _of_subtype(value, 0)


def _binary(value: Any) -> str:
    return _of_subtype(value, value.subtype)


def _uuid(value: uuid.UUID) -> str:
    return _of_subtype(value.bytes, 4)


def _pattern(value: Any) -> str:
    """Of `re.compile`, or of the class Regex of bson."""
    if not isinstance(value.pattern, str):
        raise TypeError("a regular expression is kept if its pattern is a text, and not bytes")
    return _of_options(value.pattern, options_of(value.flags))


def _regex(value: Regex) -> str:
    return _of_options(value.pattern, value.options)


def _of_options(pattern: str, options: str) -> str:
    return '{"$regularExpression":{"pattern":%s,"options":%s}}' % (encode_text(pattern), encode_text(options))


def _symbol(value: Symbol) -> str:
    return '{"$symbol":%s}' % encode_text(value)


def _timestamp(value: Any) -> str:
    return '{"$timestamp":{"t":%d,"i":%d}}' % (value.time, value.inc)


def _pointer(value: DBPointer) -> str:
    return '{"$dbPointer":{"$ref":%s,"$id":{"$oid":"%s"}}}' % (encode_text(value.namespace), value.id)


def _min_key(value: Any) -> str:
    return '{"$minKey":1}'


def _max_key(value: Any) -> str:
    return '{"$maxKey":1}'


def _undefined(value: Any) -> str:
    return '{"$undefined":true}'


# What writes a value that has no value in it, by its class.
_SCALARS: Dict[type, Callable[[Any], str]] = {
    type(None): _null,
    bool: _boolean,
    int: _int,
    float: _double,
    str: encode_text,
    bytes: _bytes,
    Int64: _int64,
    decimal.Decimal: _decimal,
    datetime.datetime: _date,
    DatetimeMS: _milliseconds,
    ObjectId: _object_id,
    Binary: _binary,
    uuid.UUID: _uuid,
    re.Pattern: _pattern,
    Regex: _regex,
    Symbol: _symbol,
    Timestamp: _timestamp,
    DBPointer: _pointer,
    MinKey: _min_key,
    MaxKey: _max_key,
    Undefined: _undefined,
}
# The same of the classes of bson, by their names.
_FOREIGN: Dict[str, Callable[[Any], str]] = {
    "ObjectId": _object_id,
    "Int64": _int64,
    "Binary": _binary,
    "Regex": _pattern,
    "Timestamp": _timestamp,
    "MinKey": _min_key,
    "MaxKey": _max_key,
    "Decimal128": _decimal128,
    "DatetimeMS": _milliseconds,
}


def _writer_of(kind: type) -> Optional[Callable[[Any], str]]:
    """What writes values of a class that is derived of one of these, or is of bson."""
    for base in kind.__mro__:
        if base in _SCALARS:
            return _SCALARS[base]
        if base.__module__.partition(".")[0] == "bson" and base.__name__ in _FOREIGN:
            return _FOREIGN[base.__name__]
    return None


def _value(value: Any, level: int) -> str:
    """A value; `level` is how many documents and arrays it is in, and one more."""
    kind = type(value)
    write = _SCALARS.get(kind)
    if write is not None:
        return write(value)
    if kind is dict:
        return _members(value, level, RESERVED)
    if kind is list or kind is tuple:
        return _items(value, level)
    return _rare_value(value, kind, level)


def _rare_value(value: Any, kind: type, level: int) -> str:
    if isinstance(value, Mapping):
        return _members(value, level, RESERVED)
    if isinstance(value, (list, tuple)):
        return _items(value, level)
    if isinstance(value, Code) or kind.__name__ == "Code" and kind.__module__.partition(".")[0] == "bson":
        return _code(value, level)
    if kind.__name__ == "DBRef" and kind.__module__.partition(".")[0] == "bson":
        return _members(value.as_doc(), level, RESERVED)
    write = _writer_of(kind)
    if write is None:
        raise InvalidDocument(f"{value!r} of the class {kind.__name__} has no kind of BSON")
    return write(value)


def _code(value: Any, level: int) -> str:
    text = encode_text(str(value))
    if value.scope is None:
        return '{"$code":%s}' % text
    return '{"$code":%s,"$scope":%s}' % (text, _members(value.scope, level, frozenset()))


def _items(value: Any, level: int) -> str:
    if level > DEEPEST:
        raise refusal("TooDeep")
    return "[" + ",".join([_value(item, level + 1) for item in value]) + "]"


def _members(document: Mapping[str, Any], level: int, reserved: FrozenSet[str]) -> str:
    """A document in which these keys are reserved."""
    if level > DEEPEST:
        raise refusal("TooDeep")
    parts = []
    for key, value in document.items():
        if not isinstance(key, str):
            raise InvalidDocument(f"a key is a text, and not {key!r}")
        if key in reserved:
            raise _Reserved
        # As `_value` begins, without a call of it: most values have no value in them.
        write = _SCALARS.get(type(value))
        parts.append(encode_text(key) + ":" + (_value(value, level + 1) if write is None else write(value)))
    return "{" + ",".join(parts) + "}"


def reserved_path(value: Any) -> Optional[str]:
    """The path to the first reserved key in a value: the keys of a document come before what is below them."""
    if isinstance(value, Mapping):
        for key in value:
            if key in RESERVED:
                return str(key)
        return path_below(value.items())
    if isinstance(value, (list, tuple)):
        return path_below(enumerate(value))
    scope = getattr(value, "scope", None)
    return path_below(scope.items()) if isinstance(scope, Mapping) else None


def path_below(members: Any) -> Optional[str]:
    """The same behind the keys or places of members."""
    for key, value in members:
        path = reserved_path(value)
        if path is not None:
            return f"{key}.{path}"
    return None


def test_document(document: object) -> None:
    """TypeError if this is no document, or no query."""
    if type(document) is not dict and not isinstance(document, Mapping):
        raise TypeError(f"a document or a query is a dict, and not {type(document).__name__}")


def _sound(text: str) -> str:
    """The text itself. UnicodeEncodeError if a part of it is half of a letter, which UTF-8 can't have."""
    if not text.isascii():
        text.encode()
    return text


def encode_document(document: Mapping[str, Any]) -> str:
    """A document. Refused as ReservedKey if below its top a key would make a typed value of what is there."""
    test_document(document)
    try:
        return _sound(_members(document, 1, frozenset()))
    except _Reserved:
        raise refusal("ReservedKey", key=path_below(document.items())) from None


def encode_value(value: Any) -> str:
    """A value that is not a document of its own. Refused as ReservedKey like a document."""
    try:
        return _sound(_value(value, 2))
    except _Reserved:
        raise refusal("ReservedKey", key=reserved_path(value)) from None
