"""Classes for the kinds of BSON that Python has no class for. Those of `bson`, pymongo's package, are taken in their
places as well, and `bson` takes these."""
from __future__ import annotations

import datetime
import os
import re
import threading
import time
from typing import Any, Mapping, Optional, Union

from ._errors import InvalidId

EPOCH = datetime.datetime(1970, 1, 1)
UTC = datetime.timezone.utc
MILLISECOND = datetime.timedelta(milliseconds=1)
# The milliseconds of Python's first date and of its last one.
FIRST_DATE = (datetime.datetime.min - EPOCH) // MILLISECOND
LAST_DATE = (datetime.datetime.max - EPOCH) // MILLISECOND

# The options of a regular expression in BSON, and Python's flags for them.
FLAGS = {"i": re.IGNORECASE, "l": re.LOCALE, "m": re.MULTILINE, "s": re.DOTALL, "u": re.UNICODE, "x": re.VERBOSE}


def is_foreign(value: object, name: str) -> bool:
    """Whether a value is of the class of that name of the package bson."""
    kind = type(value)
    return kind.__name__ == name and kind.__module__.partition(".")[0] == "bson"


def milliseconds_of(date: datetime.datetime) -> int:
    """The milliseconds of a date since 1970; one without a zone is taken for UTC."""
    if date.tzinfo is None:
        return (date - EPOCH) // MILLISECOND
    return (date - EPOCH.replace(tzinfo=UTC)) // MILLISECOND


class _IdMaker:
    """Makes the bytes of ObjectIds: the seconds, a random number of the process, and a number that grows."""

    def __init__(self) -> None:
        self.begin()

    def begin(self) -> None:
        """Begins anew, with other random numbers, as in a process that was forked."""
        self._lock = threading.Lock()
        self._process = os.urandom(5)
        self._number = int.from_bytes(os.urandom(3), "big")

    def make(self) -> bytes:
        with self._lock:
            self._number = (self._number + 1) & 0xFFFFFF
            number = self._number
        return (int(time.time()) & 0xFFFFFFFF).to_bytes(4, "big") + self._process + number.to_bytes(3, "big")


_MAKER = _IdMaker()
if hasattr(os, "register_at_fork"):
    os.register_at_fork(after_in_child=_MAKER.begin)


class _Ordered:
    """Order, equality and hash by a key. `_key_of` gives that of another value, or None if it is of another kind."""

    __slots__ = ()

    def _key(self) -> Any:
        raise NotImplementedError

    @classmethod
    def _key_of(cls, other: object) -> Any:
        return other._key() if isinstance(other, cls) else None

    def __eq__(self, other: object) -> Any:
        key = self._key_of(other)
        return NotImplemented if key is None else self._key() == key

    def __lt__(self, other: object) -> Any:
        key = self._key_of(other)
        return NotImplemented if key is None else self._key() < key

    def __le__(self, other: object) -> Any:
        key = self._key_of(other)
        return NotImplemented if key is None else self._key() <= key

    def __gt__(self, other: object) -> Any:
        key = self._key_of(other)
        return NotImplemented if key is None else self._key() > key

    def __ge__(self, other: object) -> Any:
        key = self._key_of(other)
        return NotImplemented if key is None else self._key() >= key

    def __hash__(self) -> int:
        return hash(self._key())


class ObjectId(_Ordered):
    """An id of 12 bytes: a new one without an argument, else that of 24 hexadecimal digits or of 12 bytes, or a
    copy."""

    __slots__ = ("_binary",)
    _type_marker = 7

    def __init__(self, oid: Union[None, str, bytes, "ObjectId"] = None) -> None:
        if oid is None:
            self._binary = _MAKER.make()
        elif isinstance(oid, bytes):
            if len(oid) != 12:
                raise InvalidId(f"an ObjectId has 12 bytes, and not {len(oid)}")
            self._binary = bytes(oid)
        elif isinstance(oid, str):
            if not re.fullmatch("[0-9a-fA-F]{24}", oid):
                raise InvalidId(f"an ObjectId has 24 hexadecimal digits, and not {oid!r}")
            self._binary = bytes.fromhex(oid)
        else:
            binary = self._key_of(oid)
            if binary is None:
                raise TypeError(f"an ObjectId is made of a text or of bytes, and not of {type(oid).__name__}")
            self._binary = binary

    @classmethod
    def is_valid(cls, oid: object) -> bool:
        """Whether an ObjectId can be made of this."""
        try:
            cls(oid)  # type: ignore[arg-type]
        except (TypeError, ValueError):
            return False
        return oid is not None

    @property
    def binary(self) -> bytes:
        """Its 12 bytes."""
        return self._binary

    @property
    def generation_time(self) -> datetime.datetime:
        """When it was made, to the second, in UTC."""
        return datetime.datetime.fromtimestamp(int.from_bytes(self._binary[:4], "big"), UTC)

    def _key(self) -> bytes:
        return self._binary

    @classmethod
    def _key_of(cls, other: object) -> Optional[bytes]:
        if isinstance(other, ObjectId):
            return other._binary
        return other.binary if is_foreign(other, "ObjectId") else None  # type: ignore[attr-defined]

    def __str__(self) -> str:
        return self._binary.hex()

    def __repr__(self) -> str:
        return f"ObjectId({str(self)!r})"


class Int64(int):
    """A whole number that is kept in 64 bits also if it fits into 32. Arithmetic makes ints of it."""

    __slots__ = ()
    _type_marker = 18

    def __str__(self) -> str:
        return int.__repr__(self)

    def __repr__(self) -> str:
        return f"Int64({int.__repr__(self)})"


class Timestamp(_Ordered):
    """MongoDB's internal timestamp: seconds since 1970 and a number, both of 32 bits without a sign. A date is a
    datetime."""

    __slots__ = ("_time", "_inc")
    _type_marker = 17

    def __init__(self, time: Union[int, datetime.datetime], inc: int) -> None:
        if isinstance(time, datetime.datetime):
            time = milliseconds_of(time) // 1000
        for number in time, inc:
            if not isinstance(number, int):
                raise TypeError(f"a Timestamp has two ints, and not {type(number).__name__}")
            if not 0 <= number < 1 << 32:
                raise ValueError(f"a Timestamp has numbers of 32 bits without a sign, and not {number}")
        self._time, self._inc = int(time), int(inc)

    @property
    def time(self) -> int:
        """The seconds."""
        return self._time

    @property
    def inc(self) -> int:
        """The number."""
        return self._inc

    def as_datetime(self) -> datetime.datetime:
        """The date of the seconds, in UTC."""
        return datetime.datetime.fromtimestamp(self._time, UTC)

    def __hash__(self) -> int:
        return hash(self._time) ^ hash(self._inc)

    def _key(self) -> tuple[int, int]:
        return self._time, self._inc

    @classmethod
    def _key_of(cls, other: object) -> Optional[tuple[int, int]]:
        if isinstance(other, Timestamp) or is_foreign(other, "Timestamp"):
            return other.time, other.inc  # type: ignore[attr-defined]
        return None

    def __repr__(self) -> str:
        return f"Timestamp({self._time}, {self._inc})"


class DatetimeMS(_Ordered):
    """A date as its milliseconds since 1970, of 64 bits with a sign. Dates outside the years 1 to 9999 come as this."""

    __slots__ = ("_milliseconds",)
    _type_marker = 9

    def __init__(self, value: Union[int, datetime.datetime]) -> None:
        if isinstance(value, datetime.datetime):
            value = milliseconds_of(value)
        if not isinstance(value, int):
            raise TypeError(f"a DatetimeMS is made of an int or a datetime, and not of {type(value).__name__}")
        if not -1 << 63 <= value < 1 << 63:
            raise OverflowError("the milliseconds of a date have at most 64 bits")
        self._milliseconds = int(value)

    def as_datetime(self) -> datetime.datetime:
        """The date without a zone, in UTC. OverflowError if it isn't in the years 1 to 9999."""
        if not FIRST_DATE <= self._milliseconds <= LAST_DATE:
            raise OverflowError(f"{self!r} isn't in the years 1 to 9999")
        return EPOCH + self._milliseconds * MILLISECOND

    def __int__(self) -> int:
        return self._milliseconds

    __index__ = __int__

    def _key(self) -> int:
        return self._milliseconds

    @classmethod
    def _key_of(cls, other: object) -> Optional[int]:
        if isinstance(other, DatetimeMS) or is_foreign(other, "DatetimeMS"):
            return int(other)  # type: ignore[call-overload,no-any-return]
        return None

    def __repr__(self) -> str:
        return f"DatetimeMS({self._milliseconds})"


class Binary(bytes):
    """Bytes with a subtype, a number from 0 to 255. Those of subtype 0 are bytes, and 16 bytes of subtype 4 a UUID:
    both come as that."""

    _type_marker = 5
    _subtype: int

    def __new__(cls, data: bytes, subtype: int = 0) -> "Binary":
        if not isinstance(data, bytes):
            raise TypeError(f"a Binary is made of bytes, and not of {type(data).__name__}")
        if not isinstance(subtype, int):
            raise TypeError(f"a subtype is an int, and not {type(subtype).__name__}")
        if not 0 <= subtype < 256:
            raise ValueError(f"a subtype is a number from 0 to 255, and not {subtype}")
        self = super().__new__(cls, data)
        self._subtype = int(subtype)
        return self

    @property
    def subtype(self) -> int:
        """What the bytes are for."""
        return self._subtype

    def __getnewargs__(self) -> Any:
        return bytes(self), self._subtype

    def __eq__(self, other: object) -> bool:
        if isinstance(other, bytes):
            subtype: int = getattr(other, "subtype", 0)
            return self._subtype == subtype and bytes(self) == bytes(other)
        return False

    def __ne__(self, other: object) -> bool:
        return not self == other

    def __hash__(self) -> int:
        return hash(bytes(self)) ^ hash(self._subtype)

    def __repr__(self) -> str:
        return f"Binary({bytes(self)!r}, {self._subtype})"


class Regex:
    """A regular expression as it is kept: a pattern, and options, which are letters in their order. It is equal to what
    `re.compile` makes if that has the same pattern and flags. `flags` is a text of options, or flags of `re`."""

    __slots__ = ("pattern", "options")
    _type_marker = 11

    def __init__(self, pattern: str, flags: Union[str, int] = "") -> None:
        if not isinstance(pattern, str):
            raise TypeError(f"a pattern is a text, and not {type(pattern).__name__}")
        self.pattern = str(pattern)
        self.options = "".join(sorted(flags)) if isinstance(flags, str) else options_of(flags)

    @classmethod
    def from_native(cls, regex: "re.Pattern[str]") -> "Regex":
        """The same as a regular expression of `re`."""
        return cls(regex.pattern, regex.flags)

    @property
    def flags(self) -> int:
        """The flags of `re` for the options, without those that it hasn't."""
        flags = 0
        for letter in self.options:
            flags |= FLAGS.get(letter, 0)
        return int(flags)

    def try_compile(self) -> "re.Pattern[str]":
        """The same as a regular expression of `re`. `re.error` if it takes the pattern for none; ValueError for an
        option that it hasn't."""
        for letter in self.options:
            if letter not in FLAGS:
                raise ValueError(f"re has no option {letter!r}")
        return re.compile(self.pattern, self.flags)

    def __eq__(self, other: object) -> Any:
        if isinstance(other, Regex):
            return self.pattern == other.pattern and self.options == other.options
        if isinstance(other, re.Pattern) or is_foreign(other, "Regex"):
            pattern, flags = other.pattern, other.flags  # type: ignore[attr-defined]
            is_whole = all(letter in FLAGS for letter in self.options) and len(set(self.options)) == len(self.options)
            return is_whole and self.pattern == pattern and self.flags == flags
        return NotImplemented

    def __hash__(self) -> int:
        return hash((self.pattern, self.options))

    def __repr__(self) -> str:
        return f"Regex({self.pattern!r}, {self.options!r})"


def options_of(flags: int) -> str:
    """The letters of flags of `re`. ValueError for a flag that BSON hasn't, as ASCII."""
    left = int(flags)
    letters = ""
    for letter, flag in FLAGS.items():
        if left & flag:
            letters += letter
            left &= ~flag
    if left:
        raise ValueError(f"BSON has no options for the flags {re.RegexFlag(left)!r}")
    return letters


class Code(str):
    """JavaScript, with or without a scope, which is a document."""

    _type_marker = 13
    scope: Optional[Mapping[str, Any]]

    def __new__(cls, code: str, scope: Optional[Mapping[str, Any]] = None) -> "Code":
        if not isinstance(code, str):
            raise TypeError(f"code is a text, and not {type(code).__name__}")
        if scope is not None and not isinstance(scope, Mapping):
            raise TypeError(f"a scope is a document, and not {type(scope).__name__}")
        self = super().__new__(cls, code)
        self.scope = scope
        return self

    def __getnewargs__(self) -> Any:
        return str(self), self.scope

    def __eq__(self, other: object) -> bool:
        is_code = isinstance(other, Code) or is_foreign(other, "Code")
        return is_code and str(self) == str(other) and self.scope == other.scope  # type: ignore[attr-defined]

    def __ne__(self, other: object) -> bool:
        return not self == other

    def __hash__(self) -> int:
        return hash(str(self))

    def __str__(self) -> str:
        return str.__str__(self)

    def __repr__(self) -> str:
        scope = "" if self.scope is None else f", {self.scope!r}"
        return f"Code({str.__repr__(self)}{scope})"


class Symbol(str):
    """A text of the old kind Symbol. It is equal to the text."""

    __slots__ = ()

    def __repr__(self) -> str:
        return f"Symbol({str.__repr__(self)})"


class DBPointer:
    """A pointer of the old kind: the name of a collection, and an ObjectId."""

    __slots__ = ("namespace", "id")

    def __init__(self, namespace: str, id: ObjectId) -> None:
        if not isinstance(namespace, str):
            raise TypeError(f"a namespace is a text, and not {type(namespace).__name__}")
        self.namespace = namespace
        self.id = ObjectId(id)

    def __eq__(self, other: object) -> Any:
        if isinstance(other, DBPointer):
            return self.namespace == other.namespace and self.id == other.id
        return NotImplemented

    def __hash__(self) -> int:
        return hash((self.namespace, self.id))

    def __repr__(self) -> str:
        return f"DBPointer({self.namespace!r}, {self.id!r})"


class _Alone:
    """A kind with one value: all objects of the class are equal."""

    __slots__ = ()

    def __eq__(self, other: object) -> Any:
        return type(other) is type(self) or is_foreign(other, type(self).__name__) or NotImplemented

    def __hash__(self) -> int:
        return hash(getattr(self, "_type_marker", 6))

    def __repr__(self) -> str:
        return f"{type(self).__name__}()"


class MinKey(_Alone):
    """The value that is less than all others in MongoDB."""

    __slots__ = ()
    _type_marker = 255


class MaxKey(_Alone):
    """The value that is greater than all others in MongoDB."""

    __slots__ = ()
    _type_marker = 127


class Undefined(_Alone):
    """The old kind Undefined, which isn't None."""

    __slots__ = ()
