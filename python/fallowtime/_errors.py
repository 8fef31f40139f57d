"""What goes wrong, under pymongo's names where it has one."""
from __future__ import annotations

import sys
from typing import Any, Dict, List, Mapping, Optional, Tuple, Type, cast

# How the program begins the line that says why it ended, or why a command wasn't done.
REFUSED = "refused: "
WORDS = "words: "
# The module of pymongo's errors. What is raised is of a class of it, too, once a program has imported that.
PYMONGO = "pymongo.errors"
# MongoDB's numbers of errors.
DUPLICATE_KEY, BULK_WRITE, NO_INDEX, NO_HINT = 11000, 65, 27, 2
DOLLAR_KEY, INDEX_NAME, INDEX_KEYS, ID_INDEX, COLLISION = 52, 86, 85, 72, 31250
NOT_PARSED, CONFLICT, IMMUTABLE, BAD_VALUE, THROUGH, EMPTY_KEY = 9, 40, 66, 2, 28, 15998
NO_MATCH, TWO_VALUES = 13113, 54
NO_SOURCE, TARGET_EXISTS = 26, 48
# Those of a refusal, by its kind.
CODES = {
    "DuplicateId": DUPLICATE_KEY, "BadKey": IMMUTABLE, "NotANumber": 14, "NotAnArray": BAD_VALUE,
    "Overflow": BAD_VALUE, "Decimal": BAD_VALUE, "Through": THROUGH, "BadName": 73, "TooLong": 10334,
    "BadLength": 10334, "Usage": BAD_VALUE,
}
# The kinds of refusals that are of a write, for which pymongo has a class.
OF_WRITES = frozenset([
    "DuplicateId", "BadKey", "NotANumber", "NotAnArray", "Overflow", "Decimal", "Through", "TooLong", "BadLength"])


class FallowtimeError(Exception):
    """What every error of this package is, except for wrong arguments, which are TypeError, ValueError and the like. It
    is in the place of pymongo's PyMongoError, and once a program has imported `pymongo.errors` it is one."""

    # The name that pymongo has for it, if that isn't the same.
    _pymongos = "PyMongoError"

    def __new__(cls, *arguments: Any, **named: Any) -> "FallowtimeError":
        return cast("FallowtimeError", super().__new__(_of_both(cls), *arguments))

    def __reduce__(self) -> Tuple[Any, ...]:
        # A class of both packages is made here alone, so that pickle takes the class of which it is made.
        return _of_one(type(self)), self.args, self.__dict__

    @property
    def timeout(self) -> bool:
        """Whether it is one of time, as pymongo says it."""
        return False

    def has_error_label(self, label: str) -> bool:
        """Whether it has one of MongoDB's labels, as for what may be tried again: it has none."""
        return False


class InvalidOperation(FallowtimeError):
    """What is called can't be done there, such as a sort of a cursor that has returned documents already."""

    _pymongos = "InvalidOperation"


class ConfigurationError(FallowtimeError):
    """What would have to be said is missing, such as the name of a store."""

    _pymongos = "ConfigurationError"


class InvalidName(FallowtimeError):
    """A store can't have this name."""

    _pymongos = "InvalidName"


class CollectionInvalid(FallowtimeError):
    """There is a collection of this name already."""

    _pymongos = "CollectionInvalid"


class InvalidDocument(TypeError):
    """A document has a key or a value that BSON hasn't."""


class InvalidId(ValueError):
    """An ObjectId isn't made of such a text or such bytes."""


class OperationFailure(FallowtimeError):
    """A request wasn't done. `code` is MongoDB's number of such an error, `details` what MongoDB says more; each is
    None if there is none."""

    _pymongos = "OperationFailure"

    def __init__(self, error: str, code: Optional[int] = None, details: Optional[Mapping[str, Any]] = None) -> None:
        Exception.__init__(self, error, code, details)
        self._code, self._details = code, details

    @property
    def code(self) -> Optional[int]:
        """MongoDB's number of this error."""
        return self._code

    @property
    def details(self) -> Any:
        """What MongoDB says more of this error."""
        return self._details

    def __str__(self) -> str:
        return str(self.args[0])


class WriteError(OperationFailure):
    """A document wasn't written."""

    _pymongos = "WriteError"


class InvalidWriteError(WriteError, ValueError):
    """A document wasn't written as it can't be written so: a wrong argument, which MongoDB's server finds."""


class Refused(OperationFailure):
    """A request was refused, and nothing was changed. The store goes on.

    Only after the kinds ``"Memory"`` and ``"Database"``, for which the machine is at fault, the change may be there.
    `kind` is the name of the refusal, such as ``"NotFound"``; ``fallowtime --explain KIND`` says what each means, and
    what to do. `document` is the place, from 0, of the document at fault of several, `key` the path of the key at
    fault, `at` what of a request can't be read if `kind` is ``"Usage"``, and `request` the place, from 0, of the one at
    fault of a transaction. Each is None if there is none.
    """

    def __init__(
        self, kind: str, document: Optional[int] = None, key: Optional[str] = None, at: Optional[str] = None,
        request: Optional[int] = None
    ) -> None:
        Exception.__init__(self, kind, document, key, at, request)
        self._code, self._details = CODES.get(kind), None
        self.kind = kind
        self.document = document
        self.key = key
        self.at = at
        self.request = request

    def __str__(self) -> str:
        text = self.kind
        if self.request is not None:
            text += f" request {self.request}"
        if self.document is not None:
            text += f" document {self.document}"
        if self.key is not None:
            text += f" key {self.key}"
        if self.at is not None:
            text += f" at {self.at}"
        return text


class RefusedWrite(Refused, WriteError):
    """A document was refused by what it has, or by what an update would make of it."""

    _pymongos = "WriteError"


class DuplicateKeyError(RefusedWrite):
    """The collection has a document with this `_id` already, or two of the documents have the same one: the kind
    DuplicateId. `details` has MongoDB's `keyPattern` and `keyValue`, if the `_id` is known."""

    _pymongos = "DuplicateKeyError"

    def _of_id(self, namespace: str, own: Any) -> "DuplicateKeyError":
        """The error itself, with the `_id` that is taken."""
        self._details = {
            "code": DUPLICATE_KEY, "keyPattern": {"_id": 1}, "keyValue": {"_id": own}, "index": self.document or 0,
            "errmsg": f"E11000 duplicate key error collection: {namespace} index: _id_ dup key: {{ _id: {own!r} }}"}
        return self


class BulkWriteError(OperationFailure):
    """Some of several requests weren't done. `details` has those, and how much was done, as pymongo has it."""

    _pymongos = "BulkWriteError"

    def __init__(self, details: Mapping[str, Any]) -> None:
        Exception.__init__(self, details)
        self._code, self._details = BULK_WRITE, details

    def __str__(self) -> str:
        return f"batch op errors occurred, full error: {self._details}"


class InsertManyError(DuplicateKeyError, BulkWriteError):
    """Of several documents that go in all or none one has an `_id` that is taken, so that none went in."""

    def _of_counts(self, details: Mapping[str, Any]) -> "InsertManyError":
        """The error itself, with the counts that pymongo has."""
        self._code, self._details = BULK_WRITE, details
        return self


class ConnectionFailure(FallowtimeError):
    """There is no program that could be asked."""

    _pymongos = "ConnectionFailure"


class Ended(ConnectionFailure):
    """The program isn't there any more, or couldn't be started, so the request wasn't sent or its answer didn't come.

    Whatever was answered before is in the file. A request that was under way is there as a whole or not at all.
    `report` is what the program wrote on standard error, `status` what it ended with (below 0 the number of a signal),
    and `kind` the name of the refusal that it reported: ``"Busy"`` if another process has the file. Each is None if
    there is none.
    """

    def __init__(self, reason: str, report: str = "", status: Optional[int] = None) -> None:
        Exception.__init__(self, reason, report, status)
        self.reason = reason
        self.report = report
        self.status = status

    @property
    def kind(self) -> Optional[str]:
        """The name of the refusal with which the program ended."""
        for line in reversed(self.report.splitlines()):
            if line.startswith(REFUSED):
                return line[len(REFUSED):].partition(" ")[0]
            if line.startswith(WORDS):
                return "Usage"
        return None

    def __str__(self) -> str:
        report = "; ".join(self.report.splitlines()[-10:])
        return f"{self.reason}: {report}" if report else self.reason


def refusal(
    kind: str, document: Optional[int] = None, key: Optional[str] = None, at: Optional[str] = None,
    request: Optional[int] = None
) -> Refused:
    """The error of a kind."""
    if document is None and at is not None and at.startswith("document "):
        document = int(at.partition(" ")[2])
    made: Type[Refused] = Refused
    if kind in OF_WRITES:
        made = DuplicateKeyError if kind == "DuplicateId" else RefusedWrite
    return made(kind, document, key, at, request)


# The classes of both packages, by those of this one.
_both: Dict[type, type] = {}


def _of_both(kind: type) -> type:
    """The class of an error, or one of it and of its namesakes in pymongo, if a program has imported those."""
    module = sys.modules.get(PYMONGO)
    if module is None or kind is not _of_one(kind):
        return kind
    if kind not in _both:
        names = [vars(base)["_pymongos"] for base in kind.__mro__ if "_pymongos" in vars(base)]
        theirs: List[type] = []
        for found in (getattr(module, name, None) for name in names):
            if isinstance(found, type) and not any(issubclass(one, found) for one in theirs):
                theirs.append(found)
        _both[kind] = type(kind.__name__, (kind, *theirs), {"__module__": kind.__module__, "_one": kind})
    return _both[kind]


def _of_one(kind: type) -> type:
    """The class of this package of which a class of both is made."""
    one: type = vars(kind).get("_one", kind)
    return one
