"""What the methods of a collection return, under pymongo's names."""
from __future__ import annotations

from typing import Any, Dict, List, Tuple


class _Result:
    __slots__: Tuple[str, ...] = ()

    @property
    def acknowledged(self) -> bool:
        """True: what is returned was done."""
        return True

    def __repr__(self) -> str:
        values = ", ".join(f"{name}={getattr(self, name)!r}" for name in self.__slots__ if not name.startswith("_"))
        return f"{type(self).__name__}({values})"


class InsertOneResult(_Result):
    """Of `insert_one`: the `_id` of the document."""

    __slots__ = ("inserted_id",)

    def __init__(self, inserted_id: Any) -> None:
        self.inserted_id = inserted_id


class InsertManyResult(_Result):
    """Of `insert_many`: the `_id`s of the documents, in their order."""

    __slots__ = ("inserted_ids",)

    def __init__(self, inserted_ids: List[Any]) -> None:
        self.inserted_ids = inserted_ids


class UpdateResult(_Result):
    """Of `replace_one`, `update_one` and `update_many`: how many documents the query found (of the first two 0 or 1),
    how many were changed (not one that was so already), and the `_id` of one that was put in."""

    __slots__ = ("matched_count", "modified_count", "upserted_id", "_did_upsert")

    def __init__(
        self, matched_count: int, modified_count: int, upserted_id: Any = None, did_upsert: bool = False
    ) -> None:
        self.matched_count = matched_count
        self.modified_count = modified_count
        self.upserted_id = upserted_id
        self._did_upsert = did_upsert

    @property
    def did_upsert(self) -> bool:
        """Whether a document was put in, whose `_id` may be None."""
        return self._did_upsert

    @property
    def raw_result(self) -> Dict[str, Any]:
        """The same, as MongoDB has it."""
        raw = {"n": self.matched_count, "nModified": self.modified_count, "ok": 1.0,
               "updatedExisting": self.matched_count > 0}
        return {**raw, "n": 1, "upserted": self.upserted_id} if self._did_upsert else raw


class DeleteResult(_Result):
    """Of `delete_one` and `delete_many`: how many documents were removed."""

    __slots__ = ("deleted_count",)

    def __init__(self, deleted_count: int) -> None:
        self.deleted_count = deleted_count

    @property
    def raw_result(self) -> Dict[str, Any]:
        """The same, as MongoDB has it."""
        return {"n": self.deleted_count, "ok": 1.0}


class BulkWriteResult(_Result):
    """Of `bulk_write`: how many documents were put in, found, changed, removed, and put in as a query selected none."""

    __slots__ = ("bulk_api_result",)

    def __init__(self, bulk_api_result: Dict[str, Any]) -> None:
        self.bulk_api_result = bulk_api_result

    @property
    def inserted_count(self) -> int:
        """How many documents were put in by `InsertOne`."""
        return int(self.bulk_api_result["nInserted"])

    @property
    def matched_count(self) -> int:
        """How many documents the queries of updates and replacements found."""
        return int(self.bulk_api_result["nMatched"])

    @property
    def modified_count(self) -> int:
        """How many of these were changed."""
        return int(self.bulk_api_result["nModified"])

    @property
    def deleted_count(self) -> int:
        """How many documents were removed."""
        return int(self.bulk_api_result["nRemoved"])

    @property
    def upserted_count(self) -> int:
        """How many documents were put in as a query selected none."""
        return int(self.bulk_api_result["nUpserted"])

    @property
    def upserted_ids(self) -> Dict[int, Any]:
        """Their `_id`s, by the places of their requests."""
        return {entry["index"]: entry["_id"] for entry in self.bulk_api_result["upserted"]}


class ReturnDocument:
    """What `find_one_and_update` and `find_one_and_replace` return: the document before the change, or after it."""

    BEFORE = False
    AFTER = True
