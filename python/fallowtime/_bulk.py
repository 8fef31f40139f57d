"""What comes of several requests: what was done, and which of them were refused."""
from __future__ import annotations

from itertools import groupby
from typing import Any, Callable, Dict, Sequence, Tuple

from ._errors import BulkWriteError, DuplicateKeyError, RefusedWrite, WriteError
from ._results import DeleteResult, UpdateResult
from ._steps import Step

# Puts texts of documents in, all or none.
Import = Callable[[Sequence[str]], None]
# The documents that weren't put in, by their places, and how many were before the end.
Inserted = Tuple[int, Dict[int, RefusedWrite]]


def insert_each(put_in: Import, texts: Sequence[str], is_ordered: bool) -> Inserted:
    """Puts in each document that can be, in few requests: of one that is refused those before the one at fault go in
    then, and what follows is asked for in smaller parts as long as there are faults."""
    done, at, size = 0, 0, len(texts)
    faults: Dict[int, RefusedWrite] = {}
    while at < len(texts) and not (is_ordered and faults):
        part = texts[at:at + size]
        try:
            put_in(part)
        except RefusedWrite as fault:
            if fault.document and size > 1:
                size = fault.document
                continue
            faults[at] = fault
            part, size = part[:1], max(1, size // 2)
        else:
            done, size = done + len(part), size * 2
        at += len(part)
    return done, faults


class Bulk:
    """The counts of pymongo's `bulk_api_result`."""

    def __init__(self, namespace: str) -> None:
        self._namespace = namespace
        self.counts: Dict[str, Any] = {
            "writeErrors": [], "writeConcernErrors": [], "nInserted": 0, "nUpserted": 0, "nMatched": 0, "nModified": 0,
            "nRemoved": 0, "upserted": []}

    def run(self, steps: Sequence[Step], put_in: Import, is_ordered: bool) -> None:
        """Does all steps, or those before the first one that is refused. Documents that follow each other go in
        together."""
        numbered = list(enumerate(steps))
        for is_insert, group in groupby(numbered, key=lambda entry: entry[1].run is None):
            if is_ordered and self.counts["writeErrors"]:
                return
            part = list(group)
            if is_insert:
                inserted = insert_each(put_in, [step.text for _, step in part], is_ordered)
                self.insert(inserted, part[0][0], [step.request for _, step in part])
            else:
                self._run_each(part, is_ordered)

    def _run_each(self, steps: Sequence[Tuple[int, Step]], is_ordered: bool) -> None:
        for place, step in steps:
            assert step.run is not None
            try:
                self._add(place, step.run())
            except WriteError as error:
                self.fail(place, error, step.request)
                if is_ordered:
                    return

    def insert(self, inserted: Inserted, first: int, documents: Sequence[Any]) -> None:
        """Adds what came of documents, the first of which is the request of that place."""
        self.counts["nInserted"] += inserted[0]
        for place, error in inserted[1].items():
            if isinstance(error, DuplicateKeyError):
                error._of_id(self._namespace, documents[place]["_id"])
            self.fail(first + place, error, documents[place])

    def fail(self, place: int, error: WriteError, request: Any) -> None:
        """Adds a request that was refused."""
        details = error.details or {"code": error.code, "errmsg": str(error)}
        self.counts["writeErrors"].append({**details, "index": place, "op": request})

    def _add(self, place: int, result: Any) -> None:
        if isinstance(result, DeleteResult):
            self.counts["nRemoved"] += result.deleted_count
        elif isinstance(result, UpdateResult):
            self.counts["nMatched"] += result.matched_count
            self.counts["nModified"] += result.modified_count
            if result.did_upsert:
                self.counts["nUpserted"] += 1
                self.counts["upserted"].append({"index": place, "_id": result.upserted_id})

    def end(self) -> Dict[str, Any]:
        """The counts. BulkWriteError if a request was refused."""
        if self.counts["writeErrors"]:
            raise BulkWriteError(self.counts)
        return self.counts
