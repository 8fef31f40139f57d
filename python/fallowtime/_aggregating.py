"""Pipelines: the method of a collection that runs them."""
from __future__ import annotations

from typing import Any, Callable, Dict, List, Sequence

from ._absent import refuse, test_options
from ._changing import Changing
from ._cursor import CommandCursor
from ._errors import DUPLICATE_KEY, NO_MATCH, OperationFailure
from ._pipeline import Stages, pipeline_of
from ._query import encode_query
from ._requests import Document, with_id
from ._target import OUT, Target


class Aggregating(Changing):
    """What a pipeline makes of a collection."""

    __slots__ = ()

    def aggregate(self, pipeline: Sequence[Document], *, hint: Any = None, **options: Any) -> CommandCursor:
        """What a pipeline makes of the documents: `$match`, `$sort`, `$skip`, `$limit`, `$project`, `$count`, `$unwind`
        and `$group`, one after the other. At the end `$out` puts it into a collection that has no document, in one
        step, or `$merge` into any, and then nothing is returned."""
        test_options("aggregate", options)
        self._test_hint(hint)
        stages = pipeline_of(pipeline)
        fetch = self._fetching(stages)
        if stages.target is None:
            return CommandCursor(self, fetch)
        if stages.target.database not in (None, self._store.name):
            refuse(f"another db of {stages.target.stage}", "a pipeline is one of a store")
        with self._session.lock:
            type(self)(self._store, stages.target.name)._take_in(stages.target, fetch())
        return CommandCursor(self, list)

    def _fetching(self, stages: Stages) -> Callable[[], List[Dict[str, Any]]]:
        """What returns the documents of stages."""
        if stages.text is not None:
            text = stages.text
            return lambda: [self._decoder.document(tree) for tree in self._ask("aggregate", text)["documents"]]
        if stages.count is None:
            cursor = self.find(stages.query, stages.projection)
            return lambda: cursor._fetched(stages.part)
        query, name = encode_query(stages.query), stages.count

        def counted() -> List[Dict[str, Any]]:
            number = stages.part.count(int(self._ask("count", query)["count"]))
            return [{name: number}] if number else []

        return counted

    def _take_in(self, target: Target, documents: List[Dict[str, Any]]) -> None:
        """Puts in what came of a pipeline."""
        if target.stage == OUT:
            if self._ask("count")["count"]:
                refuse("$out into a collection that has documents", "that would be two steps: drop it, or use $merge")
            new = [with_id(document)[0] for document in documents]
        else:
            new = [text for document in documents for text in self._merge(target, document)]
        if new:
            self._import(new)

    def _merge(self, target: Target, document: Dict[str, Any]) -> List[str]:
        """Merges a document into the one with its `_id`. One for which there is none is returned, to be put in."""
        text, own = with_id(document)
        found = self._seek({"_id": own}) if "_id" in document else None
        if found is None:
            if target.unmatched == "fail":
                raise OperationFailure("$merge could not find a matching document in the target collection", NO_MATCH)
            return [text] if target.unmatched == "insert" else []
        if target.matched == "fail":
            raise OperationFailure(f"$merge found a document with the _id {own!r}", DUPLICATE_KEY)
        if target.matched != "keepExisting":
            old = self._decoder.document(found[1]) if target.matched == "merge" else {}
            self._replace(found, {**old, **document, "_id": self._decoder.value(found[1]["_id"])})
        return []
