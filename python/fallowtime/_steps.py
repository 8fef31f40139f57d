"""The requests of `bulk_write`, each as a step that is done later. Those of pymongo have the same members as those of
this package."""
from __future__ import annotations

from typing import TYPE_CHECKING, Any, Callable, Dict, NamedTuple, Optional

from ._requests import give_id, with_id

if TYPE_CHECKING:
    from ._changing import Changing

# The classes of requests, by the modules in which they are.
MODULES = frozenset(["fallowtime", "fallowtime.operations", "pymongo.operations"])


class Step(NamedTuple):
    """A request that was read: what it does, or the text of a document to put in, and the request as errors name
    it."""

    run: Optional[Callable[[], Any]]
    text: str
    request: Any


def step_of(collection: "Changing", request: Any) -> Step:
    """The step of a request. TypeError if it is none."""
    kind = next((base.__name__ for base in type(request).__mro__ if base.__module__ in MODULES), "")
    if kind == "InsertOne":
        text, own = with_id(request._doc)
        give_id(request._doc, own)
        return Step(None, text, request._doc)
    if kind in ("DeleteOne", "DeleteMany"):
        run = collection._removal(kind, request._filter, request._hint, _options(request), kind == "DeleteMany")
        return Step(run, "", {"q": request._filter, "limit": int(kind == "DeleteOne")})
    if kind == "ReplaceOne":
        run_replace = collection._replacement(kind, request._filter, request._doc, bool(request._upsert),
                                              getattr(request, "_hint", None), _options(request),
                                              getattr(request, "_sort", None))
        return Step(run_replace, "", _changed(request, is_many=False))
    if kind in ("UpdateOne", "UpdateMany"):
        run_update = collection._change(kind, request._filter, request._doc, bool(request._upsert),
                                        getattr(request, "_hint", None), _options(request),
                                        is_many=kind == "UpdateMany", sort=getattr(request, "_sort", None),
                                        array_filters=getattr(request, "_array_filters", None))
        return Step(run_update, "", _changed(request, is_many=kind == "UpdateMany"))
    raise TypeError(f"{request!r} is not a valid request")


def _options(request: Any) -> Dict[str, Any]:
    """What else a request has, which isn't supported."""
    collation = getattr(request, "_collation", None)
    return {} if collation is None else {"collation": collation}


def _changed(request: Any, is_many: bool) -> Dict[str, Any]:
    return {"q": request._filter, "u": request._doc, "multi": is_many, "upsert": bool(request._upsert)}
