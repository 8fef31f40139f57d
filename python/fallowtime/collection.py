"""Where pymongo has them: ``from fallowtime.collection import Collection``."""
from ._collection import Collection
from ._results import ReturnDocument

__all__ = ["Collection", "ReturnDocument"]
