"""Where pymongo has it: ``from fallowtime.mongo_client import MongoClient``."""
from ._client import MongoClient

__all__ = ["MongoClient"]
