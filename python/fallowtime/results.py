"""What the methods of a collection return, where pymongo has it: ``from fallowtime.results import UpdateResult``."""
from ._results import BulkWriteResult, DeleteResult, InsertManyResult, InsertOneResult, UpdateResult

__all__ = ["BulkWriteResult", "DeleteResult", "InsertManyResult", "InsertOneResult", "UpdateResult"]
