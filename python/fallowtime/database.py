"""Where pymongo has it: ``from fallowtime.database import Database``. A database is a store."""
from ._store import Store

Database = Store

__all__ = ["Database"]
