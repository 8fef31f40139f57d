"""Where pymongo has them: ``from fallowtime.cursor import Cursor``."""
from ._concerns import CursorType
from ._cursor import Cursor

__all__ = ["Cursor", "CursorType"]
