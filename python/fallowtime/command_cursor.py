"""Where pymongo has it: ``from fallowtime.command_cursor import CommandCursor``."""
from ._cursor import CommandCursor

__all__ = ["CommandCursor"]
