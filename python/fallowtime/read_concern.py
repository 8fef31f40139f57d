"""Where pymongo has it: ``from fallowtime.read_concern import ReadConcern``."""
from ._concerns import ReadConcern

__all__ = ["ReadConcern"]
