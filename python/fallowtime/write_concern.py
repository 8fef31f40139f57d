"""Where pymongo has it: ``from fallowtime.write_concern import WriteConcern``."""
from ._concerns import WriteConcern

__all__ = ["WriteConcern"]
