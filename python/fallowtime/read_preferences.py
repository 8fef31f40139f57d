"""Where pymongo has them: ``from fallowtime.read_preferences import ReadPreference``."""
from ._concerns import Nearest, Primary, PrimaryPreferred, ReadPreference, Secondary, SecondaryPreferred

__all__ = ["Nearest", "Primary", "PrimaryPreferred", "ReadPreference", "Secondary", "SecondaryPreferred"]
