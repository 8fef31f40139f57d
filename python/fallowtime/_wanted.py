"""What is returned of a document that is found and changed at once."""
from __future__ import annotations

from typing import Any, NamedTuple

from ._part import Part
from ._projection import Projection, projection_of


class Wanted(NamedTuple):
    """Which document is the first one, which fields of it are wanted, and whether as it is afterwards, or as it was."""

    part: Part
    project: Projection
    is_after: bool

    def text(self) -> str:
        """It as the program reads it; empty if the first one is wanted as it was."""
        return self.part.but(fields=self.project.fields).text('"after":true' if self.is_after else "")


def wanted_of(projection: Any, sort: Any, is_after: Any = False) -> Wanted:
    """What is wanted, as a program for pymongo says it."""
    if not isinstance(is_after, bool):
        raise ValueError(f"return_document is ReturnDocument.BEFORE or AFTER, and not {is_after!r}")
    return Wanted(Part(sort), projection_of(projection), is_after)
