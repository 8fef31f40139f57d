"""Options that programs for pymongo make: how several servers are read and written. They are taken and mean nothing, as
there is one file, except what would return something else (`test_concern`, and an unusual `cursor_type`)."""
from __future__ import annotations

from typing import Any, Dict, Mapping, Optional, Sequence, Union


class _Option:
    """A document of options, which two are equal by."""

    __slots__ = ("document",)

    def __init__(self, document: Mapping[str, Any]) -> None:
        self.document: Dict[str, Any] = {name: value for name, value in document.items() if value is not None}

    def __eq__(self, other: object) -> Any:
        if isinstance(other, _Option) and type(other) is type(self):
            return self.document == other.document
        return NotImplemented

    def __hash__(self) -> int:
        return hash(repr(self))

    def __repr__(self) -> str:
        return f"{type(self).__name__}({', '.join(f'{name}={value!r}' for name, value in self.document.items())})"


class WriteConcern(_Option):
    """How many servers a change has to reach. Here each one is on the disk before it is answered."""

    __slots__ = ()

    def __init__(self, w: Union[int, str, None] = None, wtimeout: Optional[int] = None, j: Optional[bool] = None,
                 fsync: Optional[bool] = None) -> None:
        super().__init__({"w": w, "wtimeout": wtimeout, "j": j, "fsync": fsync})

    @property
    def acknowledged(self) -> bool:
        """True: every change is answered."""
        return True

    @property
    def is_server_default(self) -> bool:
        """Whether nothing is said."""
        return not self.document


class ReadConcern(_Option):
    """Which of several servers' changes are read. Here it is what every request that was answered has left."""

    __slots__ = ()

    def __init__(self, level: Optional[str] = None) -> None:
        super().__init__({"level": level})

    @property
    def level(self) -> Optional[str]:
        """Its level, or None."""
        level: Optional[str] = self.document.get("level")
        return level


class _Preference(_Option):
    """Which of several servers is read."""

    __slots__ = ()
    mode = 0
    mongos_mode = "primary"

    def __init__(self, tag_sets: Optional[Sequence[Any]] = None, max_staleness: int = -1, hedge: Any = None) -> None:
        stalest = None if max_staleness == -1 else max_staleness
        super().__init__({"tag_sets": tag_sets, "max_staleness": stalest, "hedge": hedge})

    @property
    def name(self) -> str:
        """The name of its class."""
        return type(self).__name__


class Primary(_Preference):
    """The server that takes changes."""

    __slots__ = ()


class PrimaryPreferred(_Preference):
    """That one, or another one."""

    __slots__ = ()
    mode, mongos_mode = 1, "primaryPreferred"


class Secondary(_Preference):
    """Another one."""

    __slots__ = ()
    mode, mongos_mode = 2, "secondary"


class SecondaryPreferred(_Preference):
    """Another one, or that one."""

    __slots__ = ()
    mode, mongos_mode = 3, "secondaryPreferred"


class Nearest(_Preference):
    """The one that answers first."""

    __slots__ = ()
    mode, mongos_mode = 4, "nearest"


class ReadPreference:
    """The preferences without options."""

    PRIMARY = Primary()
    PRIMARY_PREFERRED = PrimaryPreferred()
    SECONDARY = Secondary()
    SECONDARY_PREFERRED = SecondaryPreferred()
    NEAREST = Nearest()


class CursorType:
    """How a cursor ends. Here each one ends with its last document, as `NON_TAILABLE` says."""

    NON_TAILABLE = 0
    TAILABLE = 2
    TAILABLE_AWAIT = 34
    EXHAUST = 64
