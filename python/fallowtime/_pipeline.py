"""Pipelines: those that are one find or one count, and all others, of which the program runs each stage. What they
make may go into a collection."""
from __future__ import annotations

from typing import Any, List, Mapping, Optional

from ._absent import refuse
from ._part import WHOLE, Part
from ._stages import ENCODERS, Stage, encode_stages, test_stage
from ._target import MERGE, OUT, Target, target_of

# In which order the stages of a find or a count come, each once. A match may come again and behind the sort.
ORDER = ["$match", "$sort", "$skip", "$limit", "$project", "$count"]


class Stages:
    """What a pipeline asks for."""

    __slots__ = ("queries", "part", "projection", "count", "text", "target")

    def __init__(self) -> None:
        self.queries: List[Mapping[str, Any]] = []
        self.part: Part = WHOLE
        self.projection: Any = None
        self.count: Optional[str] = None
        # All stages as the program reads them, of a pipeline that is neither a find nor a count.
        self.text: Optional[str] = None
        self.target: Optional[Target] = None

    @property
    def query(self) -> Mapping[str, Any]:
        """All of its queries as one."""
        if len(self.queries) > 1:
            return {"$and": self.queries}
        return self.queries[0] if self.queries else {}

    def add(self, name: str, value: Any) -> None:
        """Adds a stage of a find or a count."""
        if name == "$match":
            self.queries.append(value)
        elif name == "$project":
            self.projection = value
        elif name == "$count":
            self.count = value
        else:
            self.part = self.part.but(**{name[1:]: value})


def pipeline_of(pipeline: Any) -> Stages:
    """What a pipeline asks for. NotImplementedError if it has a stage that isn't had."""
    if not isinstance(pipeline, (list, tuple)):
        raise TypeError(f"a pipeline is a list of stages, and not {type(pipeline).__name__}")
    named, stages = [_named(stage) for stage in pipeline], Stages()
    if named and named[-1][0] in (OUT, MERGE):
        stages.target = target_of(*named.pop())
    for name, value in named:
        if name in (OUT, MERGE):
            refuse(f"a stage behind {name}", "it is the last one")
        test_stage(name, value)
    if not _finds(named):
        stages.text = encode_stages(named)
        return stages
    for name, value in named:
        stages.add(name, value)
    return stages


def _finds(stages: List[Stage]) -> bool:
    """Whether stages are one find or one count."""
    last = "$match"
    for name, _ in stages:
        if name == "$match" and last == "$sort":
            continue
        if name not in ORDER or name == last != "$match" or ORDER.index(name) < ORDER.index(last):
            return False
        last = name
    return True


def _named(stage: Any) -> Stage:
    """The name of a stage and what it takes."""
    if not isinstance(stage, Mapping) or len(stage) != 1:
        raise TypeError(f"a stage is a dict with one key, and not {stage!r}")
    (name, value), = stage.items()
    if name not in ENCODERS and name not in (OUT, MERGE):
        refuse(f"the stage {name} of aggregate", "a pipeline has " + ", ".join([*ENCODERS, OUT, MERGE]))
    return name, value
