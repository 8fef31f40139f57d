"""A store that is only read: each question is a command of the program, in a process of its own that takes no lock."""
from __future__ import annotations

import base64
import contextlib
import json
import re
from typing import Any, Callable, Dict, List, Optional

from ._absent import refuse
from ._errors import Ended, InvalidOperation, Refused
from ._program import run

# What Linux takes of a word, in bytes.
LONGEST_WORD = (128 << 10) - 1
# In a path of --sort and --fields: a comma, which parts them, and what a command line refuses as no plain path.
NOT_PLAIN = re.compile(r'[, ":{}]|^[-+]|(^|\.)(\.|$)')
# The words of a command, behind those of the file and of the command itself.
Words = List[str]


class Reader:
    """Asks the program as a `Session` does, and needs no lock, as every question stands by itself."""

    lock = contextlib.nullcontext()
    has_indexes = False

    def __init__(self, program: str, path: str, waiting: List[str]) -> None:
        self._program, self._path, self._waiting = program, path, waiting
        self._end: Optional[Ended] = None

    @property
    def is_open(self) -> bool:
        """Whether it wasn't closed."""
        return self._end is None

    def open(self) -> None:
        """`Ended` if the file can't be read."""
        try:
            self.ask("collections")
        except Refused as refused:
            self._end = Ended("the store can't be read", f"refused: {refused}")
            raise Ended(*self._end.args) from None

    def ask(self, command: str, *places: str) -> Any:
        """The answer to a command, as a `Session` has it. InvalidOperation if it would change something."""
        if command not in _COMMANDS:
            self.test_changes()
        self.test_open()
        words_of, answer_of = _COMMANDS[command]
        words = [word.encode() for word in [command, *words_of(*places)]]
        if max(map(len, words)) > LONGEST_WORD:
            raise ValueError(f"of a store that is only read a query or an _id has at most {LONGEST_WORD} bytes")
        return answer_of(run(self._program, [self._path, *words, *self._waiting]))

    def test_changes(self) -> None:
        """InvalidOperation: nothing is changed."""
        self.test_open()
        raise InvalidOperation("the store was opened with readonly=True, and nothing is changed by it")

    def test_open(self) -> None:
        """`Ended` if it was closed."""
        if self._end is not None:
            raise Ended(*self._end.args)

    def close(self) -> None:
        """Questions after that are `Ended`."""
        if self._end is None:
            self._end = Ended("the store was closed")

    close_quietly = close


def _named(name: str, *rest: str) -> Words:
    return [json.loads(name), *rest]


def _words_of_get(name: str, own: str) -> Words:
    return [*_named(name, own), "--canonical"]


def _words_of_find(name: str, query: str = "{}", part: str = "{}") -> Words:
    options = json.loads(part)
    paths = {option: options.pop(option, {}) for option in ("sort", "fields")}
    for option, named in paths.items():
        for path in filter(NOT_PLAIN.search, named):
            refuse(f"the path {path!r} in {option} of a store that is only read", "it is a word of a command")
    options["sort"] = ",".join(f"{path}:{way}" for path, way in paths["sort"].items())
    options["fields"] = ",".join(path for path, is_wanted in paths["fields"].items() if is_wanted)
    options["without"] = ",".join(path for path, is_wanted in paths["fields"].items() if not is_wanted)
    words = [word for option, value in options.items() if value != "" for word in (f"--{option}", str(value))]
    return [*_named(name, query), *words, "--canonical"]


def _words_of_distinct(name: str, path: str, query: str) -> Words:
    return [*_named(name, json.loads(path), query), "--canonical"]


def _words_of_aggregate(name: str, pipeline: str) -> Words:
    refuse("a pipeline that is no find and no count, of a store that is only read",
           "the command prints what a stage makes without the kinds of its numbers")


def _documents(output: bytes) -> Dict[str, Any]:
    return {"documents": [json.loads(line) for line in output.split(b"\n") if line]}


def _document(output: bytes) -> Dict[str, Any]:
    return {"document": json.loads(output)}


def _values(output: bytes) -> Dict[str, Any]:
    return {"values": [json.loads(line) for line in output.split(b"\n") if line]}


def _count(output: bytes) -> Dict[str, Any]:
    return {"count": int(output)}


def _bytes(output: bytes) -> Dict[str, Any]:
    return {"bytes": {"$binary": {"base64": base64.b64encode(output).decode(), "subType": "00"}}}


def _names(output: bytes) -> Dict[str, Any]:
    """A name a line. One that begins with a quote is a text of JSON."""
    lines = output.decode().split("\n")[:-1]
    return {"names": [json.loads(line) if line.startswith('"') else line for line in lines]}


# What only reads: the words of each command of the places of its line, and the answer of its output.
_COMMANDS: Dict[str, "tuple[Callable[..., Words], Callable[[bytes], Dict[str, Any]]]"] = {
    "get": (_words_of_get, _document),
    "find": (_words_of_find, _documents),
    "count": (_named, _count),
    "aggregate": (_words_of_aggregate, _documents),
    "distinct": (_words_of_distinct, _values),
    "export": (_named, _bytes),
    "collections": (lambda: [], _names),
}
