"""The program: where it is, how it is started, and what it reports."""
from __future__ import annotations

import json
import os
import pathlib
import shutil
import subprocess
import sys
import tempfile
import threading
from typing import IO, Iterator, Optional, Sequence, Tuple, Union

from ._errors import REFUSED, WORDS, Ended, Refused, refusal

NAME = "fallowtime"
# The variable of the environment that names the program, if it is set.
VARIABLE = "FALLOWTIME"
# What the script that builds a program, if there is none, reads from the environment: the process with which that build ends.
PARENT = "FALLOWTIME_PARENT"
# The program that a package with one carries.
CARRIED = pathlib.Path(__file__).resolve().parent / "program" / NAME
# How much of what the program reports is kept, in bytes.
LONGEST_REPORT = 1 << 16

Word = Union[str, bytes]

# Held while a process is made, so that no fork comes between: the new process would keep the ends of the pipes open.
starting = threading.RLock()
if hasattr(os, "register_at_fork"):
    os.register_at_fork(before=starting.acquire, after_in_parent=starting.release, after_in_child=starting.release)


def checkouts() -> Iterator[pathlib.Path]:
    """The checkout in which this package lies, and the one from which pip installed it, of which pip keeps a record
    (PEP 610)."""
    yield pathlib.Path(__file__).resolve().parents[2]
    # These take longer to come in than all of this package, and are wanted where neither the path nor a checkout has
    # the program.
    import importlib.metadata
    import urllib.parse

    try:
        record = importlib.metadata.distribution(NAME).read_text("direct_url.json")
        url = urllib.parse.urlsplit(json.loads(record or "{}").get("url", ""))
    except (importlib.metadata.PackageNotFoundError, ValueError):
        return
    if url.scheme == "file":
        yield pathlib.Path(urllib.parse.unquote(url.path)).parent


def is_program(path: pathlib.Path) -> bool:
    return path.is_file() and os.access(path, os.X_OK)


def find_program() -> str:
    """The program: what FALLOWTIME names, else the one that this package carries, else `fallowtime` on the path, else that
    of the checkout from which this package is."""
    named = os.environ.get(VARIABLE)
    if named:
        return os.path.abspath(named) if os.sep in named else named
    if is_program(CARRIED):
        return str(CARRIED)
    found = shutil.which(NAME)
    if found:
        return os.path.abspath(found)
    for checkout in checkouts():
        if is_program(checkout / NAME):
            return str(checkout / NAME)
    raise Ended(f"there is no program {NAME}: the wheel for manylinux has it, and so has the package for Debian; in a checkout "
                f"./install puts it on the path; or {VARIABLE} names it")


def absolute(path: "os.PathLike[str] | str") -> str:
    """The path of a file, from the root, so that it stays the same file if the folder of the process changes."""
    name = os.fspath(path)
    if not isinstance(name, str):
        raise TypeError(f"the name of a file is a text, and not {type(name).__name__}")
    if not name:
        raise ValueError("the name of a file is empty")
    if name == ":memory:" or name.startswith("file:"):
        raise NotImplementedError(f"{name}: a store is in a file; ./{name} is a file of that name")
    return os.path.abspath(name)


class Report:
    """What a process writes on standard error. It is kept in memory, if the system has files there, as a disk may be
    full."""

    def __init__(self) -> None:
        self.file: IO[bytes]
        if hasattr(os, "memfd_create"):
            self.file = os.fdopen(os.memfd_create("fallowtime-report"), "w+b", buffering=0)
        else:
            self.file = tempfile.TemporaryFile(buffering=0)
        self._shown = 0

    def text(self) -> str:
        """The end of what was written until now."""
        if self.file.closed:
            return ""
        begin = max(0, os.fstat(self.file.fileno()).st_size - LONGEST_REPORT)
        return os.pread(self.file.fileno(), LONGEST_REPORT, begin).decode(errors="replace")

    def show(self) -> None:
        """Writes on standard error what came since the last time."""
        new = os.pread(self.file.fileno(), LONGEST_REPORT, self._shown)
        self._shown += len(new)
        if new and sys.stderr is not None:
            sys.stderr.write(new.decode(errors="replace"))
            sys.stderr.flush()

    def close(self) -> None:
        self.file.close()


def start(program: str, words: Sequence[Word], source: int, report: Report) -> "subprocess.Popen[bytes]":
    """Starts the program with its words, which reads `source` and writes into a pipe. `Ended` if it can't be started.

    It gets a session of its own, so that the signals of a terminal reach it by this process alone. What this process
    ignores it ignores, too: by SIGXFSZ a file that would outgrow `ulimit -f` would else end it.
    """
    environment = {**os.environ, PARENT: str(os.getpid())}
    try:
        with starting:
            return subprocess.Popen([program, *words], stdin=source, stdout=subprocess.PIPE, stderr=report.file,
                                    bufsize=0, env=environment, start_new_session=True, restore_signals=False)
    except OSError as error:
        raise Ended(f"the program {program} can't be started: {error}") from error


def run(program: str, words: Sequence[Word]) -> bytes:
    """Runs the program once, and returns what it wrote. `Refused` if it refuses, `Ended` if it ends otherwise."""
    report = Report()
    try:
        process = start(program, words, subprocess.DEVNULL, report)
        try:
            output, _ = process.communicate()
        except BaseException:
            process.kill()
            process.communicate()
            raise
        text = report.text()
    finally:
        report.close()
    if process.returncode == 0:
        return output
    status = process.returncode
    raise refused_of(text) or Ended(f"the program ended with status {status}", text, status)


def refused_of(text: str) -> Optional[Refused]:
    """The refusal that a report ends with, if it has one."""
    for line in reversed(text.splitlines()):
        if line.startswith(REFUSED):
            kind, _, rest = line[len(REFUSED):].partition(" ")
            document, key = _places(rest)
            return refusal(kind, document, key)
        if line.startswith(WORDS):
            return refusal("Usage", at=line[len(WORDS):])
    return None


def _places(rest: str) -> Tuple[Optional[int], Optional[str]]:
    """The document and the key that are named after a kind."""
    name, _, value = rest.partition(" ")
    if name == "document" and value.isdigit():
        return int(value), None
    return None, value if name == "key" else None
