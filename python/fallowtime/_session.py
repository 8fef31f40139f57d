"""One process of the program over one file: a line goes in, and a line comes back."""
from __future__ import annotations

import json
import os
import select
import subprocess
import threading
import weakref
from typing import Any, List, Optional

from ._errors import Ended, refusal
from ._program import Report, start

# Reads JSON from a place on, and says where that ends.
_scan = json.JSONDecoder().scan_once
# What the program takes of a line, in bytes.
LONGEST = 64 << 20
# How much is written or read at a time, in bytes: what a pipe holds.
PIECE = 1 << 16
# A question that asks for nothing. Its answer says that the file is open.
GREETING = b"[]\n"
# For how many milliseconds the file is waited for before what the program reports meanwhile is shown.
PATIENCE = 500
# For how many seconds a program is waited for that has to end by itself, and one that was asked to end.
GRACE, LAST_GRACE = 60, 5


class Session:
    """A process of the program. All threads may ask it: one question is answered before the next one is sent."""

    # Whether it keeps indexes from one question to the next.
    has_indexes = True

    def __init__(self, program: str, words: List[str]) -> None:
        self.lock = threading.RLock()
        self._report = Report()
        try:
            self._process = start(program, words, subprocess.PIPE, self._report)
        except BaseException:
            self._report.close()
            raise
        assert self._process.stdin is not None and self._process.stdout is not None
        self._input, self._output = self._process.stdin, self._process.stdout
        os.set_blocking(self._input.fileno(), False)
        self._has_room, self._has_answer = select.poll(), select.poll()
        self._has_room.register(self._input, select.POLLOUT)
        self._has_answer.register(self._output, select.POLLIN)
        # What isn't sent yet of the last question, while its answer didn't come; else None. What came of the answer,
        # and how the answer begins, if that is known.
        self._due: Optional[memoryview] = None
        self._pieces: List[bytes] = []
        self._beginning = b""
        # Whether these three say how it is. Between a call of the system and the line behind it they may not.
        self._is_sure = True
        # How often that was so as an exception came.
        self._losses = 0
        self._is_inside = False
        # Why there is no program any more, and whether an exception has said so.
        self._end: Optional[Ended] = None
        self._is_reported = False
        _sessions.add(self)

    def open(self) -> None:
        """Waits until the program has opened the file. `Ended` if it can't. What it reports meanwhile, as that it is
        built first, is shown on standard error."""
        with self.lock:
            try:
                answer = self._answer(GREETING, PATIENCE)
                self._report.show()
            except Ended:
                raise
            except BaseException as error:
                self._stop(f"opening was cut off by {error!r}")
                raise
            if answer.get("error") != "Usage":
                raise self._stop("this isn't the program fallowtime, or one of another time")

    @property
    def is_open(self) -> bool:
        """Whether there is a program."""
        return self._end is None

    def ask(self, command: str, *places: str) -> Any:
        """The answer to a command, whose places are texts of JSON. `Refused` if it is refused, and `Ended` if there is
        no program.

        An exception that comes in between, as of a signal, leaves the answer to be passed over by the next question.
        Whether the command was done is then open.
        """
        line = ("[" + ",".join([f'"{command}"', *places]) + "]").encode()
        if len(line) > LONGEST:
            raise ValueError(f"a request has at most {LONGEST} bytes, and this one has {len(line)}")
        with self.lock:
            answer = self._answer(line + b"\n", None)
        kind = answer.get("error")
        if kind is not None:
            raise refusal(kind, *map(answer.get, ("document", "key", "at", "request")))
        return answer

    def test_changes(self) -> None:
        """Nothing: the store may be changed."""

    def test_open(self) -> None:
        """`Ended` if there is no program any more."""
        if self._end is not None:
            self._is_reported = True
            raise Ended(*self._end.args)

    def close(self) -> None:
        """Ends the program: its input ends, and it is waited for. It may be called again. `Ended` if the program had
        ended by itself and no exception said so."""
        with self.lock:
            self._test_outside()
            if self._end is None:
                # A program whose answer isn't waited for ends in its own way.
                self._is_reported = self._due is not None or not self._is_sure
                self._end = Ended("the store was closed")
                ended = self._finish(GRACE)
                if ended.status and not self._is_reported:
                    self._end = ended
            if self._end.status and not self._is_reported:
                self.test_open()

    def close_quietly(self) -> None:
        """The same without an error, for the end of the store or of the interpreter."""
        if self._end is None and self.lock.acquire(timeout=GRACE):
            try:
                self.close()
            except (Ended, RuntimeError):
                pass
            finally:
                self.lock.release()

    def leave(self) -> None:
        """In a process that was forked: the program is that of the first process, and its pipes are left to that."""
        self.lock = threading.RLock()
        self._is_inside = False
        if self._end is None:
            self._end = Ended("the store was opened by another process, of which this one is a copy")
            self._process.returncode = 0
            self._close_streams()
            self._report.close()

    def _test_outside(self) -> None:
        """RuntimeError in the middle of a request of this thread."""
        if self._is_inside:
            raise RuntimeError("a request inside a request, as by a signal's handler")

    def _answer(self, line: bytes, patience: Optional[int]) -> Any:
        """Sends a line and returns the answer to it."""
        if self._is_inside or self._end is not None:
            self._test_outside()
            self.test_open()
        try:
            self._is_inside = True
            received = self._exchange(line, patience)
        finally:
            self._is_inside = False
        answer, text, end = None, "", 0
        try:
            text = received.decode()
            answer, end = _scan(text, 0)
        except (ValueError, StopIteration):
            pass
        # (behind it is the end of the line)
        if type(answer) is not dict or end != len(text) - 1:
            raise self._stop("the program answered what is no object of JSON")
        return answer

    def _exchange(self, line: bytes, patience: Optional[int]) -> bytes:
        if not self._is_sure:
            self._ask_for_a_beginning()
        if self._due is not None:
            # The answer to a question that was cut off comes first.
            self._send()
            self._receive(None)
        self._due = memoryview(line)
        self._send()
        return self._receive(patience)

    def _ask_for_a_beginning(self) -> None:
        """Ends the line of which nobody knows how much was sent, and asks for nothing, with an id: what comes in front
        of that answer is passed over."""
        self._losses += 1
        beginning = b'{"id":"loss %d"' % self._losses
        self._pieces, self._beginning, self._due = [], beginning, memoryview(b"\n%s,\"do\":[]}\n" % beginning)
        self._is_sure = True

    def _send(self) -> None:
        """Writes what is due of the question."""
        while self._due:
            self._is_sure = False
            try:
                written = os.write(self._input.fileno(), self._due[:PIECE])
            except BlockingIOError:
                written = 0
            except OSError:
                raise self._fail() from None
            self._due = self._due[written:]
            self._is_sure = True
            if self._due:
                self._has_room.poll()

    def _receive(self, patience: Optional[int]) -> bytes:
        """Reads the answer, and shows what is reported meanwhile if it takes longer than `patience`."""
        while True:
            while not self._has_answer.poll(patience):
                self._report.show()
            self._is_sure = False
            piece = os.read(self._output.fileno(), PIECE)
            if not piece:
                raise self._fail()
            self._pieces.append(piece)
            received = self._received() if piece.endswith(b"\n") else None
            if received is not None:
                self._pieces, self._due, self._beginning = [], None, b""
            self._is_sure = True
            if received is not None:
                return received

    def _received(self) -> Optional[bytes]:
        """The answer that came, if its beginning is the one that is known, or none is."""
        received = b"".join(self._pieces)
        if not self._beginning:
            return received
        last = received[received.rfind(b"\n", 0, -1) + 1:]
        return last if last.startswith(self._beginning) else None

    def _fail(self) -> Ended:
        """The error for a program that has closed its pipes, as it has ended or is about to."""
        self._end = Ended("the program has ended")
        self._is_reported = True
        self._end = self._finish(LAST_GRACE)
        return Ended(*self._end.args)

    def _stop(self, reason: str) -> Ended:
        """Ends the program, so that it doesn't have the file any longer, and returns the error for what comes
        behind."""
        self._end = Ended(reason)
        self._is_reported = True
        ended = self._finish(0)
        self._end = Ended(reason, ended.report)
        return Ended(*self._end.args)

    def _finish(self, seconds: float) -> Ended:
        """Closes the pipes, waits so long for the end of the program before it is ended, and returns the error that
        says how it ended."""
        self._close_streams()
        status = self._wait(seconds)
        ended = Ended(f"the program ended with status {status}", self._report.text(), status)
        self._report.close()
        return ended

    def _wait(self, seconds: float) -> int:
        try:
            return self._process.wait(seconds)
        except subprocess.TimeoutExpired:
            # The script that builds a program passes this on to what it started.
            self._process.terminate()
        try:
            return self._process.wait(LAST_GRACE)
        except subprocess.TimeoutExpired:
            self._process.kill()
            return self._process.wait()

    def _close_streams(self) -> None:
        for stream in self._input, self._output:
            try:
                stream.close()
            except OSError:
                pass


_sessions: "weakref.WeakSet[Session]" = weakref.WeakSet()


def _leave_all() -> None:
    for session in list(_sessions):
        session.leave()


if hasattr(os, "register_at_fork"):
    os.register_at_fork(after_in_child=_leave_all)
